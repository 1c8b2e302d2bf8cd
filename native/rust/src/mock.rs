//! A stand-in for the proved core: plain Rust, one queue, no history. It serves to try the crate without the library.
use crate::words::{ask, event, outcome, status, woke};
use crate::words::{Ask, Case, Event, Limits, MAX_CAPACITY, NEVER, NIL, OUT_OF_MEMORY};
use std::collections::VecDeque;

/// An offer of a goroutine that waits: (goroutine, arrival, case, value).
type Offer = (u32, u64, u32, u64);

#[derive(Default)]
struct Channel {
    room: usize,
    values: VecDeque<u64>,
    receivers: VecDeque<Offer>,
    senders: VecDeque<Offer>,
    closed: bool,
}

/// The case of an offer that is no select's.
const PLAIN: u32 = u32::MAX;

#[derive(Clone, Copy, PartialEq)]
enum Does {
    Nothing,
    Ready,
    Runs,
    Calls,
    Waits { until: u64, parked: bool },
}

pub struct Core {
    ready: VecDeque<Event>,
    does: Vec<Does>,
    /// For each goroutine what it asked last.
    asks: Vec<Ask>,
    /// For each goroutine how many waits began before its last one; and how many began.
    began: Vec<u64>,
    arrivals: u64,
    channels: Vec<Channel>,
    limit: usize,
    hands: Vec<Option<Event>>,
    parked: u64,
    entries: u64,
    handed_out: u64,
    piece: u64,
    most: u64,
    over: u32,
}

fn told(goroutine: u32, woke: u32, ok: bool, value: u64) -> Event {
    Event { kind: event::RESUME, goroutine, woke, ok, value }
}

fn received(g: u32, case: u32, ok: bool, value: u64) -> Event {
    let woke = if case == PLAIN { woke::GOT } else { woke::CHOSE_GOT + case };
    told(g, woke, ok, value)
}

fn sent(g: u32, case: u32) -> Event {
    let woke = if case == PLAIN { woke::OK } else { woke::CHOSE_SENT + case };
    told(g, woke, false, 0)
}

impl Core {
    pub fn open(limits: &Limits, goroutines: u16) -> Result<Core, u32> {
        let sound = (1..=4096).contains(&goroutines)
            && (1..=32).contains(&limits.procs)
            && (limits.procs..=64).contains(&limits.machines)
            && limits.channels <= 1024
            && (16..=1_000_000).contains(&limits.room)
            && limits.entries >= limits.room.into();
        if !sound {
            return Err(29);
        }
        let mut does = vec![Does::Nothing; goroutines.into()];
        does[0] = Does::Ready;
        Ok(Core {
            ready: VecDeque::from([told(0, woke::FIRST, false, 0)]),
            does,
            asks: vec![Ask::NONE; goroutines.into()],
            began: vec![u64::MAX; goroutines.into()],
            arrivals: 0,
            channels: vec![],
            limit: limits.channels.into(),
            hands: vec![None; limits.machines.into()],
            parked: 0,
            entries: 0,
            handed_out: 0,
            piece: 0,
            most: limits.entries,
            over: outcome::RUNS,
        })
    }

    fn wake(&mut self, event: Event) {
        let g = event.goroutine as usize;
        self.began[g] = u64::MAX;
        self.does[g] = Does::Ready;
        self.ready.push_back(event);
        self.parked = 0;
    }

    /// The first offer that still stands.
    fn first(&mut self, c: usize, sends: bool) -> Option<Offer> {
        let channel = &mut self.channels[c];
        let offers = if sends { &mut channel.senders } else { &mut channel.receivers };
        while let Some(offer) = offers.pop_front() {
            if self.began[offer.0 as usize] == offer.1 {
                return Some(offer);
            }
        }
        None
    }

    fn send(&mut self, g: u32, c: usize, value: u64, case: u32) -> Option<Event> {
        if self.channels[c].closed {
            return Some(told(g, woke::FAULT, false, 4));
        }
        if let Some((r, _, at, _)) = self.first(c, false) {
            self.wake(received(r, at, true, value));
        } else if self.channels[c].values.len() < self.channels[c].room {
            self.channels[c].values.push_back(value);
        } else {
            return None;
        }
        Some(sent(g, case))
    }

    fn recv(&mut self, g: u32, c: usize, case: u32) -> Option<Event> {
        if let Some((s, _, at, value)) = self.first(c, true) {
            self.channels[c].values.push_back(value);
            self.wake(sent(s, at));
        }
        match self.channels[c].values.pop_front() {
            Some(value) => Some(received(g, case, true, value)),
            None if self.channels[c].closed => Some(received(g, case, false, 0)),
            None => None,
        }
    }

    fn wait(&mut self, g: u32, until: u64, parked: bool) -> Option<Event> {
        self.does[g as usize] = Does::Waits { until, parked };
        self.began[g as usize] = self.arrivals;
        self.arrivals += 1;
        None
    }

    fn offer(&mut self, g: u32, case: &Case, at: u32) {
        if let Some(channel) = self.channels.get_mut(case.channel as usize) {
            let offers = if case.sends { &mut channel.senders } else { &mut channel.receivers };
            offers.push_back((g, self.arrivals, at, case.value));
        }
    }

    fn select(&mut self, g: u32, ask: &Ask, cases: &[Case], word: u64) -> Option<Event> {
        let first = word as usize % cases.len().max(1);
        for i in (first..cases.len()).chain(0..first) {
            let Case { sends, channel, value } = cases[i];
            if channel == NIL {
                continue;
            }
            let c = channel as usize;
            let tried = if sends { self.send(g, c, value, i as u32) } else { self.recv(g, c, i as u32) };
            if tried.is_some() {
                return tried;
            }
        }
        if ask.channel == 1 {
            return Some(told(g, woke::DEFAULT, false, 0));
        }
        for (i, case) in cases.iter().enumerate() {
            self.offer(g, case, i as u32);
        }
        self.wait(g, ask.value, false)
    }

    fn close(&mut self, g: u32, c: usize) -> Event {
        if std::mem::replace(&mut self.channels[c].closed, true) {
            return told(g, woke::FAULT, false, 5);
        }
        let senders = std::mem::take(&mut self.channels[c].senders).into_iter().map(|offer| (offer, true));
        let receivers =
            std::mem::take(&mut self.channels[c].receivers).into_iter().map(|offer| (offer, false));
        let mut offers: Vec<(Offer, bool)> = senders.chain(receivers).collect();
        offers.sort_by_key(|((_, arrival, case, _), _)| (*arrival, *case));
        for ((by, arrival, case, _), sends) in offers {
            if self.began[by as usize] == arrival {
                self.wake(if sends { told(by, woke::FAULT, false, 4) } else { received(by, case, false, 0) });
            }
        }
        told(g, woke::OK, false, 0)
    }

    fn spawn(&mut self, g: u32) -> Event {
        match self.does.iter().position(|d| *d == Does::Nothing) {
            Some(free) => {
                self.wake(told(free as u32, woke::FIRST, false, 0));
                told(g, woke::OK, false, 0)
            }
            None => told(g, woke::FAULT, false, 1),
        }
    }

    fn make(&mut self, g: u32, room: u64) -> Event {
        if room > MAX_CAPACITY.into() {
            return told(g, woke::FAULT, false, 8);
        }
        if self.channels.len() == self.limit {
            return told(g, woke::FAULT, false, 9);
        }
        self.channels.push(Channel { room: room as usize, ..Channel::default() });
        told(g, 7, false, self.channels.len() as u64 - 1)
    }

    fn ready(&mut self, g: u32, other: u64) -> Event {
        match self.does.get(other as usize) {
            Some(Does::Waits { parked: true, .. }) => {
                self.wake(told(other as u32, woke::OK, false, 0));
                told(g, woke::OK, false, 0)
            }
            _ => told(g, woke::FAULT, false, 7),
        }
    }

    /// What the ask is answered, if its goroutine goes on at once.
    fn asked(&mut self, g: u32, ask: &Ask, cases: &[Case], word: u64) -> Option<Event> {
        self.asks[g as usize] = *ask;
        let c = ask.channel as usize;
        let plain = Case { sends: ask.kind == ask::SEND, channel: ask.channel, value: ask.value };
        let done = match ask.kind {
            ask::SPAWN => Some(self.spawn(g)),
            ask::MAKE => Some(self.make(g, ask.value)),
            ask::CLOSE if ask.channel == NIL => Some(told(g, woke::FAULT, false, 6)),
            ask::CLOSE => Some(self.close(g, c)),
            ask::LEN => Some(told(g, 6, false, self.channels.get(c).map_or(0, |c| c.values.len() as u64))),
            ask::READY => Some(self.ready(g, ask.value)),
            ask::SEND if ask.channel != NIL => self.send(g, c, ask.value, PLAIN),
            ask::RECV if ask.channel != NIL => self.recv(g, c, PLAIN),
            ask::SELECT => return self.select(g, ask, cases, word),
            ask::SLEEP => return self.wait(g, ask.value, false),
            ask::PARK => return self.wait(g, NEVER, true),
            ask::YIELD => {
                self.wake(told(g, woke::OK, false, 0));
                return None;
            }
            ask::BLOCK => {
                self.does[g as usize] = Does::Calls;
                return Some(Event { kind: event::CALL, goroutine: g, ..Event::default() });
            }
            ask::EXIT => {
                self.does[g as usize] = Does::Nothing;
                if g == 0 {
                    self.over = outcome::MAIN_ENDED;
                }
                return None;
            }
            _ => None,
        };
        if done.is_none() {
            self.offer(g, &plain, PLAIN);
            return self.wait(g, NEVER, false);
        }
        done
    }

    fn tick(&mut self, now: u64) {
        let mut late: Vec<(u64, usize)> = vec![];
        for (g, does) in self.does.iter().enumerate() {
            if let Does::Waits { until, .. } = *does {
                if until <= now && until != NEVER {
                    late.push((until, g));
                }
            }
        }
        late.sort_unstable();
        for (_, g) in late {
            self.wake(told(g as u32, woke::LATE, false, 0));
        }
    }

    pub fn turn(&mut self, m: u8, ask: &Ask, cases: &[Case], now: u64, word: u64) -> Event {
        self.entries += 1;
        if self.handed_out + self.entries >= self.most && self.over == outcome::RUNS {
            self.over = 3;
        }
        let hand = self.hands[m as usize].take();
        if let Some(last) = hand.filter(|_| self.over == outcome::RUNS) {
            let g = last.goroutine;
            let next = match (last.kind, ask.kind) {
                (event::CALL, ask::ANSWER) => {
                    self.wake(told(g, 6, false, ask.value));
                    None
                }
                (event::CALL, _) | (_, ask::NONE) => Some(last),
                _ => self.asked(g, ask, cases, word),
            };
            if next.is_some() {
                self.hands[m as usize] = next;
                return next.unwrap_or_default();
            }
        }
        self.look(m, now)
    }

    /// The next that the machine has to do.
    fn look(&mut self, m: u8, now: u64) -> Event {
        if self.over == outcome::RUNS {
            self.tick(now);
            if let Some(next) = self.ready.pop_front() {
                self.does[next.goroutine as usize] = Does::Runs;
                self.hands[m as usize] = Some(next);
                return next;
            }
            let waits = self.does.iter().filter_map(|d| match d {
                Does::Waits { until, .. } if *until != NEVER => Some(*until),
                _ => None,
            });
            if let Some(value) = waits.min() {
                return Event { kind: event::WAIT, value, ..Event::default() };
            }
            let works = |d: &Does| matches!(d, Does::Runs | Does::Calls | Does::Ready);
            if self.does.iter().any(works) {
                self.parked |= 1 << m;
                return Event { kind: event::PARKED, ..Event::default() };
            }
            self.over = outcome::ALL_ASLEEP;
        }
        Event { kind: event::DONE, ..Event::default() }
    }

    pub fn parked(&mut self) -> u64 {
        self.parked
    }

    pub fn outcome(&mut self) -> u32 {
        self.over
    }

    pub fn entries(&mut self) -> u64 {
        self.entries
    }

    pub fn status(&mut self, g: u16) -> u32 {
        match self.does[g as usize] {
            Does::Ready => 1,
            Does::Waits { .. } => status::WAITING,
            _ => 2,
        }
    }

    pub fn status_text(&mut self, g: u16) -> Option<String> {
        let Ask { kind, channel, value } = self.asks[g as usize];
        let text = match self.does[g as usize] {
            Does::Nothing => "ended".into(),
            Does::Ready => "ready, its ticket on the shelf".into(),
            Does::Runs => "runs on machine 0".into(),
            Does::Calls => "in a blocking call of machine 0".into(),
            Does::Waits { .. } => match kind {
                ask::SEND | ask::RECV if channel == NIL => "waits on nil".into(),
                ask::SEND => format!("waits to send {value} on channel {channel}"),
                ask::RECV => format!("waits to receive from channel {channel}"),
                ask::SLEEP => format!("sleeps until {value}"),
                ask::SELECT if value != NEVER => format!("waits in a select until {value}"),
                ask::SELECT => "waits in a select".into(),
                _ => "waits for a ready".into(),
            },
        };
        Some(text)
    }

    pub fn hand_out(&mut self) -> bool {
        self.piece = std::mem::take(&mut self.entries);
        self.handed_out += self.piece;
        true
    }

    pub fn piece_len(&mut self) -> u64 {
        self.piece
    }

    pub fn text(&mut self) -> Option<String> {
        None
    }

    pub fn check_text(_: &str) -> (u32, u64) {
        (OUT_OF_MEMORY, 0)
    }
}

/// Parts whose text only says how many entries each has.
pub struct Parts;

impl Parts {
    pub fn open(_: &Limits, _: u16) -> Result<Parts, u32> {
        Ok(Parts)
    }

    pub fn next(&mut self, core: &mut Core) -> Result<String, u32> {
        Ok(format!("{} entries\n", core.piece))
    }
}
