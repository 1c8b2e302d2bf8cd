//! 1,000 random programs of sends, receives, selects and closes: what each goroutine is told is what a plain model of
//! channels says.
use kuvendyra::{channel, check, go, yield_now};
use kuvendyra::{Ended, Fault, Outcome, Receiver, Runtime, Select, Sender};
use std::collections::VecDeque;
use std::sync::{Arc, Mutex};

#[derive(Clone, Debug)]
enum Op {
    Send(usize, u32),
    Recv(usize),
    Close(usize),
    /// Cases: to send, or to receive where there is no value; and whether there is a default.
    Select(Vec<Case>, bool),
    Yield,
}

#[derive(Clone, Copy, Debug, PartialEq)]
enum What {
    Done,
    Refused,
    Got(Option<u32>),
    Default,
}

/// A case: the channel, and the value that would be sent, if it sends.
type Case = (usize, Option<u32>);

/// The case of a select, else 0, and what is told of it.
type Answer = (usize, What);

#[derive(Clone, Debug)]
enum Entry {
    Asks(usize, Op),
    Told(usize, Answer),
}

struct Random(u64);

impl Random {
    fn below(&mut self, bound: usize) -> usize {
        self.0 = self.0.wrapping_mul(6_364_136_223_846_793_005).wrapping_add(1_442_695_040_888_963_407);
        (self.0 >> 33) as usize % bound
    }
}

struct Program {
    capacities: Vec<u32>,
    bodies: Vec<Vec<Op>>,
}

fn program(seed: u64) -> Program {
    let mut random = Random(seed.wrapping_mul(0x9E37_79B9).wrapping_add(77));
    let capacities: Vec<u32> = (0..1 + random.below(3)).map(|_| random.below(3) as u32).collect();
    let mut value = 0;
    let mut op = |random: &mut Random| {
        value += 1;
        let c = random.below(capacities.len());
        match random.below(12) {
            0..4 => Op::Send(c, value),
            4..8 => Op::Recv(c),
            8 if random.below(3) == 0 => Op::Close(c),
            8 => Op::Yield,
            _ => {
                let cases = (0..1 + random.below(4)).map(|i| {
                    value += 1;
                    (random.below(capacities.len()), (i % 2 == random.below(2)).then_some(value))
                });
                Op::Select(cases.collect(), random.below(2) == 0)
            }
        }
    };
    let bodies = (0..2 + random.below(4)).map(|_| {
        let length = 3 + random.below(8);
        (0..length).map(|_| op(&mut random)).collect()
    });
    let bodies = bodies.collect();
    Program { capacities, bodies }
}

type Ends = Vec<(Sender<u32>, Receiver<u32>)>;

fn done(answer: Result<(), impl Into<Fault>>) -> What {
    answer.map_or(What::Refused, |()| What::Done)
}

async fn asked(op: &Op, ends: &Ends) -> Answer {
    match op {
        Op::Send(c, value) => (0, done(ends[*c].0.send(*value).await)),
        Op::Recv(c) => (0, What::Got(ends[*c].1.recv().await)),
        Op::Close(c) => (0, done(ends[*c].0.close())),
        Op::Yield => {
            yield_now().await;
            (0, What::Done)
        }
        Op::Select(cases, default) => {
            let mut select = Select::new();
            for (i, (c, value)) in cases.iter().enumerate() {
                select = match value {
                    Some(value) => select.send(&ends[*c].0, *value, move |sent| (i, done(sent))),
                    None => select.recv(&ends[*c].1, move |got| (i, What::Got(got))),
                };
            }
            if *default {
                select = select.or_default(|| (0, What::Default));
            }
            select.wait().await
        }
    }
}

/// Runs the program by the seed, and answers what was asked and told, in order.
fn log_of(seed: u64) -> (Vec<Entry>, Ended) {
    let log: Arc<Mutex<Vec<Entry>>> = Arc::default();
    let told = log.clone();
    let Program { capacities, bodies } = program(seed);
    let ended = Runtime::builder().simulated().traced().seed(seed).block_on(async move {
        let ends: Ends = capacities.iter().map(|capacity| channel(*capacity).unwrap()).collect();
        let ends = Arc::new(ends);
        let mut handles = vec![];
        for (g, ops) in bodies.into_iter().enumerate() {
            let (ends, log) = (ends.clone(), told.clone());
            handles.push(go(async move {
                for op in ops {
                    log.lock().unwrap().push(Entry::Asks(g, op.clone()));
                    let answer = asked(&op, &ends).await;
                    log.lock().unwrap().push(Entry::Told(g, answer));
                }
            }));
        }
        for handle in handles {
            handle.await.unwrap();
        }
    });
    let log = std::mem::take(&mut *log.lock().unwrap());
    (log, ended)
}

/// A plain model of channels: what each goroutine waits for, or is to be told.
struct Model {
    channels: Vec<(usize, VecDeque<u32>, bool)>,
    /// Who waits, first come first: the goroutine and its cases.
    waits: Vec<(usize, Vec<Case>)>,
    answers: Vec<Option<Answer>>,
}

impl Model {
    /// The first that waits to send on the channel, or to receive from it, with the case and its value.
    fn waiter(&mut self, c: usize, sends: bool) -> Option<(usize, usize, Option<u32>)> {
        let fits = |case: &Case| case.0 == c && case.1.is_some() == sends;
        let at = self.waits.iter().position(|(_, cases)| cases.iter().any(fits))?;
        let (g, cases) = self.waits.remove(at);
        let case = cases.iter().position(fits)?;
        Some((g, case, cases[case].1))
    }

    /// What a case comes to, if it can proceed.
    fn tries(&mut self, c: usize, value: Option<u32>) -> Option<What> {
        let (room, closed) = (self.channels[c].0, self.channels[c].2);
        match value {
            Some(_) if closed => Some(What::Refused),
            Some(value) => {
                if let Some((g, case, _)) = self.waiter(c, false) {
                    self.answers[g] = Some((case, What::Got(Some(value))));
                } else if self.channels[c].1.len() < room {
                    self.channels[c].1.push_back(value);
                } else {
                    return None;
                }
                Some(What::Done)
            }
            None => {
                if let Some((g, case, Some(value))) = self.waiter(c, true) {
                    self.channels[c].1.push_back(value);
                    self.answers[g] = Some((case, What::Done));
                }
                let value = self.channels[c].1.pop_front();
                (value.is_some() || closed).then_some(What::Got(value))
            }
        }
    }

    /// Whether a case could proceed.
    fn can(&self, c: usize, value: Option<u32>) -> bool {
        let (room, values, closed) = &self.channels[c];
        let waits = |sends| {
            let fits = |case: &Case| case.0 == c && case.1.is_some() == sends;
            self.waits.iter().any(|(_, cases)| cases.iter().any(fits))
        };
        match value {
            Some(_) => *closed || values.len() < *room || waits(false),
            None => *closed || !values.is_empty() || waits(true),
        }
    }

    fn close(&mut self, c: usize) -> What {
        if std::mem::replace(&mut self.channels[c].2, true) {
            return What::Refused;
        }
        while let Some(at) = self.waits.iter().position(|(_, cases)| cases.iter().any(|case| case.0 == c)) {
            let (g, cases) = self.waits.remove(at);
            let case = cases.iter().position(|case| case.0 == c).unwrap();
            let what = if cases[case].1.is_some() { What::Refused } else { What::Got(None) };
            self.answers[g] = Some((case, what));
        }
        What::Done
    }

    /// The goroutine asks; of a select's cases that can proceed the one is taken that it was told, if it was.
    fn asks(&mut self, g: usize, op: &Op, told: Option<Answer>) {
        let one = |c: &usize, value: Option<u32>| (vec![(*c, value)], false);
        let (cases, default) = match op {
            Op::Send(c, value) => one(c, Some(*value)),
            Op::Recv(c) => one(c, None),
            Op::Select(cases, default) => (cases.clone(), *default),
            Op::Close(c) => {
                self.answers[g] = Some((0, self.close(*c)));
                return;
            }
            Op::Yield => {
                self.answers[g] = Some((0, What::Done));
                return;
            }
        };
        let can = |(c, value): &Case| self.can(*c, *value);
        if !cases.iter().any(can) {
            match default {
                true => self.answers[g] = Some((0, What::Default)),
                false => self.waits.push((g, cases)),
            }
            return;
        }
        let (case, _) = told.expect("who needn't wait is told");
        let (c, value) = cases[case];
        self.answers[g] = Some((case, self.tries(c, value).expect("the case that was taken can proceed")));
    }
}

/// Whether the log is what the model says.
fn judge(seed: u64, log: &[Entry], ended: &Ended) {
    let Program { capacities, bodies } = program(seed);
    let channels = capacities.iter().map(|room| (*room as usize, VecDeque::new(), false)).collect();
    let mut model = Model { channels, waits: vec![], answers: vec![None; bodies.len()] };
    for (i, entry) in log.iter().enumerate() {
        match entry {
            Entry::Asks(g, op) => {
                let told = log[i..].iter().find_map(|later| match later {
                    Entry::Told(by, answer) if by == g => Some(*answer),
                    _ => None,
                });
                model.asks(*g, op, told);
            }
            Entry::Told(g, answer) => {
                let expected = model.answers[*g].take();
                // Of several closed channels of one select the model doesn't know which is named.
                let refused = answer.1 == What::Refused && expected.is_some_and(|e| e.1 == What::Refused);
                assert!(refused || expected == Some(*answer), "seed {seed}: {expected:?}, {answer:?}");
            }
        }
    }
    assert!(model.answers.iter().all(Option::is_none), "seed {seed}: somebody was not told");
    assert!(ended.panics.is_empty(), "seed {seed}: {ended}");
    let deadlock = !model.waits.is_empty();
    assert_eq!(ended.outcome == Outcome::Deadlock, deadlock, "seed {seed}: {ended}");
}

#[test]
fn a_thousand_programs_are_told_what_a_model_says() {
    let (mut deadlocks, mut entries) = (0, 0);
    for seed in 0..1000 {
        let (log, ended) = log_of(seed);
        judge(seed, &log, &ended);
        let right = ended.trace.as_ref().map(|trace| check(trace));
        assert!(right == Some(Ok(())) || cfg!(feature = "mock"), "seed {seed}: {right:?}");
        deadlocks += u32::from(ended.outcome == Outcome::Deadlock);
        entries += log.len();
    }
    assert!((50..950).contains(&deadlocks) && entries > 10_000, "{deadlocks} deadlocks, {entries} entries");
}

#[test]
fn the_same_seed_makes_the_same_run() {
    for seed in 0..50 {
        let ((log, ended), (again, ended_again)) = (log_of(seed), log_of(seed));
        assert_eq!(format!("{log:?} {ended:?}"), format!("{again:?} {ended_again:?}"));
    }
}
