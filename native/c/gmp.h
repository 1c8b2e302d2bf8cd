/* Kuvendyra for C: the proved goroutine scheduler, by numbers, behind one handle.
 *
 * The library keeps the scheduler's state: goroutines by their numbers, machines, processors, channels, and the history of every call. It
 * knows no bodies, threads, values or clocks. The host keeps those. It calls gmp_turn for a machine, does what the event says, and calls
 * again. A machine is a worker of the host: a thread of its own, or one of several that one thread serves.
 *
 * One call at a time on a handle, be it of a run, a checker or parts. It may go from thread to thread, so a host with several threads keeps
 * it behind a mutex of its own, and runs bodies and blocking calls outside of that.
 *
 * Each pointer is to be valid, and an array to have as many elements as its count says; where the count is 0 the pointer may be any. An
 * enum below lists the values of a uint32_t. C11.
 *
 * A host with one machine goes round so:
 *
 *     gmp_ask ask = {GMP_NONE, 0, 0};
 *     while (gmp_outcome(&h) == GMP_RUNS) {
 *         gmp_event event;
 *         gmp_turn(&h, 0, &ask, NULL, 0, now(), draw(), &event);
 *         ask = (gmp_ask){GMP_NONE, 0, 0};
 *         if (event.kind == GMP_RESUME) ask = body(event.goroutine, &event);
 *         if (event.kind == GMP_WAIT) sleep_until(event.value);
 *     }
 *
 * The examples beside this file: pingpong.c resumes bodies by function pointers, and writes the log of a run in parts; locks.c searches
 * seeds for a deadlock, and says who waits for what; timeout.c has a clock of its own; judge.c checks a log that it reads from a file in
 * chunks. `./gmp lib DIR` at the top of the repository proves and builds the library; libgmp_c.a takes memory by three functions, which are
 * in liblibc_c.a beside it. In DIR/c, in this order:
 *
 *     gcc -std=c11 -I . pingpong.c ../lib/libgmp_c.a ../lib/liblibc_c.a -o pingpong
 *
 * This is not the gmp.h of GNU MP: give the folder by -I, and include only one of the two in a file.
 */
#ifndef GMP_H
#define GMP_H

#include <stdbool.h>
#include <stddef.h>
#include <stdint.h>

#ifdef __cplusplus
extern "C" {
#endif

/* The version of this file's functions: gmp_version() answers the same number. */
#define GMP_VERSION 1u

/* Limits, of which gmp_open refuses any that are greater. */
#define GMP_MAX_PROCS 32u          /* processors */
#define GMP_MAX_MACHINES 64u       /* machines; no fewer than processors */
#define GMP_MAX_GOROUTINES 4096u   /* goroutines; at least one, which is main, number 0 */
#define GMP_MAX_CHANNELS 1024u     /* channels that are there at the opening or are made later */
#define GMP_MAX_CAPACITY 4096u     /* values that one channel has room for */
#define GMP_MIN_ROOM 16u           /* entries that the history holds at a time, at least */
#define GMP_MAX_ROOM 1000000u      /* and at most; no more than all entries of the run, of which there are fewer than 2^63 */
#define GMP_MAX_CASES 8u           /* cases of one select */

/* In place of a channel's number: nil, on which a send or receive waits for good. Another number that no channel has is a fault. */
#define GMP_NIL UINT32_MAX

/* In place of a deadline: there is none. */
#define GMP_NEVER UINT64_MAX

/* The handle: one word. gmp_open makes it, and gmp_close takes it back; no copy of it is used afterwards. */
typedef struct { void *at; } gmp;

/* A text that is checked as it comes, by one word. gmp_check_open makes it, and gmp_check_close takes it back; no copy of it is used
 * afterwards. */
typedef struct { void *at; } gmp_checker;

/* What writes the pieces of a run as parts, by one word. gmp_parts_open makes it, and gmp_parts_close takes it back; no copy of it is used
 * afterwards. */
typedef struct { void *at; } gmp_parts;

/* How large a run may be. */
typedef struct {
    uint8_t procs;       /* processors, which are all active at first */
    uint8_t machines;    /* machines, numbered from 0 */
    uint16_t channels;   /* channels */
    uint32_t room;       /* entries that the history holds at a time */
    uint64_t entries;    /* entries of the whole run, after which it ends */
} gmp_limits;

/* What the goroutine that was resumed asks, or what its blocking call answered. Fields that a kind doesn't name aren't read. */
typedef struct {
    uint32_t kind;
    uint32_t channel;
    uint64_t value;
} gmp_ask;

/* gmp_ask.kind */
enum {
    GMP_NONE = 0,    /* nothing: no body was resumed since the last turn of this machine. Kinds that aren't listed are the same */
    GMP_YIELD = 1,   /* gives the machine up, and waits its turn */
    GMP_GO = 2,      /* starts goroutine `value`, which was not started before */
    GMP_SPAWN = 3,   /* starts whichever goroutine is free: its first event names it */
    GMP_MAKE = 4,    /* makes a channel with room for `value` values */
    GMP_SEND = 5,    /* sends `value` on `channel` */
    GMP_RECV = 6,    /* receives from `channel` */
    GMP_CLOSE = 7,   /* closes `channel` */
    GMP_LEN = 8,     /* how many values `channel` holds */
    GMP_CAP = 9,     /* how many it has room for */
    GMP_SELECT = 10, /* the cases; with a default if `channel` is 1; it waits until the moment `value`, or for good where that is GMP_NEVER */
    GMP_SLEEP = 11,  /* until the moment `value` */
    GMP_PROCS = 12,  /* lets `value` processors be active */
    GMP_PARK = 13,   /* waits until another readies it */
    GMP_READY = 14,  /* readies goroutine `value`, which is parked */
    GMP_BLOCK = 15,  /* makes a blocking call: the event GMP_CALL says when */
    GMP_EXIT = 16,   /* ends the goroutine; main's exit ends the run */
    GMP_ANSWER = 17  /* the blocking call that GMP_CALL named is over, and answered `value` */
};

/* One case of a select: it sends `value` on `channel`, or receives from it. */
typedef struct {
    bool sends;
    uint32_t channel;
    uint64_t value;
} gmp_case;

/* What a machine came to. Fields that a kind doesn't name are 0. */
typedef struct {
    uint32_t kind;
    uint32_t goroutine;
    uint32_t woke;
    bool ok;
    uint64_t value;
} gmp_event;

/* gmp_event.kind */
enum {
    GMP_MORE = 0,   /* it made as many acts as one turn may: call gmp_turn again */
    GMP_PARKED = 1, /* it has nothing to do until another machine wakes it: until its bit of gmp_parked is clear */
    GMP_DONE = 2,   /* the run is over, and the machine gave all back; or there is no machine of this number */
    GMP_RESUME = 3, /* `goroutine` goes on, told `woke`: run its body until it asks, and hand that in with the next turn of this machine */
    GMP_CALL = 4,   /* `goroutine` makes its blocking call: hand its answer in as GMP_ANSWER. Other machines may have turns meanwhile */
    GMP_WAIT = 5,   /* nothing to do before the moment `value`, unless another machine has a turn. A turn before it looks round once more */
    GMP_FULL = 6    /* the history has no room: gmp_hand_out makes some. Call gmp_turn again with the same ask */
};

/* gmp_event.woke, of GMP_RESUME */
enum {
    GMP_FIRST = 1,       /* it begins */
    GMP_OK = 2,          /* what it asked is done */
    GMP_GOT = 3,         /* received `value`; `ok` is false where the channel is closed and empty, and `value` 0 */
    GMP_DEFAULT = 4,     /* the select took its default */
    GMP_LATE = 5,        /* the select's moment came first */
    GMP_NUMBER = 6,      /* `value` is the length, the capacity, the number of processors before, or the blocking call's answer */
    GMP_MADE = 7,        /* `value` is the number of the new channel */
    GMP_FAULT = 8,       /* a run-time panic: `value` is its number, of those below */
    GMP_NO_MEMORY = 9,   /* there was no memory for a channel */
    GMP_CHOSE_SENT = 16, /* 16 + i: case i of the select sent, counted from 0 */
    GMP_CHOSE_GOT = 512  /* 512 + i: case i of the select received `value`, with `ok` as of GMP_GOT */
};

/* gmp_event.value, of GMP_FAULT */
enum {
    GMP_NO_SUCH_BODY = 1,
    GMP_ALREADY_STARTED = 2,
    GMP_NO_SUCH_CHANNEL = 3,
    GMP_SEND_ON_CLOSED = 4,
    GMP_CLOSE_OF_CLOSED = 5,
    GMP_CLOSE_OF_NIL = 6,
    GMP_NOT_PARKED = 7,
    GMP_BAD_CAPACITY = 8,
    GMP_TOO_MANY_CHANNELS = 9,
    GMP_BAD_PROCS = 10
};

/* Why a function refused; 0 is no refusal. */
enum {
    GMP_WRONG = 1,          /* of gmp_check_text and gmp_check_end: the text is no right trace's */
    GMP_OUT_OF_MEMORY = 28,
    GMP_BAD_LIMITS = 29,    /* of gmp_open and gmp_parts_open */
    GMP_NOT_WHOLE = 32,     /* of gmp_text: the history is not kept whole */
    GMP_NO_STEP = 33        /* of gmp_parts_write: the piece doesn't go on where the last part stops */
};

/* gmp_outcome */
enum {
    GMP_RUNS = 0,       /* the run lasts */
    GMP_MAIN_ENDED = 1, /* main exited */
    GMP_ALL_ASLEEP = 2, /* nobody can ever go on */
    GMP_BOOK_FULL = 3   /* there are as many entries as the limits allow */
};

/* gmp_status */
enum {
    GMP_DORMANT = 0, /* not started */
    GMP_IS_READY = 1,
    GMP_RUNNING = 2, /* a machine runs it */
    GMP_CALLING = 3, /* it is in its blocking call */
    GMP_WAITING = 4, /* for a channel, a moment, or another goroutine */
    GMP_DEAD = 5,    /* it ended */
    GMP_NOBODY = 6   /* there is no goroutine of this number */
};

/* Opens a run of so many goroutines, with channels of these n capacities, numbered from 0. Machines that are fair look at each queue from
 * time to time: while one ready goroutine waits in a line, no machine claims more than 32 * (procs + 1) * goroutines others, whichever machines
 * have turns (`served` in docs/PROMISES.md at the top of the repository); that machines have turns, and bodies come back, is the host's part. Answers 0 and writes the
 * handle's word, or answers why not, and writes nothing:
 *     gmp h; uint32_t why = gmp_open(&limits, goroutines, capacities, n, true, &h.at); */
uint32_t gmp_open(const gmp_limits *limits, uint16_t goroutines, const uint32_t *capacities, size_t n, bool fair, void **out);

/* Lets all go, also while the run lasts. What the host has of goroutines is its own. */
void gmp_close(gmp h);

/* GMP_VERSION of the library. */
uint32_t gmp_version(void);

/* Machine m acts until it needs something from outside, and *event says what. The ask is that of the goroutine that the last event of this
 * machine resumed, or its call's answer; else its kind is GMP_NONE. A select's n cases lie beside it; with more than GMP_MAX_CASES it is
 * no ask. An ask that the machine doesn't wait for, or that is none, is passed over: the same GMP_RESUME comes again.
 * `now` is what the clock shows, in nanoseconds; one below an earlier one counts as the earlier one. `word` is any number: selects and steals
 * draw by it. With the same limits, asks, moments and words in the same order the run is the same. */
void gmp_turn(gmp *h, uint8_t m, const gmp_ask *ask, const gmp_case *cases, size_t n, uint64_t now, uint64_t word, gmp_event *event);

/* The set of machines that are parked: bit m is machine m's. A host that sleeps in a machine's thread wakes it when its bit is clear. */
uint64_t gmp_parked(gmp *h);

/* The least moment until which a goroutine waits, asleep or in a select; GMP_NEVER, where none does, or until that moment. */
uint64_t gmp_deadline(gmp *h);

/* How the run ended, if it did. */
uint32_t gmp_outcome(gmp *h);

/* How many entries the history holds since the last hand-out. */
uint64_t gmp_entries(gmp *h);

/* What goroutine g does. */
uint32_t gmp_status(gmp *h, uint16_t g);

/* The same in the words of `gmp explain`, as "waits to receive from channel 2": as many bytes as there is room for, and in *len how many it
 * has; with room 0 only that. No byte 0 ends it. Where there is no goroutine g it has no byte. Answers 0; or GMP_OUT_OF_MEMORY, and then
 * writes nothing. */
uint32_t gmp_status_text(gmp *h, uint16_t g, uint8_t *buffer, size_t room, uint64_t *len);

/* Takes the entries since the last hand-out out of the history, so that it has room again. Answers 0, or GMP_OUT_OF_MEMORY, and then
 * nothing changed; it takes memory the first time alone. They are one piece of the run: what was handed out, in order, and what is left are
 * one history. */
uint32_t gmp_hand_out(gmp *h);

/* How many entries the piece has that was handed out last; 0 before the first. */
uint64_t gmp_piece_len(gmp *h);

/* The text of the run so far as a trace, which gmp_check_text and the commands read, in the manner of gmp_status_text. Answers 0; or
 * GMP_NOT_WHOLE, where limits.room is less than limits.entries or a piece was handed out, or GMP_OUT_OF_MEMORY, and then writes nothing. */
uint32_t gmp_text(gmp *h, uint8_t *buffer, size_t room, uint64_t *len);

/* The text of a run whose history is handed out: each piece as a part, which is a trace by itself. The parts one behind another, or in files
 * of their own, are what `gmp join` reads, and it judges them as one run. Opens a writer of parts, with the limits, goroutines and capacities
 * of the run. Answers as gmp_open, and writes the writer's word:
 *     gmp_parts p; uint32_t why = gmp_parts_open(&limits, goroutines, capacities, n, &p.at); */
uint32_t gmp_parts_open(const gmp_limits *limits, uint16_t goroutines, const uint32_t *capacities, size_t n, void **out);

/* Writes the piece that h handed out last as the next part, in place of the text of the part before: once after each gmp_hand_out that
 * handed out an entry, of which there is one more once the run is over. Answers 0; or GMP_NO_STEP, where the piece has no entry or doesn't go
 * on where the last part stops, or GMP_OUT_OF_MEMORY. Then there is no text, and each later call answers the same. */
uint32_t gmp_parts_write(gmp_parts *p, gmp *h);

/* The text of the part that was written last, in the manner of gmp_status_text; it has no byte before the first. Answers 0. */
uint32_t gmp_parts_text(gmp_parts *p, uint8_t *buffer, size_t room, uint64_t *len);

/* Lets the writer go. */
void gmp_parts_close(gmp_parts p);

/* Whether these n bytes are the text of a right trace, of whichever scheduler: 0, if they are; GMP_WRONG, and in *line the first bad line,
 * counted from 1; or GMP_OUT_OF_MEMORY, which says nothing of the text. It needs no handle. */
uint32_t gmp_check_text(const uint8_t *text, size_t n, uint64_t *line);

/* The same of a text that comes in chunks, cut anywhere. gmp_check_open opens a checker that was fed nothing. It answers 0 and writes its
 * word, or GMP_OUT_OF_MEMORY, and writes nothing:
 *     gmp_checker c; uint32_t why = gmp_check_open(&c.at); */
uint32_t gmp_check_open(void **out);

/* Feeds the checker these n bytes behind those before; it keeps a copy of all. Answers 0, or GMP_OUT_OF_MEMORY, and then nothing changed. */
uint32_t gmp_check_feed(gmp_checker *c, const uint8_t *text, size_t n);

/* What gmp_check_text answers of all that was fed. Nothing changes, so more may be fed. */
uint32_t gmp_check_end(gmp_checker *c, uint64_t *line);

/* Lets the checker go. */
void gmp_check_close(gmp_checker c);

#ifdef __cplusplus
}
#endif

#endif
