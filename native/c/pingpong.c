/* Goroutines as callbacks, in one thread: one sends a number, the other sends it back plus one, over two channels. With the name of a file
 * the log of the run is written there, in parts, for `gmp join`.
 *
 * A body is told an event, and answers with its next ask. */
#include "gmp.h"

#include <stdio.h>

#define ROUNDS 10000u

enum { THERE, BACK };

typedef struct {
    gmp_ask (*resume)(void *self, const gmp_event *event);
    void *self;
} body;

struct pinger {
    uint64_t value;
    bool started;
};

static gmp_ask ask(uint32_t kind, uint32_t channel, uint64_t value) {
    return (gmp_ask){.kind = kind, .channel = channel, .value = value};
}

/* Main: it starts the other, and then sends and receives in turn. */
static gmp_ask ping(void *self, const gmp_event *event) {
    struct pinger *pinger = self;
    switch (event->woke) {
    case GMP_FIRST:
        return ask(GMP_GO, 0, 1);
    case GMP_OK:
        if (pinger->started) return ask(GMP_RECV, BACK, 0);
        pinger->started = true;
        return ask(GMP_SEND, THERE, 0);
    case GMP_GOT:
        pinger->value = event->value;
        return event->value < ROUNDS ? ask(GMP_SEND, THERE, event->value) : ask(GMP_EXIT, 0, 0);
    default:
        return ask(GMP_EXIT, 0, 0);
    }
}

static gmp_ask pong(void *self, const gmp_event *event) {
    (void)self;
    return event->woke == GMP_GOT ? ask(GMP_SEND, BACK, event->value + 1) : ask(GMP_RECV, THERE, 0);
}

/* Where the log of the run goes, and how many entries of it went out. */
struct log {
    gmp_parts parts;
    FILE *file;
    uint64_t entries;
};

/* Hands the history out; if there is a file, it is the next part in it. */
static bool hand_out(gmp *h, struct log *log) {
    static uint8_t text[1u << 20];
    uint64_t length = 0;
    if (gmp_hand_out(h) != 0) return false;
    log->entries += gmp_piece_len(h);
    if (log->file == NULL) return true;
    if (gmp_parts_write(&log->parts, h) != 0 || gmp_parts_text(&log->parts, text, sizeof text, &length) != 0) return false;
    return length <= sizeof text && fwrite(text, 1, length, log->file) == length;
}

/* Machine 0 acts until main has ended. The history is handed out before a turn may fill it, and at the end. */
static bool run(gmp *h, const gmp_limits *limits, const body *bodies, struct log *log) {
    gmp_ask next = ask(GMP_NONE, 0, 0);
    while (gmp_outcome(h) == GMP_RUNS) {
        gmp_event event;
        if (gmp_entries(h) > limits->room / 2 && !hand_out(h, log)) return false;
        gmp_turn(h, 0, &next, NULL, 0, 0, 1, &event);
        next = ask(GMP_NONE, 0, 0);
        if (event.kind == GMP_RESUME) {
            const body *resumed = &bodies[event.goroutine];
            next = resumed->resume(resumed->self, &event);
        } else if (event.kind != GMP_MORE) {
            break;
        }
    }
    return hand_out(h, log);
}

int main(int argc, char **argv) {
    struct pinger pinger = {0, false};
    const body bodies[] = {{ping, &pinger}, {pong, NULL}};
    const gmp_limits limits = {.procs = 1, .machines = 1, .channels = 2, .room = 16384, .entries = 1u << 30};
    const uint32_t capacities[] = {0, 0};
    gmp h;

    if (gmp_version() != GMP_VERSION) {
        fprintf(stderr, "the library is of another version\n");
        return 1;
    }
    struct log log = {.file = argc > 1 ? fopen(argv[1], "wb") : NULL};
    if (argc > 1 && log.file == NULL) return 1;
    uint32_t why = gmp_open(&limits, 2, capacities, 2, true, &h.at);
    if (why == 0) why = gmp_parts_open(&limits, 2, capacities, 2, &log.parts.at);
    if (why != 0) {
        fprintf(stderr, "refused: %u\n", (unsigned)why);
        return 1;
    }
    bool written = run(&h, &limits, bodies, &log);
    uint32_t outcome = gmp_outcome(&h);
    gmp_parts_close(log.parts);
    gmp_close(h);
    if (log.file != NULL) written = fclose(log.file) == 0 && written;
    printf("outcome %u, value %llu, %llu entries\n", (unsigned)outcome, (unsigned long long)pinger.value,
           (unsigned long long)log.entries);
    return written && outcome == GMP_MAIN_ENDED && pinger.value == ROUNDS ? 0 : 1;
}
