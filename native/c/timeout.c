/* A clock of the host's own, which moves on only where no machine has anything to do: so two seconds pass at once. Main waits for a value,
 * but a second at most; then for as long as it takes. */
#include "gmp.h"

#include <stdio.h>

#define SECOND UINT64_C(1000000000)

enum { MACHINES = 2, CHANNEL = 0 };

/* What main and the other goroutine ask, in order. */
static const gmp_ask asks[2][4] = {
    {{GMP_GO, 0, 1}, {GMP_SELECT, 0, SECOND}, {GMP_RECV, CHANNEL, 0}, {GMP_EXIT, 0, 0}},
    {{GMP_SLEEP, 0, 2 * SECOND}, {GMP_SEND, CHANNEL, 7}, {GMP_EXIT, 0, 0}, {GMP_EXIT, 0, 0}},
};

/* The case of main's select. */
static const gmp_case cases[] = {{.sends = false, .channel = CHANNEL}};

/* When main was told that its select was late, and when it got the value. */
struct told {
    uint64_t late, got;
};

static void note(struct told *told, const gmp_event *event, uint64_t now) {
    if (event->woke == GMP_LATE) told->late = now;
    if (event->woke == GMP_GOT && event->value == 7) told->got = now;
}

/* Both machines in turn, until the run is over. */
static struct told run(gmp *h) {
    gmp_ask next[MACHINES] = {{GMP_NONE, 0, 0}, {GMP_NONE, 0, 0}};
    unsigned steps[2] = {0, 0}, idle = 0;
    struct told told = {0, 0};
    uint64_t now = 0;
    for (uint8_t m = 0; gmp_outcome(h) == GMP_RUNS; m = (uint8_t)((m + 1) % MACHINES)) {
        gmp_event event;
        gmp_turn(h, m, &next[m], cases, 1, now, 0, &event);
        next[m] = (gmp_ask){GMP_NONE, 0, 0};
        if (event.kind == GMP_RESUME) {
            note(&told, &event, now);
            next[m] = asks[event.goroutine][steps[event.goroutine]++];
        }
        idle = event.kind == GMP_PARKED || event.kind == GMP_WAIT ? idle + 1 : 0;
        if (idle == MACHINES) {
            now = gmp_deadline(h);
            idle = 0;
        }
    }
    return told;
}

int main(void) {
    const gmp_limits limits = {.procs = 1, .machines = MACHINES, .channels = 1, .room = 1000, .entries = 1000};
    const uint32_t capacities[] = {0};
    gmp h;

    if (gmp_open(&limits, 2, capacities, 1, true, &h.at) != 0) return 1;
    struct told told = run(&h);
    gmp_close(h);
    printf("late at %llu, the value at %llu\n", (unsigned long long)told.late, (unsigned long long)told.got);
    return told.late == SECOND && told.got == 2 * SECOND ? 0 : 1;
}
