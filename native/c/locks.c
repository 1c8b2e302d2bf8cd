/* A search through seeds for a deadlock. Two goroutines take two locks, each the other's first; a lock is a channel with
 * room for one value. Which machine acts next is drawn from the seed, so a seed makes the same run again. With the name of a file the log of
 * the run is written there, for `gmp explain`. */
#include "gmp.h"

#include <stdio.h>

enum { MACHINES = 3, SEEDS = 1000, GOROUTINES = 3 };

/* Channels: the two locks, and where main hears of the ends. */
enum { LOCK_A, LOCK_B, ENDS };

static uint64_t drawn(uint64_t *state) {
    uint64_t z = *state += 0x9E3779B97F4A7C15u;
    z = (z ^ (z >> 30)) * 0xBF58476D1CE4E5B9u;
    z = (z ^ (z >> 27)) * 0x94D049BB133111EBu;
    return z ^ (z >> 31);
}

/* What the goroutine asks as its step number `step`. */
static gmp_ask asks(uint32_t goroutine, unsigned step) {
    static const gmp_ask main_asks[] = {{GMP_GO, 0, 1}, {GMP_GO, 0, 2}, {GMP_RECV, ENDS, 0}, {GMP_RECV, ENDS, 0}};
    uint32_t first = goroutine == 1 ? LOCK_A : LOCK_B, second = goroutine == 1 ? LOCK_B : LOCK_A;
    const gmp_ask other_asks[] = {
        {GMP_SEND, first, 0}, {GMP_SEND, second, 0}, {GMP_RECV, second, 0}, {GMP_RECV, first, 0}, {GMP_SEND, ENDS, 0},
    };
    if (goroutine == 0) return step < 4 ? main_asks[step] : (gmp_ask){GMP_EXIT, 0, 0};
    return step < 5 ? other_asks[step] : (gmp_ask){GMP_EXIT, 0, 0};
}

/* Goes through the run by the seed; answers its outcome. */
static uint32_t run(gmp *h, uint64_t seed) {
    unsigned steps[GOROUTINES] = {0};
    gmp_ask next[MACHINES] = {{GMP_NONE, 0, 0}, {GMP_NONE, 0, 0}, {GMP_NONE, 0, 0}};

    while (gmp_outcome(h) == GMP_RUNS) {
        gmp_event event;
        uint8_t m = (uint8_t)(drawn(&seed) % MACHINES);
        if (gmp_parked(h) >> m & 1) continue;
        gmp_turn(h, m, &next[m], NULL, 0, 0, drawn(&seed), &event);
        next[m] = (gmp_ask){GMP_NONE, 0, 0};
        if (event.kind == GMP_RESUME) next[m] = asks(event.goroutine, steps[event.goroutine]++);
    }
    return gmp_outcome(h);
}

/* Says what each goroutine does. */
static bool tell(gmp *h) {
    uint8_t words[100];
    uint64_t length = 0;
    for (uint16_t g = 0; gmp_status(h, g) != GMP_NOBODY; g++) {
        if (gmp_status_text(h, g, words, sizeof words, &length) != 0 || length > sizeof words) return false;
        printf("goroutine %u: %.*s\n", g, (int)length, (const char *)words);
    }
    return true;
}

/* Writes the log of the run to the file. */
static bool save(gmp *h, const char *path) {
    static uint8_t text[1u << 16];
    uint64_t length = 0;
    FILE *file = fopen(path, "wb");
    if (file == NULL) return false;
    bool whole = gmp_text(h, text, sizeof text, &length) == 0 && length <= sizeof text;
    bool written = whole && fwrite(text, 1, length, file) == length;
    return fclose(file) == 0 && written;
}

int main(int argc, char **argv) {
    const gmp_limits limits = {.procs = 2, .machines = MACHINES, .channels = 3, .room = 1000, .entries = 1000};
    const uint32_t capacities[] = {1, 1, 2};
    for (uint64_t seed = 0; seed < SEEDS; seed++) {
        gmp h;
        if (gmp_open(&limits, GOROUTINES, capacities, 3, true, &h.at) != 0) return 1;
        bool is_found = run(&h, seed) == GMP_ALL_ASLEEP;
        if (is_found) printf("seed %llu: all goroutines are asleep\n", (unsigned long long)seed);
        bool is_told = is_found && tell(&h) && (argc < 2 || save(&h, argv[1]));
        gmp_close(h);
        if (is_found) return is_told ? 0 : 1;
    }
    printf("no deadlock in %d runs\n", SEEDS);
    return 1;
}
