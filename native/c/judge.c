/* The log of a run is judged by the proved checker, as it is and with one reply changed. It goes to a file, for `gmp explain` and
 * `gmp draw`, if one is named, and is judged as it is read from there, piece by piece. */
#include "gmp.h"

#include <stdio.h>
#include <stdlib.h>
#include <string.h>

/* What main and the other goroutine ask, in order: main receives what the other sends. */
static const gmp_ask asks[2][4] = {
    {{GMP_GO, 0, 1}, {GMP_RECV, 0, 0}, {GMP_RECV, 0, 0}, {GMP_EXIT, 0, 0}},
    {{GMP_SEND, 0, 7}, {GMP_SEND, 0, 8}, {GMP_EXIT, 0, 0}, {GMP_EXIT, 0, 0}},
};

/* Two machines in turn, until the run is over. */
static void run(gmp *h) {
    gmp_ask next[2] = {{GMP_NONE, 0, 0}, {GMP_NONE, 0, 0}};
    unsigned steps[2] = {0, 0};
    for (uint8_t m = 0; gmp_outcome(h) == GMP_RUNS; m ^= 1) {
        gmp_event event;
        gmp_turn(h, m, &next[m], NULL, 0, 0, 1, &event);
        next[m] = (gmp_ask){GMP_NONE, 0, 0};
        if (event.kind == GMP_RESUME) next[m] = asks[event.goroutine][steps[event.goroutine]++];
    }
}

/* The text of the run's trace and its length; NULL, if there is none. */
static char *text_of(gmp *h, uint64_t *length) {
    uint8_t none[1];
    if (gmp_text(h, none, 0, length) != 0) return NULL;
    char *text = malloc(*length + 1);
    if (text == NULL) return NULL;
    if (gmp_text(h, (uint8_t *)text, *length, length) != 0) {
        free(text);
        return NULL;
    }
    text[*length] = '\0';
    return text;
}

/* Says what the checker answered, and whether the trace is right. */
static bool is_right(uint32_t answer, uint64_t line) {
    if (answer == 0) {
        printf("the trace is right\n");
    } else if (answer == GMP_WRONG) {
        printf("line %llu is wrong\n", (unsigned long long)line);
    } else {
        printf("out of memory\n");
    }
    return answer == 0;
}

/* Feeds the file to a checker by a buffer that is less than the trace. */
static bool file_is_right(FILE *file) {
    uint8_t buffer[256];
    size_t n;
    uint64_t line = 0;
    gmp_checker c;
    uint32_t answer = gmp_check_open(&c.at);
    if (answer != 0) return is_right(answer, line);
    while (answer == 0 && (n = fread(buffer, 1, sizeof buffer, file)) > 0) answer = gmp_check_feed(&c, buffer, n);
    if (answer == 0) answer = gmp_check_end(&c, &line);
    gmp_check_close(c);
    return !ferror(file) && is_right(answer, line);
}

static bool text_is_right(const char *text, uint64_t length) {
    uint64_t line = 0;
    uint32_t answer = gmp_check_text((const uint8_t *)text, length, &line);
    return is_right(answer, line);
}

/* Writes the text to the file, and judges what is in it then. */
static bool written_is_right(const char *path, const char *text, uint64_t length) {
    FILE *file = path == NULL ? tmpfile() : fopen(path, "w+b");
    if (file == NULL) return false;
    bool written = fwrite(text, 1, length, file) == length && fseek(file, 0, SEEK_SET) == 0 && file_is_right(file);
    return fclose(file) == 0 && written;
}

int main(int argc, char **argv) {
    const gmp_limits limits = {.procs = 2, .machines = 2, .channels = 1, .room = 1000, .entries = 1000};
    const uint32_t capacities[] = {0};
    gmp h;

    if (gmp_open(&limits, 2, capacities, 1, true, &h.at) != 0) return 1;
    run(&h);
    uint64_t length = 0;
    char *text = text_of(&h, &length);
    gmp_close(h);
    if (text == NULL) return 1;

    bool right = written_is_right(argc > 1 ? argv[1] : NULL, text, length);
    /* The first ticket is called one of a later readiness. */
    char *ticket = strstr(text, "ticket 0.1");
    if (ticket != NULL) ticket[strlen("ticket 0.")] = '2';
    bool passed = right && ticket != NULL && !text_is_right(text, length);
    free(text);
    return passed ? 0 : 1;
}
