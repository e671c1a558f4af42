/* Nanoseconds a call from C on texts of 10 to 40 bytes of ASCII, by each build of libescape.so of which it is given the
 * path, with a slash in it. Prints a line for each kind of text, each call and each mode, with tabs: the three names, and
 * the best round of each build. In a round each build, in the order given, escapes all texts once. */
#include "escape.h"

#include <dlfcn.h>
#include <stdio.h>
#include <stdlib.h>
#include <string.h>
#include <time.h>

enum { TEXTS = 4096, SHORTEST = 10, LONGEST = 40, ROOM = 6 * LONGEST + 35, ROUNDS = 200, BUILDS = 8 };

/* A call of a build, by the type that its name has in escape.h. */
union call {
    void *symbol;
    escape_status (*escape)(escape_mode, escape_kernel, const char *, size_t, char *, size_t, size_t *);
    escape_status (*length)(escape_mode, const char *, size_t, size_t *);
    escape_status (*exact)(escape_mode, const char *, size_t, char *, size_t, size_t *);
    size_t (*write)(escape_mode, const char *, size_t, char *, size_t);
};

static const char *const CALLS[] = {
    "escape_text", "escape_text_unchecked", "escape_inner", "escape_inner_unchecked", "escape_write", "escape_length", "escape_exact"};
enum { CALL_COUNT = sizeof CALLS / sizeof *CALLS };

/* By the mode's number. */
static const char *const MODES[] = {"json", "html", "script"};
enum { MODE_COUNT = sizeof MODES / sizeof *MODES };

/* The texts stand one after another. */
static char bytes[TEXTS * LONGEST];
static size_t lengths[TEXTS];

static uint64_t next(uint64_t *state) {
    *state ^= *state << 13, *state ^= *state >> 7, *state ^= *state << 17;
    return *state;
}

/* Makes words of letters; with a quotation mark in the place of one byte of so many on average, if it is not 0. */
static void fill(size_t every) {
    uint64_t state = 88172645463325252u;
    char *at = bytes;
    size_t n, left;
    for (n = 0; n < TEXTS; n++)
        for (left = lengths[n] = SHORTEST + next(&state) % (LONGEST - SHORTEST + 1); left; left--)
            if (every && next(&state) % every == 0) *at++ = '"';
            else *at++ = next(&state) % 6 ? (char)('a' + next(&state) % 26) : ' ';
}

static double now(void) {
    struct timespec t;
    clock_gettime(CLOCK_MONOTONIC, &t);
    return 1e9 * (double)t.tv_sec + (double)t.tv_nsec;
}

/* Nanoseconds a call, over all texts once. Each kind of call has a loop of its own. */
static double measured(const char *name, union call call, escape_mode mode) {
    static char buffer[ROOM];
    const char *text = bytes;
    size_t n, count = 0;
    escape_status status = ESCAPE_OK;
    double began = now(), took;
    if (strstr(name, "_length"))
        for (n = 0; n < TEXTS; text += lengths[n++]) status |= call.length(mode, text, lengths[n], &count);
    else if (strstr(name, "_exact"))
        for (n = 0; n < TEXTS; text += lengths[n++]) status |= call.exact(mode, text, lengths[n], buffer, ROOM, &count);
    else if (strstr(name, "_write"))
        for (n = 0; n < TEXTS; text += lengths[n++]) count += call.write(mode, text, lengths[n], buffer, ROOM);
    else
        for (n = 0; n < TEXTS; text += lengths[n++]) status |= call.escape(mode, ESCAPE_DEFAULT, text, lengths[n], buffer, ROOM, &count);
    took = (now() - began) / TEXTS;
    if (status != ESCAPE_OK || count == 0) abort();
    return took;
}

static void print_call(const char *kind, const char *name, escape_mode mode, void *const *builds, int count) {
    union call calls[BUILDS];
    double best[BUILDS];
    int b, round;
    for (b = 0; b < count; b++) {
        calls[b].symbol = dlsym(builds[b], name);
        if (!calls[b].symbol) exit((fprintf(stderr, "%s\n", dlerror()), 1));
        best[b] = measured(name, calls[b], mode);
    }
    for (round = 1; round < ROUNDS; round++)
        for (b = 0; b < count; b++) {
            double took = measured(name, calls[b], mode);
            if (took < best[b]) best[b] = took;
        }
    printf("%s\t%s\t%s", kind, name, MODES[mode]);
    for (b = 0; b < count; b++) printf("\t%.3f", best[b]);
    puts("");
}

static void print(const char *kind, void *const *builds, int count) {
    size_t c;
    escape_mode mode;
    for (c = 0; c < CALL_COUNT; c++)
        for (mode = 0; mode < MODE_COUNT; mode++) print_call(kind, CALLS[c], mode, builds, count);
}

int main(int count, char **words) {
    void *builds[BUILDS];
    int b;
    if (--count < 1 || count > BUILDS) return 2;
    for (b = 0; b < count; b++) {
        builds[b] = dlopen(words[b + 1], RTLD_NOW | RTLD_LOCAL);
        if (!builds[b]) return fprintf(stderr, "%s\n", dlerror()), 1;
        if (b && builds[b] == builds[b - 1]) return fprintf(stderr, "%s: the same file twice\n", words[b + 1]), 1;
    }
    fill(0);
    print("clean", builds, count);
    fill(20);
    print("marked", builds, count);
    return 0;
}
