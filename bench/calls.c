/* Nanoseconds for a text by the calls from C, best of many rounds, as the rows of a table. */
#include "escape.h"

#include <stdio.h>
#include <stdlib.h>
#include <string.h>
#include <time.h>

enum { ROUNDS = 60, BUSY = 1 << 19 };

typedef escape_status call(escape_kernel, const char *, size_t, char *, size_t, size_t *);

static escape_status copy(escape_kernel kernel, const char *text, size_t length, char *buffer, size_t room, size_t *count) {
    (void)kernel, (void)room;
    memcpy(buffer, text, length);
    __asm__ volatile("" : : "r"(buffer) : "memory");
    *count = length;
    return ESCAPE_OK;
}

static double now(void) {
    struct timespec t;
    clock_gettime(CLOCK_MONOTONIC, &t);
    return 1e9 * (double)t.tv_sec + (double)t.tv_nsec;
}

/* Nanoseconds for one text, of `texts` ones that stand one after another. */
static double measured(call *escape, const char *text, size_t length, size_t texts, char *buffer, size_t room) {
    double best = 1e18;
    size_t count;
    int round;
    for (round = 0; round < ROUNDS; round++) {
        size_t calls = 0, wanted = BUSY / length + 1;
        double began = now(), took;
        while (calls < wanted) {
            if (escape(ESCAPE_DEFAULT, text + calls % texts * length, length, buffer, room, &count)) abort();
            calls++;
        }
        took = (now() - began) / (double)calls;
        if (took < best) best = took;
    }
    return best;
}

/* Words of letters; with a mark every so many bytes, and of characters of two bytes where told. The first
 * mark is at another place in each of several texts. */
static void fill(char *text, size_t length, size_t nth, size_t every, int wide) {
    uint64_t state = 88172645463325252u + nth;
    size_t at = 0, first = every ? 7 * nth % every : 0;
    while (at < length) {
        state ^= state << 13, state ^= state >> 7, state ^= state << 17;
        if (every && (at + first) % every == every - 1) text[at++] = '"';
        else if (state % 6 == 0) text[at++] = ' ';
        else if (wide && at + 2 <= length && (!every || (at + first) % every != every - 2)) text[at++] = (char)0xd0, text[at++] = (char)(0xb0 + state / 7 % 16);
        else text[at++] = (char)('a' + state / 7 % 26);
    }
}

int main(void) {
    static const struct { const char *name; size_t every; int wide; } CORPORA[] = {
        {"clean ASCII", 0, 0}, {"a quotation mark every 60 bytes", 60, 0}, {"Cyrillic letters", 0, 1}};
    static const size_t SIZES[] = {20, 1024, 1 << 20};
    static const struct { call *call; size_t (*bound)(size_t); } CALLS[] = {
        {escape_json, escape_json_bound}, {escape_json_unchecked, escape_json_bound},
        {escape_html, escape_html_bound}, {escape_html_unchecked, escape_html_bound}, {copy, escape_json_bound}};
    static const char *const SHOWN[] = {"20", "1 KiB", "1 MiB"};
    size_t way, c, s, n;
    puts("| text | bytes | JSON | JSON, unchecked | HTML | HTML, unchecked | `memcpy` |");
    puts("|---|--:|--:|--:|--:|--:|--:|");
    for (c = 0; c < 3; c++)
        for (s = 0; s < 3; s++) {
            size_t length = SIZES[s], texts = length < 65536 ? 65536 / length : 1, room = escape_json_bound(length);
            char *text = malloc(texts * length), *buffer = malloc(room);
            if (!text || !buffer) return 1;
            for (n = 0; n < texts; n++) fill(text + n * length, length, n, CORPORA[c].every, CORPORA[c].wide);
            memset(buffer, 0, room);
            printf("| %s | %s |", CORPORA[c].name, SHOWN[s]);
            for (way = 0; way < sizeof CALLS / sizeof *CALLS; way++)
                printf(" %.0f |", measured(CALLS[way].call, text, length, texts, buffer, CALLS[way].bound(length)));
            puts("");
            fflush(stdout);
            free(text), free(buffer);
        }
    return 0;
}
