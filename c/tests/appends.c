/* Makes the calls that append, to vectors and strings of every spare capacity, to writers and formatters, and those that
 * return strings, with made-up texts. C can't make them: escape_appends does, and compares what they write with the
 * model of fuzz.h.
 *
 *     appends [SEED [SECONDS]]     as fuzz.c, with 5 for random texts
 *
 * Prints `passed NAME` or `failed NAME` for each part, and how many calls it made. */
#define NAME "appends"
#include "fuzz.h"

/* How many calls each mode has, its run among them. */
static const unsigned CALLS_OF[MODE_COUNT] = {10, 11, 9};

/* Returns 0 if all calls of the mode write the output, else a number that tells which does not. */
uint32_t first_wrong_append(uint32_t mode, const byte *text, size_t length, const byte *output, size_t size, size_t spare);

/* The calls of each mode, where vectors and strings have so much spare capacity. */
static void appends(const byte *text, size_t length, size_t spare) {
    static struct output output;
    uint32_t mode;
    for (mode = 0; mode < MODE_COUNT; mode++) {
        uint32_t wrong;
        model(&MODES[mode], text, length, &output);
        if (!output.is_utf8) return;
        wrong = first_wrong_append(mode, text, length, output.bytes, output.size, spare);
        calls += CALLS_OF[mode];
        if (wrong == 0) continue;
        printf("  %s, call %u of a text of %zu bytes, spare capacity %zu\n", MODES[mode].name, (unsigned)wrong, length, spare);
        count_fault();
    }
}

static void each_call(const byte *text, size_t length) {
    if (is_over()) return;
    texts++;
    appends(text, length, (size_t)texts % (6 * length + 40));
}

/* Each spare capacity up to the bound and past it. */
static void each_spare(void) {
    size_t length, spare, c;
    for (length = 0; length < 70; length++)
        for (spare = 0; spare < 6 * length + 40; spare++) {
            c = (length + spare) % CHARACTER_COUNT;
            text_length = 0;
            add(CHARACTERS[c], length / 2 / strlen(CHARACTERS[c]));
            add("a", length - text_length);
            if (is_over()) return;
            texts++;
            appends(text, length, spare);
        }
}

int main(int words, char **word) {
    if (!passes("each spare capacity", each_spare, 10)) return 1;
    return run_parts(words, word, 5, 0);
}
