/* What fuzz.c and appends.c share: a model of the outputs, which says what docs/FORMATS.md says, character by character,
 * with tables of its own; texts that are made up, and a list of another implementation's outputs; and the parts, which
 * are kinds of texts. NAME is the file's. */
#ifndef FUZZ_H
#define FUZZ_H

#include <stdint.h>
#include <stdio.h>
#include <stdlib.h>
#include <string.h>
#include <time.h>

typedef unsigned char byte;

enum { LONGEST = 20000, MOST_OUTPUT = 6 * LONGEST + 2, MOST_FAULTS = 5 };

/* How many calls were made, and of how many texts. */
static uint64_t calls, texts;

/* Makes all calls with the text, and counts. Each file has its own. */
static void each_call(const byte *text, size_t length);

/* The part, how many of its calls were wrong, when it has to end, by `clock`, and whether it was cut short then. */
static struct {
    const char *name;
    int faults;
    clock_t end;
    int is_cut;
} part;

/* Counts a wrong call, of which something was said. A few are enough. */
static void count_fault(void) {
    if (++part.faults < MOST_FAULTS) return;
    printf("failed %s: %s: it ends here\n", NAME, part.name);
    exit(1);
}

/* Whether the part's time is up, which is looked at once in a few texts. */
static int is_over(void) {
    if (texts % 16 == 0 && clock() >= part.end) part.is_cut = 1;
    return part.is_cut;
}

/* --- the model ----------------------------------------------------------------------------------- */

static const uint32_t NO_CHARACTER = UINT32_MAX;

/* Returns the character at the front of the bytes, by RFC 3629, and sets its size. */
static uint32_t decode(const byte *bytes, size_t length, size_t *size) {
    static const uint32_t LEAST[] = {0, 0x80, 0x800, 0x10000};
    uint32_t first = bytes[0], character;
    size_t more = first < 0x80 ? 0 : first < 0xe0 ? 1 : first < 0xf0 ? 2 : 3, at;
    if ((first >= 0x80 && first < 0xc0) || first > 0xf7 || length <= more) return NO_CHARACTER;
    character = more ? first & (0x3fu >> more) : first;
    for (at = 1; at <= more; at++) {
        if ((bytes[at] & 0xc0) != 0x80) return NO_CHARACTER;
        character = character << 6 | (bytes[at] & 0x3fu);
    }
    if (character < LEAST[more] || character > 0x10ffff || (character >= 0xd800 && character <= 0xdfff)) return NO_CHARACTER;
    *size = more + 1;
    return character;
}

/* Returns what replaces the character, or null if it stands for itself. */
typedef const char *replacement(uint32_t character);

static const char *json_replacement(uint32_t character) {
    static const char *const CONTROLS[0x20] = {
        "\\u0000", "\\u0001", "\\u0002", "\\u0003", "\\u0004", "\\u0005", "\\u0006", "\\u0007",
        "\\b",     "\\t",     "\\n",     "\\u000b", "\\f",     "\\r",     "\\u000e", "\\u000f",
        "\\u0010", "\\u0011", "\\u0012", "\\u0013", "\\u0014", "\\u0015", "\\u0016", "\\u0017",
        "\\u0018", "\\u0019", "\\u001a", "\\u001b", "\\u001c", "\\u001d", "\\u001e", "\\u001f",
    };
    if (character < 0x20) return CONTROLS[character];
    return character == '"' ? "\\\"" : character == '\\' ? "\\\\" : NULL;
}

static const char *html_replacement(uint32_t character) {
    switch (character) {
    case '"': return "&quot;";
    case '&': return "&amp;";
    case '\'': return "&#x27;";
    case '/': return "&#x2f;";
    case '<': return "&lt;";
    case '>': return "&gt;";
    default: return NULL;
    }
}

static const char *script_replacement(uint32_t character) {
    switch (character) {
    case '&': return "\\u0026";
    case '<': return "\\u003c";
    case '>': return "\\u003e";
    case 0x2028: return "\\u2028";
    case 0x2029: return "\\u2029";
    default: return json_replacement(character);
    }
}

struct mode {
    const char *name;
    replacement *replace;
    const char *quote;
};

/* By the mode's number. */
static const struct mode MODES[] = {
    {"json", json_replacement, "\""},
    {"html", html_replacement, ""},
    {"script", script_replacement, "\""},
};
enum { MODE_COUNT = sizeof MODES / sizeof MODES[0] };

/* What is to be written for a text: nothing if it is not UTF-8. */
struct output {
    int is_utf8;
    size_t size;
    byte bytes[MOST_OUTPUT];
};

static void append(struct output *output, const void *bytes, size_t size) {
    memcpy(output->bytes + output->size, bytes, size);
    output->size += size;
}

static void model(const struct mode *mode, const byte *text, size_t length, struct output *output) {
    size_t at, size;
    output->size = 0;
    append(output, mode->quote, strlen(mode->quote));
    for (at = 0; at < length; at += size) {
        uint32_t character = decode(text + at, length - at, &size);
        const char *instead = character == NO_CHARACTER ? NULL : mode->replace(character);
        output->is_utf8 = character != NO_CHARACTER;
        if (!output->is_utf8) return;
        if (instead) append(output, instead, strlen(instead));
        else append(output, text + at, size);
    }
    output->is_utf8 = 1;
    append(output, mode->quote, strlen(mode->quote));
}

/* --- texts ---------------------------------------------------------------------------------------- */

static byte text[LONGEST + 512];
static size_t text_length;

static void add(const char *part, size_t times) {
    size_t size = strlen(part);
    while (times--) {
        memcpy(text + text_length, part, size);
        text_length += size;
    }
}

/* Characters that some mode replaces, and others of each size. */
static const char *const CHARACTERS[] = {"\"", "<", "&", "/", "\x01", "\n", "\\", "\xc3\xa9", "\xe2\x80\xa8", "\xe2\x80\xa6", "\xf0\x9f\x98\x80"};
enum { CHARACTER_COUNT = sizeof CHARACTERS / sizeof CHARACTERS[0] };

/* Separators, their neighbours, and other characters that begin with e2 or hold its bytes. */
static const char *const SEPARATORS[] = {
    "\xe2\x80\xa8", "\xe2\x80\xa9", "\xe2\x80\xa7", "\xe2\x80\xaa", "\xe2\x80\xa6", "\xe2\x81\xa8", "\xe2\x82\xac", "\xe2\xa8\x80",
    "\xe2\x80\xa8\xe2\x80\xa9", "\xe2\x80\xa6\xe2\x80\xa8", "\"\xe2\x80\xa9", "\xe2\x80\xa8<", "\xe1\x80\xa8", "\xe3\x80\xa9", "\xc3\xa2\xc2\x80\xc2\xa8",
};
enum { SEPARATOR_COUNT = sizeof SEPARATORS / sizeof SEPARATORS[0] };

/* Each length, of letters and of each character, with letters to fill it up. */
static void each_length(void) {
    size_t length, c;
    for (length = 0; length <= 400; length++)
        for (c = 0; c < CHARACTER_COUNT; c++) {
            size_t size = strlen(CHARACTERS[c]), times = c ? length / size : 0;
            text_length = 0;
            add(CHARACTERS[c], times);
            add("a", length - times * size);
            each_call(text, length);
        }
}

/* A character at each place among letters, in texts of each length up to three vectors of the widest kernel and of some
 * longer ones. */
static void each_place(void) {
    size_t length, place, c;
    for (length = 1; length <= 330; length += length < 200 ? 1 : 13)
        for (place = 0; place < length; place++)
            for (c = (length + place) % 3; c < CHARACTER_COUNT; c += 3) {
                size_t size = strlen(CHARACTERS[c]);
                if (place + size > length) continue;
                text_length = 0;
                add("a", place);
                add(CHARACTERS[c], 1);
                add("a", length - place - size);
                each_call(text, length);
            }
}

/* Runs of each length beside gaps of each length, from the text's start on and to its end. */
static void runs_and_gaps(void) {
    size_t run, gap, c;
    for (run = 1; run <= 70; run++)
        for (gap = 1; gap <= 70; gap++)
            for (c = 0; c < 9; c += 4) {
                text_length = 0;
                add("a", gap);
                add(CHARACTERS[c], run);
                add("b", gap);
                add(CHARACTERS[c], run);
                each_call(text, text_length);
                add("c", gap);
                each_call(text + gap, text_length - gap);
            }
}

/* A separator, or what is nearly one, near each border, behind `before` and before so many letters. */
static void separator_near(size_t border, const char *separator, const char *before) {
    static const size_t BEHIND[] = {0, 1, 2, 15, 40, 140};
    size_t first, b;
    for (first = border - 5; first <= border + 2; first++)
        for (b = 0; b < sizeof BEHIND / sizeof BEHIND[0]; b++) {
            text_length = 0;
            add(before, first / strlen(before));
            add("a", first - text_length);
            add(separator, 1);
            add("a", BEHIND[b]);
            each_call(text, text_length);
        }
}

static void separators_at_borders(void) {
    static const size_t BORDERS[] = {16, 32, 48, 64, 96, 128, 256};
    size_t b, s;
    for (b = 0; b < sizeof BORDERS / sizeof BORDERS[0]; b++)
        for (s = 0; s < SEPARATOR_COUNT; s++) {
            separator_near(BORDERS[b], SEPARATORS[s], "a");
            separator_near(BORDERS[b], SEPARATORS[s], "<");
            separator_near(BORDERS[b], SEPARATORS[s], "aaaaaaaa\"");
        }
}

/* Letters before, around and behind a character, and the character throughout, in long texts: the exact calls go through
 * them a piece at a time. */
static void long_text(size_t length, const char *character, size_t marked) {
    size_t size = strlen(character), times = marked / size;
    text_length = 0;
    add("a", length - times * size);
    add(character, times);
    each_call(text, text_length);
    add("a", 60);
    each_call(text, text_length);
}

static void long_texts(void) {
    static const size_t NEAR[] = {79, 448, 512, 1024, 8192, 16384};
    size_t n, c, length;
    for (n = 0; n < sizeof NEAR / sizeof NEAR[0]; n++)
        for (length = NEAR[n] - 4; length <= NEAR[n] + 4; length++)
            for (c = length % 3; c < CHARACTER_COUNT; c += 3) {
                long_text(length, CHARACTERS[c], 4);
                long_text(length, CHARACTERS[c], length);
            }
}

/* --- random texts --------------------------------------------------------------------------------- */

static uint64_t state;

static size_t below(size_t limit) {
    state ^= state << 13;
    state ^= state >> 7;
    state ^= state << 17;
    return (size_t)((state >> 11) % limit);
}

static void add_encoded(uint32_t character) {
    byte *out = text + text_length;
    size_t more = character < 0x80 ? 0 : character < 0x800 ? 1 : character < 0x10000 ? 2 : 3, at;
    static const byte FIRST[] = {0, 0xc0, 0xe0, 0xf0};
    for (at = more; at > 0; at--, character >>= 6) out[at] = (byte)(0x80 | (character & 0x3f));
    out[0] = (byte)(FIRST[more] | character);
    text_length += more + 1;
}

/* One character: of those that some mode replaces, of their neighbours, or of any size. */
static void add_random(void) {
    static const char MARKED[] = "\"\\&'/<>";
    uint32_t character;
    switch (below(8)) {
    case 0: case 1: character = (byte)MARKED[below(7)]; break;
    case 2: character = (uint32_t)below(0x20); break;
    case 3: character = (uint32_t)below(0x80); break;
    case 4: character = (uint32_t)(0x80 + below(0x780)); break;
    case 5: character = (uint32_t)(0x2020 + below(16)); break;
    case 6: character = (uint32_t)(0x2000 + below(0x1000)); break;
    default: character = (uint32_t)(0x800 + below(0x10f800)); break;
    }
    add_encoded(character >= 0xd800 && character <= 0xdfff ? 0xfffd : character);
}

/* Gaps of letters and runs of characters, both up to some length that is the text's own. */
static void random_text(size_t length) {
    size_t gaps = below(4) ? 1 + below(90) : 1, runs = below(4) ? 1 + below(3) : 1 + below(70), at;
    text_length = 0;
    while (text_length < length) {
        size_t gap = below(gaps), run = 1 + below(runs);
        for (at = 0; at < gap && text_length < length; at++) text[text_length++] = (byte)('a' + below(26));
        for (at = 0; at < run && text_length < length; at++) add_random();
    }
}

/* Most are short; some have hundreds of bytes and few have thousands. */
static size_t random_length(void) {
    size_t kind = below(2000);
    return kind == 0 ? below(LONGEST - 3) : kind < 20 ? below(3000) : kind < 600 ? below(500) : below(140);
}

static void random_texts(void) {
    while (!is_over()) {
        random_text(random_length());
        /* One byte may be another: mostly that is no text. */
        if (below(16) == 0 && text_length) text[below(text_length)] = (byte)below(256);
        each_call(text, text_length);
    }
}

/* --- another implementation's outputs ------------------------------------------------------------- */

static byte digit(char digit) { return (byte)(digit <= '9' ? digit - '0' : digit - 'a' + 10); }

/* Reads bytes from pairs of hexadecimal digits, up to what is none, and returns how many. */
static size_t from_digits(const char *digits, byte *bytes) {
    size_t at;
    for (at = 0; digits[2 * at] >= '0'; at++) bytes[at] = (byte)(digit(digits[2 * at]) << 4 | digit(digits[2 * at + 1]));
    return at;
}

/* A line has a mode, a text and what the crate escape-simd 0.1.1 made of it. The model has to make the same. */
static void answer(const char *line) {
    static struct output output;
    static byte wanted[MOST_OUTPUT];
    const char *digits = strchr(line, '\t') + 1;
    size_t size = from_digits(strchr(digits, '\t') + 1, wanted);
    text_length = from_digits(digits, text);
    model(&MODES[line[0] == 'h'], text, text_length, &output);
    if (output.size != size || memcmp(output.bytes, wanted, size)) {
        printf("  the model writes another output than %s", line);
        count_fault();
    }
    each_call(text, text_length);
}

/* The list is the file that ANSWERS names. */
static void answers(void) {
    static char line[8192];
    FILE *list = fopen(getenv("ANSWERS"), "r");
    int lines;
    for (lines = 0; list && fgets(line, sizeof line, list); lines++) answer(line);
    if (lines == 0) {
        puts("  the list of answers is empty");
        count_fault();
    }
    if (list) fclose(list);
}

/* --- the parts ------------------------------------------------------------------------------------ */

/* Calls of one kind, for at most so long: whether they were right. */
static int passes(const char *name, void (*body)(void), double seconds) {
    uint64_t before = calls;
    part.name = name;
    part.end = clock() + (clock_t)(seconds * CLOCKS_PER_SEC);
    part.is_cut = part.faults = 0;
    body();
    if (calls == before) {
        puts("  no call was made");
        count_fault();
    }
    printf("%s %s: %s: %llu calls%s\n", part.faults ? "failed" : "passed", NAME, name, (unsigned long long)(calls - before), part.is_cut ? ", until its time was up" : "");
    fflush(stdout);
    return !part.faults;
}

static int answers_pass(double seconds) {
    if (getenv("ANSWERS")) return passes("answers", answers, seconds);
    puts("skipped " NAME ": answers: ANSWERS names no list");
    return 1;
}

/* Random texts for so many seconds, and each other part for at most so many. The first part that fails is the last. */
static int all_pass(double random, double other) {
    return passes("random texts", random_texts, random) && passes("each length", each_length, other)
        && passes("a character at each place", each_place, other) && passes("runs beside gaps", runs_and_gaps, other)
        && passes("separators at borders", separators_at_borders, other) && answers_pass(other)
        && passes("long texts", long_texts, other);
}

/* More seconds than a part takes. */
enum { NO_LIMIT = 3600 };

/* By the program's words, SEED and SECONDS. Without SECONDS, random texts take so many, the other parts run to their end,
 * and there have to be so many calls. Returns the program's status. */
static int run_parts(int words, char **word, double random, uint64_t least) {
    uint64_t seed = words > 1 ? strtoull(word[1], NULL, 0) : 88172645463325252u;
    double most = words > 2 ? strtod(word[2], NULL) : 0;
    int passed;
    state = seed ? seed : 1;
    passed = words > 2 ? all_pass(most / 2, most / 10) : all_pass(random, NO_LIMIT);
    printf("  %llu calls in %.1f seconds, by seed %llu\n", (unsigned long long)calls, (double)clock() / CLOCKS_PER_SEC, (unsigned long long)seed);
    if (words > 2 || !passed || calls >= least) return !passed;
    printf("failed %s: fewer than %llu calls\n", NAME, (unsigned long long)least);
    return 1;
}

#endif
