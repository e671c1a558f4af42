/* Tests of the calls from C by the names that tell the mode, and of what fuzz.c does not look at: statuses, null, lengths
 * that no object has, and threads. Prints `passed NAME` or `failed NAME` for each test, and what was wrong. */
#include "escape.h"

#include <pthread.h>
#include <setjmp.h>
#include <signal.h>
#include <stdarg.h>
#include <stdio.h>
#include <stdlib.h>
#include <string.h>
#include <sys/mman.h>
#include <unistd.h>

typedef unsigned char byte;

enum { KERNELS = 6, THREADS = 4 };

typedef escape_status call(escape_kernel, const char *, size_t, char *, size_t, size_t *);
typedef escape_status length_call(const char *, size_t, size_t *);
typedef escape_status exact_call(const char *, size_t, char *, size_t, size_t *);

enum { CHECKED, UNCHECKED, INNER, INNER_UNCHECKED, CALLS };

struct mode {
    const char *name;
    size_t (*bound)(size_t);
    call *calls[CALLS];
    length_call *length;
    exact_call *exact;
    size_t quotes, slack;
};

/* By the mode's number. */
static const struct mode MODES[] = {
    {"json", escape_json_bound, {escape_json, escape_json_unchecked, escape_json_inner, escape_json_inner_unchecked},
     escape_json_length, escape_json_exact, 2, 35},
    {"html", escape_html_bound, {escape_html, escape_html_unchecked, escape_html_inner, escape_html_inner_unchecked},
     escape_html_length, escape_html_exact, 0, 32},
    {"script", escape_script_bound, {escape_script, escape_script_unchecked, escape_script_inner, escape_script_inner_unchecked},
     escape_script_length, escape_script_exact, 2, 35},
};
enum { MODE_COUNT = sizeof MODES / sizeof MODES[0] };

/* --- reporting ----------------------------------------------------------------------------------- */

static int failures;

/* Says what is wrong, for the first few faults of a test. */
static void fault(const char *form, ...) {
    va_list words;
    if (failures++ >= 5) return;
    va_start(words, form);
    fputs("  ", stdout);
    vprintf(form, words);
    putchar('\n');
    va_end(words);
}

static int failed_tests;

static void test(const char *name, void (*body)(void)) {
    failures = 0;
    body();
    printf("%s %s\n", failures ? "failed" : "passed", name);
    fflush(stdout);
    failed_tests += failures != 0;
}

/* --- the outputs --------------------------------------------------------------------------------- */

/* A text, its size, and what is written for it in each mode: RFC 8259, section 7, the six entities of HTML, and the
 * escapes of a script element. */
struct row {
    const char *text;
    size_t length;
    const char *outputs[MODE_COUNT];
};

static const struct row ROWS[] = {
    {"", 0, {"\"\"", "", "\"\""}},
    {"a", 1, {"\"a\"", "a", "\"a\""}},
    {"\"", 1, {"\"\\\"\"", "&quot;", "\"\\\"\""}},
    {"\\", 1, {"\"\\\\\"", "\\", "\"\\\\\""}},
    {"/", 1, {"\"/\"", "&#x2f;", "\"/\""}},
    {"a'b", 3, {"\"a'b\"", "a&#x27;b", "\"a'b\""}},
    {"a&b", 3, {"\"a&b\"", "a&amp;b", "\"a\\u0026b\""}},
    {"<b>", 3, {"\"<b>\"", "&lt;b&gt;", "\"\\u003cb\\u003e\""}},
    {"\b\t\n\f\r", 5, {"\"\\b\\t\\n\\f\\r\"", "\b\t\n\f\r", "\"\\b\\t\\n\\f\\r\""}},
    {"\x01\x1f\x7f", 3, {"\"\\u0001\\u001f\x7f\"", "\x01\x1f\x7f", "\"\\u0001\\u001f\x7f\""}},
    {"\xc3\xa9\xf0\x9f\x98\x80", 6, {"\"\xc3\xa9\xf0\x9f\x98\x80\"", "\xc3\xa9\xf0\x9f\x98\x80", "\"\xc3\xa9\xf0\x9f\x98\x80\""}},
    {"\xe2\x80\xa8\xe2\x80\xa9\xe2\x80\xa7", 9,
     {"\"\xe2\x80\xa8\xe2\x80\xa9\xe2\x80\xa7\"", "\xe2\x80\xa8\xe2\x80\xa9\xe2\x80\xa7", "\"\\u2028\\u2029\xe2\x80\xa7\""}},
};
enum { ROW_COUNT = sizeof ROWS / sizeof ROWS[0], ROOM = 200 };

static int is_written(escape_status status, size_t count, const char *buffer, const char *output, size_t size) {
    return status == ESCAPE_OK && count == size && !memcmp(buffer, output, size);
}

/* Whether all calls of the mode write the output, whose size is given. */
static int is_right(size_t m, const char *text, size_t length, const char *output, size_t size) {
    const struct mode *mode = &MODES[m];
    char buffer[ROOM];
    size_t count = 12345, c;
    escape_kernel kernel;
    escape_status status = mode->length(text, length, &count);
    if (status != ESCAPE_OK || count != size) return 0;
    status = mode->exact(text, length, buffer, size, &count);
    if (!is_written(status, count, buffer, output, size)) return 0;
    if (!is_written(ESCAPE_OK, escape_write((escape_mode)m, text, length, buffer, ROOM), buffer, output, size)) return 0;
    for (kernel = 0; kernel < KERNELS; kernel++)
        for (c = 0; c < CALLS; c++) {
            size_t quotes = c < INNER ? 0 : mode->quotes;
            status = mode->calls[c](kernel, text, length, buffer, ROOM, &count);
            if (!is_written(status, count, buffer, output + quotes / 2, size - quotes)) return 0;
        }
    return 1;
}

static int are_rows_right(void) {
    size_t r, m;
    for (r = 0; r < ROW_COUNT; r++)
        for (m = 0; m < MODE_COUNT; m++) {
            const char *output = ROWS[r].outputs[m];
            if (!is_right(m, ROWS[r].text, ROWS[r].length, output, strlen(output))) return 0;
        }
    return 1;
}

static void test_rows(void) {
    if (!are_rows_right()) fault("an output is another");
}

/* A byte 0 is a character like others, also the last one. */
static void test_zeros(void) {
    static const char *const OUTPUTS[MODE_COUNT] = {"\"a\\u0000\\u0000\"", "a\0\0", "\"a\\u0000\\u0000\""};
    static const size_t SIZES[MODE_COUNT] = {15, 3, 15};
    size_t m;
    for (m = 0; m < MODE_COUNT; m++)
        if (!is_right(m, "a\0\0", 3, OUTPUTS[m], SIZES[m])) fault("%s", MODES[m].name);
}

/* --- bounds and statuses ------------------------------------------------------------------------- */

static void test_version(void) {
    if (escape_version() != ESCAPE_VERSION) fault("%u", (unsigned)escape_version());
}

static void test_bounds(void) {
    size_t m, length;
    for (m = 0; m < MODE_COUNT; m++) {
        const struct mode *mode = &MODES[m];
        size_t largest = (SIZE_MAX - mode->slack) / 6;
        for (length = 0; length < 1000; length++)
            if (mode->bound(length) != 6 * length + mode->slack) fault("%s, %zu", mode->name, length);
        if (mode->bound(largest) != 6 * largest + mode->slack) fault("%s, the largest", mode->name);
        if (mode->bound(largest + 1) != 0) fault("%s, one too many", mode->name);
        if (mode->bound(SIZE_MAX) != 0) fault("%s, SIZE_MAX", mode->name);
    }
    if (escape_bound(MODE_COUNT, 0) != 0 || escape_bound(UINT32_MAX, 10) != 0) fault("no mode");
}

enum { CANARY = 0xa5 };

static byte buffer[10000];

/* Whether a call was refused with this status and count. The buffer has to be as it was before the call; each byte of it
 * is CANARY. */
static void expect_status(const char *mode, const char *what, escape_status status, escape_status wanted, size_t count, size_t wanted_count) {
    size_t at;
    if (status != wanted) fault("%s, %s: status %u", mode, what, (unsigned)status);
    if (count != wanted_count) fault("%s, %s: a count of %zu", mode, what, count);
    for (at = 0; at < sizeof buffer; at++)
        if (buffer[at] != CANARY) { fault("%s, %s: the buffer has changed", mode, what); break; }
}

static void expect_refused(const char *mode, const char *what, escape_status status, escape_status wanted, size_t count) {
    expect_status(mode, what, status, wanted, count, 0);
}

/* Each call by a kernel from `first` on, every `step`th. */
static void refused(const struct mode *mode, const char *what, size_t first, size_t step, escape_kernel kernel, const char *text, size_t length, size_t room, escape_status wanted) {
    size_t c;
    for (c = first; c < CALLS; c += step) {
        size_t count = 12345;
        escape_status status = mode->calls[c](kernel, text, length, (char *)buffer, room, &count);
        expect_refused(mode->name, what, status, wanted, count);
    }
}

static void refused_exact(const struct mode *mode, const char *what, const char *text, size_t length, size_t room, escape_status wanted) {
    size_t count = 12345;
    escape_status status = mode->length(text, length, &count);
    expect_refused(mode->name, what, status, wanted, count);
    count = 12345;
    status = mode->exact(text, length, (char *)buffer, room, &count);
    expect_refused(mode->name, what, status, wanted, count);
}

static void test_statuses(void) {
    /* Of the outputs of "<>". */
    static const size_t SIZES[MODE_COUNT] = {4, 8, 14};
    size_t m;
    escape_kernel kernel;
    memset(buffer, CANARY, sizeof buffer);
    for (m = 0; m < MODE_COUNT; m++) {
        const struct mode *mode = &MODES[m];
        size_t too_large = (SIZE_MAX - mode->slack) / 6 + 1, count = 12345;
        escape_status status;
        for (kernel = 0; kernel < KERNELS; kernel++) {
            refused(mode, "a byte short", 0, 1, kernel, "<>", 2, mode->bound(2) - 1, ESCAPE_TOO_SHORT);
            refused(mode, "no buffer", 0, 1, kernel, "<>", 0, 0, ESCAPE_TOO_SHORT);
            refused(mode, "too large", 0, 1, kernel, "<>", too_large, sizeof buffer, ESCAPE_TOO_LARGE);
            refused(mode, "too short and not UTF-8", CHECKED, INNER, kernel, "\xff", 1, 10, ESCAPE_TOO_SHORT);
        }
        for (kernel = KERNELS; kernel < KERNELS + 3; kernel++) refused(mode, "no kernel", 0, 1, kernel, "a", 1, sizeof buffer, ESCAPE_NO_KERNEL);
        refused(mode, "no kernel, and all else", CHECKED, INNER, UINT32_MAX, "\xff", SIZE_MAX, 0, ESCAPE_NO_KERNEL);
        refused_exact(mode, "not UTF-8 and too short", "\xff", 1, 0, ESCAPE_NOT_UTF8);
        status = mode->exact("<>", 2, (char *)buffer, SIZES[m] - 1, &count);
        expect_status(mode->name, "exact, a byte short", status, ESCAPE_TOO_SHORT, count, SIZES[m]);
    }
}

/* A number that names no mode is refused first, whatever else is wrong. */
static void test_no_mode(void) {
    static const escape_mode NUMBERS[] = {MODE_COUNT, MODE_COUNT + 1, UINT32_MAX};
    char *to = (char *)buffer;
    size_t n, c;
    memset(buffer, CANARY, sizeof buffer);
    for (n = 0; n < sizeof NUMBERS / sizeof NUMBERS[0]; n++) {
        escape_mode mode = NUMBERS[n];
        size_t counts[] = {1, 1, 1, 1, 1, 1};
        const escape_status statuses[] = {
            escape_text(mode, KERNELS, "\xff", SIZE_MAX, to, 0, &counts[0]), escape_inner(mode, KERNELS, "\xff", SIZE_MAX, to, 0, &counts[1]),
            escape_text_unchecked(mode, KERNELS, "a", 1, to, 0, &counts[2]), escape_inner_unchecked(mode, KERNELS, "a", 1, to, 0, &counts[3]),
            escape_length(mode, "\xff", SIZE_MAX, &counts[4]), escape_exact(mode, "\xff", SIZE_MAX, to, 0, &counts[5])};
        for (c = 0; c < sizeof counts / sizeof counts[0]; c++) expect_refused("no mode", "a call", statuses[c], ESCAPE_NO_MODE, counts[c]);
    }
}

/* Bytes that are no text, behind so many letters and before others. */
static void test_not_utf8(void) {
    static const char *const BROKEN[] = {"\xff", "\x80", "\xc0\x80", "\xe2\x80", "\xe2\x82z", "\xed\xa0\x80", "\xf4\x90\x80\x80", "\xf0\x9f\x98"};
    static const size_t BEFORE[] = {0, 1, 7, 8, 15, 16, 31, 32, 63, 64, 78, 79, 127, 128, 511, 512, 1400};
    char text[1500];
    size_t m, b, n, behind;
    escape_kernel kernel;
    memset(buffer, CANARY, sizeof buffer);
    for (b = 0; b < sizeof BROKEN / sizeof BROKEN[0]; b++)
        for (n = 0; n < sizeof BEFORE / sizeof BEFORE[0]; n++)
            for (behind = 0; behind <= 40; behind += 40) {
                size_t length = BEFORE[n] + strlen(BROKEN[b]) + behind;
                memset(text, '<', sizeof text);
                memcpy(text + BEFORE[n], BROKEN[b], strlen(BROKEN[b]));
                for (m = 0; m < MODE_COUNT; m++) {
                    for (kernel = 0; kernel < KERNELS; kernel++) refused(&MODES[m], "not UTF-8", CHECKED, INNER, kernel, text, length, sizeof buffer, ESCAPE_NOT_UTF8);
                    refused_exact(&MODES[m], "not UTF-8", text, length, sizeof buffer, ESCAPE_NOT_UTF8);
                }
            }
}

static void test_status_texts(void) {
    static const char *const TEXTS[] = {"escaped", "the text is not valid UTF-8", "the buffer is too short", "the text is too large", "there is no such kernel", "there is no such mode", "no such status"};
    escape_status status;
    for (status = ESCAPE_OK; status <= ESCAPE_NO_MODE + 1; status++)
        if (strcmp(escape_status_text(status), TEXTS[status])) fault("%u: %s", (unsigned)status, escape_status_text(status));
    if (strcmp(escape_status_text(UINT32_MAX), "no such status")) fault("the greatest number: %s", escape_status_text(UINT32_MAX));
}

/* --- null, and lengths that no object has -------------------------------------------------------- */

/* A null pointer is an empty text, and with a room of 0 a buffer of no bytes: a call with the bound refuses it, and an
 * exact one takes it in HTML. */
static void test_null(void) {
    size_t m, c, count;
    escape_kernel kernel;
    for (m = 0; m < MODE_COUNT; m++) {
        const struct mode *mode = &MODES[m];
        if (!is_right(m, NULL, 0, ROWS[0].outputs[m], mode->quotes)) fault("%s: no text", mode->name);
        for (kernel = 0; kernel < KERNELS; kernel++)
            for (c = 0; c < CALLS; c++) {
                count = 12345;
                if (mode->calls[c](kernel, NULL, 0, NULL, 0, &count) != ESCAPE_TOO_SHORT || count != 0) fault("%s, kernel %u, call %zu, no buffer", mode->name, (unsigned)kernel, c);
            }
        count = 12345;
        if (mode->exact(NULL, 0, NULL, 0, &count) != (mode->quotes ? ESCAPE_TOO_SHORT : ESCAPE_OK) || count != mode->quotes) fault("%s, exact: no buffer", mode->name);
    }
}

static sigjmp_buf before_crash;
static volatile size_t crash_address;

static void on_crash(int number, siginfo_t *info, void *context) {
    (void)number, (void)context;
    crash_address = (size_t)info->si_addr;
    siglongjmp(before_crash, 1);
}

enum { EXACT = CALLS, WRITE, LENGTH, ALL_CALLS };

/* Makes a call. Returns the address at which it crashes, and 0 if it returns. */
static size_t crash_of(size_t m, size_t c, escape_kernel kernel, const char *text, size_t length, char *to) {
    const struct mode *mode = &MODES[m];
    size_t count;
    if (sigsetjmp(before_crash, 1)) return crash_address;
    if (c < CALLS) mode->calls[c](kernel, text, length, to, mode->bound(length), &count);
    else if (c == EXACT) mode->exact(text, length, to, mode->bound(length), &count);
    else if (c == WRITE) escape_write((escape_mode)m, text, length, to, mode->bound(length));
    else mode->length(text, length, &count);
    return 0;
}

/* A null pointer with a length is taken for the address 0x1000. A call that reads or writes there crashes in the 4096
 * bytes from it on, whatever it touches first. */
static void test_null_with_length(void) {
    enum { MOST = 9000 };
    static char text[MOST], to[6 * MOST + 35];
    struct sigaction crash, segv, bus;
    size_t length, m, c, at;
    escape_kernel kernel;
    memset(text, '"', sizeof text);
    memset(&crash, 0, sizeof crash);
    crash.sa_sigaction = on_crash;
    crash.sa_flags = SA_SIGINFO;
    sigaction(SIGSEGV, &crash, &segv);
    sigaction(SIGBUS, &crash, &bus);
    for (length = 1; length <= MOST; length += length < 140 ? 1 : 443)
        for (m = 0; m < MODE_COUNT; m++)
            for (c = 0; c < ALL_CALLS; c++)
                for (kernel = 0; kernel < (c < CALLS ? KERNELS : 1); kernel++) {
                    at = crash_of(m, c, kernel, NULL, length, to);
                    if (at / 0x1000 != 1) fault("%s, call %zu, kernel %u, %zu bytes: the text at %zx", MODES[m].name, c, (unsigned)kernel, length, at);
                    at = c != LENGTH ? crash_of(m, c, kernel, text, length, NULL) : 0x1000;
                    if (at / 0x1000 != 1) fault("%s, call %zu, kernel %u, %zu bytes: the buffer at %zx", MODES[m].name, c, (unsigned)kernel, length, at);
                }
    sigaction(SIGSEGV, &segv, NULL);
    sigaction(SIGBUS, &bus, NULL);
}

/* No object of C has more than PTRDIFF_MAX bytes. A length that exceeds it is refused, in each call and for each kernel,
 * before a byte is read or written: here neither text nor buffer may be. */
static void test_longest(void) {
    static const size_t LENGTHS[] = {(size_t)PTRDIFF_MAX + 1, (size_t)PTRDIFF_MAX + 100, SIZE_MAX - 1, SIZE_MAX};
    char *forbidden = mmap(NULL, (size_t)sysconf(_SC_PAGESIZE), PROT_NONE, MAP_PRIVATE | MAP_ANONYMOUS, -1, 0);
    const char *const texts[] = {forbidden, NULL};
    size_t n, t, m, c, count;
    escape_kernel kernel;
    for (n = 0; n < sizeof LENGTHS / sizeof LENGTHS[0]; n++)
        for (t = 0; t < sizeof texts / sizeof texts[0]; t++)
            for (m = 0; m < MODE_COUNT; m++) {
                const struct mode *mode = &MODES[m];
                for (kernel = 0; kernel < KERNELS; kernel++)
                    for (c = 0; c < CALLS; c++) {
                        count = 12345;
                        if (mode->calls[c](kernel, texts[t], LENGTHS[n], forbidden, 100, &count) != ESCAPE_TOO_LARGE || count != 0) fault("%s, kernel %u, call %zu, %zu bytes", mode->name, (unsigned)kernel, c, LENGTHS[n]);
                    }
                count = 12345;
                if (mode->length(texts[t], LENGTHS[n], &count) != ESCAPE_TOO_LARGE || count != 0) fault("%s, %zu bytes: its length", mode->name, LENGTHS[n]);
                count = 12345;
                if (mode->exact(texts[t], LENGTHS[n], forbidden, 100, &count) != ESCAPE_TOO_LARGE || count != 0) fault("%s, %zu bytes: exact", mode->name, LENGTHS[n]);
                count = 12345;
                if (mode->exact(texts[t], LENGTHS[n], NULL, 0, &count) != ESCAPE_TOO_LARGE || count != 0) fault("%s, %zu bytes: exact, no buffer", mode->name, LENGTHS[n]);
            }
}

/* --- threads ------------------------------------------------------------------------------------- */

static void *run_thread(void *wrong) {
    int n;
    for (n = 0; n < 2000; n++) *(int *)wrong += !are_rows_right();
    return NULL;
}

static void test_threads(void) {
    pthread_t threads[THREADS];
    int wrong[THREADS] = {0}, n;
    for (n = 0; n < THREADS; n++)
        if (pthread_create(&threads[n], NULL, run_thread, &wrong[n])) {
            fault("no thread %d", n);
            exit(1);
        }
    for (n = 0; n < THREADS; n++) {
        pthread_join(threads[n], NULL);
        if (wrong[n]) fault("thread %d: %d times", n, wrong[n]);
    }
}

int main(void) {
    test("version", test_version);
    test("bounds", test_bounds);
    test("worked rows, in each mode, by each call and kernel", test_rows);
    test("bytes 0", test_zeros);
    test("each status, the buffer unchanged, the count 0", test_statuses);
    test("a number of no mode", test_no_mode);
    test("bytes that are not UTF-8", test_not_utf8);
    test("what a status says", test_status_texts);
    test("null is an empty text", test_null);
    test("null with a length crashes from 0x1000 to 0x1fff", test_null_with_length);
    test("lengths that exceed PTRDIFF_MAX", test_longest);
    test("four threads at once", test_threads);
    return failed_tests != 0;
}
