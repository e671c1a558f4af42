/* Tests that no call leaves the upper halves of vector registers in use, for which some processors let the
 * caller's next instructions wait. Prints `passed NAME`, `failed NAME` or `skipped NAME` for each test. */
#include "escape.h"

#include <cpuid.h>
#include <stdio.h>
#include <stdlib.h>

enum { LONGEST = 200, TEXTS = 12, KERNELS = 6, MODES = 3 };

typedef escape_status call(escape_mode, escape_kernel, const char *, size_t, char *, size_t, size_t *);

/* The calls that take no kernel. */
static escape_status by_length(escape_mode mode, escape_kernel kernel, const char *text, size_t length, char *buffer, size_t room, size_t *count) {
    (void)kernel, (void)buffer, (void)room;
    return escape_length(mode, text, length, count);
}

static escape_status by_exact(escape_mode mode, escape_kernel kernel, const char *text, size_t length, char *buffer, size_t room, size_t *count) {
    (void)kernel;
    return escape_exact(mode, text, length, buffer, room, count);
}

static escape_status by_write(escape_mode mode, escape_kernel kernel, const char *text, size_t length, char *buffer, size_t room, size_t *count) {
    (void)kernel;
    *count = escape_write(mode, text, length, buffer, room);
    return ESCAPE_OK;
}

static const struct {
    const char *name;
    call *escape;
} calls[] = {
    {"text", escape_text},
    {"text_unchecked", escape_text_unchecked},
    {"inner", escape_inner},
    {"inner_unchecked", escape_inner_unchecked},
    {"length", by_length},
    {"exact", by_exact},
    {"write", by_write},
};

enum { CALLS = sizeof calls / sizeof calls[0] };

/* Whether the processor tells which parts of its state are in use: XGETBV of 1. */
static int tells_use(void) {
    unsigned eax, ebx, ecx, edx;
    if (!__get_cpuid(1, &eax, &ebx, &ecx, &edx) || !(ecx & bit_OSXSAVE) || !(ecx & bit_AVX)) {
        return 0;
    }
    return __get_cpuid_count(13, 1, &eax, &ebx, &ecx, &edx) && (eax & 4);
}

/* Whether upper halves are in use: bit 2. */
static int upper_halves_in_use(void) {
    unsigned eax, edx;
    __asm__ volatile("xgetbv" : "=a"(eax), "=d"(edx) : "c"(1));
    return (eax >> 2) & 1;
}

static void clear_upper_halves(void) { __asm__ volatile("vzeroupper" ::: "memory"); }

/* A text of letters, and of every `TEXTS - which` bytes one that each mode escapes; `which` 0: none. */
static void make_text(char *text, size_t length, size_t which) {
    size_t at;
    for (at = 0; at < length; at++) {
        int is_flagged = which != 0 && at % (TEXTS - which) == (size_t)which % (TEXTS - which);
        text[at] = is_flagged ? '"' : 'a';
    }
}

/* How many calls left upper halves in use; says of the first which it was. */
static int calls_that_leave(size_t which_call) {
    static char text[LONGEST], buffer[6 * LONGEST + 35];
    int left = 0;
    size_t length, which, count;
    escape_mode mode;
    escape_kernel kernel;
    for (mode = 0; mode < MODES; mode++) {
        for (kernel = 0; kernel < KERNELS; kernel++) {
            for (length = 0; length < LONGEST; length++) {
                for (which = 0; which < TEXTS; which++) {
                    make_text(text, length, which);
                    clear_upper_halves();
                    if (calls[which_call].escape(mode, kernel, text, length, buffer, sizeof buffer, &count) != ESCAPE_OK) {
                        printf("mode %u, kernel %u, %u bytes: refused\n", (unsigned)mode, (unsigned)kernel, (unsigned)length);
                        return 1;
                    }
                    if (upper_halves_in_use() && left++ == 0) {
                        printf("mode %u, kernel %u, %u bytes: in use\n", (unsigned)mode, (unsigned)kernel, (unsigned)length);
                    }
                }
            }
        }
    }
    clear_upper_halves();
    return left;
}

int main(void) {
    size_t which;
    int failures = 0;
    if (!tells_use()) {
        puts("skipped the registers: this processor doesn't tell whether they are in use");
        return 0;
    }
    for (which = 0; which < CALLS; which++) {
        int left = calls_that_leave(which);
        printf("%s registers_after_%s\n", left ? "failed" : "passed", calls[which].name);
        failures += left != 0;
    }
    return failures != 0;
}
