/* Calls the library with made-up texts and compares all that each call leaves with the model of fuzz.h.
 *
 *     fuzz [SEED [SECONDS]]     at most SECONDS of the processor's time; if not given, 10 for random texts, and what the
 *                               other texts take, some 6
 *
 * Prints `passed NAME` or `failed NAME` for each part, and how many calls it made. */
#include "escape.h"
#define NAME "fuzz"
#include "fuzz.h"

#include <signal.h>
#include <stdarg.h>
#include <sys/mman.h>
#include <unistd.h>

enum { KERNELS = 6 };

/* --- the library --------------------------------------------------------------------------------- */

typedef escape_status kernel_call(escape_mode, escape_kernel, const char *, size_t, char *, size_t, size_t *);

/* How far the bound of each mode exceeds six bytes for each of the text. */
static const size_t SLACK[MODE_COUNT] = {35, 32, 35};

/* How many bytes a vector of each kernel has, by the kernel's number. */
static const size_t LANES[KERNELS] = {32, 16, 16, 16, 32, 64};

/* --- where texts and buffers lie ------------------------------------------------------------------ */

/* Bytes with a page before them and one behind that may not be touched. */
struct block {
    byte *start, *end;
};

static struct block new_block(size_t size) {
    size_t page = (size_t)sysconf(_SC_PAGESIZE), inside = (size + page - 1) / page * page;
    byte *all = mmap(NULL, inside + 2 * page, PROT_NONE, MAP_PRIVATE | MAP_ANONYMOUS, -1, 0);
    struct block block;
    if (all == MAP_FAILED || mprotect(all + page, inside, PROT_READ | PROT_WRITE)) {
        puts("failed: no pages");
        exit(1);
    }
    block.start = all + page;
    block.end = block.start + inside;
    return block;
}

enum { CANARY = 0xa5, BEFORE = 64, PAST = 200 };

static struct block text_block, buffer_block;
static byte canaries[BEFORE + MOST_OUTPUT + 33 + 2 * PAST];

/* Where a text and its buffers lie: at the end of their blocks, at the start, or so many bytes from there. */
struct place {
    int at_end;
    size_t text_shift, buffer_shift;
};

static byte *placed(const struct block *block, size_t size, int at_end, size_t shift) {
    return at_end ? block->end - size - shift : block->start + shift;
}

/* --- one call ------------------------------------------------------------------------------------- */

/* The call that is made, for what is said of a fault. */
static struct {
    escape_mode mode;
    const char *name;
    escape_kernel kernel;
    const byte *text;
    size_t length;
    byte *buffer;
    size_t room;
} call;

/* Says what is wrong with the call, and which it is. */
static void fault(const char *form, ...) {
    va_list words;
    size_t at;
    printf("  %s %s, kernel %u, %zu bytes, a buffer of %zu: ", MODES[call.mode].name, call.name, (unsigned)call.kernel, call.length, call.room);
    va_start(words, form);
    vprintf(form, words);
    va_end(words);
    printf(", of ");
    for (at = 0; at < call.length && at < 400; at++) printf("%02x", call.text[at]);
    puts(at < call.length ? ".." : "");
    count_fault();
}

/* A byte behind the block's end or before its start was touched, or the call failed otherwise. */
static void on_crash(int number) {
    fault("signal %d", number);
    printf("failed %s: %s: it crashed\n", NAME, part.name);
    fflush(stdout);
    _exit(1);
}

/* What a call is to leave: its status and count, the buffer's first bytes, and from `kept` on the bytes as they were. */
struct outcome {
    escape_status status;
    size_t count;
    const byte *bytes;
    size_t size, kept;
};

static int are_canaries(const byte *from, const byte *to) { return !memcmp(from, canaries, (size_t)(to - from)); }

/* Compares what the call left with what it is to leave, and makes the buffer as it was. */
static void compare(escape_status status, size_t count, const struct outcome *wanted) {
    size_t before = (size_t)(call.buffer - buffer_block.start), behind = (size_t)(buffer_block.end - call.buffer) - call.room;
    byte *from = call.buffer - (before < BEFORE ? before : BEFORE), *to = call.buffer + call.room + (behind < PAST ? behind : PAST);
    int known = part.faults;
    calls++;
    if (status != wanted->status) fault("status %u and not %u", (unsigned)status, (unsigned)wanted->status);
    else if (count != wanted->count) fault("a count of %zu and not %zu", count, wanted->count);
    else if (memcmp(call.buffer, wanted->bytes, wanted->size)) fault("another output");
    else if (!are_canaries(from, call.buffer)) fault("a byte before the buffer has changed");
    else if (!are_canaries(call.buffer + wanted->kept, to)) fault("a byte has changed that is to stay");
    if (part.faults == known) memset(call.buffer, CANARY, wanted->kept);
    else memset(from, CANARY, (size_t)(to - from));
}

/* The outcome of a call that leaves the buffer alone. */
static struct outcome unchanged(escape_status status, size_t count) {
    struct outcome outcome = {status, count, canaries, 0, 0};
    return outcome;
}

/* The outcome of a call that writes these bytes, and perhaps up to `lanes` past them, but none from the bound on. */
static struct outcome written(const byte *bytes, size_t size, size_t lanes, size_t bound) {
    struct outcome outcome = {ESCAPE_OK, size, bytes, size, size + lanes < bound ? size + lanes : bound};
    return outcome;
}

static void by_kernel(const char *name, kernel_call *escape, escape_kernel kernel, struct outcome wanted) {
    size_t count = 12345;
    escape_status status;
    call.name = name;
    call.kernel = kernel;
    status = escape(call.mode, kernel, (const char *)call.text, call.length, (char *)call.buffer, call.room, &count);
    compare(status, count, &wanted);
}

static void by_exact(size_t room, const struct place *place, const struct output *output) {
    size_t count = 12345;
    escape_status status;
    struct outcome wanted = written(output->bytes, output->size, 0, output->size);
    if (room < output->size) wanted = unchanged(ESCAPE_TOO_SHORT, output->size);
    if (!output->is_utf8) wanted = unchanged(ESCAPE_NOT_UTF8, 0);
    call.name = "exact";
    call.kernel = 0;
    call.room = room;
    call.buffer = placed(&buffer_block, room, place->at_end, place->buffer_shift);
    status = escape_exact(call.mode, (const char *)call.text, call.length, (char *)call.buffer, room, &count);
    compare(status, count, &wanted);
}

static void by_length(const struct output *output) {
    size_t count = 12345;
    escape_status status;
    struct outcome wanted = unchanged(output->is_utf8 ? ESCAPE_OK : ESCAPE_NOT_UTF8, output->is_utf8 ? output->size : 0);
    call.name = "length";
    call.kernel = 0;
    status = escape_length(call.mode, (const char *)call.text, call.length, &count);
    compare(status, count, &wanted);
}

/* --- all calls with a text ------------------------------------------------------------------------ */

/* By one kernel: the output, and what is between its quotation marks. */
static void each_kernel_call(escape_kernel kernel, size_t bound, const struct output *output) {
    size_t quotes = strlen(MODES[call.mode].quote);
    struct outcome whole = written(output->bytes, output->size, LANES[kernel], bound), inner = whole;
    if (output->is_utf8) inner = written(output->bytes + quotes, output->size - 2 * quotes, LANES[kernel], bound);
    else whole = inner = unchanged(ESCAPE_NOT_UTF8, 0);
    by_kernel("checked", escape_text, kernel, whole);
    by_kernel("inner", escape_inner, kernel, inner);
    if (!output->is_utf8) return;
    by_kernel("unchecked", escape_text_unchecked, kernel, whole);
    by_kernel("inner_unchecked", escape_inner_unchecked, kernel, inner);
}

/* The call without a status, as one of the default kernel that succeeds. */
static escape_status write_default(escape_mode mode, escape_kernel kernel, const char *text, size_t length, char *buffer, size_t room, size_t *count) {
    (void)kernel;
    *count = escape_write(mode, text, length, buffer, room);
    return ESCAPE_OK;
}

static void kernel_calls(const struct place *place, const struct output *output) {
    escape_kernel kernel;
    size_t bound = 6 * call.length + SLACK[call.mode];
    call.room = place->at_end ? bound : bound + PAST;
    call.buffer = placed(&buffer_block, call.room, place->at_end, place->buffer_shift);
    for (kernel = 0; kernel < KERNELS; kernel++) each_kernel_call(kernel, bound, output);
    if (output->is_utf8) by_kernel("write", write_default, ESCAPE_DEFAULT, written(output->bytes, output->size, LANES[ESCAPE_DEFAULT], bound));
    by_kernel("no kernel", escape_text, KERNELS, unchanged(ESCAPE_NO_KERNEL, 0));
    call.room = bound - 1;
    call.buffer = placed(&buffer_block, call.room, place->at_end, place->buffer_shift);
    by_kernel("too short", escape_text, texts % KERNELS, unchanged(ESCAPE_TOO_SHORT, 0));
}

/* Buffers of the output's size, and in turn a byte shorter, a byte longer, much longer and of none. */
static void exact_calls(const struct place *place, const struct output *output) {
    size_t size = output->size;
    by_exact(size, place, output);
    switch (texts % 4) {
    case 0: by_exact(size ? size - 1 : 0, place, output); break;
    case 1: by_exact(size + 1, place, output); break;
    case 2: by_exact(size + PAST, place, output); break;
    case 3: by_exact(0, place, output); break;
    }
}

/* Every call, in every mode and by every kernel, with the text and the buffers at a place. */
static void calls_at(const byte *text, size_t length, const struct place *place, const struct output *outputs) {
    byte *at = placed(&text_block, length, place->at_end, place->text_shift);
    memcpy(at, text, length);
    call.text = at;
    call.length = length;
    for (call.mode = 0; call.mode < MODE_COUNT; call.mode++) {
        kernel_calls(place, &outputs[call.mode]);
        exact_calls(place, &outputs[call.mode]);
        by_length(&outputs[call.mode]);
    }
    if (memcmp(at, text, length)) fault("the text has changed");
}

/* At the end of the blocks, and at their start or near it. */
static void each_call(const byte *text, size_t length) {
    static struct output outputs[MODE_COUNT];
    struct place end = {1, 0, 0}, start = {0, 0, 0};
    size_t m;
    if (is_over()) return;
    texts++;
    if (texts % 2) start.text_shift = texts / 2 % 64, start.buffer_shift = texts / 2 % 61;
    for (m = 0; m < MODE_COUNT; m++) model(&MODES[m], text, length, &outputs[m]);
    calls_at(text, length, &end, outputs);
    calls_at(text, length, &start, outputs);
}

static void set_blocks(void) {
    text_block = new_block(LONGEST + 1024);
    buffer_block = new_block(sizeof canaries + 1024);
    memset(canaries, CANARY, sizeof canaries);
    memset(buffer_block.start, CANARY, (size_t)(buffer_block.end - buffer_block.start));
}

int main(int words, char **word) {
    set_blocks();
    signal(SIGSEGV, on_crash);
    signal(SIGBUS, on_crash);
    signal(SIGILL, on_crash);
    return run_parts(words, word, 10, 5000000);
}
