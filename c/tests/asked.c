/* The library's calls, each as a request that a program in Rattle takes and answers. So tools/bite runs fuzz.c over wrong
 * bodies: without a proof Rattle makes programs, but no libraries. The fuzzer has a stack of its own beside the
 * program's. */
#include "escape.h"

#include <ucontext.h>

/* A call, by its number below, and its arguments. */
struct request {
    uint32_t call, mode, kernel;
    const char *text;
    size_t length;
    char *buffer;
    size_t room;
};

/* The `main` of fuzz.c, under another name. */
int fuzz(int words, char **word);

static ucontext_t fuzzer, program;
static char stack[1 << 16];
static struct request request;
static escape_status status;
static size_t counted;
static int has_ended;

static escape_status ask(struct request wanted, size_t *count) {
    request = wanted;
    swapcontext(&fuzzer, &program);
    *count = counted;
    return status;
}

#define BY_KERNEL(number, name) \
    escape_status name(escape_mode mode, escape_kernel kernel, const char *text, size_t length, char *buffer, size_t room, size_t *count) { \
        return ask((struct request){number, mode, kernel, text, length, buffer, room}, count); \
    }

BY_KERNEL(0, escape_text)
BY_KERNEL(1, escape_text_unchecked)
BY_KERNEL(2, escape_inner)
BY_KERNEL(3, escape_inner_unchecked)

escape_status escape_exact(escape_mode mode, const char *text, size_t length, char *buffer, size_t room, size_t *count) {
    return ask((struct request){4, mode, 0, text, length, buffer, room}, count);
}

escape_status escape_length(escape_mode mode, const char *text, size_t length, size_t *count) {
    return ask((struct request){5, mode, 0, text, length, NULL, 0}, count);
}

size_t escape_write(escape_mode mode, const char *text, size_t length, char *buffer, size_t room) {
    size_t count;
    ask((struct request){6, mode, 0, text, length, buffer, room}, &count);
    return count;
}

static void start(void) {
    char name[] = "fuzz", seed[] = "1", seconds[] = "20", *words[] = {name, seed, seconds, NULL};
    fuzz(3, words);
    has_ended = 1;
}

/* Takes what the last request was answered, and gives the next one: returns 0 if there is none. */
uint32_t next_request(uint32_t answer, size_t count, struct request *next) {
    if (!fuzzer.uc_stack.ss_sp) {
        getcontext(&fuzzer);
        fuzzer.uc_stack.ss_sp = stack;
        fuzzer.uc_stack.ss_size = sizeof stack;
        fuzzer.uc_link = &program;
        makecontext(&fuzzer, start, 0);
    }
    status = answer;
    counted = count;
    swapcontext(&program, &fuzzer);
    *next = request;
    return !has_ended;
}
