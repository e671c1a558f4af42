/* Escaping of text as a JSON string literal, as HTML, and as a JSON string literal that is safe inside a
 * script element. Plain C99; for C++, escape.hpp is the same over strings.
 *
 * A text is given by a pointer and its length in bytes; no byte 0 ends it, and it may hold such bytes.
 * The output goes to the front of a buffer of the caller's, with no byte 0 after it, and its size to
 * `count`. All sizes are in bytes.
 *
 *     size_t room = escape_html_bound(length);
 *     char *buffer = room ? malloc(room) : NULL;
 *     if (buffer && escape_html(ESCAPE_DEFAULT, text, length, buffer, room, &count) == ESCAPE_OK)
 *         fwrite(buffer, 1, count, stdout);
 *     free(buffer);
 *
 * What every call keeps to:
 *
 * - Where the status is not ESCAPE_OK, the buffer is as it was, and `*count` is 0. There is one exception:
 *   at ESCAPE_TOO_SHORT of escape_exact, `*count` is the size that the output needs.
 * - Where it is ESCAPE_OK, the first `*count` bytes of the buffer are the output. No byte from the bound
 *   on has changed, and none that is a vector of the kernel (16, 32 or 64 bytes) or more past the output's
 *   end. The bytes between the output's end and these two limits may have changed; of escape_exact, no byte
 *   past the output's end has.
 * - No memory is taken and no state is kept, so any thread may call at any time.
 *
 * What the caller owes: `text` points to `length` bytes, `buffer` to `room` bytes and `count` to one
 * size_t. The buffer and the count may overlap neither each other nor the text. Where a length is 0 its
 * pointer may be null; with another length a null pointer is taken for the address 0x1000, and a call that
 * reads or writes there crashes, at an address from 0x1000 to 0x1fff. `count` may not be null.
 */
#ifndef ESCAPE_H
#define ESCAPE_H

#include <stddef.h>
#include <stdint.h>

/* The version of this header: 10000 * major + 100 * minor + patch. From version 1 on, calls keep their
 * meaning within a major version; before that they may change. */
#define ESCAPE_VERSION_MAJOR 0
#define ESCAPE_VERSION_MINOR 1
#define ESCAPE_VERSION_PATCH 0
#define ESCAPE_VERSION \
    (10000 * ESCAPE_VERSION_MAJOR + 100 * ESCAPE_VERSION_MINOR + ESCAPE_VERSION_PATCH)

#ifdef __cplusplus
extern "C" {
#endif

/* What is written for a text. */
typedef uint32_t escape_mode;

/* The string literal of the text (RFC 8259, section 7), its two quotation marks included. `"`, `\` and the
 * characters below U+0020 are escaped, each in the shortest way, with lower-case hex digits. */
#define ESCAPE_JSON UINT32_C(0)

/* HTML, for text and for attribute values in quotation marks: `"`, `&`, `'`, `/`, `<` and `>` become
 * `&quot;`, `&amp;`, `&#x27;`, `&#x2f;`, `&lt;` and `&gt;`. */
#define ESCAPE_HTML UINT32_C(1)

/* As JSON, and besides `<`, `>`, `&`, U+2028 and U+2029 are `\u003c`, `\u003e`, `\u0026`, `\u2028` and
 * `\u2029`. So the literal can stand in a script element of an HTML page: neither `</script` nor `<!--` is
 * in it. */
#define ESCAPE_SCRIPT UINT32_C(2)

/* What a call returns. If several apply, it is the first that the call asks for: whether there is the mode
 * and the kernel, whether the bound exceeds SIZE_MAX, whether the buffer has it, and whether the text is
 * UTF-8. escape_length and escape_exact ask for the mode, for a length that exceeds PTRDIFF_MAX, for UTF-8,
 * for the output's size, and last for the buffer. */
typedef uint32_t escape_status;

#define ESCAPE_OK UINT32_C(0)        /* the output is in the buffer; of escape_length, its size in the count */
#define ESCAPE_NOT_UTF8 UINT32_C(1)  /* the text is not valid UTF-8, so there is no output for it */
#define ESCAPE_TOO_SHORT UINT32_C(2) /* the buffer is shorter than the bound; of escape_exact, than the output */
#define ESCAPE_TOO_LARGE UINT32_C(3) /* the length exceeds PTRDIFF_MAX, and no byte was read; or the bound
                                        exceeds SIZE_MAX, of escape_length and escape_exact the output */
#define ESCAPE_NO_KERNEL UINT32_C(4) /* the number names no kernel */
#define ESCAPE_NO_MODE UINT32_C(5)   /* the number names no mode */

/* Returns the status in words, and "no such status" for a number that is none. It is here and not in the
 * library, since a function that Rattle exports cannot return a pointer. */
static inline const char *escape_status_text(escape_status status) {
    switch (status) {
    case ESCAPE_OK: return "escaped";
    case ESCAPE_NOT_UTF8: return "the text is not valid UTF-8";
    case ESCAPE_TOO_SHORT: return "the buffer is too short";
    case ESCAPE_TOO_LARGE: return "the text is too large";
    case ESCAPE_NO_KERNEL: return "there is no such kernel";
    case ESCAPE_NO_MODE: return "there is no such mode";
    default: return "no such status";
    }
}

/* The kernel that escapes the text. All kernels write the same bytes. The library is built for one level of
 * processor, and each kernel runs wherever the library does. Which is fastest depends on that level, the
 * processor and the texts. */
typedef uint32_t escape_kernel;

#define ESCAPE_DEFAULT UINT32_C(0) /* ESCAPE_AVX2 */
#define ESCAPE_V128 UINT32_C(1)    /* vectors of 16 bytes, as two words of 64 bits */
#define ESCAPE_SSE2 UINT32_C(2)    /* vectors of 16 bytes */
#define ESCAPE_NEON UINT32_C(3)    /* the same; HTML by tables of half bytes */
#define ESCAPE_AVX2 UINT32_C(4)    /* vectors of 32 bytes */
#define ESCAPE_AVX512 UINT32_C(5)  /* vectors of 64 bytes */

/* Returns ESCAPE_VERSION of the library that is linked. */
uint32_t escape_version(void);

/* Returns the bound, how many bytes the buffer must have for a text of `length` bytes: 6 * length + 35, in
 * HTML 6 * length + 32. Returns 0 where that exceeds SIZE_MAX, and for a number of no mode. The output itself
 * has from length to 6 * length bytes, and in JSON and script two more. */
size_t escape_bound(escape_mode mode, size_t length);

/* Writes the output for the `length` bytes at `text` to the front of the `room` bytes at `buffer`, and its
 * size to `*count`. */
escape_status escape_text(escape_mode mode, escape_kernel kernel, const char *text, size_t length,
                          char *buffer, size_t room, size_t *count);

/* As escape_text, for a text that the caller knows to be UTF-8: ESCAPE_NOT_UTF8 is never returned. With other
 * bytes nothing is promised, not even that all reads and writes stay inside the buffers. The check is about
 * a third of a call on 1 KiB of ASCII, and nearly all of one on 1 KiB of Cyrillic. */
escape_status escape_text_unchecked(escape_mode mode, escape_kernel kernel, const char *text, size_t length,
                                    char *buffer, size_t room, size_t *count);

/* As escape_text, without the two quotation marks, for a text that is given in pieces: `"`, the outputs of
 * its pieces, and `"` are the literal of the whole. A piece ends between two characters. The bound is the
 * same. HTML has no quotation marks: there this is escape_text. */
escape_status escape_inner(escape_mode mode, escape_kernel kernel, const char *text, size_t length,
                           char *buffer, size_t room, size_t *count);

/* As escape_inner, for a piece that the caller knows to be UTF-8; see escape_text_unchecked. */
escape_status escape_inner_unchecked(escape_mode mode, escape_kernel kernel, const char *text, size_t length,
                                     char *buffer, size_t room, size_t *count);

/* Writes to `*count` how many bytes the output for the `length` bytes at `text` has. It writes no output. */
escape_status escape_length(escape_mode mode, const char *text, size_t length, size_t *count);

/* As escape_text, to a buffer that may be as short as the output. Where it is shorter, the status is
 * ESCAPE_TOO_SHORT, the buffer is as it was, and `*count` is the size that is needed. There is no kernel to
 * choose. It measures the text before it writes, so escape_text is faster. */
escape_status escape_exact(escape_mode mode, const char *text, size_t length, char *buffer, size_t room,
                           size_t *count);

/* Writes the output by the default kernel, as escape_text_unchecked does, and returns its size. It checks
 * nothing: the mode has to be one of the three, the text UTF-8, and the room the bound or more. */
size_t escape_write(escape_mode mode, const char *text, size_t length, char *buffer, size_t room);

/* The same calls with the mode in their names: escape_json_bound, escape_json, escape_json_unchecked,
 * escape_json_inner, escape_json_inner_unchecked, escape_json_length and escape_json_exact; so for html and
 * script. */
#define ESCAPE_CALLS_OF_MODE(name, mode) \
    static inline size_t name##_bound(size_t length) { return escape_bound(mode, length); } \
    static inline escape_status name(escape_kernel kernel, const char *text, size_t length, char *buffer, \
                                     size_t room, size_t *count) { \
        return escape_text(mode, kernel, text, length, buffer, room, count); \
    } \
    static inline escape_status name##_unchecked(escape_kernel kernel, const char *text, size_t length, \
                                                 char *buffer, size_t room, size_t *count) { \
        return escape_text_unchecked(mode, kernel, text, length, buffer, room, count); \
    } \
    static inline escape_status name##_inner(escape_kernel kernel, const char *text, size_t length, \
                                             char *buffer, size_t room, size_t *count) { \
        return escape_inner(mode, kernel, text, length, buffer, room, count); \
    } \
    static inline escape_status name##_inner_unchecked(escape_kernel kernel, const char *text, size_t length, \
                                                       char *buffer, size_t room, size_t *count) { \
        return escape_inner_unchecked(mode, kernel, text, length, buffer, room, count); \
    } \
    static inline escape_status name##_length(const char *text, size_t length, size_t *count) { \
        return escape_length(mode, text, length, count); \
    } \
    static inline escape_status name##_exact(const char *text, size_t length, char *buffer, size_t room, \
                                             size_t *count) { \
        return escape_exact(mode, text, length, buffer, room, count); \
    }

ESCAPE_CALLS_OF_MODE(escape_json, ESCAPE_JSON)
ESCAPE_CALLS_OF_MODE(escape_html, ESCAPE_HTML)
ESCAPE_CALLS_OF_MODE(escape_script, ESCAPE_SCRIPT)
#undef ESCAPE_CALLS_OF_MODE

#ifdef __cplusplus
}
#endif

#endif
