/* Escapes standard input to standard output.
 *
 *     cc -std=c99 -O2 -I.. filter.c ../libescape.a -o filter
 *     cc -std=c99 -O2 -I../include filter.c ../lib/libescape.a -o filter     in a release
 *     ./filter json|html|script <page.html
 */
#include "escape.h"

#include <stdio.h>
#include <stdlib.h>
#include <string.h>

typedef escape_status call(escape_kernel, const char *, size_t, char *, size_t, size_t *);

/* All of standard input, or null where memory or a read failed. */
static char *read_all(size_t *length) {
    size_t room = 1 << 16, got;
    char *text = malloc(room), *grown;
    *length = 0;
    while (text && (got = fread(text + *length, 1, room - *length, stdin)) > 0) {
        *length += got;
        if (*length < room) continue;
        if (room > SIZE_MAX / 2 || !(grown = realloc(text, room *= 2))) break;
        text = grown;
    }
    if (text && feof(stdin)) return text;
    free(text);
    return NULL;
}

int main(int argc, char **argv) {
    const char *mode = argc == 2 ? argv[1] : "";
    call *escape = !strcmp(mode, "json")     ? escape_json
                   : !strcmp(mode, "html")   ? escape_html
                   : !strcmp(mode, "script") ? escape_script
                                             : NULL;
    size_t length, count, room;
    char *text, *buffer;
    if (!escape) return fputs("usage: filter json|html|script\n", stderr), 2;
    if (!(text = read_all(&length))) return fputs("reading failed\n", stderr), 1;
    room = escape == escape_html ? escape_html_bound(length) : escape_json_bound(length);
    buffer = room ? malloc(room) : NULL;
    if (!buffer) return fputs("out of memory\n", stderr), 1;
    if (escape(ESCAPE_DEFAULT, text, length, buffer, room, &count) != ESCAPE_OK)
        return fputs("input is not UTF-8\n", stderr), 1;
    if (fwrite(buffer, 1, count, stdout) != count || fflush(stdout))
        return fputs("writing failed\n", stderr), 1;
    free(buffer);
    free(text);
    return 0;
}
