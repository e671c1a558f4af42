/* The extension escape_simd._escape: str and bytes of Python, escaped by the library. */
#define PY_SSIZE_T_CLEAN
#include <Python.h>
#include "escape.h"

#if PY_VERSION_HEX < 0x03090000
#define PyObject_Vectorcall _PyObject_Vectorcall
#endif

/* A text is escaped in pieces of at most PIECE bytes. While more than RELEASE bytes are escaped, other threads run. */
enum { PIECE = 4096, ROOM = 6 * PIECE + 35, RELEASE = 64 * 1024 };

/* A mode's number, how many quotation marks each side of an output has, and the function of __init__.py for other
 * arguments. */
struct mode {
    escape_mode number;
    size_t quotes;
    const char *others;
};

static const struct mode JSON = {ESCAPE_JSON, 1, "_json"};
static const struct mode HTML = {ESCAPE_HTML, 0, "_html"};
static const struct mode SCRIPT = {ESCAPE_SCRIPT, 1, "_script"};

/* An output, which is first measured and then written. */
struct output {
    int is_decoded;         /* whether it is written as characters, and not as UTF-8 */
    size_t bytes, size;     /* how many bytes of UTF-8 there are, and how many characters or bytes as it is written */
    unsigned char greatest; /* the greatest byte of UTF-8; 0 if it is not decoded */
    char *data;             /* where it is written; null while it is measured */
    int kind;               /* how many bytes a character has there */
};

static void measure(struct output *output, const char *piece, size_t count) {
    unsigned following = 0;
    unsigned char greatest = output->greatest;
    for (size_t at = 0; output->is_decoded && at < count; at++) {
        unsigned char byte = (unsigned char)piece[at];
        following += (byte & 0xc0) == 0x80;
        greatest = byte > greatest ? byte : greatest;
    }
    output->greatest = greatest;
    output->bytes += count;
    output->size += count - following;
}

/* Writes the characters of UTF-8 from the index `at` on. Returns the index after them. The masks
 * drop the bits that say how many bytes a character has. */
static inline size_t decode(int kind, void *data, size_t at, const char *piece, const char *end) {
    for (; piece < end; at++) {
        unsigned char first = (unsigned char)*piece++;
        Py_UCS4 c = first;
        if (first >= 0x80) c = (c & 0x1f) << 6 | (*piece++ & 0x3f);
        if (first >= 0xe0) c = c << 6 | (*piece++ & 0x3f);
        if (first >= 0xf0) c = (c & 0x7fff) << 6 | (*piece++ & 0x3f);
        PyUnicode_WRITE(kind, data, at, c);
    }
    return at;
}

/* Writes a piece. Each kind has a loop of its own. */
static void put(struct output *output, const char *piece, size_t count) {
    const char *end = piece + count;
    size_t at = output->size;
    output->size = at + count;
    if (output->greatest < 0x80) memcpy(output->data + at, piece, count);
    else if (output->kind == 1) output->size = decode(1, output->data, at, piece, end);
    else if (output->kind == 2) output->size = decode(2, output->data, at, piece, end);
    else output->size = decode(4, output->data, at, piece, end);
}

/* What is done with the output of a piece: `measure`, or `put`. */
typedef void take_piece(struct output *, const char *, size_t);

/* Escapes the text, which is known to be UTF-8 or not, and takes each piece. Returns whether it is. */
static int escape_pieces(escape_mode mode, int is_known, const char *text, size_t length, char *piece, take_piece *take,
                         struct output *output) {
    PyThreadState *thread = length > RELEASE ? PyEval_SaveThread() : NULL;
    escape_status status = ESCAPE_OK;
    while (length && status == ESCAPE_OK) {
        size_t next = length < PIECE ? length : PIECE, count;
        /* A piece ends at a character. */
        while (next < length && next > PIECE - 3 && (text[next] & 0xc0) == 0x80) next--;
        status = (is_known ? escape_inner_unchecked : escape_inner)(mode, ESCAPE_DEFAULT, text, next, piece, ROOM, &count);
        take(output, piece, count);
        text += next;
        length -= next;
    }
    if (thread) PyEval_RestoreThread(thread);
    return status == ESCAPE_OK;
}

/* Returns a str or bytes for what was measured, with its quotation marks. The output is then written to it. */
static PyObject *new_answer(struct output *output, size_t quotes, int is_str) {
    unsigned char greatest = output->greatest;
    Py_UCS4 widest = greatest < 0x80 ? 0x7f : greatest < 0xc4 ? 0xff : greatest < 0xf0 ? 0xffff : 0x10ffff;
    Py_ssize_t size = (Py_ssize_t)(output->size + 2 * quotes);
    PyObject *answer = is_str ? PyUnicode_New(size, widest) : PyBytes_FromStringAndSize(NULL, size);
    if (!answer) return NULL;
    output->data = is_str ? PyUnicode_DATA(answer) : PyBytes_AS_STRING(answer);
    output->kind = is_str ? (int)PyUnicode_KIND(answer) : 1;
    output->size = quotes;
    if (quotes) {
        PyUnicode_WRITE(output->kind, output->data, 0, '"');
        PyUnicode_WRITE(output->kind, output->data, size - 1, '"');
    }
    return answer;
}

/* Returns the output of a str as a str, and of bytes as bytes. */
static PyObject *escape(const struct mode *mode, PyObject *object) {
    int is_str = PyUnicode_Check(object), is_clean;
    Py_ssize_t length = is_str ? 0 : PyBytes_GET_SIZE(object);
    const char *text = is_str ? PyUnicode_AsUTF8AndSize(object, &length) : PyBytes_AS_STRING(object);
    struct output output = {0};
    char piece[ROOM];
    PyObject *answer;
    if (!text) return NULL;
    output.is_decoded = is_str && !PyUnicode_IS_ASCII(object);
    if (!escape_pieces(mode->number, is_str, text, (size_t)length, piece, measure, &output)) {
        /* It raises what Python raises for these bytes. */
        Py_XDECREF(PyUnicode_DecodeUTF8(text, length, NULL));
        return NULL;
    }
    is_clean = output.bytes == (size_t)length;
    if (is_clean && !mode->quotes) {
        Py_INCREF(object);
        return object;
    }
    answer = new_answer(&output, mode->quotes, is_str);
    if (!answer) return NULL;
    if (is_clean) {
        size_t size = (size_t)(is_str ? PyUnicode_GET_LENGTH(object) * output.kind : length);
        memcpy(output.data + output.kind, is_str ? PyUnicode_DATA(object) : text, size);
    } else if (length <= PIECE) {
        put(&output, piece, output.bytes);
    } else {
        escape_pieces(mode->number, 1, text, (size_t)length, piece, put, &output);
    }
    return answer;
}

/* Calls json, html or script: itself with a str or bytes alone, and else the function of __init__.py. */
static PyObject *call_with(
    const struct mode *mode, PyObject *module, PyObject *const *arguments, Py_ssize_t count, PyObject *names) {
    PyObject *others, *output;
    if (count == 1 && !names && (PyUnicode_CheckExact(*arguments) || PyBytes_CheckExact(*arguments))) {
        return escape(mode, *arguments);
    }
    others = PyMapping_GetItemString(PyModule_GetDict(module), mode->others);
    output = others ? PyObject_Vectorcall(others, arguments, (size_t)count, names) : NULL;
    Py_XDECREF(others);
    return output;
}

static PyObject *json(PyObject *module, PyObject *text) { return call_with(&JSON, module, &text, 1, NULL); }

static PyObject *html(PyObject *module, PyObject *const *arguments, Py_ssize_t count, PyObject *names) {
    return call_with(&HTML, module, arguments, count, names);
}

static PyObject *script(PyObject *module, PyObject *const *arguments, Py_ssize_t count, PyObject *names) {
    return call_with(&SCRIPT, module, arguments, count, names);
}

static PyMethodDef methods[] = {
    {"json", json, METH_O,
     "json($module, text, /)\n--\n\nReturns the JSON string literal of the text, with its quotation marks."},
    {"html", (PyCFunction)(void (*)(void))html, METH_FASTCALL | METH_KEYWORDS,
     "html($module, text, /, *, markup=False)\n--\n\n"
     "Returns the text as HTML, for text and for attribute values in quotation marks.\n\n"
     "If the text has a method __html__, returns what that returns. With markup, returns Markup."},
    {"script", (PyCFunction)(void (*)(void))script, METH_FASTCALL | METH_KEYWORDS,
     "script($module, text, /, *, markup=False)\n--\n\n"
     "Returns a JSON string literal of the text that is safe inside a script element. With markup, returns Markup."},
    {0},
};

static int add_version(PyObject *module) {
    return PyModule_AddIntConstant(module, "version", (long)escape_version());
}

/* Subinterpreters share nothing of it: the module keeps no state. */
static struct PyModuleDef_Slot slots[] = {
    {Py_mod_exec, (void *)add_version},
#if PY_VERSION_HEX >= 0x030c0000
    {Py_mod_multiple_interpreters, Py_MOD_PER_INTERPRETER_GIL_SUPPORTED},
#endif
    {0, NULL},
};

static struct PyModuleDef definition = {
    PyModuleDef_HEAD_INIT, .m_name = "escape_simd._escape", .m_methods = methods, .m_slots = slots};

PyMODINIT_FUNC PyInit__escape(void) { return PyModuleDef_Init(&definition); }
