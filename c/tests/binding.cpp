// Tests of escape.hpp. Prints `passed NAME` or `failed NAME` for each test, and what was wrong.
#include "escape.hpp"

#include <cstdlib>
#include <iostream>
#include <new>
#include <stdexcept>
#include <string>
#include <string_view>
#include <utility>

using std::string;
using std::string_view;

// How many allocations succeed before one fails; -1: all.
static int allocations_left = -1;

void *operator new(std::size_t size) {
    void *memory = allocations_left == 0 ? nullptr : std::malloc(size);
    if (!memory) throw std::bad_alloc();
    if (allocations_left > 0) allocations_left--;
    return memory;
}

void operator delete(void *memory) noexcept { std::free(memory); }
void operator delete(void *memory, std::size_t) noexcept { std::free(memory); }

namespace {

int faults, failed_tests;

void expect(bool holds, const char *what) {
    if (!holds && faults++ < 5) std::cout << "  " << what << '\n';
}

void expect_text(string_view got, string_view wanted) {
    if (got != wanted && faults++ < 5) std::cout << "  got " << got << ", and not " << wanted << '\n';
}

void test(const char *name, void (*body)()) {
    faults = 0;
    try {
        body();
    } catch (const std::exception &thrown) {
        expect(false, thrown.what());
    }
    std::cout << (faults ? "failed" : "passed") << " from C++: " << name << std::endl;
    failed_tests += faults != 0;
}

struct mode {
    const char *name;
    string (*answer)(string_view);
    void (*append)(string &, string_view);
    std::size_t quotes;
};

const mode modes[] = {
    {"json", escape::json, escape::append_json, 1},
    {"html", escape::html, escape::append_html, 0},
    {"script", escape::script, escape::append_script, 1},
};

// The outputs are written out: RFC 8259, section 7, for JSON, and the six entities for HTML.
struct row {
    string_view text, json, html, script;
};

const row rows[] = {
    {"", R"("")", "", R"("")"},
    {"a", R"("a")", "a", R"("a")"},
    {"a\tb", R"("a\tb")", "a\tb", R"("a\tb")"},
    {"\"", R"("\"")", "&quot;", R"("\"")"},
    {"\\", R"("\\")", "\\", R"("\\")"},
    {"/", R"("/")", "&#x2f;", R"("/")"},
    {"\b\t\n\f\r", R"("\b\t\n\f\r")", "\b\t\n\f\r", R"("\b\t\n\f\r")"},
    {string_view("\0\x01\x1f\x7f", 4), "\"\\u0000\\u0001\\u001f\x7f\"", string_view("\0\x01\x1f\x7f", 4),
     "\"\\u0000\\u0001\\u001f\x7f\""},
    {"<a href='/x'>", R"("<a href='/x'>")", "&lt;a href=&#x27;&#x2f;x&#x27;&gt;", R"("\u003ca href='/x'\u003e")"},
    {"a&b", R"("a&b")", "a&amp;b", R"("a\u0026b")"},
    {"</script><!--", R"("</script><!--")", "&lt;&#x2f;script&gt;&lt;!--", R"("\u003c/script\u003e\u003c!--")"},
    {"\xe2\x80\xa8\xe2\x80\xa9\xe2\x80\xa7", "\"\xe2\x80\xa8\xe2\x80\xa9\xe2\x80\xa7\"", "\xe2\x80\xa8\xe2\x80\xa9\xe2\x80\xa7",
     "\"\\u2028\\u2029\xe2\x80\xa7\""},
    {"\xc3\xa9\xf0\x9f\x98\x80", "\"\xc3\xa9\xf0\x9f\x98\x80\"", "\xc3\xa9\xf0\x9f\x98\x80", "\"\xc3\xa9\xf0\x9f\x98\x80\""},
};

void test_rows() {
    for (const row &row : rows) {
        expect_text(escape::json(row.text), row.json);
        expect_text(escape::html(row.text), row.html);
        expect_text(escape::script(row.text), row.script);
    }
}

void test_empty() {
    expect_text(escape::json({}), "\"\"");
    expect_text(escape::html({}), "");
    expect_text(escape::script({}), "\"\"");
}

void test_append() {
    string target = "kept ";
    escape::append_json(target, "a\"b");
    expect_text(target, R"(kept "a\"b")");
    escape::append_html(target, "<i>");
    expect_text(target, R"(kept "a\"b"&lt;i&gt;)");
    escape::append_script(target, "&");
    expect_text(target, R"(kept "a\"b"&lt;i&gt;"\u0026")");
}

void test_room() {
    string target = "kept";
    target.reserve(1000);
    const char *data = target.data();
    const string text(100, '<');
    allocations_left = 0;
    escape::append_html(target, text);
    allocations_left = -1;
    expect(target.data() == data && target.size() == 4 + 100 * 4, "a target with room was moved");
    expect(escape::json(string(100000, 'a')).capacity() < 2 * 100000, "a result keeps room for scratch");
}

void test_target_as_text() {
    string target = "<<<<";
    for (int n = 0; n < 3; n++) escape::append_html(target, string_view(target).substr(0, 4));
    expect_text(target, "<<<<" "&lt;&lt;&lt;&lt;" "&lt;&lt;&lt;&lt;" "&lt;&lt;&lt;&lt;");
    // More than one piece, so that the target has grown before the last is read.
    string large(5000, '"'), wanted = large + '"';
    for (int n = 0; n < 5000; n++) wanted += "\\\"";
    escape::append_json(large, large);
    expect_text(large, wanted + '"');
    // The part is copied first, also where the target has room.
    string roomy(100, '<');
    roomy.reserve(1000);
    allocations_left = 0;
    try {
        escape::append_html(roomy, roomy);
        expect(false, "a part of the target took no memory");
    } catch (const std::bad_alloc &) {
    }
    allocations_left = 1;
    escape::append_html(roomy, roomy);
    allocations_left = -1;
    expect(roomy.size() == 100 + 100 * 4, "a part of the target took more than its copy");
}

// Whether the call throws an escape::error for text that is not UTF-8, and leaves the target.
bool is_refused(const mode &mode, string_view text) {
    string target = "as it was";
    try {
        mode.append(target, text);
    } catch (const escape::error &thrown) {
        const std::runtime_error &base = thrown;
        if (thrown.status() != 1 || string_view(base.what()).find("UTF-8") == string_view::npos) return false;
        try {
            mode.answer(text);
        } catch (const escape::error &) {
            return target == "as it was";
        }
    }
    return false;
}

void test_not_utf8() {
    const string_view wrong[] = {"\xff", "a\x80", "a\xe2\x80", "\xc0\xaf", "\xed\xa0\x80", "\xf4\x90\x80\x80", "\xf0\x9f\x98"};
    for (const mode &mode : modes) {
        for (string_view text : wrong) expect(is_refused(mode, text), mode.name);
        // At every place of a text of several pieces, with what was written of it before taken back.
        for (std::size_t at = 2040; at < 2056; at++) {
            for (string_view text : wrong) expect(is_refused(mode, string(at, '<').append(text).append(3000, 'b')), mode.name);
        }
        expect(is_refused(mode, string(5000, '\x80')), mode.name);
    }
}

// A text of any length is escaped by pieces. Each of these characters stands at every place of a border.
void test_pieces() {
    const std::pair<string_view, string_view> characters[] = {
        {"\"", "\\\""}, {"\xc3\xa9", "\xc3\xa9"}, {"\xe2\x80\xa8", "\\u2028"}, {"\xf0\x9f\x98\x80", "\xf0\x9f\x98\x80"}};
    for (const auto &[character, replacement] : characters) {
        for (std::size_t before = 2040; before < 2056; before++) {
            string text(before, 'a'), wanted = "\"" + text;
            for (int n = 0; n < 3000; n++) text += character, wanted += replacement;
            expect(escape::script(text) == wanted + '"', "a text of several pieces");
        }
    }
}

// Each allocation of an append fails in turn: it throws, and leaves the target, until none is left to fail.
void test_refused_memory() {
    const string text(5000, '"');
    for (const mode &mode : modes) {
        int refusals = 0;
        for (bool succeeded = false; !succeeded; refusals++) {
            string target = "as it was";
            allocations_left = refusals;
            try {
                mode.append(target, text);
                succeeded = true;
            } catch (const std::bad_alloc &) {
            }
            allocations_left = -1;
            if (!succeeded) expect_text(target, "as it was");
        }
        expect(refusals > 2, "an append of 5000 characters took fewer than two allocations");
    }
}

} // namespace

int main() {
    test("worked rows in each mode", test_rows);
    test("an empty text", test_empty);
    test("what is appended stands after what was there", test_append);
    test("a target with room is not moved, and no scratch is kept", test_room);
    test("a part of the target as the text", test_target_as_text);
    test("invalid UTF-8 throws, and leaves the target", test_not_utf8);
    test("texts of several pieces", test_pieces);
    test("memory that is refused", test_refused_memory);
    return failed_tests != 0;
}
