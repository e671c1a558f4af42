// Escaping for C++17, over escape.h: from a std::string_view to a std::string.
//
//     std::string literal = escape::json("a\"b");            // "a\"b", with its quotation marks
//     escape::append_html(page, "<a href='/x'>");            // page += &lt;a href=&#x27;&#x2f;x&#x27;&gt;
//
// Each call throws escape::error if the text is not UTF-8, and what std::string throws if it cannot grow
// (std::bad_alloc, std::length_error). A call that throws leaves its target's content as it was; it may have moved.
//
// A text of any size is escaped by pieces, over a buffer of 12 KiB on the stack. So a result allocates only
// what std::string needs for the output itself. An append allocates nothing if the target has room and the text
// does not begin in the target.
#ifndef ESCAPE_HPP
#define ESCAPE_HPP

#include "escape.h"

#include <algorithm>
#include <cstddef>
#include <functional>
#include <stdexcept>
#include <string>
#include <string_view>

namespace escape {

// A call's status that is not ESCAPE_OK. what() is its text.
class error : public std::runtime_error {
public:
    explicit error(escape_status status) : std::runtime_error(escape_status_text(status)), status_(status) {}
    escape_status status() const noexcept { return status_; }

private:
    escape_status status_;
};

namespace detail {

// What stands before and after an output.
constexpr std::string_view quote(escape_mode mode) { return mode == ESCAPE_HTML ? "" : "\""; }

// How many bytes of a text are escaped at once, and a buffer's size for them in every mode.
inline constexpr std::size_t piece_size = 2048;
inline constexpr std::size_t buffer_size = 6 * piece_size + 35;

// Takes a piece off the front of the text. It ends before the first byte of a character, if the text is
// UTF-8: a character has at most three further bytes, and each of these is 10xxxxxx.
inline std::string_view take_piece(std::string_view &text) {
    std::size_t size = std::min(text.size(), piece_size);
    for (int further = 0; further < 3 && size < text.size() && (text[size] & 0xc0) == 0x80; further++) size--;
    const std::string_view piece = text.substr(0, size);
    text.remove_prefix(size);
    return piece;
}

inline void append_pieces(escape_mode mode, std::string &target, std::string_view text) {
    char buffer[buffer_size];
    target += quote(mode);
    while (!text.empty()) {
        const std::string_view piece = take_piece(text);
        std::size_t count = 0;
        const escape_status status =
            escape_inner(mode, ESCAPE_DEFAULT, piece.data(), piece.size(), buffer, buffer_size, &count);
        if (status != ESCAPE_OK) throw error(status);
        target.append(buffer, count);
    }
    target += quote(mode);
}

// Whether the text begins in the target, so that it would not outlive the target's growth.
inline bool is_within(std::string_view text, const std::string &target) {
    const std::less_equal<const char *> is_at_most;
    return is_at_most(target.data(), text.data()) && is_at_most(text.data(), target.data() + target.size());
}

inline void append(escape_mode mode, std::string &target, std::string_view text) {
    if (is_within(text, target)) return append(mode, target, std::string(text));
    const std::size_t kept = target.size();
    try {
        append_pieces(mode, target, text);
    } catch (...) {
        target.resize(kept);
        throw;
    }
}

inline std::string output(escape_mode mode, std::string_view text) {
    std::string target;
    target.reserve(text.size() + 2 * quote(mode).size());
    append_pieces(mode, target, text);
    return target;
}

} // namespace detail

// Returns the JSON string literal of the text (RFC 8259, section 7), with its quotation marks.
inline std::string json(std::string_view text) { return detail::output(ESCAPE_JSON, text); }

// Returns the text as HTML: `"`, `&`, `'`, `/`, `<` and `>` as entities.
inline std::string html(std::string_view text) { return detail::output(ESCAPE_HTML, text); }

// Returns a JSON string literal that is safe inside a script element: `<`, `>`, `&`, U+2028 and U+2029 are
// escaped too.
inline std::string script(std::string_view text) { return detail::output(ESCAPE_SCRIPT, text); }

// Appends what json(text) returns. The text may be a part of the target: it is then copied first, to a string of
// its own, which allocates as std::string does for that text. The next two do the same.
inline void append_json(std::string &target, std::string_view text) { detail::append(ESCAPE_JSON, target, text); }

// Appends what html(text) returns.
inline void append_html(std::string &target, std::string_view text) { detail::append(ESCAPE_HTML, target, text); }

// Appends what script(text) returns.
inline void append_script(std::string &target, std::string_view text) { detail::append(ESCAPE_SCRIPT, target, text); }

} // namespace escape

#endif
