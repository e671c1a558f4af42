//! JSON string literals (RFC 8259), in their shortest form with lower-case hexadecimal digits.
//!
//! `"`, `\` and the characters below U+0020 are escaped. In *script mode* `<`, `>`, `&`, U+2028 and U+2029 are too, so
//! that the literal is safe inside a script element of an HTML page: neither `</script` nor `<!--` occurs in it.

use crate::output::{self, Mode};
use alloc::{string::String, vec::Vec};
use core::fmt;

pub use crate::output::CAPACITY_FACTOR;

/// The bytes that [`escape_into`] and [`escape_script_into`] reserve besides [`CAPACITY_FACTOR`] times the text's length.
pub const CAPACITY_SLACK: usize = Mode::Json.slack();

const TOO_LARGE: &str = "input is too large to JSON-escape";

/// Returns the JSON string literal of `value`, including its quotation marks.
///
/// # Panics
///
/// If `6 * value.len() + 35` exceeds `isize::MAX`.
///
/// # Examples
///
/// ```
/// assert_eq!(escape_simd::json::escape("\"Bo\"\n"), r#""\"Bo\"\n""#);
/// ```
#[inline]
pub fn escape(value: &str) -> String {
    output::escape(Mode::Json, value).expect(TOO_LARGE)
}

/// Appends the JSON string literal of `value` to `dst`, including its quotation marks.
///
/// Allocates at most once; not at all if the spare capacity is [`CAPACITY_FACTOR`]` * n + `[`CAPACITY_SLACK`] bytes for a
/// text of `n` bytes.
///
/// # Panics
///
/// If `dst.len() + 6 * n + 35` exceeds `isize::MAX`. `dst` is unchanged.
///
/// # Examples
///
/// ```
/// let mut line = b"name=".to_vec();
/// escape_simd::json::escape_into("a\tb", &mut line);
/// assert_eq!(line, br#"name="a\tb""#);
/// ```
#[inline]
pub fn escape_into<S: AsRef<str>>(value: S, dst: &mut Vec<u8>) {
    output::append(Mode::Json, value.as_ref(), dst).expect(TOO_LARGE)
}

/// Returns the JSON string literal of `value` for a script element, including its quotation marks.
///
/// # Panics
///
/// As [`escape`].
///
/// # Examples
///
/// ```
/// assert_eq!(escape_simd::json::escape_script("</script>"), r#""\u003c/script\u003e""#);
/// ```
#[inline]
pub fn escape_script(value: &str) -> String {
    output::escape(Mode::Script, value).expect(TOO_LARGE)
}

/// Appends the JSON string literal of `value` for a script element to `dst`, including its quotation marks.
///
/// Allocates and panics as [`escape_into`].
///
/// # Examples
///
/// ```
/// let mut page = b"<script>show(".to_vec();
/// escape_simd::json::escape_script_into("R&D", &mut page);
/// page.extend_from_slice(b")</script>");
/// assert_eq!(page, br#"<script>show("R\u0026D")</script>"#);
/// ```
#[inline]
pub fn escape_script_into<S: AsRef<str>>(value: S, dst: &mut Vec<u8>) {
    output::append(Mode::Script, value.as_ref(), dst).expect(TOO_LARGE)
}

/// Displays the JSON string literal of the text, including its quotation marks.
///
/// It allocates nothing. Width and fill have no effect.
///
/// # Examples
///
/// ```
/// use escape_simd::json::Escaped;
///
/// assert_eq!(format!("{{\"name\":{}}}", Escaped("a\"b")), r#"{"name":"a\"b"}"#);
/// ```
#[derive(Clone, Copy, Debug, PartialEq, Eq)]
pub struct Escaped<'a>(pub &'a str);

impl fmt::Display for Escaped<'_> {
    fn fmt(&self, f: &mut fmt::Formatter<'_>) -> fmt::Result {
        output::display(Mode::Json, self.0, f)
    }
}

/// Displays the JSON string literal of the text for a script element, including its quotation marks.
///
/// It allocates nothing. Width and fill have no effect.
///
/// # Examples
///
/// ```
/// use escape_simd::json::EscapedScript;
///
/// let name = EscapedScript("</script>");
/// assert_eq!(format!("<script>show({name})</script>"), r#"<script>show("\u003c/script\u003e")</script>"#);
/// ```
#[derive(Clone, Copy, Debug, PartialEq, Eq)]
pub struct EscapedScript<'a>(pub &'a str);

impl fmt::Display for EscapedScript<'_> {
    fn fmt(&self, f: &mut fmt::Formatter<'_>) -> fmt::Result {
        output::display(Mode::Script, self.0, f)
    }
}
