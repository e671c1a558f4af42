//! HTML, for text and for attribute values in quotation marks.
//!
//! `"`, `&`, `'`, `/`, `<` and `>` become `&quot;`, `&amp;`, `&#x27;`, `&#x2f;`, `&lt;` and `&gt;`. An ampersand of a
//! reference that stands in the text is replaced too.

use crate::output::{self, Mode};
use alloc::{borrow::Cow, string::String, vec::Vec};
use core::fmt;

pub use crate::output::CAPACITY_FACTOR;

/// The bytes that [`escape_html_into`] reserves besides [`CAPACITY_FACTOR`] times the text's length.
pub const CAPACITY_SLACK: usize = Mode::Html.slack();

/// The text is too large: the bytes that its output may need, `6 * n + 32` for a text of `n` bytes, exceed
/// `usize::MAX`.
#[derive(Clone, Copy, Debug, PartialEq, Eq)]
pub struct InputTooLarge;

impl fmt::Display for InputTooLarge {
    fn fmt(&self, f: &mut fmt::Formatter<'_>) -> fmt::Result {
        f.write_str("input is too large to HTML-escape")
    }
}

#[cfg(has_core_error)]
impl core::error::Error for InputTooLarge {}
#[cfg(not(has_core_error))]
impl std::error::Error for InputTooLarge {}

/// Returns `value` as HTML.
///
/// # Errors
///
/// [`InputTooLarge`] if `6 * value.len() + 32` exceeds `usize::MAX`.
///
/// # Panics
///
/// If it exceeds `isize::MAX`, but not `usize::MAX`.
///
/// # Examples
///
/// ```
/// assert_eq!(escape_simd::html::escape_html("R&D").as_deref(), Ok("R&amp;D"));
/// ```
#[inline]
pub fn escape_html(value: &str) -> Result<String, InputTooLarge> {
    output::escape(Mode::Html, value).ok_or(InputTooLarge)
}

/// Appends `value` to `dst` as HTML.
///
/// Allocates at most once; not at all if the spare capacity is [`CAPACITY_FACTOR`]` * n + `[`CAPACITY_SLACK`] bytes for a
/// text of `n` bytes.
///
/// # Errors
///
/// [`InputTooLarge`] if `6 * n + 32` exceeds `usize::MAX`. `dst` is unchanged.
///
/// # Panics
///
/// If `dst.len() + 6 * n + 32` exceeds `isize::MAX`, but `6 * n + 32` does not exceed `usize::MAX`. `dst` is unchanged.
///
/// # Examples
///
/// ```
/// let mut page = b"<p>".to_vec();
/// escape_simd::html::escape_html_into("a < b", &mut page)?;
/// assert_eq!(page, b"<p>a &lt; b");
/// # Ok::<(), escape_simd::html::InputTooLarge>(())
/// ```
#[inline]
pub fn escape_html_into<S: AsRef<str>>(value: S, dst: &mut Vec<u8>) -> Result<(), InputTooLarge> {
    output::append(Mode::Html, value.as_ref(), dst).ok_or(InputTooLarge)
}

/// Returns `value` as HTML: itself if no character needs an escape, and then allocates nothing.
///
/// # Errors
///
/// As [`escape_html`].
///
/// # Panics
///
/// As [`escape_html`].
///
/// # Examples
///
/// ```
/// use escape_simd::html::escape_html_cow;
/// use std::borrow::Cow;
///
/// assert!(matches!(escape_html_cow("plain"), Ok(Cow::Borrowed("plain"))));
/// assert_eq!(escape_html_cow("R&D")?, "R&amp;D");
/// # Ok::<(), escape_simd::html::InputTooLarge>(())
/// ```
#[inline]
pub fn escape_html_cow(value: &str) -> Result<Cow<'_, str>, InputTooLarge> {
    if output::is_clean(Mode::Html, value) {
        Ok(Cow::Borrowed(value))
    } else {
        escape_html(value).map(Cow::Owned)
    }
}

/// Displays the text as HTML.
///
/// It allocates nothing. Width and fill have no effect.
///
/// # Examples
///
/// ```
/// use escape_simd::html::Escaped;
///
/// assert_eq!(format!("<b>{}</b>", Escaped("1 < 2")), "<b>1 &lt; 2</b>");
/// ```
#[derive(Clone, Copy, Debug, PartialEq, Eq)]
pub struct Escaped<'a>(pub &'a str);

impl fmt::Display for Escaped<'_> {
    fn fmt(&self, f: &mut fmt::Formatter<'_>) -> fmt::Result {
        output::display(Mode::Html, self.0, f)
    }
}
