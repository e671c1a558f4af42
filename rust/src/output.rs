//! What the modes share: the bound, and the calls that write an output to a vector, a `String` or a formatter.

use crate::ffi;
use alloc::{string::String, vec::Vec};
use core::{fmt, mem::MaybeUninit};

/// The most bytes of output for a byte of text.
pub const CAPACITY_FACTOR: usize = 6;

/// The longest piece that is displayed or looked at as a whole, through a buffer on the stack.
const PIECE: usize = 256;
const PIECE_CAPACITY: usize = CAPACITY_FACTOR * PIECE + Mode::Json.slack();

/// How a text is escaped, with the library's numbers.
#[derive(Clone, Copy, Debug)]
pub(crate) enum Mode {
    Json = 0,
    Html = 1,
    Script = 2,
}

impl Mode {
    /// Returns what the bound has besides the factor times the text's length.
    pub(crate) const fn slack(self) -> usize {
        match self {
            Mode::Html => 32,
            Mode::Json | Mode::Script => 35,
        }
    }

    /// Returns the bound, the bytes that a buffer must have for a text of `len` bytes; `None` if it exceeds `usize::MAX`.
    pub(crate) const fn capacity(self, len: usize) -> Option<usize> {
        if len <= (usize::MAX - self.slack()) / CAPACITY_FACTOR {
            Some(CAPACITY_FACTOR * len + self.slack())
        } else {
            None
        }
    }

    /// Returns what an output begins and ends with, besides the outputs of the text's pieces.
    fn quote(self) -> &'static str {
        match self {
            Mode::Html => "",
            Mode::Json | Mode::Script => "\"",
        }
    }
}

/// Appends the output. `None` if the bound exceeds `usize::MAX`; `dst` is unchanged then.
#[inline(always)]
pub(crate) fn append(mode: Mode, text: &str, dst: &mut Vec<u8>) -> Option<()> {
    let room = mode.capacity(text.len())?;
    if dst.capacity() - dst.len() < room {
        append_growing(mode, text, dst, room);
    } else {
        append_reserved(mode, text, dst);
    }
    Some(())
}

// Apart, so that what is inlined in callers saves no register for it.
#[cold]
#[inline(never)]
fn append_growing(mode: Mode, text: &str, dst: &mut Vec<u8>, room: usize) {
    dst.reserve(room);
    append_reserved(mode, text, dst);
}

#[inline(always)]
fn append_reserved(mode: Mode, text: &str, dst: &mut Vec<u8>) {
    let len = dst.len();
    let count = ffi::write(mode, text, dst.spare_capacity_mut()).len();
    // SAFETY: `write` filled the first `count` bytes of the spare capacity.
    unsafe { dst.set_len(len + count) };
}

/// Returns the output. `None` if the bound exceeds `usize::MAX`.
#[inline(always)]
pub(crate) fn escape(mode: Mode, text: &str) -> Option<String> {
    let mut output = Vec::with_capacity(mode.capacity(text.len())?);
    append_reserved(mode, text, &mut output);
    // SAFETY: the vector has what `write` returned as a `&str`, and nothing else.
    Some(unsafe { String::from_utf8_unchecked(output) })
}

/// Displays the output, piece by piece if the text is longer than a piece.
pub(crate) fn display(mode: Mode, text: &str, f: &mut fmt::Formatter<'_>) -> fmt::Result {
    let mut buffer = [MaybeUninit::uninit(); PIECE_CAPACITY];
    if text.len() <= PIECE {
        return f.write_str(ffi::write(mode, text, &mut buffer));
    }
    let quote = mode.quote();
    f.write_str(quote)?;
    for piece in Pieces(text) {
        let output = ffi::write(mode, piece, &mut buffer);
        f.write_str(&output[quote.len()..output.len() - quote.len()])?;
    }
    f.write_str(quote)
}

/// Returns whether no character needs an escape. Each escape is longer than its character.
pub(crate) fn is_clean(mode: Mode, text: &str) -> bool {
    let mut buffer = [MaybeUninit::uninit(); PIECE_CAPACITY];
    let quotes = 2 * mode.quote().len();
    Pieces(text).all(|piece| ffi::write(mode, piece, &mut buffer).len() == piece.len() + quotes)
}

/// The pieces of a text, each of at most `PIECE` bytes.
struct Pieces<'a>(&'a str);

impl<'a> Iterator for Pieces<'a> {
    type Item = &'a str;

    fn next(&mut self) -> Option<&'a str> {
        let mut end = self.0.len().min(PIECE);
        while !self.0.is_char_boundary(end) {
            end -= 1;
        }
        let (piece, rest) = self.0.split_at(end);
        self.0 = rest;
        (!piece.is_empty()).then_some(piece)
    }
}

#[cfg(test)]
mod tests {
    use super::*;

    #[test]
    fn bounds() {
        assert_eq!(Mode::Html.capacity(0), Some(32));
        assert_eq!(Mode::Html.capacity(10), Some(92));
        assert_eq!(Mode::Json.capacity(0), Some(35));
        assert_eq!(Mode::Script.capacity(10), Some(95));
        assert_eq!(Mode::Html.capacity(3074457345618258597), Some(18446744073709551614));
        assert_eq!(Mode::Html.capacity(3074457345618258598), None);
        assert_eq!(Mode::Json.capacity(3074457345618258596), Some(18446744073709551611));
        assert_eq!(Mode::Json.capacity(3074457345618258597), None);
        for mode in [Mode::Json, Mode::Html, Mode::Script] {
            assert_eq!(mode.capacity(usize::MAX / 6), None);
            assert_eq!(mode.capacity(usize::MAX), None);
        }
    }
}
