//! What `docs/FORMATS.md` says of each character, the package's calls by mode, and random texts.
#![allow(dead_code)]

use escape_simd::{html, json};

#[derive(Clone, Copy, Debug)]
pub enum Mode {
    Json,
    Html,
    Script,
}

pub use Mode::*;

pub const MODES: [Mode; 3] = [Json, Html, Script];

/// Returns the output of the text by the model.
pub fn output(mode: Mode, text: &str) -> String {
    let quote = if matches!(mode, Html) { "" } else { "\"" };
    let mut output = String::from(quote);
    for character in text.chars() {
        match (mode, character) {
            (Html, '"') => output += "&quot;",
            (Html, '&') => output += "&amp;",
            (Html, '\'') => output += "&#x27;",
            (Html, '/') => output += "&#x2f;",
            (Html, '<') => output += "&lt;",
            (Html, '>') => output += "&gt;",
            (Html, _) => output.push(character),
            (_, '\u{8}') => output += "\\b",
            (_, '\t') => output += "\\t",
            (_, '\n') => output += "\\n",
            (_, '\u{c}') => output += "\\f",
            (_, '\r') => output += "\\r",
            (_, '"') => output += "\\\"",
            (_, '\\') => output += "\\\\",
            (_, '\0'..='\x1f') | (Script, '<' | '>' | '&' | '\u{2028}' | '\u{2029}') => {
                output += &format!("\\u{:04x}", u32::from(character))
            }
            _ => output.push(character),
        }
    }
    output + quote
}

pub fn escape(mode: Mode, text: &str) -> String {
    match mode {
        Json => json::escape(text),
        Html => html::escape_html(text).unwrap(),
        Script => json::escape_script(text),
    }
}

pub fn escape_into(mode: Mode, text: &str, dst: &mut Vec<u8>) {
    match mode {
        Json => json::escape_into(text, dst),
        Html => html::escape_html_into(text, dst).unwrap(),
        Script => json::escape_script_into(text, dst),
    }
}

pub fn display(mode: Mode, text: &str) -> String {
    match mode {
        Json => json::Escaped(text).to_string(),
        Html => html::Escaped(text).to_string(),
        Script => json::EscapedScript(text).to_string(),
    }
}

/// Returns the spare capacity with which an append of `len` bytes allocates nothing.
pub fn bound(mode: Mode, len: usize) -> usize {
    match mode {
        Html => html::CAPACITY_FACTOR * len + html::CAPACITY_SLACK,
        _ => json::CAPACITY_FACTOR * len + json::CAPACITY_SLACK,
    }
}

/// Compares what each call makes of the text with the model.
pub fn compare(mode: Mode, text: &str) {
    let wanted = output(mode, text);
    assert_eq!(escape(mode, text), wanted, "{mode:?}, returned");
    assert_eq!(display(mode, text), wanted, "{mode:?}, displayed");
    let mut dst = b"before".to_vec();
    escape_into(mode, text, &mut dst);
    assert!(dst.starts_with(b"before") && &dst[6..] == wanted.as_bytes(), "{mode:?}, appended: {text:?}");
}

/// Numbers, the same in each run (xorshift).
pub struct Random(pub u64);

impl Random {
    pub fn below(&mut self, end: u32) -> u32 {
        self.0 ^= self.0 << 13;
        self.0 ^= self.0 >> 7;
        self.0 ^= self.0 << 17;
        (((self.0 >> 32) * u64::from(end)) >> 32) as u32
    }

    /// Returns a text of less than `end` characters. How many of them need an escape differs from text to text.
    pub fn text(&mut self, end: u32) -> String {
        const MARKED: &[char] = &['"', '\\', '&', '\'', '/', '<', '>', '\n', '\0', '\x1f', '\u{2028}', '\u{2029}'];
        let length = self.below(end);
        let most = 1 + self.below(40);
        (0..length)
            .map(|_| match self.below(most) {
                0 => MARKED[self.below(MARKED.len() as u32) as usize],
                1 => char::from_u32(self.below(0x110000)).unwrap_or('\u{2027}'),
                letter => char::from(b' ' + 2 * letter as u8),
            })
            .collect()
    }
}
