//! Nanoseconds a text, beside a loop over the characters. `original` compares with the crate escape-simd 0.1.1.
//!
//!     cargo bench                 the lines of the package's own sources
//!     cargo bench -- FILE..       the files' lines
//!
//! The package needs an older Rust than `black_box`.
#![allow(clippy::incompatible_msrv)]

mod timing;

use timing::{compare, pass, Calls, Package};

/// What a program would write without a library.
struct Loop;

impl Calls for Loop {
    fn json(text: &str) -> String {
        let mut output = Vec::with_capacity(text.len() + 2);
        Self::json_into(text, &mut output);
        String::from_utf8(output).unwrap()
    }

    fn json_into(text: &str, dst: &mut Vec<u8>) {
        dst.push(b'"');
        for byte in text.bytes() {
            match byte {
                b'"' | b'\\' => dst.extend_from_slice(&[b'\\', byte]),
                b'\n' => dst.extend_from_slice(b"\\n"),
                b'\t' => dst.extend_from_slice(b"\\t"),
                0..=0x1f => dst.extend_from_slice(format!("\\u{byte:04x}").as_bytes()),
                _ => dst.push(byte),
            }
        }
        dst.push(b'"');
    }

    fn html(text: &str) -> String {
        let mut output = Vec::with_capacity(text.len());
        Self::html_into(text, &mut output);
        String::from_utf8(output).unwrap()
    }

    fn html_into(text: &str, dst: &mut Vec<u8>) {
        for byte in text.bytes() {
            match byte {
                b'"' => dst.extend_from_slice(b"&quot;"),
                b'&' => dst.extend_from_slice(b"&amp;"),
                b'\'' => dst.extend_from_slice(b"&#x27;"),
                b'/' => dst.extend_from_slice(b"&#x2f;"),
                b'<' => dst.extend_from_slice(b"&lt;"),
                b'>' => dst.extend_from_slice(b"&gt;"),
                _ => dst.push(byte),
            }
        }
    }
}

fn main() {
    compare(&[("this package", pass::<Package>), ("a loop", pass::<Loop>)]);
}
