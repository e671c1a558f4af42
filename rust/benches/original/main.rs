//! Nanoseconds a text, beside the crate escape-simd 0.1.1.

#[path = "../timing.rs"]
mod timing;

use timing::{compare, pass, Calls, Package};

struct Original;

impl Calls for Original {
    fn json(text: &str) -> String {
        original::json::escape(text)
    }

    fn json_into(text: &str, dst: &mut Vec<u8>) {
        original::json::escape_into(text, dst)
    }

    fn html(text: &str) -> String {
        original::html::escape_html(text).unwrap()
    }

    fn html_into(text: &str, dst: &mut Vec<u8>) {
        original::html::escape_html_into(text, dst).unwrap()
    }
}

fn main() {
    compare(&[("this package", pass::<Package>), ("escape-simd", pass::<Original>)]);
}
