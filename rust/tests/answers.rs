//! Outputs of the crate escape-simd 0.1.1: mode, text and output in hexadecimal. A release has neither them nor this test.

mod model;

use model::*;
use std::fs;

const ANSWERS: &str = concat!(env!("CARGO_MANIFEST_DIR"), "/../c/tests/answers.tsv");

fn text_of(digits: &str) -> String {
    let bytes = (0..digits.len()).step_by(2).map(|at| u8::from_str_radix(&digits[at..at + 2], 16).unwrap());
    String::from_utf8(bytes.collect()).unwrap()
}

#[test]
fn answers() {
    let answers = fs::read_to_string(ANSWERS).unwrap();
    assert_eq!(answers.lines().count(), 2538);
    for line in answers.lines() {
        let columns: Vec<&str> = line.split('\t').collect();
        let mode = if columns[0] == "json" { Json } else { Html };
        let text = text_of(columns[1]);
        assert_eq!(escape(mode, &text), text_of(columns[2]));
        compare(mode, &text);
    }
}
