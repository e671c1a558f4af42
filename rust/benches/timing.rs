//! Measures calls over texts, and prints a table.

use escape_simd::{html, json};
use std::hint::black_box;
use std::time::{Duration, Instant};
use std::{env, fs};

const ROUNDS: usize = 40;

/// The calls that are compared.
pub trait Calls {
    fn json(text: &str) -> String;
    fn json_into(text: &str, dst: &mut Vec<u8>);
    fn html(text: &str) -> String;
    fn html_into(text: &str, dst: &mut Vec<u8>);
}

const NAMES: [&str; 4] = ["json::escape_into", "json::escape", "html::escape_html_into", "html::escape_html"];

pub struct Package;

impl Calls for Package {
    fn json(text: &str) -> String {
        json::escape(text)
    }

    fn json_into(text: &str, dst: &mut Vec<u8>) {
        json::escape_into(text, dst)
    }

    fn html(text: &str) -> String {
        html::escape_html(text).unwrap()
    }

    fn html_into(text: &str, dst: &mut Vec<u8>) {
        html::escape_html_into(text, dst).unwrap()
    }
}

/// What each of the calls takes for all texts.
pub fn pass<C: Calls>(texts: &[&str]) -> [Duration; 4] {
    [
        appended(texts, C::json_into),
        timed(texts, |text| drop(black_box(C::json(text)))),
        appended(texts, C::html_into),
        timed(texts, |text| drop(black_box(C::html(text)))),
    ]
}

fn appended(texts: &[&str], append: impl Fn(&str, &mut Vec<u8>)) -> Duration {
    let mut dst = Vec::new();
    timed(texts, |text| {
        dst.clear();
        append(text, &mut dst);
        black_box(&dst);
    })
}

fn timed(texts: &[&str], mut call: impl FnMut(&str)) -> Duration {
    let began = Instant::now();
    texts.iter().for_each(|text| call(black_box(text)));
    began.elapsed()
}

/// A way's name, and a pass by it.
type Way = (&'static str, fn(&[&str]) -> [Duration; 4]);

/// Measures each way in turn, for some rounds, and prints what each call takes at best.
pub fn compare(ways: &[Way]) {
    let files: Vec<String> = env::args().skip(1).filter(|word| !word.starts_with("--")).collect();
    let mut contents: Vec<String> = files.iter().map(|file| fs::read_to_string(file).expect(file)).collect();
    if files.is_empty() {
        contents.push([include_str!("../src/json.rs"), include_str!("../src/html.rs")].concat());
    }
    let texts: Vec<&str> = contents.iter().flat_map(|content| content.lines()).collect();
    let mut best = vec![[Duration::MAX; 4]; ways.len()];
    for _ in 0..ROUNDS {
        for (best, (_, pass)) in best.iter_mut().zip(ways) {
            let took = pass(&texts);
            (0..4).for_each(|call| best[call] = took[call].min(best[call]));
        }
    }
    println!("Nanoseconds a text: {} texts, {ROUNDS} rounds", texts.len());
    print!("{:24}", "");
    ways.iter().for_each(|(name, _)| print!("{name:>16}"));
    for (call, name) in NAMES.iter().enumerate() {
        print!("\n{name:24}");
        best.iter().for_each(|best| print!("{:16.1}", best[call].as_nanos() as f64 / texts.len() as f64));
    }
    println!();
}
