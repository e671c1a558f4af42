//! The first calls of many threads at once.

mod model;

use model::*;
use std::sync::Barrier;
use std::thread;

#[test]
fn threads() {
    let start = Barrier::new(16);
    thread::scope(|scope| {
        for number in 1..=16 {
            let start = &start;
            scope.spawn(move || {
                let mut random = Random(number);
                start.wait();
                for _ in 0..5_000 {
                    compare(MODES[number as usize % 3], &random.text(100));
                }
            });
        }
    });
}
