//! Appends at every spare capacity, under an allocator that finds bytes written past an allocation.

mod model;

use model::*;
use std::alloc::{GlobalAlloc, Layout, System};

const GUARDS: usize = 64;
const GUARD: u8 = 0xee;

/// The system's allocator, with guards past each allocation.
struct Guarded;

#[global_allocator]
static ALLOCATOR: Guarded = Guarded;

fn with_guards(layout: Layout) -> Layout {
    Layout::from_size_align(layout.size() + GUARDS, layout.align()).unwrap()
}

// SAFETY: each allocation is one of the system's, of more bytes.
unsafe impl GlobalAlloc for Guarded {
    unsafe fn alloc(&self, layout: Layout) -> *mut u8 {
        let allocated = System.alloc(with_guards(layout));
        if !allocated.is_null() {
            allocated.add(layout.size()).write_bytes(GUARD, GUARDS);
        }
        allocated
    }

    unsafe fn dealloc(&self, allocated: *mut u8, layout: Layout) {
        if std::slice::from_raw_parts(allocated.add(layout.size()), GUARDS) != [GUARD; GUARDS] {
            eprintln!("a byte past an allocation of {} bytes was written", layout.size());
            std::process::abort();
        }
        System.dealloc(allocated, with_guards(layout));
    }
}

fn append(mode: Mode, text: &str, before: &[u8], spare: usize) {
    let mut dst = Vec::with_capacity(before.len() + spare);
    dst.extend_from_slice(before);
    let address = dst.as_ptr();
    let has_room = dst.capacity() - dst.len() >= bound(mode, text.len());
    escape_into(mode, text, &mut dst);
    assert!(dst.starts_with(before));
    assert_eq!(&dst[before.len()..], output(mode, text).as_bytes());
    assert!(!has_room || dst.as_ptr() == address, "an append with room allocated");
}

#[test]
fn every_spare_capacity() {
    let long = "a<b>\"c\"&'d'/\\\n\u{2028}\u{20ac}".repeat(5);
    for text in ["", "a", "\"", "<a href='/x'>", "\u{2028}\u{2029}\u{2026}", &"a".repeat(33), &"&".repeat(33), &long] {
        for mode in MODES {
            for spare in 0..bound(mode, text.len()) + 70 {
                append(mode, text, b"", spare);
                append(mode, text, &[0xff; 31], spare);
            }
        }
    }
}

#[test]
fn returned_and_displayed() {
    let mut random = Random(3);
    for number in 0..10_000 {
        compare(MODES[number % 3], &random.text(600));
    }
}
