//! Escapes text as JSON string literals, as HTML, and as JSON string literals that are safe in a script element.
//!
//! The work is done by a library whose output, memory safety and termination are proved. This package calls it. The
//! calls of [`json`] and [`html`] are those of the crate escape-simd 0.1.1, whose place it can take; script mode,
//! `Escaped` and [`html::escape_html_cow`] are its own.
//!
//! ```
//! use escape_simd::html::escape_html;
//! use escape_simd::json::{escape, escape_into};
//!
//! assert_eq!(escape("a\tb"), r#""a\tb""#);
//! assert_eq!(escape_html("<a href='/x'>")?, "&lt;a href=&#x27;&#x2f;x&#x27;&gt;");
//!
//! let mut line = b"name=".to_vec();
//! escape_into("Bo", &mut line);
//! assert_eq!(line, br#"name="Bo""#);
//! # Ok::<(), escape_simd::html::InputTooLarge>(())
//! ```
//!
//! It is for Linux on x86-64 (level x86-64-v2 at least) and aarch64. On x86-64, the first call asks whether the
//! processor has x86-64-v3; if so, all calls use the library that is built for it.
//!
//! # Memory
//!
//! A call that appends or returns reserves [`CAPACITY_FACTOR`](json::CAPACITY_FACTOR) times the text's length and the
//! `CAPACITY_SLACK` of its module ([JSON](json::CAPACITY_SLACK), [HTML](html::CAPACITY_SLACK)) in bytes, since a text
//! may consist of characters to escape. It allocates nothing if the vector has that much spare capacity. A returned
//! `String` keeps it: call [`shrink_to_fit`](alloc::string::String::shrink_to_fit) if you keep the `String`.
//!
//! # Features
//!
//! `json`, `html`, `avx512` and `asan`, which programs may name, have no effect.

#![no_std]
#![warn(missing_docs, unsafe_op_in_unsafe_fn)]

extern crate alloc;
#[cfg(not(has_core_error))]
extern crate std;

#[cfg(target_arch = "x86_64")]
mod cpu;
mod ffi;
pub mod html;
pub mod json;
mod output;
