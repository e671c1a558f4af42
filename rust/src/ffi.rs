//! The library's call, in the build that serves this processor.

#[cfg(target_arch = "x86_64")]
use crate::cpu;
use crate::output::Mode;
#[cfg(target_arch = "x86_64")]
use core::{
    mem::transmute,
    sync::atomic::{AtomicPtr, Ordering::Relaxed},
};
use core::{mem::MaybeUninit, slice, str};

/// Writes the output of the `length` bytes at `text` to the front of the `room` bytes at `buffer`, and returns its
/// length. The bytes must be UTF-8, and the room the bound or more. No byte of the buffer is read before it is written.
type Write = unsafe extern "C" fn(mode: u32, text: *const u8, length: usize, buffer: *mut u8, room: usize) -> usize;

// The names are those of `c/escape.h`, behind the name of the build, by which the builds are told apart.
extern "C" {
    #[cfg_attr(target_arch = "x86_64", link_name = "escape_simd_x86_64_v2_escape_write")]
    #[cfg_attr(target_arch = "aarch64", link_name = "escape_simd_aarch64_escape_write")]
    fn write_lowest(mode: u32, text: *const u8, length: usize, buffer: *mut u8, room: usize) -> usize;

    #[cfg(target_arch = "x86_64")]
    #[link_name = "escape_simd_x86_64_v3_escape_write"]
    fn write_v3(mode: u32, text: *const u8, length: usize, buffer: *mut u8, room: usize) -> usize;
}

/// The build for the processor's level; until a call has asked for that, `write_asking`. All threads find the same build,
/// so it does not matter which of them writes it, or in what order. A call is one jump by it, with no test.
#[cfg(target_arch = "x86_64")]
static BUILD: AtomicPtr<()> = AtomicPtr::new(write_asking as *mut ());

/// Writes the output of `text` to the front of `buffer`, and returns it.
///
/// # Panics
///
/// If the buffer is shorter than the bound.
#[inline]
pub(crate) fn write<'b>(mode: Mode, text: &str, buffer: &'b mut [MaybeUninit<u8>]) -> &'b str {
    // SAFETY: `BUILD` is a function of this type.
    #[cfg(target_arch = "x86_64")]
    let build = unsafe { transmute::<*mut (), Write>(BUILD.load(Relaxed)) };
    #[cfg(not(target_arch = "x86_64"))]
    let build = write_lowest;
    write_by(build, mode, text, buffer)
}

/// Writes by the build for the processor's level, which it asks for, and sets `BUILD`.
#[cfg(target_arch = "x86_64")]
unsafe extern "C" fn write_asking(mode: u32, text: *const u8, length: usize, buffer: *mut u8, room: usize) -> usize {
    let build: Write = if cpu::has_v3() { write_v3 } else { write_lowest };
    BUILD.store(build as *mut (), Relaxed);
    // SAFETY: the caller keeps to the contract of `Write`, and the processor has the level.
    unsafe { build(mode, text, length, buffer, room) }
}

#[inline]
fn write_by<'b>(build: Write, mode: Mode, text: &str, buffer: &'b mut [MaybeUninit<u8>]) -> &'b str {
    assert!(mode.capacity(text.len()).map_or(false, |bound| bound <= buffer.len()));
    let front = buffer.as_mut_ptr().cast::<u8>();
    // SAFETY: the mode's number is one of the library's, a `str` is UTF-8, and the buffer has the bound. So the output
    // stands in the buffer's first `length` bytes. It is UTF-8.
    unsafe {
        let length = build(mode as u32, text.as_ptr(), text.len(), front, buffer.len());
        str::from_utf8_unchecked(slice::from_raw_parts(front, length))
    }
}

#[cfg(all(test, target_arch = "x86_64"))]
mod tests {
    use super::*;
    use alloc::{string::String, vec};

    fn builds_agree(text: &str) {
        for mode in [Mode::Json, Mode::Html, Mode::Script] {
            let mut lowest = vec![MaybeUninit::uninit(); mode.capacity(text.len()).unwrap()];
            let mut v3 = lowest.clone();
            assert_eq!(write_by(write_v3, mode, text, &mut v3), write_by(write_lowest, mode, text, &mut lowest));
        }
    }

    #[test]
    fn builds_write_the_same() {
        if !cpu::has_v3() {
            return;
        }
        let all: String = ('\0'..=char::MAX).collect();
        builds_agree(&all);
        let mixed = "<a href='/x'>\"\\\u{2028}\n and some letters that need no escape".repeat(20);
        for (at, _) in mixed.char_indices() {
            builds_agree(&mixed[..at]);
            builds_agree(&mixed[at..]);
        }
    }

    #[test]
    #[should_panic]
    fn short_buffer() {
        write(Mode::Html, "", &mut [MaybeUninit::uninit(); 31]);
    }
}
