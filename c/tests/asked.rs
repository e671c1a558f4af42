
// What tools/bite puts behind the modules of escape_c: a program that answers the requests of c/tests/asked.c.

/// A call that the fuzzer asks for, by its number in asked.c.
#[derive(Drop)]
#[repr(C)]
struct Request {
    call: u32,
    mode: u32,
    kernel: u32,
    text: *const u8,
    length: usize,
    buffer: *mut u8,
    room: usize,
}

unsafe extern "C" {
    safe fn next_request(status: u32, count: usize, next: &mut Request) -> u32;
}

fn answer(request: &Request, count: &mut usize) -> u32 {
    let (mode, kernel) = (request.mode, request.kernel);
    let text = unsafe { std::slice::from_raw_parts(request.text, request.length) };
    let buffer = unsafe { std::slice::from_raw_parts_mut(request.buffer, request.room) };
    match request.call {
        0 => text::escape_text(mode, kernel, text, buffer, count),
        1 => text::escape_text_unchecked(mode, kernel, text, buffer, count),
        2 => text::escape_inner(mode, kernel, text, buffer, count),
        3 => text::escape_inner_unchecked(mode, kernel, text, buffer, count),
        4 => exact::escape_exact(mode, text, buffer, count),
        5 => exact::escape_length(mode, text, count),
        _ => {
            *count = text::escape_write(mode, text, buffer);
            0
        }
    }
}

fn main() {
    let (text, buffer) = (std::ptr::null(), std::ptr::null_mut());
    let mut request = Request { call: 0, mode: 0, kernel: 0, text, length: 0, buffer, room: 0 };
    let mut count = 0;
    let mut status = 0;
    while next_request(status, count, &mut request) != 0 {
        status = answer(&request, &mut count);
    }
}
