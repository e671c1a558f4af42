//! Prints its argument as a JSON literal, as HTML, and as a JSON literal for a script element.

use escape_simd::{html, json};

fn main() {
    let text = std::env::args().nth(1).expect("usage: escape TEXT");
    println!("{}", json::Escaped(&text));
    println!("{}", html::Escaped(&text));
    println!("{}", json::EscapedScript(&text));
}
