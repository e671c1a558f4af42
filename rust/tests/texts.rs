//! Every character, and random texts, against a model by characters.

mod model;

use model::*;

#[test]
fn every_character() {
    for character in '\0'..=char::MAX {
        for mode in MODES {
            let text = character.to_string();
            assert_eq!(escape(mode, &text), output(mode, &text));
        }
    }
}

#[test]
fn all_characters_in_one_text() {
    let text: String = ('\0'..=char::MAX).collect();
    MODES.iter().for_each(|&mode| compare(mode, &text));
}

#[test]
fn random_texts() {
    let mut random = Random(1);
    for number in 0..1_000_000 {
        let end = if number % 16 == 0 { 900 } else { 60 };
        compare(MODES[number % 3], &random.text(end));
    }
}

#[test]
fn borrowed_exactly_if_clean() {
    let mut random = Random(2);
    for _ in 0..100_000 {
        let text = random.text(400);
        let cow = escape_simd::html::escape_html_cow(&text).unwrap();
        let wanted = output(Html, &text);
        assert_eq!(cow, wanted);
        assert_eq!(matches!(cow, std::borrow::Cow::Borrowed(_)), wanted == text);
    }
}
