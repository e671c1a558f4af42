//! Outputs that are written out, and what the calls take and return, as programs for escape-simd 0.1.1 use them.

use escape_simd::html::{self, escape_html, escape_html_into, InputTooLarge};
use escape_simd::json::{self, escape, escape_into, escape_script};

#[test]
fn json() {
    let a = |count| "a".repeat(count);
    let rows = [
        (String::new(), r#""""#.to_string()),
        ("\n\u{1}\u{7f}".into(), "\"\\n\\u0001\u{7f}\"".into()),
        ("\u{b}".into(), r#""\u000b""#.into()),
        ("\\".into(), r#""\\""#.into()),
        ("\u{1d11e}".into(), "\"\u{1d11e}\"".into()),
        ("a\"".into(), r#""a\"""#.into()),
        (r#""a\"""#.into(), r#""\"a\\\"\"""#.into()),
        (a(31) + "\"\"b", format!(r#""{}\"\"b""#, a(31))),
        (a(16) + "\"a\"b", format!(r#""{}\"a\"b""#, a(16))),
        (a(64), format!("\"{}\"", a(64))),
        ("\"".repeat(256), format!("\"{}\"", "\\\"".repeat(256))),
        (a(40) + "\"" + &a(23), format!(r#""{}\"{}""#, a(40), a(23))),
        ("\x01".repeat(64), format!("\"{}\"", "\\u0001".repeat(64))),
        ("\x08\t\n\x0c\r\x1f".into(), r#""\b\t\n\f\r\u001f""#.into()),
        ("a/b\u{80}<".into(), "\"a/b\u{80}<\"".into()),
    ];
    for (text, literal) in rows {
        assert_eq!(escape(&text), literal);
        assert_eq!(json::Escaped(&text).to_string(), literal);
    }
}

#[test]
fn html() {
    let rows = [
        (String::new(), String::new()),
        ("<a href='/x'>".into(), "&lt;a href=&#x27;&#x2f;x&#x27;&gt;".into()),
        ("&amp;\"".into(), "&amp;amp;&quot;".into()),
        ("<a".repeat(16), "&lt;a".repeat(16)),
        ("<".repeat(33), "&lt;".repeat(33)),
        ("\u{20ac}".repeat(6), "\u{20ac}".repeat(6)),
        ("a".repeat(15) + "&\u{20ac}", "a".repeat(15) + "&amp;\u{20ac}"),
    ];
    for (text, wanted) in rows {
        assert_eq!(escape_html(&text).as_ref(), Ok(&wanted));
        assert_eq!(html::Escaped(&text).to_string(), wanted);
    }
}

#[test]
fn script() {
    let a = |count| "a".repeat(count);
    let rows = [
        ("</script>&\u{2028}".to_string(), r#""\u003c/script\u003e\u0026\u2028""#.to_string()),
        ("\u{2026}".into(), "\"\u{2026}\"".into()),
        (a(15) + "\u{2029}", format!(r#""{}\u2029""#, a(15))),
        (a(31) + "\u{2028}", format!(r#""{}\u2028""#, a(31))),
        ("\u{2026}\u{2028}\u{20ac}".into(), "\"\u{2026}\\u2028\u{20ac}\"".into()),
        ("a/b\n".into(), r#""a/b\n""#.into()),
        ("<".repeat(64), format!("\"{}\"", "\\u003c".repeat(64))),
    ];
    for (text, literal) in rows {
        assert_eq!(escape_script(&text), literal);
        assert_eq!(json::EscapedScript(&text).to_string(), literal);
    }
}

#[test]
fn appended() -> Result<(), Box<dyn std::error::Error>> {
    let mut dst = vec![0xff];
    escape_html_into("", &mut dst)?;
    assert_eq!(dst, [0xff]);
    escape_html_into(String::from("<"), &mut dst)?;
    assert_eq!(dst, b"\xff&lt;");
    escape_into("\t", &mut dst);
    json::escape_script_into("&", &mut dst);
    assert_eq!(dst, b"\xff&lt;\"\\t\"\"\\u0026\"");
    Ok(())
}

#[test]
fn error() {
    let error: Box<dyn std::error::Error + Send + Sync> = Box::new(InputTooLarge);
    assert_eq!(error.to_string(), "input is too large to HTML-escape");
    assert_eq!(format!("{:?}", InputTooLarge), "InputTooLarge");
}
