//! Names and bytes as text. A name may hold any bytes, so what a terminal could take as a command is escaped.

use std::ffi::OsStr;
use std::fmt::Write;
use std::os::unix::ffi::OsStrExt;

/// A name with `\xNN` for each byte that does not print and `\\` for a backslash. A space at either end is escaped too, so that a line of a
/// listing can be read back: `read_name` is the inverse.
pub fn shown(name: &[u8]) -> String {
    let mut text = String::with_capacity(name.len());
    let mut rest = name;
    while !rest.is_empty() {
        let (good, bad, behind) = split(rest);
        for c in good.chars() {
            push_char(&mut text, c);
        }
        push_bytes(&mut text, bad);
        rest = behind;
    }
    escape_ends(text)
}

/// A word of the command line or a path as text; an empty one is made visible.
pub fn shown_path(path: &OsStr) -> String {
    match path.is_empty() {
        true => "''".to_string(),
        false => shown(path.as_bytes()),
    }
}

/// Good UTF-8 at the front, the bytes behind it that are not, and the rest.
fn split(bytes: &[u8]) -> (&str, &[u8], &[u8]) {
    match std::str::from_utf8(bytes) {
        Ok(good) => (good, &[], &[]),
        Err(error) => {
            let (good, rest) = bytes.split_at(error.valid_up_to());
            let bad = error.error_len().unwrap_or(rest.len());
            let good = std::str::from_utf8(good).unwrap_or("");
            (good, &rest[..bad], &rest[bad..])
        }
    }
}

/// Whether a character prints as itself. `escape_debug` knows the characters of Unicode that do not.
fn prints(c: char) -> bool {
    match c {
        '\\' => false,
        ' '..='~' => true,
        _ => c.escape_debug().count() == 1,
    }
}

fn push_char(text: &mut String, c: char) {
    if c == '\\' {
        text.push_str("\\\\");
    } else if prints(c) {
        text.push(c);
    } else {
        push_bytes(text, c.encode_utf8(&mut [0; 4]).as_bytes());
    }
}

fn push_bytes(text: &mut String, bytes: &[u8]) {
    for b in bytes {
        let _ = write!(text, "\\x{b:02x}");
    }
}

fn escape_ends(mut text: String) -> String {
    if text.ends_with(' ') {
        text.replace_range(text.len() - 1.., "\\x20");
    }
    if text.starts_with(' ') {
        text.replace_range(..1, "\\x20");
    }
    text
}

/// The name that was written with escapes, or the escape that is none.
pub fn read_name(text: &[u8]) -> Result<Vec<u8>, String> {
    let mut name = Vec::with_capacity(text.len());
    let mut rest = text;
    while let Some((&b, behind)) = rest.split_first() {
        rest = behind;
        if b != b'\\' {
            name.push(b);
            continue;
        }
        let (byte, size) = escaped(rest).ok_or_else(|| {
            let end = rest.len().min(3);
            format!("\\{} is no escape", shown(&rest[..end]))
        })?;
        name.push(byte);
        rest = &rest[size..];
    }
    Ok(name)
}

/// The byte of an escape, from behind its backslash on, and how many bytes the escape has there.
fn escaped(text: &[u8]) -> Option<(u8, usize)> {
    match text {
        [b'\\', ..] => Some((b'\\', 1)),
        [b'x', a, b, ..] => {
            let digit = |c: u8| char::from(c).to_digit(16);
            Some(((digit(*a)? * 16 + digit(*b)?) as u8, 3))
        }
        _ => None,
    }
}

/// A number of things, with the word for one of them or for several.
pub fn many(n: u64, one: &str, several: &str) -> String {
    format!("{n} {}", if n == 1 { one } else { several })
}

/// Two digits a byte, nothing between.
pub fn hex(bytes: &[u8]) -> String {
    let mut text = String::with_capacity(2 * bytes.len());
    for b in bytes {
        let _ = write!(text, "{b:02x}");
    }
    text
}

/// Two digits a byte, spaces between, as docs/FORMAT.md writes bytes.
pub fn spaced_hex(bytes: &[u8]) -> String {
    let digits: Vec<String> = bytes.iter().map(|b| format!("{b:02X}")).collect();
    digits.join(" ")
}

/// Text for HTML, between tags and in a quoted attribute.
pub fn html(text: &str) -> String {
    let mut html = String::with_capacity(text.len());
    for c in text.chars() {
        match c {
            '&' => html.push_str("&amp;"),
            '<' => html.push_str("&lt;"),
            '>' => html.push_str("&gt;"),
            '"' => html.push_str("&quot;"),
            '\'' => html.push_str("&#39;"),
            _ => html.push(c),
        }
    }
    html
}

/// A string of JSON, quotes and all; what does not print is escaped.
pub fn json_string(text: &str) -> String {
    let mut json = String::with_capacity(text.len() + 2);
    json.push('"');
    for c in text.chars() {
        if matches!(c, '"' | '\\') {
            json.push('\\');
            json.push(c);
        } else if prints(c) {
            json.push(c);
        } else {
            for unit in c.encode_utf16(&mut [0; 2]) {
                let _ = write!(json, "\\u{unit:04x}");
            }
        }
    }
    json.push('"');
    json
}

#[cfg(test)]
mod tests {
    use super::*;

    #[test]
    fn names_are_safe_and_read_back() {
        let cases: [(&[u8], &str); 9] = [
            (b"/a b.htm", "/a b.htm"),
            ("/züge \"ü'.htm".as_bytes(), "/züge \"ü'.htm"),
            (b"/\x1b[2J\n\x7f", "/\\x1b[2J\\x0a\\x7f"),
            (b"/\xff\xc3", "/\\xff\\xc3"),
            (b"\\x41", "\\\\x41"),
            (b" ", "\\x20"),
            (b"  a  ", "\\x20 a \\x20"),
            ("\u{202e}\u{a0}".as_bytes(), "\\xe2\\x80\\xae\\xc2\\xa0"),
            (b"", ""),
        ];
        for (name, text) in cases {
            assert_eq!(shown(name), text);
            assert_eq!(read_name(text.as_bytes()).as_deref(), Ok(name));
        }
    }

    #[test]
    fn every_pair_of_bytes_reads_back() {
        for pair in 0..=u16::MAX {
            let name = pair.to_be_bytes();
            let text = shown(&name);
            assert_eq!(read_name(text.as_bytes()).as_deref(), Ok(&name[..]));
            assert_eq!(text.trim(), text);
        }
    }

    #[test]
    fn escapes_that_are_none() {
        for text in ["\\", "\\n", "\\x", "\\x4", "\\x4g", "a\\ "] {
            assert!(read_name(text.as_bytes()).is_err(), "{text}");
        }
    }

    #[test]
    fn html_text() {
        let (text, want) = ("<b a=\"'&amp;é", "&lt;b a=&quot;&#39;&amp;amp;é");
        assert_eq!(html(text), want);
    }

    #[test]
    fn json_strings() {
        assert_eq!(json_string("/a\"\\é"), "\"/a\\\"\\\\é\"");
        assert_eq!(
            json_string("\n\u{7f}\u{e0001}"),
            "\"\\u000a\\u007f\\udb40\\udc01\""
        );
    }
}
