//! The command line: options and operands in any order, `--` before operands that start with a dash.

use std::ffi::{OsStr, OsString};
use std::os::unix::ffi::OsStrExt;

use crate::status::Trouble;
use crate::text::{shown, shown_path};

/// An option of a command.
#[derive(Clone, Copy)]
pub struct Spec {
    pub long: &'static str,
    pub short: Option<char>,
    pub value: bool,
}

/// An option without a value.
pub const fn flag(long: &'static str, short: Option<char>) -> Spec {
    Spec {
        long,
        short,
        value: false,
    }
}

/// An option with a value.
pub const fn valued(long: &'static str, short: Option<char>) -> Spec {
    Spec {
        long,
        short,
        value: true,
    }
}

/// What was given.
#[derive(Debug, Default)]
pub struct Given {
    options: Vec<(&'static str, OsString)>,
    pub operands: Vec<OsString>,
}

impl Given {
    pub fn has(&self, long: &str) -> bool {
        self.value(long).is_some()
    }

    /// The value of an option; of several the last counts.
    pub fn value(&self, long: &str) -> Option<&OsStr> {
        let mut given = self.options.iter().rev();
        given.find(|(name, _)| *name == long).map(|(_, v)| &**v)
    }

    /// The value of an option as a number of 32 bits, decimal or, behind `0x`, hexadecimal.
    pub fn number(&self, long: &str, default: u32) -> Result<u32, Trouble> {
        let value = match self.value(long) {
            Some(value) => value,
            None => return Ok(default),
        };
        value.to_str().and_then(parse_number).ok_or_else(|| {
            let text = shown_path(value);
            Trouble::usage(format!("--{long}: {text} is no number of 32 bits"))
        })
    }
}

fn parse_number(text: &str) -> Option<u32> {
    let (digits, radix) = match text.strip_prefix("0x").or_else(|| text.strip_prefix("0X")) {
        Some(digits) => (digits, 16),
        None => (text, 10),
    };
    let plain = digits.chars().all(|c| c.is_digit(radix));
    u32::from_str_radix(digits, radix).ok().filter(|_| plain)
}

/// Sorts the words of a command line into options and operands.
pub fn parse(specs: &[Spec], words: impl IntoIterator<Item = OsString>) -> Result<Given, Trouble> {
    let mut given = Given::default();
    let mut words = words.into_iter();
    while let Some(word) = words.next() {
        match word.as_bytes() {
            b"--" => given.operands.extend(words.by_ref()),
            [b'-', b'-', long @ ..] => parse_long(specs, long, &mut words, &mut given)?,
            [b'-', _, ..] => parse_short(specs, &word, &mut words, &mut given)?,
            _ => given.operands.push(word),
        }
    }
    Ok(given)
}

/// `--name`, `--name=value` or `--name value`.
fn parse_long(
    specs: &[Spec],
    long: &[u8],
    words: &mut impl Iterator<Item = OsString>,
    given: &mut Given,
) -> Result<(), Trouble> {
    let mut halves = long.splitn(2, |b| *b == b'=');
    let name = halves.next().unwrap_or(b"");
    let inline = halves.next().map(|v| OsStr::from_bytes(v).to_owned());
    let spec = specs
        .iter()
        .find(|s| s.long.as_bytes() == name)
        .ok_or_else(|| Trouble::usage(format!("there is no option --{}", shown(name))))?;
    let value = match (spec.value, inline) {
        (false, None) => OsString::new(),
        (false, Some(_)) => {
            return Err(Trouble::usage(format!("--{} takes no value", spec.long)));
        }
        (true, Some(value)) => value,
        (true, None) => next_value(words, &format!("--{}", spec.long))?,
    };
    given.options.push((spec.long, value));
    Ok(())
}

/// `-a`, several as `-abc`, and a value behind its letter or in the next word.
fn parse_short(
    specs: &[Spec],
    word: &OsStr,
    words: &mut impl Iterator<Item = OsString>,
    given: &mut Given,
) -> Result<(), Trouble> {
    let mut letters = &word.as_bytes()[1..];
    while let Some((&byte, rest)) = letters.split_first() {
        letters = rest;
        let letter = char::from(byte);
        let spec = specs
            .iter()
            .find(|s| s.short == Some(letter))
            .ok_or_else(|| Trouble::usage(format!("there is no option -{}", shown(&[byte]))))?;
        let mut value = OsString::new();
        if spec.value {
            value = match letters {
                [] => next_value(words, &format!("-{letter}"))?,
                text => OsStr::from_bytes(text).to_owned(),
            };
            letters = &[];
        }
        given.options.push((spec.long, value));
    }
    Ok(())
}

fn next_value(
    words: &mut impl Iterator<Item = OsString>,
    option: &str,
) -> Result<OsString, Trouble> {
    words
        .next()
        .ok_or_else(|| Trouble::usage(format!("{option} takes a value")))
}

#[cfg(test)]
mod tests {
    use super::*;

    const SPECS: [Spec; 3] = [
        flag("force", Some('f')),
        valued("output", Some('o')),
        valued("time", None),
    ];

    fn parsed(words: &[&str]) -> Result<Given, Trouble> {
        parse(&SPECS, words.iter().map(OsString::from))
    }

    #[test]
    fn options_and_operands() {
        for words in [
            &["-f", "-o", "b", "d", "--time", "7"][..],
            &["d", "--output=b", "--force", "--time=0x7"],
            &["-fob", "--time=9", "--time=7", "--", "d"],
        ] {
            let given = parsed(words).unwrap();
            assert!(given.has("force"));
            assert_eq!(given.value("output"), Some(OsStr::new("b")));
            assert_eq!(given.number("time", 1).unwrap(), 7);
            assert_eq!(given.operands, ["d"]);
        }
        let given = parsed(&["-", "--", "-f", "--"]).unwrap();
        assert_eq!(given.operands, ["-", "-f", "--"]);
        assert!(!given.has("force"));
        assert_eq!(given.number("time", 1).unwrap(), 1);
    }

    #[test]
    fn wrong_usage() {
        for words in [
            &["-x"][..],
            &["--no"],
            &["-fx"],
            &["-o"],
            &["--output"],
            &["--force=1"],
            &["---f"],
        ] {
            assert!(parsed(words).is_err(), "{words:?}");
        }
        for number in ["", "0x", "-1", "+1", "0x+1", "4294967296", "7 "] {
            let given = parsed(&["--time", number]).unwrap();
            assert!(given.number("time", 0).is_err(), "{number}");
        }
    }
}
