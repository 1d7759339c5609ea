//! Says what is right: the second implementation behind questions, so that tests in other languages
//! need no rules of their own. Its standard input is a run of requests, each a line and as many
//! bytes as this says:
//!
//!   one LENGTH   the bytes that are asked about from here on
//!   two LENGTH   those of the book that they are compared with
//!   ask LENGTH   questions, a line each; a line answers each of them
//!
//! A question is a letter and words; `calls` has those that tests/driver.c knows too, `more` the
//! others. Numbers are decimal, bytes hexadecimal, no bytes a dash.

#![forbid(unsafe_code)]

mod calls;
mod more;
mod words;

use second::{open, Record, Refusal};
use std::io::{self, BufRead, Read, Write};
use words::Words;

/// What is asked about.
#[derive(Default)]
pub struct Books {
    one: Vec<u8>,
    two: Vec<u8>,
    /// What opening the first gives, where it was asked for.
    opening: Option<Result<Record, Refusal>>,
}

impl Books {
    fn opening(&mut self) -> Result<Record, Refusal> {
        let one = &self.one;
        *self.opening.get_or_insert_with(|| open(one))
    }

    fn answer(&mut self, question: &str) -> String {
        let mut words = Words::new(question);
        let letter = words.word();
        let answer = calls::answer(self, letter, &mut words);
        let answer = answer.or_else(|| more::answer(self, letter, &mut words));
        answer.unwrap_or_else(|| panic!("no such question: {question}"))
    }
}

fn main() -> io::Result<()> {
    let mut input = io::stdin().lock();
    let mut output = io::BufWriter::new(io::stdout().lock());
    let mut books = Books::default();
    let mut line = String::new();
    while input.read_line(&mut line)? > 0 {
        let mut words = Words::new(&line);
        let request = words.word();
        let mut bytes = vec![0; words.number() as usize];
        input.read_exact(&mut bytes)?;
        match request {
            "one" => (books.one, books.opening) = (bytes, None),
            "two" => books.two = bytes,
            "ask" => {
                for question in String::from_utf8(bytes).expect("text").lines() {
                    writeln!(output, "{}", books.answer(question))?;
                }
                output.flush()?;
            }
            _ => panic!("no such request: {line}"),
        }
        line.clear();
    }
    Ok(())
}
