//! hods: checks, lists, searches, compares and writes compiled HTML Help books. See hods.1.

#![forbid(unsafe_code)]

mod args;
mod cat;
mod check;
mod compare;
mod find;
mod finding;
mod help;
mod input;
mod list;
mod names;
mod newfile;
mod output;
mod page;
mod progress;
mod source;
mod status;
mod text;
mod write;

use std::ffi::OsString;
use std::process::ExitCode;

use args::{flag, Given, Spec};
use output::Output;
use status::{Status, Trouble};

/// A command of the tool.
struct Command {
    name: &'static str,
    help: &'static str,
    options: &'static [Spec],
    run: fn(&Given, &mut Output) -> Result<Status, Trouble>,
}

const COMMANDS: [Command; 6] = [
    Command {
        name: "check",
        help: help::CHECK,
        options: &check::OPTIONS,
        run: check::run,
    },
    Command {
        name: "list",
        help: help::LIST,
        options: &list::OPTIONS,
        run: list::run,
    },
    Command {
        name: "find",
        help: help::FIND,
        options: &find::OPTIONS,
        run: find::run,
    },
    Command {
        name: "cat",
        help: help::CAT,
        options: &cat::OPTIONS,
        run: cat::run,
    },
    Command {
        name: "compare",
        help: help::COMPARE,
        options: &compare::OPTIONS,
        run: compare::run,
    },
    Command {
        name: "write",
        help: help::WRITE,
        options: &write::OPTIONS,
        run: write::run,
    },
];

/// Options that each command has.
const COMMON: [Spec; 2] = [flag("help", Some('h')), flag("version", Some('V'))];

fn main() -> ExitCode {
    let mut out = Output::new();
    let done = run(std::env::args_os().skip(1), &mut out);
    let flushed = out.flush();
    let status = done.and_then(|status| flushed.map(|()| status));
    let status = status.unwrap_or_else(|trouble| {
        output::say(&trouble);
        trouble.status
    });
    ExitCode::from(status as u8)
}

fn run(mut words: impl Iterator<Item = OsString>, out: &mut Output) -> Result<Status, Trouble> {
    let first = words
        .next()
        .ok_or_else(|| Trouble::usage("no command is given"))?;
    let command = COMMANDS.iter().find(|command| first == command.name);
    match command {
        Some(command) => {
            let options = COMMON.iter().chain(command.options).copied();
            let given = args::parse(&options.collect::<Vec<_>>(), words)?;
            match about(&given, command.help) {
                Some(text) => print(&text, out),
                None => (command.run)(&given, out),
            }
        }
        None => {
            let given = args::parse(&COMMON, [first])?;
            match (about(&given, help::HODS), given.operands.first()) {
                (Some(text), _) => print(&text, out),
                (None, Some(word)) => Err(Trouble::usage(format!(
                    "there is no command {}",
                    text::shown_path(word)
                ))),
                (None, None) => Err(Trouble::usage("no command is given")),
            }
        }
    }
}

/// What `--help` or `--version` prints, where one of them is given.
fn about(given: &Given, help: &str) -> Option<String> {
    if given.has("help") {
        return Some(help.to_string());
    }
    let version = format!("hods {}\n", env!("CARGO_PKG_VERSION"));
    given.has("version").then_some(version)
}

fn print(text: &str, out: &mut Output) -> Result<Status, Trouble> {
    out.write(text.as_bytes())?;
    Ok(Status::Good)
}
