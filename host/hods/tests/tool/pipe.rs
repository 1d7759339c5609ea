//! Output that nobody reads.

use std::fs::OpenOptions;
use std::process::Command;

use crate::run::{command, started, Folder, Ran, FROM_LIST};

/// A run whose standard output is closed at once.
fn unread(mut command: Command) -> Ran {
    let mut child = started(&mut command);
    drop(child.stdout.take());
    Ran::of(child.wait_with_output().unwrap())
}

/// A book with a listing of several hundred kilobytes.
fn long_book(folder: &Folder) {
    let line = |i| format!("1 {i} 0 /{i:06}/{}\n", "x".repeat(80));
    let list: String = (0..5000).map(line).collect();
    folder.put("list", list.as_bytes());
    folder.put("content", b"");
    folder.hods(&FROM_LIST).good();
}

#[test]
fn a_closed_pipe_is_no_trouble() {
    let folder = Folder::new("closed-pipe");
    long_book(&folder);
    for args in [
        &["list", "book"][..],
        &["list", "--json", "book"],
        &["list", "--frames", "book"],
        &["check", "book"],
        &["compare", "book", "book"],
        &["--help"],
    ] {
        let run = unread(folder.command(args));
        assert_eq!((run.status, &run.err[..]), (0, ""), "{args:?}");
    }
    let run = unread(command(&["cat", "sample.chm", "/a.htm"]));
    assert_eq!((run.status, &run.err[..]), (0, ""));
}

/// Answers that the status gives are given all the same.
#[test]
fn a_closed_pipe_hides_no_answer() {
    for option in ["--", "--chain", "--trail", "--count"] {
        let run = unread(command(&["find", option, "sample.chm", "/a.htm", "/b"]));
        assert_eq!((run.status, &run.err[..]), (1, ""));
    }
    let run = unread(command(&["find", "sample.chm", "/b", "--names", "-"]));
    assert_eq!((run.status, &run.err[..]), (1, ""));
    for option in ["--", "--json"] {
        let run = unread(command(&["compare", option, "several.chm", "sample.chm"]));
        assert_eq!((run.status, &run.err[..]), (1, ""));
    }
    let run = unread(command(&["check", "sample.chm", "chunk.bin"]));
    assert_eq!(run.status, 1);
    run.says(&["R2"]);
    let mut child = started(&mut command(&["check", "chunk.bin", "sample.chm"]));
    drop((child.stdout.take(), child.stderr.take()));
    assert_eq!(child.wait().unwrap().code(), Some(1));
}

#[test]
fn a_full_device_is() {
    for args in [
        &["list", "several.chm"][..],
        &["cat", "sample.chm", "/a.htm"],
        &["compare", "sample.chm", "several.chm"],
        &["find", "sample.chm", "/", "--names", "/dev/null"],
    ] {
        let full = OpenOptions::new().write(true).open("/dev/full").unwrap();
        let run = Ran::of(command(args).stdout(full).output().unwrap());
        run.bad(2, &["hods: standard output: No space left on device\n"]);
    }
}
