//! Help, version and wrong command lines.

use std::fs;
use std::path::Path;

use crate::run::hods;

const COMMANDS: [&str; 6] = ["check", "list", "find", "cat", "compare", "write"];

#[test]
fn help_and_version() {
    let all = hods(&["--help"]);
    assert_eq!(all.good(), hods(&["-h"]).good());
    for command in COMMANDS {
        let help = hods(&[command, "--help"]);
        assert!(help.good().starts_with("Usage: hods "));
        assert_eq!(help.good(), hods(&[command, "x", "-h", "y"]).good());
        assert!(all.good().contains(&format!("\n  {command} ")));
        assert!(help.good().lines().all(|line| line.len() <= 80));
    }
    let version = format!("hods {}\n", env!("CARGO_PKG_VERSION"));
    assert_eq!(hods(&["-V"]).good(), version);
    assert_eq!(hods(&["list", "--version"]).good(), version);
}

/// The options that a help text explains, a line each, as `-f, --force` or `--time`.
fn explained(help: &str) -> impl Iterator<Item = String> + '_ {
    let lines = help.lines().map(str::trim_start);
    lines.filter(|line| line.starts_with('-')).map(|line| {
        let words = line.split(' ').take_while(|word| word.starts_with('-'));
        words.collect::<Vec<_>>().join(" ")
    })
}

/// The man page has every command, and it explains the options that the help does, and no others.
#[test]
fn man_page() {
    let path = Path::new(env!("CARGO_MANIFEST_DIR")).join("hods.1");
    let page = fs::read_to_string(path).unwrap();
    // The line behind .TP is what is explained: a macro, and the option with \- for each dash.
    let mut tagged: Vec<String> = Vec::new();
    for pair in page.lines().collect::<Vec<_>>().windows(2) {
        if let (".TP", Some((_, text))) = (pair[0], pair[1].split_once(' ')) {
            let text = text.replace('\\', "").replace(" \", \" ", ", ");
            tagged.extend(explained(&text));
        }
    }
    tagged.sort();
    let mut options: Vec<String> = explained(hods(&["--help"]).good()).collect();
    for command in COMMANDS {
        assert!(page.contains(&format!("hods {command}")), "{command}");
        options.extend(explained(hods(&[command, "--help"]).good()));
    }
    options.sort();
    assert_eq!(tagged, options);
}

#[test]
fn wrong_usage() {
    for args in [
        &[][..],
        &["lsit"],
        &["--no"],
        &["-x", "check"],
        &["--"],
        &["check", "--no", "sample.chm"],
        &["check", "--quiet=1", "sample.chm"],
        &["cat", "--chain", "sample.chm", "/"],
        &["find", "--chains", "sample.chm", "/"],
        &["find", "--chain", "--trail", "sample.chm", "/"],
        &["find", "--count", "--chain", "sample.chm", "/"],
        &["find", "--trail=1", "sample.chm", "/"],
        &["find", "--count=1", "sample.chm", "/"],
        &["find", "--count", "sample.chm"],
        &["cat", "--count", "sample.chm", "/"],
        &["find", "sample.chm", "--names"],
        &["find", "--names", "sample.chm"],
        &["find", "-", "--names", "-"],
        &["find", "-", "/", "--names=-"],
        &["cat", "--names", "-", "sample.chm", "/"],
    ] {
        hods(args).bad(2, &["hods --help"]);
    }
    hods(&["\x07"]).bad(2, &["there is no command \\x07"]);
    hods(&[""]).bad(2, &["there is no command ''"]);
    hods(&["check", "-qx", "sample.chm"]).bad(2, &["there is no option -x;"]);
    hods(&["check", "-q\x1b"]).bad(2, &["there is no option -\\x1b;"]);
}
