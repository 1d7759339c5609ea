//! `hods find`.

use crate::run::{command, fed, hods, sample, Folder, Ran};

/// By the index and along the chain.
#[test]
fn found_and_absent() {
    for option in [&[][..], &["--chain"]] {
        let names = ["several.chm", "/Zones.htm", "/ZONES.HTM", "/"];
        let run = hods(&[&["find"], option, &names[..]].concat());
        let want = "/Zones.htm: found, section 0, offset 26, length 10\n\
            /ZONES.HTM: found as /Zones.htm, section 0, offset 26, length 10\n\
            /: found, section 0, offset 0, length 0\n";
        assert_eq!(run.good(), want);

        let names = [
            &["find", "several.chm", "/nope"],
            option,
            &["/#TOPICS", "!"],
        ];
        let run = hods(&names.concat());
        let want = "/nope: absent\n\
            /#TOPICS: found, section 0, offset 8, length 8\n\
            !: absent\n";
        assert_eq!((run.status, run.out(), &run.err[..]), (1, want, ""));

        let args = [&["find"], option, &["-", "--", "/a.htm"]].concat();
        let run = fed(command(&args), &sample("sample.chm"));
        assert!(run.good().ends_with("length 5\n"));
    }
    let names = ["--chain", "--trail", "--count"];
    let run = hods(&[&["find", "sample.chm", "--"], &names[..]].concat());
    let want = "--chain: absent\n--trail: absent\n--count: absent\n";
    assert_eq!((run.status, run.out()), (1, want));
}

#[test]
fn with_the_trail() {
    let names = ["several.chm", "/Zones.htm", "/ZONES.HTM", "/"];
    let run = hods(&[&["find", "--trail"], &names[..]].concat());
    let want = "/Zones.htm: found, section 0, offset 26, length 10; chunks 6 1 3\n\
        /ZONES.HTM: found as /Zones.htm, section 0, offset 26, length 10; chunks 6 1 3\n\
        /: found, section 0, offset 0, length 0; chunks 6 5 7\n";
    assert_eq!(run.good(), want);

    let run = hods(&["find", "several.chm", "/nope", "--trail", "/#TOPICS", "!"]);
    let want = "/nope: absent; chunks 6 1 3\n\
        /#TOPICS: found, section 0, offset 8, length 8; chunks 6 5 7\n\
        !: absent; chunk 6\n";
    assert_eq!((run.status, run.out(), &run.err[..]), (1, want, ""));

    let run = fed(
        command(&["find", "--trail", "-", "/a.htm"]),
        &sample("sample.chm"),
    );
    assert!(run.good().ends_with("length 5; chunk 0\n"));
}

/// Counted by hand: chunk 6 has two entries, 5 and 1 three each, a group each; chunk 7 has ten groups, / in the first, and chunk 3 two.
#[test]
fn with_the_count() {
    let names = ["several.chm", "/Zones.htm", "/ZONES.HTM", "/"];
    let run = hods(&[&["find", "--count"], &names[..]].concat());
    let want = "/Zones.htm: found, section 0, offset 26, length 10; 8 comparisons\n\
        /ZONES.HTM: found as /Zones.htm, section 0, offset 26, length 10; 8 comparisons\n\
        /: found, section 0, offset 0, length 0; 6 comparisons\n";
    assert_eq!(run.good(), want);

    let want = "/nope: absent; chunks 6 1 3; 8 comparisons\n\
        /#TOPICS: found, section 0, offset 8, length 8; chunks 6 5 7; 10 comparisons\n\
        !: absent; chunk 6; 1 comparison\n";
    for options in [["--trail", "--count"], ["--count", "--trail"]] {
        let args = [&["find"], &options[..], &["several.chm", "/nope"]].concat();
        let run = hods(&[&args[..], &["/#TOPICS", "!"]].concat());
        assert_eq!((run.status, run.out(), &run.err[..]), (1, want, ""));
    }

    let run = fed(
        command(&["find", "-", "--count", "/a.htm"]),
        &sample("sample.chm"),
    );
    assert!(run.good().ends_with("length 5; 2 comparisons\n"));
}

/// What is said of every name of a book, and of one behind each.
fn of_all_names(options: &[&str]) -> Ran {
    let listed = hods(&["list", "several.chm"]);
    let names = listed.good().lines();
    let names = names.filter_map(|line| line.split_whitespace().nth(3));
    let asked: Vec<String> = names
        .flat_map(|name| [name.to_string(), format!("{name}!")])
        .collect();
    assert_eq!(asked.len(), 466);
    let mut command = command(&[&["find"], options, &["several.chm"]].concat());
    let run = Ran::of(command.args(&asked).output().unwrap());
    assert_eq!((run.status, run.out().lines().count()), (1, 466));
    run
}

/// All ways say the same. What is told of the descent stands behind the answer, the chunks first.
#[test]
fn all_ways_agree() {
    let [index, chain] = [&[][..], &["--chain"]].map(of_all_names);
    assert_eq!(index.out(), chain.out());
    assert_eq!(index.out().matches(": absent\n").count(), 233);
    let [trail, count] = [&["--trail"][..], &["--count"]].map(of_all_names);
    let both = of_all_names(&["--trail", "--count"]);
    let told = trail.out().lines().zip(count.out().lines());
    for ((line, told), both) in index.out().lines().zip(told).zip(both.out().lines()) {
        let [chunks, count] = [told.0, told.1].map(|told| told.strip_prefix(line).unwrap());
        assert!(chunks.starts_with("; chunks 6 "), "{chunks}");
        assert!(count.ends_with(" comparisons"), "{count}");
        assert_eq!(both, [line, chunks, count].concat());
    }
}

/// A wrong name in the root, a wrong child, a tree that is too low: the chain has all names all the same.
#[test]
fn a_broken_index() {
    let folder = Folder::new("broken-index");
    let good = sample("several.chm");
    let root = 0x78 + 84 + 6 * 4096;
    let listed = hods(&["list", "several.chm"]);
    let names = listed.good().lines();
    let names: Vec<&str> = names
        .filter_map(|line| line.split_whitespace().nth(3))
        .collect();
    for (place, byte) in [(root + 9, b'.'), (root + 10, 8), (0x78 + 0x18, 2)] {
        let mut book = good.clone();
        assert_ne!(book[place], byte);
        book[place] = byte;
        folder.put("book", &book);
        for option in ["--", "--trail", "--count"] {
            let run = folder.hods(&["find", option, "book", "/"]);
            run.bad(1, &["hods: book: refusal 14"]);
        }

        let run = folder.hods(&[&["find", "--chain", "book", "/nope"], &names[..]].concat());
        assert_eq!(run.status, 1);
        run.says(&["hods: book: refusal 14"]);
        assert_eq!(run.err.lines().count(), 1);
        let mut lines = run.out().lines();
        assert_eq!(lines.next(), Some("/nope: absent"));
        assert_eq!(lines.clone().count(), 233);
        assert!(lines.all(|line| line.contains(": found, section ")));
    }
    let run = folder.hods(&["find", "--chain", "book", "/"]);
    assert_eq!((run.status, run.out().lines().count()), (1, 1));
}

/// What else is wrong is refused, though the chain could be followed.
#[test]
fn a_broken_index_chunk() {
    let folder = Folder::new("broken-index-chunk");
    let mut book = sample("several.chm");
    book[0x78 + 84 + 6 * 4096] = b'?';
    folder.put("book", &book);
    let run = folder.hods(&["find", "--chain", "book", "/"]);
    run.bad(1, &["hods: book: refusal 8", "in chunk 6"]);
}

#[test]
fn names_that_cannot_be() {
    let long = "x".repeat(1025);
    let run = hods(&["find", "several.chm", "", "/", &long]);
    assert_eq!((run.status, run.out().lines().count()), (1, 1));
    run.says(&[
        "hods: several.chm: refusal 15 (FORMAT R15): the asked name has 0 bytes, not 1 to 1024\n",
        "has 1025 bytes",
    ]);
    for option in ["--chain", "--trail", "--count"] {
        let run = hods(&["find", option, "several.chm", "", "/", &long]);
        assert_eq!((run.status, run.out().lines().count()), (1, 1));
        run.says(&["refusal 15 (FORMAT R15)", "has 0 bytes", "has 1025 bytes"]);
    }
    let run = hods(&["find", "several.chm", &long[1..], "\n-"]);
    assert_eq!((run.status, &run.err[..]), (1, ""));
    assert!(run.out().ends_with("\n\\x0a-: absent\n"));
}

#[test]
fn no_book() {
    hods(&["find", "chunk.bin", "/"]).bad(1, &["R2"]);
    hods(&["find", "gone.chm", "/"]).bad(2, &["gone.chm: No such file"]);
    hods(&["find", "sample.chm"]).bad(2, &["hods --help"]);
    hods(&["find"]).bad(2, &["hods --help"]);
    hods(&["find", "sample.chm", "-x"]).bad(2, &["there is no option -x"]);
    hods(&["find", "--chain", "chunk.bin", "/"]).bad(1, &["R2"]);
    hods(&["find", "--chain", "sample.chm"]).bad(2, &["hods --help"]);
    hods(&["find", "--chain=x", "sample.chm", "/"]).bad(2, &["--chain takes no value"]);
    let run = hods(&["find", "sample.chm", "--", "-x"]);
    assert_eq!((run.status, run.out()), (1, "-x: absent\n"));
}
