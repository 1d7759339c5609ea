//! `hods find --names`.

use std::fs::File;
use std::io::{BufRead, BufReader, Write};

use crate::run::{command, fed, hods, sample, started, Folder, Ran};

/// The answers for names on standard input.
fn asked(options: &[&str], lines: &[u8]) -> Ran {
    let args = [&["find", "several.chm", "--names", "-"], options].concat();
    fed(command(&args), lines)
}

const ZONES: &str = "/Zones.htm: found, section 0, offset 26, length 10\n";
const ROOT: &str = "/: found, section 0, offset 0, length 0\n";

/// A line ends with LF or CR LF, and the last one may lack its end.
#[test]
fn ends_of_lines() {
    let both = format!("{ZONES}{ROOT}");
    for lines in [
        "/Zones.htm\n/\n",
        "/Zones.htm\n/",
        "/Zones.htm\r\n/\r\n",
        "/Zones.htm\r\n/\n",
        "/Zones.htm\r\n/",
    ] {
        assert_eq!(asked(&[], lines.as_bytes()).good(), both, "{lines:?}");
    }
    assert_eq!(asked(&[], b"").good(), "");
    // Only what stands in front of LF, and once: any other CR is a byte of the name.
    let run = asked(&[], b"/\r\r\n/\r/\n\r/\n/\r");
    let want = "/\\x0d: absent\n/\\x0d/: absent\n\\x0d/: absent\n/\\x0d: absent\n";
    assert_eq!((run.status, run.out(), &run.err[..]), (1, want, ""));
}

/// A line that comes in two pieces, its CR in one and its LF in the next. 65,536 bytes are read at once.
#[test]
fn lines_in_pieces() {
    let folder = Folder::new("names-in-pieces");
    folder.put("book", &sample("several.chm"));
    let piece = format!("!!\n{}/Zones.htm\r", "!\n".repeat(32_761));
    assert_eq!(piece.len(), 65_536);
    folder.put("day", [&piece, "\n/\n"].concat().as_bytes());
    let run = folder.hods(&["find", "book", "--names", "day"]);
    assert_eq!((run.status, &run.err[..]), (1, ""));
    assert!(run.out().ends_with(&format!("!: absent\n{ZONES}{ROOT}")));

    let long = "y".repeat(65_535);
    folder.put("day", [&long, "\r\n/\n"].concat().as_bytes());
    let run = folder.hods(&["find", "book", "--names", "day"]);
    assert_eq!((run.status, run.out()), (1, ROOT));
    run.says(&["hods: day: line 1: refusal 15", "has 65535 bytes"]);
}

/// A file is read as standard input is, and names of the command line are told first.
#[test]
fn files_and_operands() {
    let folder = Folder::new("names");
    folder.put("book", &sample("several.chm"));
    folder.put("day", b"/Zones.htm\n--trail\n/");
    let want = format!("/b: absent\n-: absent\n{ZONES}--trail: absent\n{ROOT}");
    for args in [
        &["find", "book", "/b", "-", "--names", "day"][..],
        &["find", "--names=day", "--", "book", "/b", "-"],
        &[
            "find", "--names", "gone", "--names", "day", "book", "/b", "-",
        ],
    ] {
        let run = folder.hods(args);
        assert_eq!((run.status, run.out(), &run.err[..]), (1, &want[..], ""));
    }
    folder.put("none", b"");
    assert_eq!(folder.hods(&["find", "book", "--names", "none"]).good(), "");
    let run = fed(
        folder.command(&["find", "-", "--names", "day"]),
        &folder.read("book"),
    );
    assert_eq!((run.status, &run.err[..]), (1, ""));
    assert!(run.out().starts_with(ZONES));
}

#[test]
fn with_other_options() {
    let lines = b"/zones.htm\n!\n";
    let found = "/zones.htm: found as /Zones.htm, section 0, offset 26, length 10";
    let run = asked(&["--trail", "/"], lines);
    let want = format!(
        "/: found, section 0, offset 0, length 0; chunks 6 5 7\n{found}; chunks 6 1 3\n!: absent; chunk 6\n"
    );
    assert_eq!((run.status, run.out(), &run.err[..]), (1, &want[..], ""));
    let run = asked(&["--count", "/"], lines);
    let want = format!(
        "/: found, section 0, offset 0, length 0; 6 comparisons\n{found}; 8 comparisons\n!: absent; 1 comparison\n"
    );
    assert_eq!((run.status, run.out(), &run.err[..]), (1, &want[..], ""));
    let run = asked(&["--count", "--trail"], lines);
    let want = format!("{found}; chunks 6 1 3; 8 comparisons\n!: absent; chunk 6; 1 comparison\n");
    assert_eq!((run.status, run.out(), &run.err[..]), (1, &want[..], ""));
    let run = asked(&["--chain", "/"], lines);
    let want = format!("{ROOT}{found}\n!: absent\n");
    assert_eq!((run.status, run.out(), &run.err[..]), (1, &want[..], ""));
}

/// A line that is no name is told with its number, and the others are answered.
#[test]
fn lines_that_are_no_names() {
    let long = |size| "x".repeat(size);
    let lines = [
        "\n/\n\r\n",
        &long(1024),
        "\r\n",
        &long(1024),
        "\n",
        &long(1025),
        "\r\n",
        &long(300_000),
        "\r\n",
        &long(1025),
    ]
    .concat();
    for option in [&[][..], &["--chain"]] {
        let run = asked(option, lines.as_bytes());
        let absent = format!("{}: absent\n", long(1024));
        assert_eq!(
            (run.status, run.out()),
            (1, &format!("{ROOT}{absent}{absent}")[..])
        );
        let told = [(1, 0), (3, 0), (6, 1025), (7, 300_000), (8, 1025)].map(|(line, size)| {
            format!(
                "hods: standard input: line {line}: refusal 15 (FORMAT R15): the asked name has {size} bytes, not 1 to 1024\n"
            )
        });
        assert_eq!(run.err, told.concat());
    }
    // Good answers do not make up for a line that is none.
    let run = asked(&[], b"/\n\n/\n");
    assert_eq!((run.status, run.out()), (1, &format!("{ROOT}{ROOT}")[..]));
}

/// Names are printed so that a terminal takes them for text.
#[test]
fn any_bytes() {
    let run = asked(&[], b"/\x1b[2J\0\n \n/z\xc3\xbcge.htm\n/z\xfcge.htm\n");
    let want = "/\\x1b[2J\\x00: absent\n\
        \\x20: absent\n\
        /züge.htm: found, section 0, offset 36, length 10\n\
        /z\\xfcge.htm: absent\n";
    assert_eq!((run.status, run.out(), &run.err[..]), (1, want, ""));
    let folder = Folder::new("names-escaped");
    folder.put("da\ny", b"\n");
    folder.put("book", &sample("sample.chm"));
    let run = folder.hods(&["find", "book", "--names", "da\ny"]);
    run.bad(1, &["hods: da\\x0ay: line 1: refusal 15"]);
}

/// Whoever feeds it name by name gets each answer before the next name.
#[test]
fn answers_come_as_names_do() {
    let mut child = started(&mut command(&["find", "several.chm", "--names", "-"]));
    let mut to = child.stdin.take().unwrap();
    let mut from = BufReader::new(child.stdout.take().unwrap());
    for (name, want) in [("/", ROOT), ("/Zones.htm", ZONES), ("/", ROOT)] {
        // The line is not whole before its end.
        for part in [name, "\n"] {
            to.write_all(part.as_bytes()).unwrap();
        }
        let mut got = String::new();
        from.read_line(&mut got).unwrap();
        assert_eq!(got, want);
    }
    drop(to);
    assert_eq!(child.wait().unwrap().code(), Some(0));
}

/// Of a broken index the names are told all the same, and the book's refusal counts.
#[test]
fn a_broken_index() {
    let folder = Folder::new("names-broken-index");
    let mut book = sample("several.chm");
    book[0x78 + 84 + 6 * 4096 + 9] = b'.';
    folder.put("book", &book);
    folder.put("day", b"/Zones.htm\n/\n");
    let run = folder.hods(&["find", "book", "--names", "day"]);
    run.bad(1, &["hods: book: refusal 14"]);
    let run = folder.hods(&["find", "--chain", "book", "--names", "day"]);
    assert_eq!((run.status, run.out()), (1, &format!("{ZONES}{ROOT}")[..]));
    run.says(&["hods: book: refusal 14"]);
}

#[test]
fn what_cannot_be_read() {
    let gone = hods(&["find", "several.chm", "/", "--names", "gone"]);
    gone.bad(2, &["hods: gone: No such file or directory\n"]);
    let run = hods(&["find", "gone.chm", "--names", "/dev/null"]);
    run.bad(2, &["hods: gone.chm: No such file"]);
    hods(&["find", "several.chm", "--names="]).bad(2, &["hods: '': No such file"]);
    hods(&["find", "several.chm", "--names", "."]).bad(2, &["hods: .: Is a directory\n"]);
    hods(&["find", "chunk.bin", "--names", "/dev/null"]).bad(1, &["R2"]);
    let both = hods(&["find", "-", "--names", "-"]);
    both.bad(2, &["only one of the book and --names"]);
    hods(&[
        "find",
        "--chain",
        "several.chm",
        "--trail",
        "--names",
        "gone",
    ])
    .bad(2, &["--chain and --trail exclude each other"]);
    hods(&[
        "find",
        "several.chm",
        "--count",
        "--chain",
        "--names",
        "gone",
    ])
    .bad(2, &["--chain and --count exclude each other"]);
    // What was answered before is printed.
    let run = hods(&["find", "several.chm", "/", "--names", "."]);
    assert_eq!((run.status, run.out()), (2, ROOT));
}

/// A list that is much longer than what is held of it.
#[test]
fn many_names() {
    let folder = Folder::new("many-names");
    folder.put("book", &sample("several.chm"));
    let line = |i: usize| match i % 3 {
        0 => "/Zones.htm\n".to_string(),
        1 => format!("/no/such/page/{i}\r\n"),
        _ => format!("{}\n", "y".repeat(i % 2_000 + 1)),
    };
    let lines: String = (0..12_000).map(line).collect();
    folder.put("day", lines.as_bytes());
    let run = folder.hods(&["find", "book", "--names", "day"]);
    assert_eq!(run.status, 1);
    assert_eq!(run.out().matches(ZONES).count(), 4_000);
    let long = (0..12_000).filter(|i| i % 3 == 2 && i % 2_000 >= 1_024);
    assert_eq!(run.err.lines().count(), long.count());
    assert_eq!(run.out().lines().count() + run.err.lines().count(), 12_000);
    let mut fed = folder.command(&["find", "book", "--names", "-"]);
    fed.stdin(File::open(folder.path("day")).unwrap());
    let fed = Ran::of(fed.output().unwrap());
    assert_eq!((fed.status, fed.out()), (1, run.out()));
}
