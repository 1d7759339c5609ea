//! `hods write`.

use std::fs;
use std::os::unix::fs::{symlink, FileTypeExt};
use std::process::Command;

use crate::run::{fed, sample, Folder, Ran, FROM_LIST};

/// Files of a folder, in the order of their names in a book.
const PAGES: [(&str, &[u8]); 6] = [
    ("/[x].htm", b"bracket"),
    ("/A.htm", b"first page"),
    ("/b/Empty", b""),
    ("/b/page.htm", b"\0\xff bytes \n"),
    ("/Z.htm", b"before z\xc3\xbc"),
    ("/z\u{fc}ge.htm", b"last"),
];

fn pages(folder: &Folder) {
    for (name, bytes) in PAGES {
        folder.put(&format!("pages{name}"), bytes);
    }
}

fn lines(run: &Ran) -> Vec<&str> {
    run.good().lines().collect()
}

#[test]
fn a_folder_and_back() {
    let folder = Folder::new("write-folder");
    pages(&folder);
    let run = folder.hods(&["write", "-o", "book.chm", "pages"]);
    assert_eq!(run.good(), "");
    assert_eq!(folder.names(), ["book.chm", "pages"]);
    let listed = folder.hods(&["list", "book.chm"]);
    let mut offset = 0;
    for (line, (name, bytes)) in lines(&listed).into_iter().zip(PAGES) {
        let size = bytes.len();
        assert_eq!(line, format!("0 {offset:>2} {size:>2} {name}"));
        offset += size;
        let stored = folder.hods(&["cat", "book.chm", name]);
        assert_eq!((stored.status, &stored.bytes[..]), (0, bytes));
    }
    assert_eq!(lines(&listed).len(), PAGES.len());
    let checked = folder.hods(&["check", "book.chm"]);
    assert!(checked
        .good()
        .contains("6 entries, 1 chunk, depth 1, 41 bytes"));
}

#[test]
fn the_same_files_give_the_same_book() {
    let folder = Folder::new("write-same");
    pages(&folder);
    folder.hods(&["write", "pages", "--output=a"]).good();
    folder.hods(&["write", "-ob", "--", "pages/"]).good();
    assert_eq!(folder.read("a"), folder.read("b"));
}

#[test]
fn many_chunks() {
    let folder = Folder::new("write-many");
    for i in 0..700 {
        let name = format!("pages/{:02}/a-name-of-some-length-{i:04}.htm", i % 37);
        folder.put(&name, name.as_bytes());
    }
    folder.hods(&["write", "-o", "book", "pages"]).good();
    let checked = folder.hods(&["check", "book"]);
    assert!(checked.good().contains("700 entries"));
    assert!(!checked.good().contains("depth 1"));
    for i in (0..700).step_by(97) {
        let name = format!("/{:02}/A-NAME-OF-SOME-LENGTH-{i:04}.HTM", i % 37);
        let stored = folder.hods(&["cat", "book", &name]);
        assert_eq!(stored.good(), format!("pages{}", name.to_lowercase()));
    }
}

#[test]
fn numbers_of_the_header() {
    let folder = Folder::new("write-numbers");
    pages(&folder);
    let args = ["--density", "5", "--time=0x12345678", "--language", "1031"];
    let mut all = vec!["write", "-o", "book", "pages"];
    all.extend(args);
    folder.hods(&all).good();
    let book = folder.read("book");
    assert_eq!(book[0x10..0x14], [0x78, 0x56, 0x34, 0x12]);
    assert_eq!(book[0x14..0x18], [7, 4, 0, 0]);
    assert_eq!(book[0x78 + 0x14], 5);
    assert_eq!(book[0x78 + 0x30..0x78 + 0x34], [7, 4, 0, 0]);
    folder.hods(&["check", "book"]).good();
}

#[test]
fn a_list_gives_the_sample() {
    let folder = Folder::new("write-list");
    folder.put(
        "list",
        b"# the sample book\r\n\n 0\t0 5   /a.htm\r\n0 0 0 /",
    );
    folder.put("content", b"hello");
    folder.hods(&FROM_LIST).good();
    assert_eq!(folder.read("book"), sample("sample.chm"));

    let from = folder.command(&["write", "-o", "b", "--list", "-", "--content", "content"]);
    fed(from, &folder.read("list")).good();
    assert_eq!(folder.read("b"), sample("sample.chm"));
    let from = folder.command(&["write", "-o", "c", "--list", "list", "--content", "-"]);
    fed(from, b"hello").good();
    assert_eq!(folder.read("c"), sample("sample.chm"));
}

#[test]
fn a_listing_can_be_written_again() {
    let folder = Folder::new("write-again");
    let book = sample("several.chm");
    folder.put("old", &book);
    let listed = folder.hods(&["list", "old"]);
    folder.put("list", listed.good().as_bytes());
    folder.put("content", &book[book.len() - 106..]);
    folder.hods(&FROM_LIST).good();
    assert_eq!(folder.hods(&["list", "book"]).good(), listed.good());
    let frames = |name| folder.hods(&["list", "--frames", name]).good().to_string();
    assert_eq!(frames("book"), frames("old"));
    assert_eq!(folder.hods(&["cat", "book", "/#topics"]).good(), "/#TOPICS");
}

/// The run fails, and the folder has what it had before.
fn fails(folder: &Folder, args: &[&str], status: i32, words: &[&str]) {
    let before = folder.names();
    folder.hods(args).bad(status, words);
    assert_eq!(folder.names(), before, "{args:?}");
}

#[test]
fn nothing_is_overwritten_but_by_force() {
    let folder = Folder::new("write-force");
    pages(&folder);
    folder.put("book", b"precious");
    let args = ["write", "-o", "book", "pages"];
    fails(&folder, &args, 2, &["hods: book: it is there", "--force"]);
    assert_eq!(folder.read("book"), b"precious");
    for _ in 0..2 {
        folder.hods(&["write", "-f", "-o", "book", "pages"]).good();
        folder.hods(&["check", "book"]).good();
    }
    assert_eq!(folder.names(), ["book", "pages"]);
}

/// A rename would put a file in the place of a link or a pipe, and of a device as well.
#[test]
fn only_files_are_overwritten() {
    let folder = Folder::new("write-over");
    pages(&folder);
    folder.put("file", b"precious");
    symlink("nowhere", folder.path("nothing")).unwrap();
    symlink("file", folder.path("link")).unwrap();
    let made = Command::new("mkfifo").arg(folder.path("pipe")).status();
    assert!(made.unwrap().success());
    for name in ["nothing", "link", "pipe", "pages", "."] {
        for option in ["-o", "-fo"] {
            let words = [&format!("hods: {name}: it is there"), "no regular file"];
            fails(&folder, &["write", option, name, "pages"], 2, &words);
        }
    }
    let kind = |name| fs::symlink_metadata(folder.path(name)).unwrap().file_type();
    assert!(kind("link").is_symlink() && kind("pipe").is_fifo());
    assert_eq!(folder.read("file"), b"precious");
}

#[test]
fn folders_that_make_no_book() {
    let folder = Folder::new("write-refused");
    fs::create_dir_all(folder.path("empty/er")).unwrap();
    let args = ["write", "-o", "book", "empty"];
    fails(
        &folder,
        &args,
        1,
        &["hods: empty: refusal 18 (FORMAT R18, W2): there is no entry"],
    );

    folder.put("twice/page.htm", b"1");
    folder.put("twice/Page.HTM", b"2");
    let args = ["write", "-o", "book", "twice"];
    let words = [
        "hods: twice: refusal 18 (FORMAT R18, S1): the names ",
        "/page.htm",
        "/Page.HTM",
    ];
    fails(&folder, &args, 1, &words);

    let deep = format!("long{}/x", format!("/{}", "y".repeat(250)).repeat(4));
    folder.put(&deep, b"");
    folder.hods(&["write", "-o", "good", "long"]).good();
    folder.put(&format!("{deep}{}", "z".repeat(18)), b"");
    folder.hods(&["write", "-fo", "good", "long"]).good();
    folder.put(&format!("{deep}{}", "z".repeat(19)), b"");
    fails(
        &folder,
        &["write", "-o", "book", "long"],
        1,
        &["R18, E4", "has 1025 bytes"],
    );
}

#[test]
fn things_that_cannot_be_stored() {
    let folder = Folder::new("write-things");
    let cases = [
        ("gone", "No such file or directory"),
        ("..", "a link to a folder"),
        ("/dev/null", "neither a file nor a folder"),
        // It says that it has 0 bytes and then has more.
        ("/proc/self/status", "its length changed"),
    ];
    for (target, words) in cases {
        let _ = fs::remove_dir_all(folder.path("pages"));
        folder.put("pages/a", b"a");
        symlink(target, folder.path("pages/thing")).unwrap();
        let args = ["write", "-o", "book", "pages"];
        fails(&folder, &args, 2, &["hods: pages/thing: ", words]);
    }
    folder.put("file", b"");
    fails(
        &folder,
        &["write", "-o", "book", "file"],
        2,
        &["hods: file: Not a directory"],
    );
    fails(
        &folder,
        &["write", "-o", "book", "none"],
        2,
        &["hods: none: No such file"],
    );
    let args = ["write", "-o", "no/book", "pages"];
    let _ = fs::remove_file(folder.path("pages/thing"));
    fails(&folder, &args, 2, &["hods: no/book: No such file"]);
}

#[test]
fn links_to_files_are_followed() {
    let folder = Folder::new("write-links");
    folder.put("elsewhere", b"there");
    fs::create_dir(folder.path("pages")).unwrap();
    symlink("../elsewhere", folder.path("pages/here")).unwrap();
    folder.hods(&["write", "-o", "book", "pages"]).good();
    assert_eq!(folder.hods(&["cat", "book", "/here"]).good(), "there");
}

#[test]
fn a_book_is_not_its_own_content() {
    let folder = Folder::new("write-own");
    pages(&folder);
    folder.hods(&["write", "-o", "pages/book", "pages"]).good();
    let first = folder.read("pages/book");
    let args = ["write", "-f", "-o", "pages/book", "pages"];
    fails(&folder, &args, 2, &["hods: pages/book: this is the book"]);
    assert_eq!(folder.read("pages/book"), first);
}

/// Lists, the status, and words of the message.
const NO_LISTS: [(&str, i32, &str); 16] = [
    ("", 1, "hods: list: refusal 18 (FORMAT R18, W2)"),
    ("# nothing\n", 1, "R18, W2"),
    (
        "0 0 0 /\n0 0 /a\n",
        2,
        "hods: list: line 2: this is not SECTION OFFSET LENGTH NAME",
    ),
    ("0 0 0x5 /a", 2, "line 1: this is not"),
    ("0 -1 0 /a", 2, "line 1: this is not"),
    ("0 +1 0 /a", 2, "line 1: this is not"),
    (
        "0 0 18446744073709551616 /a",
        2,
        "line 1: 18446744073709551616 is not below 2^63 (FORMAT N3)",
    ),
    ("/a", 2, "line 1: this is not"),
    ("\n\n0 0 0 /a\\n", 2, "line 3: \\n is no escape"),
    (
        "65536 0 0 /a",
        2,
        "line 1: the section is 65536, above 65535 (FORMAT E5)",
    ),
    ("0 0 0", 1, "hods: list: line 1: refusal 18 (FORMAT R18, E4)"),
    (
        "0 0 0 /b\n\n0 1 5 /a",
        1,
        "hods: list: line 3: refusal 18 (FORMAT R18, E6): /a with offset 1 and length 5 is not inside the content, 5 bytes",
    ),
    ("1 9223372036854775808 0 /a", 1, "line 1: refusal 18 (FORMAT R18, N3)"),
    ("0 9223372036854775807 9223372036854775807 /a", 1, "R18, E6"),
    (
        "0 0 0 /a\n0 0 0 /b\n0 0 0 /A",
        1,
        "hods: list: line 3: refusal 18 (FORMAT R18, S1): the names /a and /A are one name",
    ),
    (
        "0 0 0 /a\n1 1 1 /a",
        1,
        "hods: list: line 2: refusal 18 (FORMAT R18, S1): the name /a is there twice",
    ),
];

#[test]
fn lists_that_make_no_book() {
    let folder = Folder::new("write-lists");
    folder.put("content", b"hello");
    for (list, status, words) in NO_LISTS {
        folder.put("list", list.as_bytes());
        fails(&folder, &FROM_LIST, status, &[words]);
    }
}

/// Three names of 1,024 bytes fill a chunk: of 243 the tree has five levels, of more it would need six.
#[test]
fn the_deepest_book() {
    let folder = Folder::new("write-deepest");
    folder.put("content", b"");
    let line = |i| format!("0 0 0 {i:0>1024}\n");
    let list: String = (0..244).map(line).collect();
    folder.put("list", list.as_bytes());
    let words = ["refusal 19 (FORMAT R19, D8, D11): 244 entries"];
    fails(&folder, &FROM_LIST, 1, &words);
    let list: String = (0..243).map(line).collect();
    folder.put("list", list.as_bytes());
    folder.hods(&FROM_LIST).good();
    assert!(folder.hods(&["check", "book"]).good().contains("depth 5"));
}

#[test]
fn wrong_usage() {
    let folder = Folder::new("write-usage");
    pages(&folder);
    for args in [
        &["write"][..],
        &["write", "pages"],
        &["write", "-o"],
        &["write", "-o", "book"],
        &["write", "-o", "-", "pages"],
        &["write", "-o", "", "pages"],
        &["write", "-o", "book", "pages", "pages"],
        &["write", "-o", "book", "--list", "list"],
        &["write", "-o", "book", "--content", "content"],
        &["write", "-o", "book", "--list", "-", "--content", "-"],
        &[
            "write",
            "-o",
            "book",
            "--list",
            "l",
            "--content",
            "c",
            "pages",
        ],
        &["write", "-o", "book", "--density", "8", "pages"],
        &["write", "-o", "book", "--density", "two", "pages"],
        &["write", "-o", "book", "--time", "4294967296", "pages"],
        &["write", "-o", "book", "--language=", "pages"],
    ] {
        fails(&folder, args, 2, &["hods --help"]);
    }
    let args = ["write", "-o", "book", "--list", "gone", "--content", "gone"];
    fails(&folder, &args, 2, &["hods: gone: No such file"]);
}
