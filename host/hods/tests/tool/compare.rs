//! `hods compare`.

use std::fs;
use std::os::unix::fs::symlink;

use crate::run::{book_of, command, fed, hods, sample, Folder, Ran, FROM_LIST};

const OLD: &str = "0 0 0 /\n0 0 5 /a.htm\n1 3 4 /c\n7 8 9 /Moved\n1 1 1 /same\n0 0 1 <b>\\xff&\n";
const NEW: &str = "0 0 0 /\n0 0 4 /A.htm\n1 7 9 /b\n6 7 8 /Moved\n1 1 1 /SAME\n";

/// What is said of these two.
const LINES: &str = "\
~ /a.htm -> /A.htm: length 5 -> 4
+ /b: section 1, offset 7, length 9
- /c: section 1, offset 3, length 4
~ /Moved: section 7 -> 6, offset 8 -> 7, length 9 -> 8
- <b>\\xff&: section 0, offset 0, length 1
";
const SUMMARY: &str = "2 only in old, 1 only in new, 2 changed, 2 the same\n";

/// A folder with the books `old` and `new`.
fn issues(label: &str) -> Folder {
    let folder = Folder::new(label);
    folder.put("content", b"hello");
    for (name, list) in [("old", OLD), ("new", NEW)] {
        folder.put("list", list.as_bytes());
        folder.hods(&FROM_LIST).good();
        fs::rename(folder.path("book"), folder.path(name)).unwrap();
    }
    folder
}

/// The books differ: the status tells, and nothing else is complained of.
#[track_caller]
fn differ(run: &Ran) -> &str {
    assert_eq!((run.status, &run.err[..]), (1, ""));
    run.out()
}

#[test]
fn lines() {
    let folder = issues("compare-lines");
    let run = folder.hods(&["compare", "old", "new"]);
    assert_eq!(differ(&run), format!("{LINES}{SUMMARY}"));
    let run = folder.hods(&["compare", "new", "old"]);
    let summary = "1 only in new, 2 only in old, 2 changed, 2 the same\n";
    assert!(differ(&run).starts_with("~ /A.htm -> /a.htm: length 4 -> 5\n- /b: section 1, "));
    assert!(run.out().ends_with(summary));
    for (old, new) in [("-", "new"), ("old", "-")] {
        let input = folder.read(if old == "-" { "old" } else { "new" });
        let run = fed(folder.command(&["compare", old, new]), &input);
        assert!(differ(&run).starts_with(LINES));
        assert!(run.out().contains(" only in standard input, "));
    }
}

#[test]
fn no_difference() {
    let none = "no difference: 233 entries are the same\n";
    let run = hods(&["compare", "several.chm", "several.chm"]);
    assert_eq!(run.good(), none);
    let run = fed(
        command(&["compare", "-", "several.chm"]),
        &sample("several.chm"),
    );
    assert_eq!(run.good(), none);
    let run = hods(&["compare", "--json", "sample.chm", "sample.chm"]);
    let totals = "{\"only_old\":0,\"only_new\":0,\"same\":2,\"changed\":0}";
    let want = format!("{{\"totals\":{totals},\n\"differences\":[\n]}}\n");
    assert_eq!(run.good(), want);
    assert_eq!(
        hods(&["compare", "-q", "sample.chm", "sample.chm"]).good(),
        ""
    );
}

/// A padded number differs in nothing from its short form.
#[test]
fn padded_numbers() {
    let folder = Folder::new("compare-padded");
    folder.put("short", &sample("sample.chm"));
    let first = b"\x80\x80\x01/\0\x80\0\0";
    folder.put("padded", &book_of(&[first, b"\x06/a.htm\0\0\x80\x05"]));
    let run = folder.hods(&["compare", "short", "padded"]);
    assert_eq!(run.good(), "no difference: 2 entries are the same\n");
    folder.put("moved", &book_of(&[first, b"\x06/a.htm\0\x80\x01\x04"]));
    let run = folder.hods(&["compare", "padded", "moved"]);
    let change = "~ /a.htm: offset 0 -> 1, length 5 -> 4\n";
    assert!(differ(&run).starts_with(change), "{}", run.out());
}

#[test]
fn quiet() {
    let folder = issues("compare-quiet");
    for option in ["-q", "--quiet"] {
        let run = folder.hods(&["compare", option, "old", "new"]);
        assert_eq!(differ(&run), "");
    }
    let run = folder.hods(&["compare", "-q", "old", "content"]);
    run.bad(1, &["hods: content: refusal 1 "]);
}

#[test]
fn json() {
    let folder = issues("compare-json");
    let run = folder.hods(&["compare", "old", "--json", "new"]);
    let lines: Vec<&str> = differ(&run).lines().collect();
    assert_eq!(lines.len(), 8);
    assert_eq!(
        lines[0],
        "{\"totals\":{\"only_old\":2,\"only_new\":1,\"same\":2,\"changed\":2},"
    );
    assert_eq!(
        lines[3],
        "{\"kind\":\"only_new\",\"old\":null,\"new\":{\"name\":\"/b\",\"section\":1,\"offset\":7,\"length\":9}},"
    );
    let name = "{\"name\":null,\"name_hex\":\"3c623eff26\",\"section\":0,";
    assert!(lines[6].starts_with(&format!("{{\"kind\":\"only_old\",\"old\":{name}")));
    assert_eq!((lines[1], lines[7]), ("\"differences\":[", "]}"));
}

/// Each refused book is told of, whichever it is, as `hods check` does, and the worse status counts.
#[test]
fn refused_books() {
    let tag = "chunk.bin: refusal 2 (FORMAT R2, F1) at 0x0: the tag is 50 4D 47 4C, not 49 54 53 46 (ITSF)\n";
    hods(&["compare", "chunk.bin", "sample.chm"]).bad(1, &[tag]);
    hods(&["compare", "sample.chm", "chunk.bin"]).bad(1, &[tag]);
    hods(&["compare", "gone", "sample.chm"]).bad(2, &["hods: gone: No such file"]);
    hods(&["compare", "sample.chm", "."]).bad(2, &["hods: .: Is a directory"]);
    for (old, new, status) in [("chunk.bin", "gone", 2), ("gone", "chunk.bin", 2)] {
        let run = hods(&["compare", "--json", old, new]);
        assert_eq!(
            (run.status, run.out(), run.err.lines().count()),
            (status, "", 2)
        );
        run.says(&[tag, "hods: gone: No such file"]);
        assert!(run.err.starts_with(&format!("hods: {old}: ")));
    }

    let folder = issues("compare-refused");
    let mut book = sample("several.chm");
    book[0x78 + 84 + 3 * 4096] = b'?';
    folder.put("hurt", &book);
    let [first, second] = ["content", "hurt"].map(|name| folder.hods(&["check", name]).err);
    let run = folder.hods(&["compare", "content", "hurt", "--html", "page"]);
    assert_eq!((run.status, run.out()), (1, ""));
    assert_eq!(run.err, first + &second);
    assert!(!folder.path("page").exists());
}

#[test]
fn page() {
    let folder = issues("compare-page");
    let run = folder.hods(&["compare", "old", "new", "--html", "page"]);
    assert_eq!(differ(&run), SUMMARY);
    let page = String::from_utf8(folder.read("page")).unwrap();
    for want in [
        "<title>old and new: 5 differences</title>",
        "<bdi>&lt;b&gt;\\xff&amp;</bdi>",
        "<tr class=\"changed\"><td class=\"s\">0</td><td class=\"o\">0</td><td class=\"l\"><mark>5</mark></td>\
        <th scope=\"row\"><b>~</b> <bdi>/a.htm</bdi> <i>in the new issue</i> <bdi>/A.htm</bdi></th>",
    ] {
        assert!(page.contains(want), "{want}");
    }
    assert_eq!(page.matches("<tr class=\"old\">").count(), 3);

    // The same page again, quietly or with the lines of a program.
    let run = folder.hods(&["compare", "old", "new", "-q", "--html=quiet"]);
    assert_eq!(differ(&run), "");
    let run = folder.hods(&["compare", "old", "new", "--json", "--html=json"]);
    assert!(differ(&run).ends_with("\n]}\n"));
    for name in ["quiet", "json"] {
        assert_eq!(folder.read(name), page.as_bytes());
    }
    let run = folder.hods(&["compare", "old", "old", "--html", "none"]);
    assert_eq!(run.good(), "no difference: 6 entries are the same\n");
    let page = String::from_utf8(folder.read("none")).unwrap();
    assert!(page.contains("0 differences") && !page.contains("<script"));
}

/// The run fails, and the folder has what it had before.
fn fails(folder: &Folder, args: &[&str], words: &[&str]) {
    let before = folder.names();
    folder.hods(args).bad(2, words);
    assert_eq!(folder.names(), before, "{args:?}");
}

#[test]
fn pages_replace_nothing_but_by_force() {
    let folder = issues("compare-force");
    folder.put("page", b"precious");
    let args = ["compare", "old", "new", "--html", "page"];
    fails(&folder, &args, &["hods: page: it is there", "--force"]);
    assert_eq!(folder.read("page"), b"precious");
    let run = folder.hods(&["compare", "-f", "old", "new", "--html", "page"]);
    assert_eq!(differ(&run), SUMMARY);
    assert!(folder.read("page").starts_with(b"<!DOCTYPE html>"));

    symlink("page", folder.path("link")).unwrap();
    fs::create_dir(folder.path("folder")).unwrap();
    for name in ["link", "folder", "/dev/full", "/dev/null"] {
        for force in ["--html=", "-f --html="] {
            let option = format!("{force}{name}");
            let options: Vec<&str> = option.split(' ').collect();
            let args = [&["compare", "old", "new"], &options[..]].concat();
            fails(
                &folder,
                &args,
                &[&format!("hods: {name}: it is there"), "no regular file"],
            );
        }
    }
    let args = ["compare", "old", "new", "--html", "no/page"];
    fails(&folder, &args, &["hods: no/page: No such file"]);
}

/// Neither book, by whichever name.
#[test]
fn a_page_is_none_of_the_books() {
    let folder = issues("compare-own");
    let (old, new) = (folder.read("old"), folder.read("new"));
    fs::hard_link(folder.path("old"), folder.path("other")).unwrap();
    let words = ["this is one of the books to be compared"];
    for name in ["old", "new", "./new", "other"] {
        let args = ["compare", "old", "new", "--html", name, "-f"];
        fails(&folder, &args, &words);
        fails(&folder, &args[..5], &words);
    }
    let mut from_file = folder.command(&["compare", "-", "new", "-f", "--html", "old"]);
    let file = fs::File::open(folder.path("old")).unwrap();
    Ran::of(from_file.stdin(file).output().unwrap()).bad(2, &words);
    assert_eq!((folder.read("old"), folder.read("new")), (old, new));
}

#[test]
fn wrong_usage() {
    for args in [
        &["compare"][..],
        &["compare", "sample.chm"],
        &["compare", "sample.chm", "sample.chm", "sample.chm"],
        &["compare", "-", "-"],
        &["compare", "--json", "-q", "sample.chm", "sample.chm"],
        &["compare", "-f", "sample.chm", "sample.chm"],
        &["compare", "--html", "-", "sample.chm", "sample.chm"],
        &["compare", "--html=", "sample.chm", "sample.chm"],
        &["compare", "sample.chm", "sample.chm", "--html"],
        &["compare", "--frames", "sample.chm", "sample.chm"],
    ] {
        hods(args).bad(2, &["hods --help"]);
    }
}
