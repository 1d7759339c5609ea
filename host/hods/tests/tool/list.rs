//! `hods list`.

use crate::run::{book_of, command, fed, hods, sample, Folder, FROM_LIST};

#[test]
fn columns() {
    assert_eq!(
        hods(&["list", "sample.chm"]).good(),
        "0 0 0 /\n0 0 5 /a.htm\n"
    );
    let run = hods(&["list", "several.chm"]);
    let lines: Vec<&str> = run.good().lines().collect();
    assert_eq!(lines.len(), 233);
    assert_eq!(lines[1], "0       0    8 /#SYSTEM");
    assert_eq!(lines[231], "0      46   20 ::DataSpace/NameList");
    assert!(lines[4].starts_with("1   18800 4215 /events/1720/lower-reaches/station-01/"));
}

#[test]
fn json() {
    let want = "[\n\
        {\"name\":\"/\",\"section\":0,\"offset\":0,\"length\":0},\n\
        {\"name\":\"/a.htm\",\"section\":0,\"offset\":0,\"length\":5}\n\
        ]\n";
    assert_eq!(hods(&["list", "--json", "sample.chm"]).good(), want);
    let run = fed(command(&["list", "-", "--json"]), &sample("sample.chm"));
    assert_eq!(run.good(), want);
    let run = hods(&["list", "--json", "several.chm"]);
    assert_eq!(run.good().lines().count(), 235);
    assert!(run.good().contains("{\"name\":\"/züge.htm\","));
}

#[test]
fn frames() {
    let run = hods(&["list", "--frames", "sample.chm"]);
    assert_eq!(run.good(), "012f000000\n062f612e68746d000005\n");
    let run = hods(&["list", "--frames", "chunk.bin"]);
    assert_eq!((run.status, run.out()), (1, "ee02ffffffff\n"));
    run.says(&["R2"]);

    let folder = Folder::new("list-frames");
    let mut book = sample("several.chm");
    book[0x78 + 84 + 4 * 4096] = b'?';
    folder.put("book", &book);
    let run = folder.hods(&["list", "--frames", "book"]);
    assert_eq!((run.status, run.out()), (1, "ee0800000004\n"));
    folder
        .hods(&["list", "book"])
        .bad(1, &["refusal 8", "chunk 4"]);
    folder.hods(&["list", "--json", "book"]).bad(1, &["R8"]);
    folder.hods(&["list", "--frames", "gone"]).bad(2, &["gone"]);
}

/// A padded number is the number that it is; only the frames have its leading bytes 80.
#[test]
fn padded_numbers() {
    let folder = Folder::new("list-padded");
    let entries: [&[u8]; 3] = [
        b"\x80\x80\x01/\0\x80\0\0",
        b"\x02/a\0\x02\x03",
        b"\x02/b\x80\x07\x09\x80\x80\x80\x80\x80\x80\x80\x80\x08",
    ];
    folder.put("padded", &book_of(&entries));
    folder.hods(&["check", "padded"]).good();
    let lines = folder.hods(&["list", "padded"]);
    assert_eq!(lines.good(), "0 0 0 /\n0 2 3 /a\n7 9 8 /b\n");
    assert_eq!(
        folder.hods(&["list", "--frames", "padded"]).good(),
        "8080012f00800000\n022f61000203\n022f62800709808080808080808008\n"
    );
    folder.put("list", &lines.bytes);
    folder.put("content", b"hello");
    folder.hods(&FROM_LIST).good();
    assert_eq!(
        folder.hods(&["list", "--frames", "book"]).good(),
        "012f000000\n022f61000203\n022f62070908\n"
    );
}

#[test]
fn names_of_any_bytes() {
    let folder = Folder::new("list-names");
    let list = b"9 8 7 \\x1b[31m\n0 0 0 a\\\\b\n1 0 0 \\xff\\x22\n0 0 0  two words \n";
    folder.put("list", list);
    folder.put("content", b"");
    folder.hods(&FROM_LIST).good();
    assert_eq!(
        folder.hods(&["list", "book"]).good(),
        "9 8 7 \\x1b[31m\n0 0 0 a\\\\b\n0 0 0 two words\n1 0 0 \\xff\"\n"
    );
    let run = folder.hods(&["list", "--json", "book"]);
    for want in [
        "{\"name\":\"\\u001b[31m\",\"section\":9,\"offset\":8,\"length\":7}",
        "{\"name\":\"a\\\\b\",",
        "{\"name\":null,\"name_hex\":\"ff22\",\"section\":1,",
    ] {
        assert!(run.good().contains(want), "{}", run.out());
    }
}

#[test]
fn wrong_usage() {
    for args in [
        &["list"][..],
        &["list", "sample.chm", "several.chm"],
        &["list", "--json", "--frames", "sample.chm"],
        &["list", "--xml", "sample.chm"],
    ] {
        hods(args).bad(2, &["hods --help"]);
    }
}
