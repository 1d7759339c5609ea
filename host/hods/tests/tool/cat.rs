//! `hods cat`.

use crate::run::{command, fed, hods, sample};

#[test]
fn stored_bytes() {
    assert_eq!(hods(&["cat", "sample.chm", "/A.htm"]).good(), "hello");
    assert_eq!(hods(&["cat", "sample.chm", "/"]).good(), "");
    let run = fed(command(&["cat", "-", "/a.htm"]), &sample("sample.chm"));
    assert_eq!(run.good(), "hello");
    // The short files of this book hold their own names.
    for name in ["/#SYSTEM", "::DataSpace/NameList", "/züge.htm"] {
        assert_eq!(hods(&["cat", "several.chm", name]).good(), name);
    }
}

#[test]
fn nothing_to_be_had() {
    let page = "/events/1888/Oberwald/station-07/Protocol-of-the-slide-and-of-all-its-damage.htm";
    let run = hods(&["cat", "several.chm", page]);
    run.bad(1, &["hods: several.chm: ", page, "section 1", "E8, M1"]);
    hods(&["cat", "several.chm", "/gone"]).bad(1, &["several.chm: /gone is absent"]);
    hods(&["cat", "several.chm", ""]).bad(1, &["R15"]);
    hods(&["cat", "chunk.bin", "/"]).bad(1, &["R2"]);
    hods(&["cat", "gone.chm", "/"]).bad(2, &["gone.chm"]);
    hods(&["cat", "sample.chm"]).bad(2, &["hods --help"]);
    hods(&["cat", "sample.chm", "/", "/a.htm"]).bad(2, &["hods --help"]);
}
