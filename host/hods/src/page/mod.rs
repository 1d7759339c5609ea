//! The page of `hods compare --html`. It stands by itself: style and script are in it, and its policy forbids a browser to load or to run anything else. Names are
//! escaped. Without script it shows every difference; the script adds the filters.

use hodsplinter::{Book, Change, Entry, Totals};

use crate::compare::{differences, summary, Issues};
use crate::list::numbers;
use crate::text::{html, many, shown};

const STYLE: &str = include_str!("style.css");
const SCRIPT: &str = include_str!("script.js");

/// The SHA-256 of both, for the policy: a browser obeys neither where its hash differs. tests/host/page holds them to the files.
const STYLE_HASH: &str = "e4vwSgSzUuwn8aHoqyRqwlfsrvBnxkmDPFLmG8raVG4=";
const SCRIPT_HASH: &str = "iljuscnIMPgGhzS5zl/85EItb1ptxWx72xXtTDCRyHM=";

/// How many rows a group has.
const GROUP: usize = 2_000;

/// A kind of difference.
struct Kind {
    /// Its word for the style, the script and the address of a filtered view.
    word: &'static str,
    sign: char,
    /// What the filter for it is called.
    label: &'static str,
    /// What it means, in HTML.
    meaning: &'static str,
}

const OLD: Kind = Kind {
    word: "old",
    sign: '-',
    label: "only in the old",
    meaning: "only in the old issue",
};

const NEW: Kind = Kind {
    word: "new",
    sign: '+',
    label: "only in the new",
    meaning: "only in the new issue",
};

const CHANGED: Kind = Kind {
    word: "changed",
    sign: '~',
    label: "changed",
    meaning: "in both, with another section, offset or length, which is <mark>marked</mark>",
};

/// Names that both have with the same numbers; they are counted alone.
const SAME: Kind = Kind {
    word: "same",
    sign: '=',
    label: "the same",
    meaning: "the same in both, not listed here",
};

/// Which names are the same, in the caption of the totals.
const NAMES: &str = "A name is in both issues if its bytes agree, A to Z and a to z being one. A name of which nothing but the case differs is the same. Entries are \
    compared, not the bytes that they stand for.";

/// How names are written, in the caption of the differences.
const ESCAPES: &str = "In a name, a byte that does not print stands as \\xNN, a backslash as \\\\.";

/// All that stands in front of the rows.
pub fn front(issues: &Issues, totals: &Totals) -> String {
    let (head, facts, legend) = (head(issues, totals), facts(issues, totals), legend(totals));
    let said = html(&summary(issues, totals));
    let table = match differences(totals) {
        0 => String::new(),
        _ => filters(totals) + &table_head(),
    };
    format!(
        "{head}<body>\n<h1>Two issues side by side</h1>\n<p class=\"summary\">{said}</p>\n\
        <div class=\"about\">\n{facts}{legend}</div>\n{table}"
    )
}

fn head(issues: &Issues, totals: &Totals) -> String {
    let [old, new] = [0, 1].map(|i| html(&issues.called[i]));
    let count = many(differences(totals), "difference", "differences");
    let script = match differences(totals) {
        0 => String::new(),
        _ => format!("<script>{SCRIPT}</script>\n"),
    };
    format!(
        "<!DOCTYPE html>\n<html lang=\"en\">\n<head>\n<meta charset=\"utf-8\">\n\
        <meta http-equiv=\"Content-Security-Policy\" content=\"default-src 'none'; style-src 'sha256-{STYLE_HASH}'; \
        script-src 'sha256-{SCRIPT_HASH}'; base-uri 'none'; form-action 'none'\">\n\
        <meta name=\"viewport\" content=\"width=device-width, initial-scale=1\">\n\
        <title>{old} and {new}: {count}</title>\n<style>{STYLE}</style>\n{script}</head>\n"
    )
}

/// What the head of each book says; entries are counted by FORMAT X12.
fn facts(issues: &Issues, totals: &Totals) -> String {
    let common = totals.same + totals.changed;
    let old = told(&issues.old, common + totals.only_first);
    let new = told(&issues.new, common + totals.only_second);
    let mut rows = String::new();
    for ((what, old), (_, new)) in old.iter().zip(&new) {
        let [old, new] = [old, new].map(|n| marked(n, old != new));
        rows += &format!("<tr><th scope=\"row\">{what}</th><td>{old}</td><td>{new}</td></tr>\n");
    }
    let [old, new] = [0, 1].map(|i| html(&issues.called[i]));
    format!(
        "<table class=\"facts\">\n<caption>The two issues</caption>\n\
        <thead><tr><td></td><th scope=\"col\">Old</th><th scope=\"col\">New</th></tr></thead>\n<tbody>\n\
        <tr><th scope=\"row\">File</th><td><bdi>{old}</bdi></td><td><bdi>{new}</bdi></td></tr>\n{rows}</tbody>\n</table>\n"
    )
}

fn told(book: &Book, entries: u64) -> [(&'static str, String); 8] {
    let (record, bytes) = (book.record(), book.file().len() as u64);
    [
        ("Bytes", bytes.to_string()),
        (
            "Bytes of content",
            (bytes - record.content_start).to_string(),
        ),
        ("Entries", entries.to_string()),
        ("Chunks", record.count.to_string()),
        ("Depth", record.depth.to_string()),
        ("Version", record.version.to_string()),
        ("Language", format!("0x{:x}", record.language)),
        ("Time", format!("0x{:x}", record.time)),
    ]
}

fn marked(text: &str, mark: bool) -> String {
    match mark {
        true => format!("<mark>{text}</mark>"),
        false => text.to_string(),
    }
}

/// The kinds with their signs, and how many names there are of each.
fn legend(totals: &Totals) -> String {
    let mut rows = String::new();
    for (kind, count) in counted(totals) {
        let Kind { word, meaning, .. } = kind;
        let sign = sign(&kind);
        rows += &format!(
            "<tr class=\"{word}\"><th scope=\"row\">{sign} {meaning}</th><td>{count}</td></tr>\n"
        );
    }
    format!(
        "<table class=\"totals\">\n<caption>Names <span>{NAMES}</span></caption>\n<tbody>\n{rows}</tbody>\n</table>\n"
    )
}

fn counted(totals: &Totals) -> [(Kind, u64); 4] {
    [
        (OLD, totals.only_first),
        (NEW, totals.only_second),
        (CHANGED, totals.changed),
        (SAME, totals.same),
    ]
}

fn sign(kind: &Kind) -> String {
    format!("<b>{}</b>", kind.sign)
}

/// The filters, which only the script shows.
fn filters(totals: &Totals) -> String {
    let mut boxes = String::new();
    for (kind, count) in &counted(totals)[..3] {
        let Kind { word, label, .. } = kind;
        let sign = sign(kind);
        boxes += &format!(
            "<label class=\"{word}\"><input type=\"checkbox\" name=\"{word}\" checked> {sign} {label} <span class=\"count\">{count}</span></label>\n"
        );
    }
    format!(
        "<form id=\"filters\" hidden>\n<fieldset>\n<legend>Show</legend>\n{boxes}</fieldset>\n\
        <label>Name contains <input type=\"search\" name=\"q\" autocomplete=\"off\" spellcheck=\"false\"></label>\n\
        <button type=\"reset\">Clear filters</button>\n</form>\n\
        <p id=\"told\" role=\"status\" hidden></p>\n"
    )
}

fn table_head() -> String {
    let numbers =
        "<th scope=\"col\">Section</th><th scope=\"col\">Offset</th><th scope=\"col\">Length</th>";
    format!(
        "<table id=\"differences\">\n<caption>{ESCAPES}</caption>\n<thead>\n\
        <tr><th scope=\"colgroup\" colspan=\"3\">Old</th><th scope=\"col\" rowspan=\"2\">Name</th><th scope=\"colgroup\" colspan=\"3\">New</th></tr>\n\
        <tr>{numbers}{numbers}</tr>\n</thead>\n<tbody>\n"
    )
}

/// A difference: the old issue's numbers, the name, the new issue's. It has a number, from 0 on, by which the rows are put into groups: the script lets the browser
/// lay out one before it has seen them all.
pub fn row(number: usize, change: &Change) -> String {
    let group = match number % GROUP {
        0 if number > 0 => "</tbody>\n<tbody>\n",
        _ => "",
    };
    let none = "<td class=\"none\" colspan=\"3\">not there</td>".to_string();
    let (kind, old, new) = match change {
        Change::OnlyFirst(old) => (OLD, cells(old, old), none),
        Change::OnlySecond(new) => (NEW, none, cells(new, new)),
        Change::Changed(old, new) => (CHANGED, cells(old, new), cells(new, old)),
    };
    let (word, sign, names) = (kind.word, sign(&kind), names(change));
    format!("{group}<tr class=\"{word}\">{old}<th scope=\"row\">{sign} {names}</th>{new}</tr>\n")
}

/// An entry's numbers, with those marked that differ from another's.
fn cells(entry: &Entry, other: &Entry) -> String {
    let each = ["s", "o", "l"].into_iter().zip(numbers(entry));
    each.zip(numbers(other))
        .map(|((class, n), other)| {
            let n = marked(&n.to_string(), n != other);
            format!("<td class=\"{class}\">{n}</td>")
        })
        .collect()
}

/// The name, and the one in the new issue where its case differs.
fn names(change: &Change) -> String {
    let name = |entry: &Entry| format!("<bdi>{}</bdi>", html(&shown(entry.name())));
    match change {
        Change::OnlyFirst(entry) | Change::OnlySecond(entry) => name(entry),
        Change::Changed(old, new) if old.name() == new.name() => name(old),
        Change::Changed(old, new) => {
            format!("{} <i>in the new issue</i> {}", name(old), name(new))
        }
    }
}

/// All that stands behind the rows.
pub fn end(totals: &Totals) -> String {
    let table = match differences(totals) {
        0 => "",
        _ => "</tbody>\n</table>\n<p><button id=\"more\" type=\"button\" hidden></button></p>\n",
    };
    format!("{table}</body>\n</html>\n")
}
