//! Measures this implementation beside the others: `measure BOOK NAMES [MEASUREMENT]`, with the arguments and lines of tests/bench.h. Its time is the clock's,
//! since the standard library has no other; the best of many counts.
use std::sync::atomic::{AtomicU64, Ordering};
use std::time::Instant;

/// The sum of what was told, so that no call is left out.
static KEPT: AtomicU64 = AtomicU64::new(0);

struct Asked {
    book: Vec<u8>,
    path: String,
    there: Vec<Vec<u8>>,
    missing: Vec<Vec<u8>>,
    record: second::Record,
    entries: Vec<u8>,
}

impl Asked {
    fn new(path: &str, names: &str) -> Asked {
        let book = std::fs::read(path).expect("the book");
        let list = std::fs::read(names).expect("the names");
        let of = |sign: u8| {
            let lines = list.split(|&b| b == b'\n');
            let signed = lines.filter(|line| line.first() == Some(&sign));
            signed.map(|line| line[1..].to_vec()).collect()
        };
        let record = second::open(&book).expect("a book");
        let mut entries = Vec::new();
        each_entry(&book, &record, |listed| {
            entries.extend(second::own_bytes(&book, &listed));
        });
        let (there, missing) = (of(b'+'), of(b'-'));
        let path = path.to_string();
        Asked {
            book,
            path,
            there,
            missing,
            record,
            entries,
        }
    }
}

fn each_entry(book: &[u8], record: &second::Record, mut told: impl FnMut(second::Listed)) {
    let mut chunk = record.first;
    while chunk != u64::from(second::NONE) {
        let (entries, next) = second::chunk_listed(book, record, chunk).expect("a listing chunk");
        entries.into_iter().for_each(&mut told);
        chunk = u64::from(next);
    }
}

#[no_mangle]
#[inline(never)]
fn measure_open(asked: &Asked) -> u64 {
    second::open(&asked.book).expect("a book").count
}

#[no_mangle]
#[inline(never)]
fn measure_open_path(asked: &Asked) -> u64 {
    let book = std::fs::read(&asked.path).expect("the book");
    second::open(&book).expect("a book").count
}

#[no_mangle]
#[inline(never)]
fn measure_find_hit(asked: &Asked) -> u64 {
    let find = |name: &Vec<u8>| match second::lookup(&asked.book, &asked.record, name, 5) {
        second::Answer::Found { report, .. } => report.offset,
        _ => panic!("not found"),
    };
    asked.there.iter().map(find).sum()
}

#[no_mangle]
#[inline(never)]
fn measure_find_miss(asked: &Asked) -> u64 {
    for name in &asked.missing {
        let answer = second::lookup(&asked.book, &asked.record, name, 5);
        assert!(matches!(answer, second::Answer::Absent { .. }));
    }
    0
}

#[no_mangle]
#[inline(never)]
fn measure_list(asked: &Asked) -> u64 {
    let mut sum = 0;
    each_entry(&asked.book, &asked.record, |listed| {
        let report = listed.report;
        let last = asked.book[(report.place + report.length - 1) as usize];
        sum += report.offset + report.size + u64::from(last);
    });
    sum
}

#[no_mangle]
#[inline(never)]
fn measure_write(asked: &Asked) -> u64 {
    let r = &asked.record;
    let content = asked.book.len() as u64 - r.content;
    let (density, time, language) = (r.density as u32, r.time as u32, r.language as u32);
    let room = r.content as usize;
    let head = second::write_head(&asked.entries, density, time, language, content, room);
    head.expect("a head").len() as u64
}

type Measure = (&'static str, fn(&Asked) -> u64);

const ALL: [Measure; 6] = [
    ("open", measure_open),
    ("open_path", measure_open_path),
    ("find_hit", measure_find_hit),
    ("find_miss", measure_find_miss),
    ("list", measure_list),
    ("write", measure_write),
];

fn main() {
    let words: Vec<String> = std::env::args().collect();
    let asked = Asked::new(&words[1], &words[2]);
    if let Some(one) = words.get(3) {
        let (_, call) = ALL
            .iter()
            .find(|(name, _)| name == one)
            .expect("a measurement");
        println!("{}", call(&asked));
        return;
    }
    for (name, call) in ALL {
        let mut best = f64::MAX;
        for _ in 0..3 {
            let from = Instant::now();
            KEPT.fetch_add(call(&asked), Ordering::Relaxed);
            best = best.min(from.elapsed().as_secs_f64() * 1e3);
        }
        println!("{} second {:.6}", name, best);
    }
}
