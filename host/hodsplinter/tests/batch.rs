//! Many names in one call.

use std::fs;

use hodsplinter::{batch, batch_bytes, push_name, read_answers, Answer, Book, Refusal, ANSWER};

fn sample(name: &str) -> Vec<u8> {
    fs::read(format!("../../samples/{name}")).unwrap()
}

/// Names as a batch takes them.
fn lent<N: AsRef<[u8]>>(names: &[N]) -> Vec<u8> {
    let mut bytes = Vec::new();
    for name in names {
        push_name(&mut bytes, name);
    }
    bytes
}

/// The numbers of an answer, status first.
fn numbers(answer: &Answer) -> [u64; 4] {
    match answer {
        Answer::Found {
            section,
            offset,
            length,
        } => [0, (*section).into(), *offset, *length],
        Answer::Absent => [255, 0, 0, 0],
        Answer::Refused(refusal) => [refusal.number().into(), 0, 0, 0],
    }
}

/// Five names of the sample book: two that it has, one that it lacks, one of no bytes, one that is too long.
fn five() -> [Vec<u8>; 5] {
    let named = |name: &[u8]| name.to_vec();
    [
        named(b"/"),
        named(b"/A.HTM"),
        named(b"/b"),
        named(b""),
        vec![b'x'; 1025],
    ]
}

/// What is said of them.
const TOLD: [[u64; 4]; 5] = [
    [0, 0, 0, 0],
    [0, 0, 0, 5],
    [255, 0, 0, 0],
    [15, 0, 0, 0],
    [15, 0, 0, 0],
];

#[test]
fn the_sample() {
    let file = sample("sample.chm");
    let answers = batch(&file, five()).unwrap();
    let told: Vec<_> = answers.iter().map(numbers).collect();
    assert_eq!(told, TOLD);
    assert_eq!(answers, batch(&file, five().iter()).unwrap());
    match answers[3] {
        Answer::Refused(refusal) => {
            assert_eq!(refusal, Book::open(&file).unwrap().find("").unwrap_err())
        }
        other => panic!("{other:?}"),
    }
    let none: [&str; 0] = [];
    assert_eq!(batch(&file, none), Ok(vec![]));
}

/// Each answer is that of a lookup of its own.
#[test]
fn every_name_of_a_book() {
    let file = sample("several.chm");
    let book = Book::open(&file).unwrap();
    let mut names: Vec<Vec<u8>> = vec![b"!".to_vec(), b"~".to_vec(), vec![b'x'; 1024]];
    for entry in book.entries() {
        let name = entry.name();
        names.extend([name.to_vec(), name.to_ascii_uppercase()]);
        names.extend([[name, b"\0"].concat(), name[1..].to_vec()]);
    }
    let answers = batch(&file, &names).unwrap();
    assert_eq!(answers.len(), names.len());
    for (name, answer) in names.iter().zip(answers) {
        let want = match book.find(name) {
            Ok(Some(entry)) => Answer::Found {
                section: entry.section(),
                offset: entry.offset(),
                length: entry.length(),
            },
            Ok(None) => Answer::Absent,
            Err(refusal) => Answer::Refused(refusal),
        };
        assert_eq!(answer, want, "{}", name.escape_ascii());
    }
}

/// The book is judged first, whatever the names are.
#[test]
fn refused_books() {
    let mut file = sample("several.chm");
    file[0x78 + 84 + 5 * 4096] = b'?';
    let want = Book::open(&file).unwrap_err();
    assert_eq!((want.number(), want.chunk()), (8, Some(5)));
    assert_eq!(batch(&file, ["/"]), Err(want));
    let none: [&[u8]; 0] = [];
    assert_eq!(batch(&file, none), Err(want));
    assert_eq!(batch_bytes(&file, b"\x80\x01", &mut []), Err(want));
    let short = batch(&file[..95], ["/"]);
    assert_eq!(short.map_err(Refusal::number), Err(1));
}

/// The room, with bytes that must stay behind it, and the number of the refusal.
fn asked(names: &[u8], room: usize) -> (Vec<u8>, Option<u8>) {
    let mut bytes = vec![0x4D; room + ANSWER];
    let done = batch_bytes(&sample("sample.chm"), names, &mut bytes[..room]);
    (bytes, done.err().map(Refusal::number))
}

#[test]
fn room() {
    let names = lent(&five());
    for room in [160, 161, 320] {
        let (bytes, refused) = asked(&names, room);
        assert_eq!(refused, None);
        let told: Vec<_> = read_answers(&bytes[..160]).map(|a| numbers(&a)).collect();
        assert_eq!(told, TOLD);
        assert!(bytes[160..].iter().all(|b| *b == 0x4D));
    }
    for room in [159, 32, 0] {
        assert_eq!(asked(&names, room), (vec![0x4D; room + ANSWER], Some(22)));
    }
    assert_eq!(asked(b"", 0), (vec![0x4D; ANSWER], None));
}

/// A name behind its length and so many bytes 80.
fn padded(many: usize, length: u8, name: &[u8]) -> Vec<u8> {
    [&vec![0x80; many][..], &[length], name].concat()
}

/// A padded length is the same length (docs/FORMAT.md, N4), up to nine bytes of it.
#[test]
fn padded_lengths() {
    for many in [0, 1, 2, 8] {
        let names = [
            padded(many, 1, b"/"),
            padded(many, 6, b"/A.HTM"),
            padded(many, 2, b"/b"),
            padded(many, 0, b""),
        ];
        let (bytes, refused) = asked(&names.concat(), 4 * ANSWER);
        assert_eq!(refused, None);
        let told: Vec<_> = read_answers(&bytes[..4 * ANSWER])
            .map(|a| numbers(&a))
            .collect();
        assert_eq!(told, TOLD[..4]);
    }
}

/// Names that break docs/FORMAT.md, B2. A long length alone is no fault: the name must be there.
#[test]
fn names_that_are_none() {
    let good = lent(&five());
    let highest = [0xFF, 0xFF, 0xFF, 0xFF, 0xFF, 0xFF, 0xFF, 0xFF, 0x7F];
    let ten = [&[0xFF; 9][..], &[0x7F]].concat();
    for bad in [
        &good[..good.len() - 1],
        &[&good[..], &[0x01]].concat(),
        &[&good[..], &[0x80]].concat(),
        &[0x80, 0x01],
        &[0x80],
        &[0x81],
        &highest,
        &ten,
        &padded(9, 1, b"/"),
    ] {
        assert_eq!(asked(bad, 320), (vec![0x4D; 320 + ANSWER], Some(22)));
    }
    let long = lent(&[vec![b'x'; 20_000]]);
    assert_eq!(long[..3], [0x81, 0x9C, 0x20]);
    let (bytes, refused) = asked(&long, ANSWER);
    assert_eq!((refused, bytes[0]), (None, 15));
}

#[test]
fn the_refusal_explains_itself() {
    let file = sample("sample.chm");
    let refusal = batch_bytes(&file, b"\x01/", &mut []).unwrap_err();
    assert_eq!((refusal.number(), refusal.chunk()), (22, None));
    assert_eq!(refusal.rows(), "B2, B5");
    assert_eq!(
        refusal.to_string(),
        "refusal 22 (FORMAT R22): a name is cut off or its length is no ENCINT, or the room for the answers is too short"
    );
}
