//! The generators: what they call good is good, and what they aim at is hit.

use second::generate::ask::{batch_case, joined, lookup_case, opened_case, scan_case, step_case};
use second::generate::book::{book, book_of_depth};
use second::generate::damage::{damaged, damaged_twice, damages, varied};
use second::generate::names::other_case;
use second::generate::pairs::{pairs, Way, WAYS};
use second::generate::plan::{Book, Planned};
use second::generate::questions::{names_in, questions};
use second::generate::write::{deep_items, good_items, wide_entries};
use second::generate::{case, labels, outcome_of, refusal_of, Aim, Call, Case, Random};
use second::*;
use std::cmp::Ordering;
use std::collections::{BTreeMap, BTreeSet};

/// All entries by steps of the cursor.
fn listing(file: &[u8], record: &Record) -> Vec<Report> {
    let mut reports = Vec::new();
    let mut cursor = start(record);
    loop {
        match step(file, record, cursor) {
            Step::Entry(report, moved) => {
                reports.push(report);
                cursor = moved;
            }
            Step::End(end) => {
                assert_eq!(end, cursor);
                return reports;
            }
            Step::Refused(refusal) => panic!("{refusal:?}"),
        }
    }
}

/// All entries by whole chunks.
fn listing_by_chunks(file: &[u8], record: &Record) -> Vec<Report> {
    let mut reports = Vec::new();
    let mut chunk = record.first;
    while chunk != u64::from(NONE) {
        let (entries, next) = chunk_entries(file, record, chunk).unwrap();
        reports.extend(entries);
        chunk = next.into();
    }
    reports
}

/// The own bytes of all entries by the cursor, and in the frames of the program, are those of the
/// plan (FORMAT K25, P3).
fn check_own(file: &[u8], record: &Record, book: &Book) {
    let mut frames_of_plan = String::new();
    let mut cursor = start(record);
    for (listed, item) in book.listed().iter().zip(book.items()) {
        let (place, length) = own(file, record, cursor).unwrap();
        assert_eq!((place, length), (listed.place, listed.length));
        assert_eq!(part(file, place, length), item.bytes());
        let bytes = item.bytes().into_iter();
        frames_of_plan.extend(bytes.map(|byte| format!("{byte:02x}")));
        frames_of_plan.push('\n');
        match step(file, record, cursor) {
            Step::Entry(_, moved) => cursor = moved,
            other => panic!("{other:?}"),
        }
    }
    assert_eq!(own(file, record, cursor), None);
    if file.len() <= 60_000 {
        assert_eq!(frames(file), frames_of_plan);
    }
}

/// Opens, lists and asks a good book, and compares with its plan.
fn check_good(random: &mut Random, book: &Book) {
    let file = book.bytes();
    let record = open(&file).expect("a good book opens");
    assert_eq!(record, book.record());
    let reports = listing_by_chunks(&file, &record);
    let planned: Vec<Report> = book.listed().iter().map(|listed| listed.report).collect();
    assert_eq!(reports, planned);
    if reports.len() < 100 {
        assert_eq!(listing(&file, &record), reports);
        check_own(&file, &record, book);
    }
    let items = book.items();
    assert_eq!(reports.len(), items.len());
    for (report, item) in reports.iter().zip(&items) {
        let name = part(&file, report.place, report.length);
        assert_eq!(name, item.name);
        assert_eq!(
            [report.section, report.offset, report.size],
            item.fields[..]
        );
    }
    for _ in 0..20 {
        let at = random.index(items.len());
        let name = &items[at].name;
        let asked = other_case(random, name).unwrap_or(name.clone());
        for name in [name, &asked] {
            match lookup(&file, &record, name, 5) {
                Answer::Found { report, trail, .. } => {
                    assert_eq!(report, reports[at]);
                    assert_eq!(trail.len() as u64, record.depth);
                    assert!(trail[0] == book.root || record.depth == 1);
                }
                other => panic!("{other:?}"),
            }
            assert_eq!(scan(&file, &record, name), Reply::Found(reports[at]));
        }
    }
}

/// The numbers of a chunk that are padded, by their order in an entry and by what pads them.
fn padded_numbers(chunk: &Planned) -> BTreeSet<(usize, &'static str)> {
    let mut seen = BTreeSet::new();
    for item in &chunk.items {
        for (number, bytes) in item.numbers().iter().enumerate() {
            let (value, taken) = read_encint(bytes).unwrap();
            assert_eq!((value, taken), (item.value(number), bytes.len()));
            let how = match (taken - encint(value).len(), taken) {
                (0, _) => continue,
                (1, _) => "by 1 byte",
                (8, _) => "by 8 bytes",
                (_, 9) => "to nine bytes",
                _ => "otherwise",
            };
            seen.insert((number, how));
        }
    }
    seen
}

/// One book in four or so is padded, in each number and by each width.
#[test]
fn some_books_are_padded() {
    let random = &mut Random::new(26);
    let (mut books, mut seen) = (0, BTreeSet::new());
    for _ in 0..2000 {
        let book = book(random);
        let mut padded = false;
        for chunk in &book.chunks {
            let numbers = padded_numbers(chunk);
            padded |= !numbers.is_empty();
            let kind = chunk.is_listing();
            seen.extend(numbers.into_iter().map(|number| (kind, number)));
        }
        books += u64::from(padded);
    }
    assert!((300..600).contains(&books), "{books}");
    // Four numbers of listing entries and two of index entries, each padded in four ways.
    assert_eq!(seen.len(), (4 + 2) * 4, "{seen:?}");
}

#[test]
fn good_books_are_good() {
    let random = &mut Random::new(11);
    let mut seen = BTreeSet::new();
    for index in 0..400 {
        let book = match index % 8 {
            0 => book_of_depth(random, 1 + index / 8 % 5),
            _ => book(random),
        };
        check_good(random, &book);
        for chunk in &book.chunks {
            let full = chunk.tail() == 2 + 2 * chunk.words(book.density);
            let words = chunk.words(book.density).min(2);
            let kind = if chunk.is_listing() {
                "listing"
            } else {
                "index"
            };
            seen.insert(format!("{kind}, {words} words, full {full}"));
            for item in &chunk.items {
                let length = item.name.len();
                if [1, 127, 128, 1024].contains(&length) {
                    seen.insert(format!("name of {length}"));
                }
            }
        }
        seen.insert(format!("version {}", book.version));
        seen.insert(format!("density {}", book.density));
        seen.insert(format!("depth {}", book.depth));
        seen.insert(format!("section 0 first {}", book.section_first));
        seen.insert(format!("no gaps {}", book.gaps == [0; 3]));
        seen.insert(format!("content {}", !book.content.is_empty()));
        seen.insert(format!("noise {}", book.noise.is_some()));
        seen.insert(format!("one root {}", book.depth == 1 && book.root == 0));
        seen.insert(format!("many chunks {}", book.chunks.len() > 128));
        let rising = book.chain().windows(2).all(|pair| pair[0] < pair[1]);
        seen.insert(format!("numbered along the chain {rising}"));
    }
    // Every feature came up: full and loose chunks of both kinds with 0, 1 and more words; four
    // lengths of names; versions, densities, depths; and seven things that are or are not so.
    let missing = 12 + 4 + 2 + 8 + 5 + 7 * 2 - seen.len();
    assert_eq!(missing, 0, "{seen:#?}");
}

/// A lookup agrees with a search through the whole listing, and with a scan (FORMAT K20).
#[test]
fn lookups_agree_with_the_listing() {
    let mut found = 0;
    let mut absent = 0;
    let random = &mut Random::new(12);
    for _ in 0..3000 {
        let case = lookup_case(random);
        let file = case.file;
        let (record, name, places) = match case.call {
            Call::Lookup {
                record,
                name,
                places,
            } => (record, name, places),
            _ => unreachable!(),
        };
        if open(&file) != Ok(record) || case.aim != Aim::Good {
            continue;
        }
        let held = listing_by_chunks(&file, &record)
            .into_iter()
            .find(|report| compare(part(&file, report.place, report.length), &name).is_eq());
        let answer = lookup(&file, &record, &name, places);
        assert_eq!(scan(&file, &record, &name), answer.reply());
        match answer {
            Answer::Found { report, .. } => {
                assert_eq!(Some(report), held);
                found += 1;
            }
            Answer::Absent { trail, .. } => {
                assert_eq!(None, held);
                assert!(trail.len() == 1 || trail.len() as u64 == record.depth);
                absent += 1;
            }
            Answer::Refused(refusal) => panic!("{refusal:?}"),
        }
    }
    assert!(found > 100 && absent > 100, "{found} {absent}");
}

/// What lookup, with enough places, and scan have to make of a case by its label.
fn both_searches(label: &str, found: Reply, scanned: Reply) -> bool {
    use Reply::{Absent, Found};
    match label {
        "scan for a name below its index entry"
        | "scan for a name whose index entry is left out" => {
            matches!((found, scanned), (Absent, Found(_)))
        }
        "scan for a name behind a chain cut short" => {
            matches!((found, scanned), (Found(_), Absent))
        }
        "scan for a name that the index leads to in a later chunk" => {
            matches!((found, scanned), (Found(one), Found(two)) if one != two)
        }
        _ => true,
    }
}

/// Every aim of a scan is hit, and lookup differs from scan where it has to.
#[test]
fn scans_follow_no_index() {
    let random = &mut Random::new(19);
    let mut pairs = BTreeSet::new();
    let word = |reply| match reply {
        Reply::Found(_) => "found",
        Reply::Absent => "absent",
        Reply::Refused(_) => "refused",
    };
    for _ in 0..4000 {
        let case = scan_case(random);
        let (file, label) = (&case.file, case.label);
        let (record, name) = match &case.call {
            Call::Scan { record, name } => (record, name),
            _ => unreachable!(),
        };
        let outcome = outcome_of(file, &case.call);
        assert!(case.aim.allows(&outcome), "{label}: {outcome:?}");
        let found = lookup(file, record, name, 5).reply();
        let scanned = scan(file, record, name);
        assert!(both_searches(label, found, scanned), "{label}");
        pairs.insert((word(found), word(scanned)));
    }
    assert_eq!(pairs.len(), 9, "{pairs:?}");
}

/// What the rules say of a lookup in an opened book, in words. With the book's own record it is what
/// lookup and scan say (FORMAT K23), otherwise just the name and the record are judged (FORMAT K24).
fn opened_word(file: &[u8], record: &Record, name: &[u8]) -> &'static str {
    let found = lookup(file, record, name, 5).reply();
    if let Reply::Found(report) = found {
        assert!(stands_there(file, &report, name));
    }
    match lookup_opened(open(file), file, record, name) {
        Expected::Exactly(reply) => {
            assert_eq!(reply, found);
            assert_eq!(reply, scan(file, record, name));
            let own = open(file) == Ok(*record);
            match reply {
                Reply::Found(_) if own => "found",
                Reply::Absent if own => "absent",
                Reply::Refused(refusal) if own => {
                    assert_eq!(refusal, Refusal::new(15));
                    "refused"
                }
                Reply::Refused(_) => "refused in other bytes",
                _ => panic!("{reply:?}"),
            }
        }
        Expected::FoundThereOrAbsent => match found {
            Reply::Found(_) => "open, lookup finds",
            Reply::Absent => "open, lookup does not find",
            Reply::Refused(refusal) => {
                assert_eq!(refusal, Refusal::new(17));
                "open, lookup refuses"
            }
        },
    }
}

/// Every aim of a lookup in an opened book is hit.
#[test]
fn lookups_in_opened_books() {
    let random = &mut Random::new(20);
    let mut seen = BTreeMap::new();
    for _ in 0..3000 {
        let case = opened_case(random);
        let (file, label) = (&case.file, case.label);
        let outcome = outcome_of(file, &case.call);
        assert!(case.aim.allows(&outcome), "{label}: {outcome:?}");
        let word = match &case.call {
            Call::Opened { record, name } => opened_word(file, record, name),
            _ => unreachable!(),
        };
        *seen.entry(word).or_insert(0) += 1;
    }
    assert_eq!(seen.len(), 7, "{seen:?}");
    assert!(seen.values().all(|&count| count > 20), "{seen:?}");
}

/// The four numbers of a name by a search through the whole listing.
fn listed_answer(file: &[u8], reports: &[Report], name: &[u8]) -> [u64; 4] {
    let mut same = reports
        .iter()
        .filter(|report| compare(part(file, report.place, report.length), name).is_eq());
    match (name.len(), same.next()) {
        (1..=1024, Some(report)) => [0, report.section, report.offset, report.size],
        (1..=1024, None) => [255, 0, 0, 0],
        _ => [15, 0, 0, 0],
    }
}

/// Checks the answers of a batch against the listing and counts their statuses.
fn check_answers(file: &[u8], names: &[u8], answers: &[u8], statuses: &mut BTreeMap<u64, u64>) {
    let names = batch_names(names).unwrap();
    let reports = listing_by_chunks(file, &open(file).unwrap());
    assert_eq!(answers.len(), 32 * names.len());
    for (name, answer) in names.iter().zip(answers.chunks(32)) {
        let numbers = listed_answer(file, &reports, name);
        let bytes: Vec<u8> = numbers.iter().flat_map(|n| n.to_le_bytes()).collect();
        assert_eq!(bytes, answer);
        *statuses.entry(numbers[0]).or_insert(0) += 1;
    }
}

/// Every aim of a batch is hit, and answers agree with the listing.
#[test]
fn batches_agree_with_the_listing() {
    let random = &mut Random::new(21);
    let mut statuses = BTreeMap::new();
    let mut refused = BTreeSet::new();
    for _ in 0..3000 {
        let case = batch_case(random);
        let (file, label) = (&case.file, case.label);
        let outcome = outcome_of(file, &case.call);
        assert!(case.aim.allows(&outcome), "{label}: {outcome:?}");
        let (names, room) = match &case.call {
            Call::Batch { names, room } => (names, *room),
            _ => unreachable!(),
        };
        match batch(file, names, room) {
            Ok(answers) => {
                assert!(answers.len() <= room);
                check_answers(file, names, &answers, &mut statuses);
            }
            Err(refusal) => {
                refused.insert(refusal.number);
            }
        }
    }
    assert!(statuses.values().all(|&count| count > 200), "{statuses:?}");
    assert_eq!(statuses.keys().copied().collect::<Vec<u64>>(), [0, 15, 255]);
    assert_eq!(refused, (1..=14).chain([22]).collect());
}

/// FORMAT B2, B5: names cut at every byte are good just between two names, and a byte of room less
/// than they need is too little.
#[test]
fn batches_cut_at_every_byte() {
    let random = &mut Random::new(22);
    for _ in 0..60 {
        let book = book(random);
        let file = book.bytes();
        let items = book.items();
        let mut names = vec![Vec::new(), random.pick(&items).name.clone()];
        names.extend([vec![0xFF; 130], random.pick(&items).name.clone()]);
        random.shuffle(&mut names);
        let bytes = joined(&names);
        let whole = batch(&file, &bytes, 128).unwrap();
        let ends: Vec<usize> = (0..=4).map(|count| joined(&names[..count]).len()).collect();
        for length in 0..=bytes.len() {
            let cut = &bytes[..length];
            match ends.iter().position(|&end| end == length) {
                Some(count) => {
                    let answers = whole[..32 * count].to_vec();
                    assert_eq!(batch(&file, cut, 32 * count), Ok(answers));
                    if count > 0 {
                        let short = batch(&file, cut, 32 * count - 1);
                        assert_eq!(short, Err(Refusal::new(22)));
                    }
                }
                None => assert_eq!(batch(&file, cut, 128), Err(Refusal::new(22))),
            }
        }
    }
}

/// FORMAT RO10: every row of damage is the answer of a batch, whatever the names and the room are.
#[test]
fn damage_comes_before_the_names() {
    let random = &mut Random::new(23);
    for damage in damages() {
        let (broken, refusal) = damaged(random, damage);
        let file = broken.bytes();
        for (names, room) in [
            (&b"\x01/"[..], 32),
            (b"\x01/", 31),
            (b"\x80\x01/", 32),
            (b"\x02/", 0),
            (b"", 0),
        ] {
            let told = batch(&file, names, room);
            assert_eq!(told, Err(refusal), "{}", damage.label);
        }
    }
}

/// A step, the own bytes at its cursor and the list of a whole chunk say the same, and there is
/// nothing of all where one refuses.
#[test]
fn steps_agree_with_whole_chunks() {
    let random = &mut Random::new(18);
    for _ in 0..1500 {
        let Case { file, call, .. } = step_case(random);
        let (record, cursor) = match call {
            Call::Step { record, cursor } => (record, cursor),
            _ => unreachable!(),
        };
        let whole = chunk_listed(&file, &record, cursor.chunk);
        let own = own(&file, &record, cursor);
        match step(&file, &record, cursor) {
            Step::Entry(report, moved) => {
                let (listed, next) = whole.unwrap();
                let at = cursor.entry as usize;
                assert_eq!(report, listed[at].report);
                assert_eq!(own, Some((listed[at].place, listed[at].length)));
                let (chunk, entry) = match at + 1 == listed.len() {
                    true => (next.into(), 0),
                    false => (cursor.chunk, cursor.entry + 1),
                };
                assert_eq!(moved, Cursor { chunk, entry });
            }
            Step::End(end) => {
                assert_eq!((end, own), (cursor, None));
                assert_eq!(whole, Err(Refusal::new(17)));
            }
            Step::Refused(refusal) => {
                assert_eq!((refusal, own), (Refusal::new(17), None));
                match whole {
                    Ok((listed, _)) => assert!(listed.len() as u64 <= cursor.entry),
                    Err(whole) => assert_eq!(whole, refusal),
                }
            }
        }
    }
}

#[test]
fn unchecked_bytes_do_not_matter() {
    let random = &mut Random::new(13);
    for _ in 0..300 {
        let book = varied(random);
        let record = open(&book.bytes()).expect("no rule is broken");
        let changed = Record {
            time: record.time,
            language: record.language,
            ..book.record()
        };
        assert_eq!(record, changed);
    }
}

/// Every row of damage gives exactly its refusal, each time.
#[test]
fn damage_hits_its_number() {
    let random = &mut Random::new(14);
    let mut rows = BTreeMap::new();
    for damage in damages() {
        for _ in 0..12 {
            let (broken, refusal) = damaged(random, damage);
            assert_eq!(open(&broken.bytes()), Err(refusal), "{}", damage.label);
        }
        *rows.entry(damage.number).or_insert(0) += 1;
    }
    assert_eq!(
        rows.keys().copied().collect::<Vec<u8>>(),
        (1..=14).collect::<Vec<u8>>()
    );
}

/// Of two breaks the one that is checked first is the answer, unless one undoes the other.
#[test]
fn the_first_of_two_damages_is_the_answer() {
    let random = &mut Random::new(15);
    let mut masked = 0;
    for _ in 0..1000 {
        let (broken, refusal) = damaged_twice(random);
        if open(&broken.bytes()) != Err(refusal) {
            masked += 1;
        }
    }
    assert!(masked < 50, "{masked}");
}

/// What the writer makes opens, with the given entries.
#[test]
fn written_heads_open() {
    let random = &mut Random::new(16);
    for _ in 0..300 {
        let content = random.below(2000);
        let items = good_items(random, content);
        let entries: Vec<u8> = items.iter().flat_map(|item| item.bytes()).collect();
        let density = random.below(8) as u32;
        let head = write_head(&entries, density, 7, 8, content, usize::MAX).unwrap();
        let file = [head, random.bytes(content as usize)].concat();
        let record = open(&file).unwrap();
        assert_eq!((record.time, record.language), (7, 8));
        assert_eq!((record.start, record.density), (120, density.into()));
        assert_eq!(record.content, 204 + 4096 * record.count);
        let reports = listing_by_chunks(&file, &record);
        assert_eq!(reports.len(), items.len());
        for (report, item) in reports.iter().zip(&items) {
            assert_eq!(part(&file, report.place, report.length), item.name);
            assert_eq!(
                [report.section, report.offset, report.size],
                item.fields[..]
            );
        }
    }
}

/// FORMAT R19 by depth: 81 listing chunks are the most where three entries fill a chunk.
#[test]
fn deepest_head() {
    let random = &mut Random::new(17);
    let entries: Vec<Vec<u8>> = deep_items(random, 244)
        .iter()
        .map(|item| item.bytes())
        .collect();
    let head = write_head(&entries[..243].concat(), 0, 0, 0, 0, usize::MAX).unwrap();
    let record = open(&head).unwrap();
    assert_eq!((record.depth, record.count), (5, 81 + 27 + 9 + 3 + 1));
    let deeper = write_head(&entries.concat(), 0, 0, 0, 0, usize::MAX);
    assert_eq!(deeper, Err(Refusal::new(19)));
}

/// FORMAT R19 and D11 by count: 4,096 chunks are written and opened, 4,097 are not.
#[test]
fn longest_head() {
    // 4,085 listing chunks, 10 index chunks and the root.
    let all = wide_entries(4086);
    let one = all.len() / 4086;
    let head = write_head(&all[..4085 * one], 2, 0, 0, 0, usize::MAX).unwrap();
    let record = open(&head).unwrap();
    assert_eq!((record.depth, record.count), (3, 4096));
    let refused = write_head(&all, 2, 0, 0, 0, usize::MAX);
    assert_eq!(refused, Err(Refusal::new(19)));

    // One chunk more, all lengths and places to match: only the count is too high.
    let mut longer = head.clone();
    longer.extend(&head[head.len() - 4096..]);
    for (place, value) in [
        (0x50, 84 + 4096 * 4097),
        (0x58, longer.len()),
        (0x68, longer.len()),
    ] {
        longer[place..place + 8].copy_from_slice(&(value as u64).to_le_bytes());
    }
    longer[0x78 + 0x2C..0x78 + 0x30].copy_from_slice(&4097u32.to_le_bytes());
    assert_eq!(open(&longer), Err(Refusal::new(7)));
}

/// A long run: every aim is hit, and every kind of case and every number come up.
#[test]
fn a_run_meets_every_refusal() {
    let mut numbers = BTreeMap::new();
    let mut seen = BTreeSet::new();
    let mut masked = 0;
    for index in 0..20_000 {
        let case = case(1, index);
        let outcome = outcome_of(&case.file, &case.call);
        let (aim, label) = (case.aim, case.label);
        assert!(
            aim.allows(&outcome),
            "case {index}, {label}: {aim:?}, {outcome:?}"
        );
        let refusal = outcome.refusal();
        if let Aim::Likely(aimed) = aim {
            masked += u64::from(refusal != Some(aimed));
        }
        let number = refusal.map_or(0, |refusal| refusal.number);
        *numbers.entry(number).or_insert(0) += 1;
        seen.insert(label);
    }
    for number in (0..=20).chain([22]) {
        assert!(numbers.get(&number) > Some(&20), "{number}: {numbers:?}");
    }
    assert_eq!(seen, labels().into_iter().collect());
    assert!(masked < 100, "{masked}");
}

/// The questions that a case brings with it can all be asked, and get answers of every kind.
#[test]
fn questions_meet_every_refusal() {
    let mut numbers = BTreeMap::new();
    for index in 0..4000 {
        let random = &mut Random::of_case(2, index);
        let case = case(1, index);
        for call in questions(random, &case) {
            let number = refusal_of(&case.file, &call).map_or(0, |refusal| refusal.number);
            *numbers.entry(number).or_insert(0) += 1;
        }
    }
    for number in (0..=20).chain([22]) {
        assert!(numbers.get(&number) > Some(&20), "{number}: {numbers:?}");
    }
}

/// Whatever is looked up in a book with its own record is looked up there as in an opened book too.
#[test]
fn questions_ask_opened_books_the_same() {
    let mut asked = 0;
    for index in 0..1500 {
        let random = &mut Random::of_case(3, index);
        let case = case(1, index);
        let opening = open(&case.file);
        let calls = [vec![case.call.clone()], questions(random, &case)].concat();
        let opened: BTreeSet<&Vec<u8>> = calls
            .iter()
            .filter_map(|call| match call {
                Call::Opened { record, name } if opening == Ok(*record) => Some(name),
                _ => None,
            })
            .collect();
        for call in &calls {
            match call {
                Call::Lookup { record, name, .. } if opening == Ok(*record) => {
                    assert!(opened.contains(name), "case {index}");
                    asked += 1;
                }
                _ => {}
            }
        }
    }
    assert!(asked > 1000, "{asked}");
}

/// Every aim of a pair is hit, and just the orders that its way allows come of it, all of them.
#[test]
fn pairs_have_the_order_they_say() {
    let random = &mut Random::new(24);
    let mut seen = BTreeSet::new();
    let mut lengths = BTreeSet::new();
    for index in 0..3000 {
        let names = names_in(random, &case(1, index).file);
        for pair in pairs(random, &names) {
            let order = compare(&pair.left, &pair.right);
            assert!(pair.aim.map_or(true, |aim| aim == order), "{pair:?}");
            assert_eq!(compare(&pair.right, &pair.left), order.reverse());
            seen.insert((pair.label, order));
            lengths.extend([pair.left.len(), pair.right.len()]);
        }
    }
    let orders = |way: &Way| -> Vec<(&str, Ordering)> {
        let orders = way.orders.iter();
        orders.map(|&order| (way.label, order)).collect()
    };
    assert_eq!(seen, WAYS.iter().flat_map(orders).collect());
    assert!((0..=40)
        .chain([1024, 1025])
        .all(|length| lengths.contains(&length)));
    assert!(lengths.last() > Some(&2000));
}

/// The byte that decides stands at each of the first places, with and without letters in another
/// case in front of it.
#[test]
fn pairs_differ_at_every_place() {
    let random = &mut Random::new(25);
    let mut places = BTreeSet::new();
    for _ in 0..4000 {
        for pair in pairs(random, &[]) {
            let bytes = || pair.left.iter().zip(&pair.right);
            let first = bytes().position(|(one, two)| one != two);
            let decides = bytes().position(|(one, two)| compare(&[*one], &[*two]).is_ne());
            places.insert((first < decides, decides));
        }
    }
    for place in 0..=20 {
        assert!(places.contains(&(false, Some(place))), "{place}");
        assert!(
            place == 0 || places.contains(&(true, Some(place))),
            "{place}"
        );
    }
}
