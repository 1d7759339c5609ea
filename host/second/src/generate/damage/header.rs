//! Damage to the headers: refusals 1 to 7.

use super::{Damage, NOWHERE};
use crate::chunk::CHUNK;
use crate::generate::plan::{Book, Spot};
use crate::generate::Random;
use crate::number::number_at;
use crate::open::{DIRECTORY_GUID, FILE_GUID_1, FILE_GUID_2};

const TOP: u64 = u64::MAX;
const TOP_32: u64 = 0xFFFF_FFFF;

/// A place in known bytes, and the byte there with one bit changed.
fn flipped(random: &mut Random, known: &[u8]) -> (usize, u64) {
    let at = random.index(known.len());
    (at, u64::from(known[at] ^ (1 << random.below(8))))
}

pub const DAMAGES: &[Damage] = &[
    Damage {
        number: 1,
        label: "file shorter than 96 bytes",
        apply: |random, book| {
            let any = random.index(96);
            book.cut = Some(random.pick(&[0, 1, 0x57, 0x58, 94, 95, 95, any]));
            NOWHERE
        },
    },
    Damage {
        number: 2,
        label: "tag ITSF",
        apply: |random, book| {
            let (at, byte) = flipped(random, b"ITSF");
            book.poke(Spot::File(at), 1, byte);
            NOWHERE
        },
    },
    Damage {
        number: 2,
        label: "first GUID of the file",
        apply: |random, book| {
            let (at, byte) = flipped(random, &FILE_GUID_1);
            book.poke(Spot::File(0x18 + at), 1, byte);
            NOWHERE
        },
    },
    Damage {
        number: 2,
        label: "second GUID of the file",
        apply: |random, book| {
            let (at, byte) = flipped(random, &FILE_GUID_2);
            book.poke(Spot::File(0x28 + at), 1, byte);
            NOWHERE
        },
    },
    Damage {
        number: 2,
        label: "GUIDs of the file alike or exchanged",
        apply: |random, book| {
            let (first, second) = random.pick(&[(0x10, 0x10), (0x11, 0x11), (0x11, 0x10)]);
            book.poke(Spot::File(0x18), 1, first);
            book.poke(Spot::File(0x28), 1, second);
            NOWHERE
        },
    },
    Damage {
        number: 3,
        label: "version",
        apply: |random, book| {
            let version = random.pick(&[0, 1, 4, 0x102, 0x103, 0x0001_0003, 0x8000_0002, TOP_32]);
            book.poke(Spot::File(0x04), 4, version);
            NOWHERE
        },
    },
    Damage {
        number: 3,
        label: "header length",
        apply: |random, book| {
            let lengths = [
                0,
                0x54,
                0x57,
                0x59,
                0x5F,
                0x61,
                0x158,
                0x160,
                0x6000_0000,
                TOP_32,
            ];
            book.poke(Spot::File(0x08), 4, random.pick(&lengths));
            NOWHERE
        },
    },
    Damage {
        number: 3,
        label: "header length of the other version",
        apply: |_, book| {
            let other = if book.version == 2 { 0x60 } else { 0x58 };
            book.poke(Spot::File(0x08), 4, other);
            NOWHERE
        },
    },
    Damage {
        number: 3,
        label: "the other version with this header length",
        apply: |_, book| {
            book.poke(Spot::File(0x04), 4, u64::from(5 - book.version));
            NOWHERE
        },
    },
    Damage {
        number: 4,
        label: "length of section 0",
        apply: |random, book| {
            let length = random.pick(&[0, 1, 23, 25, 48, 24 + (1 << 32), 24 | 1 << 63, TOP]);
            book.poke(Spot::File(0x40), 8, length);
            NOWHERE
        },
    },
    Damage {
        number: 4,
        label: "directory length below 84",
        apply: |random, book| {
            book.poke(Spot::File(0x50), 8, random.pick(&[0, 1, 82, 83]));
            NOWHERE
        },
    },
    Damage {
        number: 4,
        label: "section 0 in front of the header's end",
        apply: |random, book| {
            let header = book.places().header as u64;
            book.poke(
                Spot::File(0x38),
                8,
                random.pick(&[0, header - 24, header - 1]),
            );
            NOWHERE
        },
    },
    Damage {
        number: 4,
        label: "section 0 at 58 hex in version 3",
        apply: |_, book| {
            if book.version != 2 || book.gaps[0] != 0 {
                return None;
            }
            // The content start is then read from section 0; make it a good one.
            let content = book.places().content as u64;
            book.poke(Spot::File(0x04), 4, 3);
            book.poke(Spot::File(0x08), 4, 0x60);
            book.poke(Spot::File(0x58), 8, content);
            NOWHERE
        },
    },
    Damage {
        number: 4,
        label: "section 0 not inside the file",
        apply: |random, book| {
            let length = book.places().length as u64;
            // From TOP - 23 on the exact end lies at 2^64 or above.
            let places = [
                length - 23,
                length,
                1 << 32,
                1 << 63,
                TOP - 24,
                TOP - 23,
                TOP - 15,
                TOP,
            ];
            book.poke(Spot::File(0x38), 8, random.pick(&places));
            NOWHERE
        },
    },
    Damage {
        number: 4,
        label: "section 0 over the directory's front",
        apply: |random, book| {
            let places = book.places();
            let (directory, header) = (places.directory as u64, places.header as u64);
            let place = random.pick(&[directory - 23, directory - 1, directory, directory + 1]);
            if place < header {
                return None;
            }
            book.poke(Spot::File(0x38), 8, place);
            NOWHERE
        },
    },
    Damage {
        number: 4,
        label: "section 0 over the directory's end",
        apply: |random, book| {
            let places = book.places();
            let back = random.pick(&[1, 2, 12, 23, 24, 25, CHUNK]);
            let place = places.directory_end - back;
            if book.version == 3 {
                let content = places.content.max(place + 24);
                if content > places.length {
                    return None;
                }
                book.poke(Spot::File(0x58), 8, content as u64);
            }
            book.poke(Spot::File(0x38), 8, place as u64);
            NOWHERE
        },
    },
    Damage {
        number: 4,
        label: "directory in front of the header's end",
        apply: |random, book| {
            let header = book.places().header as u64;
            book.poke(Spot::File(0x48), 8, random.pick(&[0, header - 1]));
            NOWHERE
        },
    },
    Damage {
        number: 4,
        label: "directory not inside the file",
        apply: |random, book| {
            let places = book.places();
            let (file, length) = (places.length as u64, places.directory_length as u64);
            let beyond = file - length + 1;
            let wraps = TOP - length;
            let chosen = random.pick(&[beyond, file, 1 << 63, wraps, wraps + 1, wraps + 200, TOP]);
            book.poke(Spot::File(0x48), 8, chosen);
            NOWHERE
        },
    },
    Damage {
        number: 4,
        label: "directory too long for the file",
        apply: |random, book| {
            let places = book.places();
            let (file, start) = (places.length as u64, places.directory as u64);
            // The last ones end at 2^64 and behind it.
            let wraps = TOP - start;
            let chosen = random.pick(&[file - start + 1, 1 << 63, wraps, wraps + 1, TOP]);
            book.poke(Spot::File(0x50), 8, chosen);
            NOWHERE
        },
    },
    Damage {
        number: 4,
        label: "directory over section 0",
        apply: |random, book| {
            let places = book.places();
            let back = random.pick(&[1, 12, 23]);
            if book.section_first {
                // Its length is kept low enough to end where it did.
                let grown = places.directory_end - (places.section + 24 - back);
                book.poke(Spot::File(0x48), 8, (places.section + 24 - back) as u64);
                book.poke(Spot::File(0x50), 8, grown as u64);
            } else {
                let grown = places.section + 24 - back - places.directory;
                book.poke(Spot::File(0x50), 8, grown as u64);
            }
            NOWHERE
        },
    },
    Damage {
        number: 4,
        label: "content in front of the directory's end",
        apply: |random, book| {
            if book.version != 3 {
                return None;
            }
            let end = book.places().directory_end as u64;
            let section_end = book.places().section as u64 + 24;
            let start = random.pick(&[end - 1, end - 1, section_end, 0x60, 0]);
            if start >= end {
                return None;
            }
            book.poke(Spot::File(0x58), 8, start);
            NOWHERE
        },
    },
    Damage {
        number: 4,
        label: "content in front of the end of section 0",
        apply: |random, book| {
            if book.section_first {
                return None;
            }
            let section = book.places().section as u64;
            book.poke(Spot::File(0x58), 8, section + random.pick(&[0, 22, 23]));
            NOWHERE
        },
    },
    Damage {
        number: 4,
        label: "content behind the file's end",
        apply: |random, book| {
            if book.version != 3 {
                return None;
            }
            let length = book.places().length as u64;
            let start = random.pick(&[length + 1, length + (1 << 32), 1 << 63, TOP]);
            book.poke(Spot::File(0x58), 8, start);
            NOWHERE
        },
    },
    Damage {
        number: 4,
        label: "section 0 behind the directory in version 2",
        apply: |_, book| {
            if book.section_first {
                return None;
            }
            book.poke(Spot::File(0x04), 4, 2);
            book.poke(Spot::File(0x08), 4, 0x58);
            NOWHERE
        },
    },
    Damage {
        number: 4,
        label: "file cut to 96 bytes or a little more",
        apply: |random, book| {
            book.cut = Some(random.between(96..=200) as usize);
            NOWHERE
        },
    },
    Damage {
        number: 4,
        label: "file cut in front of the content's start",
        apply: |random, book| {
            let content = book.places().content;
            let back = random.pick(&[1, 1, 24, CHUNK]);
            book.cut = Some(content - back);
            NOWHERE
        },
    },
    Damage {
        number: 5,
        label: "written length",
        apply: |random, book| {
            let length = book.places().length as u64;
            let bit = length ^ (1 << random.below(64));
            let wrong = random.pick(&[length - 1, length + 1, 0, length + (1 << 32), TOP, bit]);
            book.poke(Spot::Section(8), 8, wrong);
            NOWHERE
        },
    },
    Damage {
        number: 5,
        label: "section 0 moved onto other bytes",
        apply: |_, book| {
            // One byte back it still lies well, but another number stands at its offset 8.
            let free = book.section_first && book.gaps[0] > 0;
            let spot = book.place_of(Spot::Section(7));
            let length = book.places().length as u64;
            let whole = Book {
                cut: None,
                ..book.clone()
            };
            if !free || number_at(&whole.bytes(), spot, 8) == length {
                return None;
            }
            book.poke(Spot::File(0x38), 8, book.places().section as u64 - 1);
            NOWHERE
        },
    },
    Damage {
        number: 5,
        label: "content cut",
        apply: |random, book| {
            let places = book.places();
            if places.content == places.length {
                return None;
            }
            let any = random.between(places.content as u64..=places.length as u64 - 1);
            book.cut = Some(random.pick(&[places.length - 1, places.content, any as usize]));
            NOWHERE
        },
    },
    Damage {
        number: 5,
        label: "bytes behind the end",
        apply: |random, book| {
            book.extra = random.pick(&[1, 2, 4096]);
            NOWHERE
        },
    },
    Damage {
        number: 6,
        label: "tag ITSP",
        apply: |random, book| {
            let (at, byte) = flipped(random, b"ITSP");
            book.poke(Spot::Directory(at), 1, byte);
            NOWHERE
        },
    },
    Damage {
        number: 6,
        label: "version of the directory header",
        apply: |random, book| {
            let version = random.pick(&[0, 2, 3, 0x101, 0x0100_0001, TOP_32]);
            book.poke(Spot::Directory(0x04), 4, version);
            NOWHERE
        },
    },
    Damage {
        number: 6,
        label: "length of the directory header",
        apply: |random, book| {
            let length = random.pick(&[0, 0x53, 0x55, 0x60, 0x154, 0x5400_0054, TOP_32]);
            book.poke(Spot::Directory(random.pick(&[0x08, 0x44])), 4, length);
            NOWHERE
        },
    },
    Damage {
        number: 6,
        label: "GUID of the directory",
        apply: |random, book| {
            let (at, byte) = flipped(random, &DIRECTORY_GUID);
            book.poke(Spot::Directory(0x34 + at), 1, byte);
            NOWHERE
        },
    },
    Damage {
        number: 7,
        label: "chunk size",
        apply: |random, book| {
            let size = random.pick(&[0, 2048, 4095, 4097, 8192, 0x0001_1000, 0x8000_1000, TOP_32]);
            book.poke(Spot::Directory(0x10), 4, size);
            NOWHERE
        },
    },
    Damage {
        number: 7,
        label: "density",
        apply: |random, book| {
            let density = u64::from(book.density);
            let wrong = random.pick(&[8, 9, 16, 256 + density, 0x8000_0000 + density, TOP_32]);
            book.poke(Spot::Directory(0x14), 4, wrong);
            NOWHERE
        },
    },
    Damage {
        number: 7,
        label: "depth out of its range",
        apply: |random, book| {
            let depth = u64::from(book.depth);
            let wrong = random.pick(&[0, 6, 7, 256 + depth, 0x8000_0000 + depth, TOP_32]);
            book.poke(Spot::Directory(0x18), 4, wrong);
            NOWHERE
        },
    },
    Damage {
        number: 7,
        label: "depth 1 with several chunks",
        apply: |random, book| {
            if book.depth == 1 {
                return None;
            }
            book.poke(Spot::Directory(0x18), 4, 1);
            book.poke(Spot::Directory(0x1C), 4, random.pick(&[TOP_32, 0]));
            NOWHERE
        },
    },
    Damage {
        number: 7,
        label: "greater depth with one chunk",
        apply: |random, book| {
            if book.depth != 1 {
                return None;
            }
            book.poke(Spot::Directory(0x18), 4, random.between(2..=5));
            book.poke(Spot::Directory(0x1C), 4, 0);
            NOWHERE
        },
    },
    Damage {
        number: 7,
        label: "count",
        apply: |random, book| {
            let count = u64::from(book.count());
            // With 2^20 more the length is the same in 32 bits.
            let wraps = count + (1 << 20);
            let wrong = random.pick(&[0, count - 1, count + 1, 4097, wraps, TOP_32]);
            book.poke(Spot::Directory(0x2C), 4, wrong);
            NOWHERE
        },
    },
    Damage {
        number: 7,
        label: "directory length too low for the count",
        apply: |random, book| {
            let length = book.places().directory_length;
            let wrong = random.pick(&[84, 85, length - CHUNK, length - 84, length - 1]);
            book.poke(Spot::File(0x50), 8, wrong as u64);
            NOWHERE
        },
    },
    Damage {
        number: 7,
        label: "directory length too high for the count",
        apply: |random, book| {
            let places = book.places();
            let free = match (book.version, book.section_first) {
                (2, _) => book.content.len(),
                (_, true) => book.gaps[2],
                (_, false) => book.gaps[1],
            };
            if free == 0 {
                return None;
            }
            let more = random.pick(&[1, free]);
            book.poke(Spot::File(0x50), 8, (places.directory_length + more) as u64);
            NOWHERE
        },
    },
    Damage {
        number: 7,
        label: "first or last not below the count",
        apply: |random, book| {
            let count = u64::from(book.count());
            let wrong = random.pick(&[count, count, count + 1, 4096, TOP_32 - 1, TOP_32]);
            if wrong < count {
                return None;
            }
            book.poke(Spot::Directory(random.pick(&[0x20, 0x24])), 4, wrong);
            NOWHERE
        },
    },
    Damage {
        number: 7,
        label: "root of one chunk neither none nor 0",
        apply: |random, book| {
            if book.depth != 1 {
                return None;
            }
            let root = random.pick(&[1, 2, 0xFFFF, 0x8000_0000, TOP_32 - 1]);
            book.poke(Spot::Directory(0x1C), 4, root);
            NOWHERE
        },
    },
    Damage {
        number: 7,
        label: "root not below the count",
        apply: |random, book| {
            if book.depth == 1 {
                return None;
            }
            let count = u64::from(book.count());
            let root = random.pick(&[count, count + 1, TOP_32 - 1, TOP_32]);
            book.poke(Spot::Directory(0x1C), 4, root);
            NOWHERE
        },
    },
];
