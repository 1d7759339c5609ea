//! Plans of books, and the bytes of a planned book.
//!
//! A plan is a book taken apart, so that it can be made well by choice and broken on purpose. It
//! lays chunks out by itself and does not use the writer. It does share `encint`, `compare` and
//! `quick_words` with what it tests; the worked examples hold these to docs/FORMAT.md.

use super::padding::{most_leading, padded};
use super::Random;
use crate::chunk::{quick_step, quick_words, CHUNK, INDEX_HEADER, LISTING_HEADER};
use crate::open::{DIRECTORY_GUID, DIRECTORY_HEADER, FILE_GUID_1, FILE_GUID_2};
use crate::{compare, Listed, Record, Report, NONE};
use std::cmp::Ordering;

/// The numbers of an entry by their order: the name's length, then the fields.
pub const NAME_LENGTH: usize = 0;
pub const SECTION: usize = 1;
pub const OFFSET: usize = 2;
pub const LENGTH: usize = 3;

/// An entry: of a listing chunk with section, offset and length, of an index chunk with a child.
#[derive(Debug, Clone, PartialEq, Eq)]
pub struct Item {
    pub name: Vec<u8>,
    pub fields: Vec<u64>,
    /// How many leading 80 bytes each number has, as far as there is room for them (FORMAT N4).
    pub padding: [usize; 4],
    /// Bytes to write in place of the well-formed ones.
    pub raw: Option<Vec<u8>>,
}

impl Item {
    pub fn new(name: &[u8], fields: &[u64]) -> Item {
        Item {
            name: name.to_vec(),
            fields: fields.to_vec(),
            padding: [0; 4],
            raw: None,
        }
    }

    /// The same entry with other numbers behind the name, well-formed.
    pub fn with_fields(&self, fields: &[u64]) -> Item {
        Item {
            fields: fields.to_vec(),
            raw: None,
            ..self.clone()
        }
    }

    pub fn value(&self, number: usize) -> u64 {
        match number {
            NAME_LENGTH => self.name.len() as u64,
            field => self.fields[field - 1],
        }
    }

    /// All numbers as they are written, with their padding.
    pub fn numbers(&self) -> Vec<Vec<u8>> {
        let number = |number: usize| padded(self.value(number), self.padding[number]);
        (0..=self.fields.len()).map(number).collect()
    }

    /// Puts so many more leading 80 bytes in front of a number, or as many as there is room for;
    /// says how many.
    pub fn pad(&mut self, number: usize, more: usize) -> usize {
        let most = most_leading(self.value(number));
        let now = self.padding[number].min(most);
        let taken = more.min(most - now);
        self.padding[number] = now + taken;
        taken
    }

    /// Where the name stands in the well-formed bytes.
    fn name_at(&self) -> usize {
        padded(self.value(NAME_LENGTH), self.padding[NAME_LENGTH]).len()
    }

    pub fn bytes(&self) -> Vec<u8> {
        if let Some(raw) = &self.raw {
            return raw.clone();
        }
        entry_bytes(&self.name, &self.numbers())
    }
}

/// An entry with this name and these bytes for its numbers.
pub fn entry_bytes(name: &[u8], numbers: &[Vec<u8>]) -> Vec<u8> {
    [&numbers[NAME_LENGTH], name, &numbers[1..].concat()].concat()
}

/// A chunk; only a listing chunk has links, its previous and its next.
#[derive(Debug, Clone)]
pub struct Planned {
    pub links: Option<(u32, u32)>,
    pub items: Vec<Item>,
}

impl Planned {
    pub fn is_listing(&self) -> bool {
        self.links.is_some()
    }

    pub fn header(&self) -> usize {
        match self.links {
            Some(_) => LISTING_HEADER,
            None => INDEX_HEADER,
        }
    }

    /// How many bytes are behind the entries.
    pub fn tail(&self) -> usize {
        CHUNK - self.header() - self.entry_bytes()
    }

    pub fn entry_bytes(&self) -> usize {
        self.items.iter().map(|item| item.bytes().len()).sum()
    }

    pub fn words(&self, density: u32) -> usize {
        quick_words(self.items.len() as u64, density.into()) as usize
    }

    /// Whether the chunk holds its entries, quick words and count.
    pub fn fits(&self, density: u32) -> bool {
        self.header() + self.entry_bytes() + 2 + 2 * self.words(density) <= CHUNK
    }

    /// Where each entry starts, from the first one.
    pub fn starts(&self) -> Vec<usize> {
        let mut at = 0;
        let mut starts = Vec::new();
        for item in &self.items {
            starts.push(at);
            at += item.bytes().len();
        }
        starts
    }

    /// The same chunk with every number in its short form.
    pub fn short(&self) -> Planned {
        let mut short = self.clone();
        for item in &mut short.items {
            item.padding = [0; 4];
        }
        short
    }

    fn bytes(&self, density: u32, noise: &mut Noise) -> Vec<u8> {
        let mut bytes = Vec::with_capacity(CHUNK);
        bytes.extend(if self.is_listing() { b"PMGL" } else { b"PMGI" });
        bytes.extend((self.tail() as u32).to_le_bytes());
        if let Some((previous, next)) = self.links {
            bytes.extend(noise.bytes(4));
            bytes.extend(previous.to_le_bytes());
            bytes.extend(next.to_le_bytes());
        }
        for item in &self.items {
            bytes.extend(item.bytes());
        }
        bytes.extend(noise.bytes(CHUNK - bytes.len()));
        put(&mut bytes, CHUNK - 2, 2, self.items.len() as u64);
        let starts = self.starts();
        let step = quick_step(density.into()) as usize;
        for k in 1..=self.words(density) {
            put(&mut bytes, CHUNK - 2 - 2 * k, 2, starts[k * step] as u64);
        }
        bytes
    }
}

/// The bytes that no rule looks at: zeros, or anything.
struct Noise(Option<Random>);

impl Noise {
    fn bytes(&mut self, length: usize) -> Vec<u8> {
        match &mut self.0 {
            Some(random) => random.bytes(length),
            None => vec![0; length],
        }
    }
}

/// Writes a number over bytes, lowest byte first.
pub fn put(bytes: &mut [u8], place: usize, width: usize, value: u64) {
    bytes[place..place + width].copy_from_slice(&value.to_le_bytes()[..width]);
}

/// A place that moves with what it belongs to.
#[derive(Debug, Clone, Copy)]
pub enum Spot {
    File(usize),
    Section(usize),
    Directory(usize),
    Chunk(u32, usize),
}

/// A number to write over the finished bytes.
#[derive(Debug, Clone, Copy)]
pub struct Poke {
    pub spot: Spot,
    pub width: usize,
    pub value: u64,
}

/// A plan of a whole book.
#[derive(Debug, Clone)]
pub struct Book {
    pub version: u32,
    pub time: u32,
    pub language: u32,
    pub density: u32,
    pub depth: u32,
    pub root: u32,
    pub first: u32,
    pub last: u32,
    pub chunks: Vec<Planned>,
    /// Whether section 0 is in front of the directory; so it is in every good book of version 2.
    pub section_first: bool,
    /// Free bytes behind the header, between the two sections, and in front of the content. The
    /// last number is 0 in version 2.
    pub gaps: [usize; 3],
    pub content: Vec<u8>,
    /// Seed of the bytes that no rule looks at; zeros if none.
    pub noise: Option<u64>,
    pub pokes: Vec<Poke>,
    /// Cut the file to this length.
    pub cut: Option<usize>,
    /// Bytes behind the file's written length.
    pub extra: usize,
}

/// Where things lie in a planned book.
#[derive(Debug, Clone, Copy)]
pub struct Places {
    pub header: usize,
    pub section: usize,
    pub directory: usize,
    pub directory_length: usize,
    pub directory_end: usize,
    pub content: usize,
    pub length: usize,
}

impl Book {
    pub fn places(&self) -> Places {
        let header = if self.version == 2 { 0x58 } else { 0x60 };
        let directory_length = DIRECTORY_HEADER + CHUNK * self.chunks.len();
        let one = header + self.gaps[0];
        let (section, directory, end) = if self.section_first {
            let directory = one + 24 + self.gaps[1];
            (one, directory, directory + directory_length)
        } else {
            let section = one + directory_length + self.gaps[1];
            (section, one, section + 24)
        };
        let content = end + self.gaps[2];
        Places {
            header,
            section,
            directory,
            directory_length,
            directory_end: directory + directory_length,
            content,
            length: content + self.content.len(),
        }
    }

    pub fn chunk_place(&self, number: u32) -> usize {
        self.places().directory + DIRECTORY_HEADER + CHUNK * number as usize
    }

    pub fn place_of(&self, spot: Spot) -> usize {
        match spot {
            Spot::File(offset) => offset,
            Spot::Section(offset) => self.places().section + offset,
            Spot::Directory(offset) => self.places().directory + offset,
            Spot::Chunk(number, offset) => self.chunk_place(number) + offset,
        }
    }

    pub fn poke(&mut self, spot: Spot, width: usize, value: u64) {
        self.pokes.push(Poke { spot, width, value });
    }

    pub fn count(&self) -> u32 {
        self.chunks.len() as u32
    }

    pub fn bytes(&self) -> Vec<u8> {
        let mut noise = Noise(self.noise.map(Random::new));
        let places = self.places();
        let mut bytes = noise.bytes(places.content);
        self.put_headers(&mut bytes, &places);
        for (number, chunk) in (0..).zip(&self.chunks) {
            let place = self.chunk_place(number);
            let chunk = chunk.bytes(self.density, &mut noise);
            bytes[place..place + CHUNK].copy_from_slice(&chunk);
        }
        bytes.extend(&self.content);
        bytes.extend(noise.bytes(self.extra));
        for poke in &self.pokes {
            let place = self.place_of(poke.spot);
            put(&mut bytes, place, poke.width, poke.value);
        }
        if let Some(length) = self.cut {
            bytes.truncate(length);
        }
        bytes
    }

    fn put_headers(&self, bytes: &mut [u8], places: &Places) {
        bytes[..4].copy_from_slice(b"ITSF");
        put(bytes, 0x04, 4, self.version.into());
        put(bytes, 0x08, 4, places.header as u64);
        put(bytes, 0x10, 4, self.time.into());
        put(bytes, 0x14, 4, self.language.into());
        bytes[0x18..0x28].copy_from_slice(&FILE_GUID_1);
        bytes[0x28..0x38].copy_from_slice(&FILE_GUID_2);
        put(bytes, 0x38, 8, places.section as u64);
        put(bytes, 0x40, 8, 24);
        put(bytes, 0x48, 8, places.directory as u64);
        put(bytes, 0x50, 8, places.directory_length as u64);
        if self.version != 2 {
            put(bytes, 0x58, 8, places.content as u64);
        }
        put(bytes, places.section + 8, 8, places.length as u64);

        let directory = &mut bytes[places.directory..];
        directory[..4].copy_from_slice(b"ITSP");
        put(directory, 0x04, 4, 1);
        put(directory, 0x08, 4, 0x54);
        put(directory, 0x10, 4, CHUNK as u64);
        put(directory, 0x14, 4, self.density.into());
        put(directory, 0x18, 4, self.depth.into());
        put(directory, 0x1C, 4, self.root.into());
        put(directory, 0x20, 4, self.first.into());
        put(directory, 0x24, 4, self.last.into());
        put(directory, 0x2C, 4, self.count().into());
        directory[0x34..0x44].copy_from_slice(&DIRECTORY_GUID);
        put(directory, 0x44, 4, 0x54);
    }

    /// The record that opening has to hand out.
    pub fn record(&self) -> Record {
        let places = self.places();
        Record {
            version: self.version.into(),
            time: self.time.into(),
            language: self.language.into(),
            start: places.directory as u64,
            count: self.count().into(),
            density: self.density.into(),
            depth: self.depth.into(),
            root: self.root.into(),
            first: self.first.into(),
            last: self.last.into(),
            content: places.content as u64,
        }
    }

    /// The listing chunks along the chain of a good book. A broken chain ends somewhere.
    pub fn chain(&self) -> Vec<u32> {
        let mut chain = Vec::new();
        let mut at = self.first;
        while let Some(chunk) = self.chunks.get(at as usize) {
            chain.push(at);
            if chain.len() == self.chunks.len() {
                break;
            }
            at = chunk.links.map_or(NONE, |links| links.1);
        }
        chain
    }

    /// The numbers of the index chunks.
    pub fn indexes(&self) -> Vec<u32> {
        (0..self.count())
            .filter(|&number| !self.chunks[number as usize].is_listing())
            .collect()
    }

    /// The entries that a good book lists, in order.
    pub fn items(&self) -> Vec<&Item> {
        let chain = self.chain();
        let chunks = chain.iter().map(|&number| &self.chunks[number as usize]);
        chunks.flat_map(|chunk| &chunk.items).collect()
    }

    /// What the listing of a good book has to report, with the entries' own bytes.
    pub fn listed(&self) -> Vec<Listed> {
        let chain = self.chain();
        let listed = chain.iter().flat_map(|&number| self.listed_of(number));
        listed.collect()
    }

    /// What has to be reported of a good listing chunk.
    pub fn listed_of(&self, number: u32) -> Vec<Listed> {
        let chunk = &self.chunks[number as usize];
        let entries = self.chunk_place(number) + LISTING_HEADER;
        let mut listed = Vec::new();
        for (start, item) in chunk.starts().iter().zip(&chunk.items) {
            let place = entries + start;
            listed.push(Listed {
                report: Report {
                    place: (place + item.name_at()) as u64,
                    length: item.name.len() as u64,
                    section: item.fields[0],
                    offset: item.fields[1],
                    size: item.fields[2],
                },
                place: place as u64,
                length: item.bytes().len() as u64,
            });
        }
        listed
    }

    /// What has to be reported of the first entry with this name, in good listing chunks that are
    /// met in this order.
    pub fn found(&self, met: &[u32], name: &[u8]) -> Option<Report> {
        met.iter().find_map(|&number| {
            let items = &self.chunks[number as usize].items;
            let at = items
                .iter()
                .position(|item| compare(&item.name, name) == Ordering::Equal)?;
            Some(self.listed_of(number)[at].report)
        })
    }

    /// Makes every index chunk a listing chunk of one entry behind the chain's last, so that the
    /// chain has as many chunks as the book.
    pub fn list_all(&mut self) {
        for number in self.indexes() {
            if let Some(links) = &mut self.chunks[self.last as usize].links {
                links.1 = number;
            }
            let name = [&[0xFF][..], &number.to_be_bytes()].concat();
            self.chunks[number as usize] = Planned {
                links: Some((self.last, NONE)),
                items: vec![Item::new(&name, &[1, 0, 0])],
            };
            self.last = number;
        }
    }
}
