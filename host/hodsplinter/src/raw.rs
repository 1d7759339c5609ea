//! The C functions of `include/hodsplinter.h`, each behind a function that lends it slices and returns its number. The wrapper and `differ` share this file: it has all
//! unsafe code of both.
//!
//! What the C side asks of its caller is that slices are real (a pointer that is not null and as many elements behind it) and that what is written
//! does not overlap what is read. Rust's references are such slices, the empty one too, and a `&mut` overlaps no other reference. In return the
//! library is proved to touch nothing else, to keep no pointer and to end.

/// How many numbers a record has: `HODS_RECORD` of the header.
pub const RECORD: usize = 11;

/// How many numbers a lookup answers: `HODS_LOOKUP` of the header.
pub const LOOKUP: usize = 7;

extern "C" {
    fn hods_name_order(a: *const u8, a_len: usize, b: *const u8, b_len: usize) -> u64;
    fn hods_open(file: *const u8, len: usize, record: *mut u64) -> u64;
    fn hods_lookup(
        file: *const u8,
        len: usize,
        record: *const u64,
        name: *const u8,
        name_len: usize,
        trail: *mut u32,
        places: usize,
        answer: *mut u64,
    ) -> u64;
    fn hods_scan(
        file: *const u8,
        len: usize,
        record: *const u64,
        name: *const u8,
        name_len: usize,
        answer: *mut u64,
    ) -> u64;
    fn hods_lookup_opened(
        file: *const u8,
        len: usize,
        record: *const u64,
        name: *const u8,
        name_len: usize,
        answer: *mut u64,
    ) -> u64;
    fn hods_batch(
        file: *const u8,
        len: usize,
        names: *const u8,
        names_len: usize,
        answers: *mut u8,
        answers_len: usize,
    ) -> u64;
    fn hods_start(record: *const u64, cursor: *mut u64) -> u64;
    fn hods_step(
        file: *const u8,
        len: usize,
        record: *const u64,
        cursor: *mut u64,
        entry: *mut u64,
    ) -> u64;
    fn hods_own(
        file: *const u8,
        len: usize,
        record: *const u64,
        cursor: *const u64,
        part: *mut u64,
    ) -> u64;
    fn hods_chunk_page(
        file: *const u8,
        len: usize,
        record: *const u64,
        chunk: u64,
        entries: *mut u64,
        numbers: usize,
        next: *mut u64,
    ) -> u64;
    fn hods_compare_start(one: *const u64, two: *const u64, cursor: *mut u64) -> u64;
    fn hods_compare_step(
        file1: *const u8,
        len1: usize,
        one: *const u64,
        file2: *const u8,
        len2: usize,
        two: *const u64,
        cursor: *mut u64,
        difference: *mut u64,
        totals: *mut u64,
    ) -> u64;
    fn hods_part(file: *const u8, len: usize, place: u64, length: u64) -> u64;
    fn hods_write_head(
        entries: *const u8,
        len: usize,
        density: u32,
        time: u32,
        language: u32,
        content_length: u64,
        out: *mut u8,
        out_len: usize,
        length: *mut u64,
    ) -> u64;
}

// SAFETY, of every function below: each pointer comes from a slice or array of the length that is passed or that the header fixes, and what is written is
// borrowed apart from what is read.

pub fn name_order(a: &[u8], b: &[u8]) -> u64 {
    unsafe { hods_name_order(a.as_ptr(), a.len(), b.as_ptr(), b.len()) }
}

pub fn open(file: &[u8], record: &mut [u64; RECORD]) -> u64 {
    unsafe { hods_open(file.as_ptr(), file.len(), record.as_mut_ptr()) }
}

pub fn lookup(
    file: &[u8],
    record: &[u64; RECORD],
    name: &[u8],
    trail: &mut [u32],
    answer: &mut [u64; LOOKUP],
) -> u64 {
    unsafe {
        hods_lookup(
            file.as_ptr(),
            file.len(),
            record.as_ptr(),
            name.as_ptr(),
            name.len(),
            trail.as_mut_ptr(),
            trail.len(),
            answer.as_mut_ptr(),
        )
    }
}

pub fn scan(file: &[u8], record: &[u64; RECORD], name: &[u8], answer: &mut [u64; 5]) -> u64 {
    unsafe {
        hods_scan(
            file.as_ptr(),
            file.len(),
            record.as_ptr(),
            name.as_ptr(),
            name.len(),
            answer.as_mut_ptr(),
        )
    }
}

pub fn lookup_opened(
    file: &[u8],
    record: &[u64; RECORD],
    name: &[u8],
    answer: &mut [u64; 5],
) -> u64 {
    unsafe {
        hods_lookup_opened(
            file.as_ptr(),
            file.len(),
            record.as_ptr(),
            name.as_ptr(),
            name.len(),
            answer.as_mut_ptr(),
        )
    }
}

pub fn batch(file: &[u8], names: &[u8], answers: &mut [u8]) -> u64 {
    unsafe {
        hods_batch(
            file.as_ptr(),
            file.len(),
            names.as_ptr(),
            names.len(),
            answers.as_mut_ptr(),
            answers.len(),
        )
    }
}

pub fn start(record: &[u64; RECORD], cursor: &mut [u64; 2]) -> u64 {
    unsafe { hods_start(record.as_ptr(), cursor.as_mut_ptr()) }
}

pub fn step(
    file: &[u8],
    record: &[u64; RECORD],
    cursor: &mut [u64; 2],
    entry: &mut [u64; 5],
) -> u64 {
    unsafe {
        hods_step(
            file.as_ptr(),
            file.len(),
            record.as_ptr(),
            cursor.as_mut_ptr(),
            entry.as_mut_ptr(),
        )
    }
}

pub fn own(file: &[u8], record: &[u64; RECORD], cursor: &[u64; 2], part: &mut [u64; 2]) -> u64 {
    unsafe {
        hods_own(
            file.as_ptr(),
            file.len(),
            record.as_ptr(),
            cursor.as_ptr(),
            part.as_mut_ptr(),
        )
    }
}

pub fn chunk(
    file: &[u8],
    record: &[u64; RECORD],
    chunk: u64,
    entries: &mut [u64],
    next: &mut [u64; 2],
) -> u64 {
    unsafe {
        hods_chunk_page(
            file.as_ptr(),
            file.len(),
            record.as_ptr(),
            chunk,
            entries.as_mut_ptr(),
            entries.len(),
            next.as_mut_ptr(),
        )
    }
}

pub fn compare_start(one: &[u64; RECORD], two: &[u64; RECORD], cursor: &mut [u64; 14]) -> u64 {
    unsafe { hods_compare_start(one.as_ptr(), two.as_ptr(), cursor.as_mut_ptr()) }
}

pub fn compare_step(
    (file1, one): (&[u8], &[u64; RECORD]),
    (file2, two): (&[u8], &[u64; RECORD]),
    cursor: &mut [u64; 14],
    difference: &mut [u64; 15],
    totals: &mut [u64; 4],
) -> u64 {
    unsafe {
        hods_compare_step(
            file1.as_ptr(),
            file1.len(),
            one.as_ptr(),
            file2.as_ptr(),
            file2.len(),
            two.as_ptr(),
            cursor.as_mut_ptr(),
            difference.as_mut_ptr(),
            totals.as_mut_ptr(),
        )
    }
}

pub fn part(file: &[u8], place: u64, length: u64) -> u64 {
    unsafe { hods_part(file.as_ptr(), file.len(), place, length) }
}

pub fn write_head(
    entries: &[u8],
    density: u32,
    time: u32,
    language: u32,
    content_length: u64,
    out: &mut [u8],
    length: &mut [u64; 1],
) -> u64 {
    unsafe {
        hods_write_head(
            entries.as_ptr(),
            entries.len(),
            density,
            time,
            language,
            content_length,
            out.as_mut_ptr(),
            out.len(),
            length.as_mut_ptr(),
        )
    }
}
