/* The directory of compiled HTML Help books. Every function answers for any bytes, any record and any name, reads nothing outside what is lent, takes no
   memory of its own but stack, and is proved to do what is said here; crates/hodsplinter has the contracts. Slices must be real: a pointer and the number
   of elements behind it (never NULL, also for none), and what is written must not overlap what is read.

   A record is HODS_RECORD numbers: version, time, language, directory start, chunk count, density, depth, root, first, last, content start. A refusal is its
   number in the table of docs/FORMAT.md plus 256 times its place: the chunk's number for 8 to 12, else FFFFFFFF hex. After a refusal no lent place has
   changed. A number of an entry, an ENCINT, may be padded: leading bytes 80 are seven zero bits each, within nine bytes in all. Its short form has none. */
#ifndef HODSPLINTER_H
#define HODSPLINTER_H

#include <stddef.h>
#include <stdint.h>

/* How many numbers a record has, and how many the answer of hods_lookup. */
#define HODS_RECORD 11
#define HODS_LOOKUP 7

#ifdef __cplusplus
extern "C" {
#endif

/* The order of names, by S1 and S2 of docs/FORMAT.md: 0 where a comes before b, 1 where they are equal, the case of A to Z aside, 2 where a comes behind b. Any
   bytes have an order, also none and more than a name may have. It is the order by which entries rise for hods_write_head. */
uint64_t hods_name_order(const uint8_t *a, size_t a_len, const uint8_t *b, size_t b_len);

/* 0 and the book's record, or the refusal. */
uint64_t hods_open(const uint8_t *file, size_t len, uint64_t record[HODS_RECORD]);

/* 0 found: the answer is the count of chunks, the name's place, its length, section, offset, length, and the count of comparisons, how often the asked name
   was compared with one in these chunks. 255 absent: answer[0] and answer[6] are the two counts, the rest stays. Else the refusal. The trail, of at least 5
   places, gets the numbers of the chunks, at most 5; later places stay. A chunk takes at most h + n comparisons, where n = 1 + 2^density and h is the least
   whole number with 2^h at least 1 + its quick words. Of the file, only its length and these chunks, up to one that is refused, bear on the answer. */
uint64_t hods_lookup(const uint8_t *file, size_t len, const uint64_t record[HODS_RECORD], const uint8_t *name, size_t name_len, uint32_t *trail, size_t places,
                     uint64_t answer[HODS_LOOKUP]);

/* The same search along the chain from the first listing chunk, with no index entry followed and no trail. 0 found: the answer is the name's place, its
   length, section, offset, length. 255 absent or else the refusal, 15 or 17, with nothing changed. On a book that opens, with its record, it answers what
   hods_lookup does with a trail of at least 5 places. On one that hods_open refuses by 14, with the numbers of its headers for a record, it finds exactly
   what is there. */
uint64_t hods_scan(const uint8_t *file, size_t len, const uint64_t record[HODS_RECORD], const uint8_t *name, size_t name_len, uint64_t answer[5]);

/* The lookup in a book that was opened: the same descent, with no chunk checked again and no trail. It answers as hods_scan. Where hods_open gave this record
   for these bytes, it answers what hods_lookup does with a trail of at least 5 places. On any other bytes, those too that changed since they were opened, an
   absent is worth nothing: the name may be there. What it finds stands at the place it tells all the same, and nothing outside what is lent is read. */
uint64_t hods_lookup_opened(const uint8_t *file, size_t len, const uint64_t record[HODS_RECORD], const uint8_t *name, size_t name_len, uint64_t answer[5]);

/* Opens the book and looks many names up in it. They stand one behind another in names, each an ENCINT of its length, padded or in its short form, and its
   bytes. 0 with 32 bytes a name at the front of answers, in the order of the names: four little-endian numbers of 64 bits, status (0 found, 255 absent, 15
   for a name of 0 bytes or more than 1,024), section, offset, length, the last three 0 unless found; later bytes stay. Each is what hods_lookup gives for
   that name. Else the refusal: that of hods_open, or 22 where a name is cut off, its length is no ENCINT of nine bytes or fewer, or answers is too short. No
   names need no answers. */
uint64_t hods_batch(const uint8_t *file, size_t len, const uint8_t *names, size_t names_len, uint8_t *answers, size_t answers_len);

/* 0 and the cursor at the start of the listing. */
uint64_t hods_start(const uint64_t record[HODS_RECORD], uint64_t cursor[2]);

/* 0 with the entry (name's place, its length, section, offset, length) and the cursor moved on; 255 at the end with nothing changed; or the refusal. */
uint64_t hods_step(const uint8_t *file, size_t len, const uint64_t record[HODS_RECORD], uint64_t cursor[2], uint64_t entry[5]);

/* 0 with place and length in the file of the own bytes of the entry at the cursor: from its name's length to its last number as they stand, leading bytes 80
   of a padded number with them. The cursor stays. 255 with nothing changed where hods_step gives no entry: at the end, and wherever it refuses. */
uint64_t hods_own(const uint8_t *file, size_t len, const uint64_t record[HODS_RECORD], const uint64_t cursor[2], uint64_t part[2]);

/* 0 and the entries of one listing chunk, five numbers each, with next[0] their count and next[1] the next chunk's number; 255 where there are too few
   places for them, with nothing changed (4,070 always do); or the refusal. */
uint64_t hods_chunk_page(const uint8_t *file, size_t len, const uint64_t record[HODS_RECORD], uint64_t chunk, uint64_t *entries, size_t numbers, uint64_t next[2]);

/* Two books side by side, by the section Comparison of docs/FORMAT.md. The cursor is two walks along a chain of five numbers each, then four totals. 0, and the
   cursor at the start. */
uint64_t hods_compare_start(const uint64_t one[HODS_RECORD], const uint64_t two[HODS_RECORD], uint64_t cursor[14]);

/* The next difference, in the order of names: 0 with difference[0] 1 for a name that is only in the first book, 2 for one that is only in the second, 3 for
   one that is in both with another section, offset or length; then seven numbers of the first book's entry (name's place, its length, section, offset,
   length, place and length of the entry's own bytes) and seven of the second's, 0 for one that is not there; and the cursor moved on. 255 at the end with
   the totals (only in the first, only in the second, the same, changed), cursor and difference as they were. Else the refusal, 17 + 256 * FFFFFFFF, plus 2^40
   times the number of its book, 1 or 2, with nothing changed. On two books that open, with their records, none is refused from the start on. One call goes over
   all names up to the next difference, which may be both books to their ends; with a cursor that no call gave it may take as long as that cursor's numbers say. */
uint64_t hods_compare_step(const uint8_t *file1, size_t len1, const uint64_t one[HODS_RECORD], const uint8_t *file2, size_t len2, const uint64_t two[HODS_RECORD],
                           uint64_t cursor[14], uint64_t difference[15], uint64_t totals[4]);

/* The length of that part of the file: the length asked for where it lies inside, else 0. */
uint64_t hods_part(const uint8_t *file, size_t len, uint64_t place, uint64_t length);

/* Writes the head of a new book, all that stands in front of its content, by the section Writer of docs/FORMAT.md. The entries are listing entries (name
   length, name, section, offset, length), one directly behind another with rising names, each number in its short form; density is 0 to 7,
   the content's length below 2^62. 0 with the head at the front of out and its length in length[0], 204 + 4,096 for each chunk, at most 16,777,420; what is
   behind it in out stays. Else the refusal: 18 where these rules are broken, by a padded number too, 19 where it takes more than 4,096 chunks or 5 levels, 20
   where out is shorter than the head. */
uint64_t hods_write_head(const uint8_t *entries, size_t len, uint32_t density, uint32_t time, uint32_t language, uint64_t content_length, uint8_t *out,
                         size_t out_len, uint64_t length[1]);

#ifdef __cplusplus
}
#endif

#endif
