"""Makes the input and the expected output of crates/chunk_report, with a table of its cases.

The input holds cases of 4,096 bytes, one chunk each. Each case's answer is set
here by hand, from docs/FORMAT.md; the second implementation must agree with it,
and gives what the searches find. `--check` writes nothing and says what differs.
"""

import os
import random
import sys

from chunks import CHUNK, LISTING, NONE, build_index, build_listing, encode, index_entry, listing_entry
from second import answer, line

DENSITY, COUNT, CONTENT = 2, 3, 5
# what the program searches in a good chunk: these entries and the last one; and for these names, the entry of a listing chunk, the child of an index chunk
ENTRIES = 0, 4, 5, 9, 10, 65535
NAMES = b'/', b'/000', b'/005XX', b'/005', b'/9', b'/Z', b'/a.HTM'
REPORT = line('K', DENSITY, COUNT, CONTENT, ','.join(map(str, ENTRIES)), ','.join(n.hex() for n in NAMES))
TOP = 2 ** 63 - 1
cases = []


def case(what, rows, chunk, answer):
    cases.append((what, rows, chunk, str(answer)))


def listing(entries, **more):
    return build_listing(entries, DENSITY, **more)


def index(entries, **more):
    return build_index(entries, DENSITY, **more)


def L(count, prev=NONE, next=NONE):
    return 'L %d %d %d' % (prev, next, count)


def I(count):
    return 'I %d' % count


def name(i, size=4):
    """The i-th of rising names."""
    return (b'/%03d' % i).ljust(size, b'x')


def mixed(c):
    """c listing entries of uneven lengths, so that no two quick words agree
    with a wrong rule."""
    sizes = (4, 9, 130, 5, 17, 6, 4, 31, 128, 127, 8)
    return [(name(i, sizes[i % len(sizes)]), i % 3 and 1, i * 40 if i % 3 else i % 6, 0)
            for i in range(c)]


def pages(c):
    """c index entries of uneven lengths."""
    sizes = (4, 140, 7, 5, 19, 6, 127, 33, 4, 128, 8)
    return [(name(i, sizes[i % len(sizes)]), i % 3) for i in range(c)]


def offsets(raw):
    """The offset of each entry from entry 0."""
    at, out = 0, []
    for r in raw:
        out.append(at)
        at += len(r)
    return out


def full(c, room, maker):
    """c entries that take exactly so many bytes."""
    out = []
    for i in range(c):
        share = room // (c - i)
        size = next(s for s in range(1024, 0, -1) if len(maker(name(i, s), 1)) <= share)
        out.append(maker(name(i, size), 1))
        room -= len(out[-1])
    if room:
        raise ValueError('no exact filling')
    return out


def one(name_bytes=b'/a', section=b'\x00', offset=b'\x00', length=b'\x00', size=None):
    """The bytes of a listing entry, each field given as it stands."""
    return (encode(len(name_bytes)) if size is None else size) + name_bytes + section + offset + length


def leaf(name_bytes=b'/a', child=b'\x00', size=None):
    """The bytes of an index entry, each field given as it stands."""
    return (encode(len(name_bytes)) if size is None else size) + name_bytes + child


def junk(seed):
    return random.Random(seed).randbytes


def pair(a, b):
    return [(a, 0, 0, 0), (b, 0, 0, 0)]


def good_chunks():
    book = bytes.fromhex('504d474c' 'dd0f0000' '00000000' + 'ff' * 8
                         + '012f000000' '062f612e68746d000005')
    book += bytes(CHUNK - 2 - len(book)) + bytes([2, 0])
    case('the sample book\'s chunk', 'W16', book, L(2))
    words = {1: 'no', 4: 'no', 5: 'no', 6: 'one', 10: 'one', 11: 'two', 12: 'two', 15: 'two', 16: 'three'}
    for c, many in words.items():
        case('%s, %s quick word%s' % (of(c), many, '' if many == 'one' else 's'), 'C6, C8',
             listing(mixed(c)), L(c))
    case('unchecked word DEADBEEF', 'C1', listing(mixed(6), word=0xDEADBEEF), L(6))
    case('unchecked word FFFFFFFF', 'C1', listing(mixed(1), word=NONE), L(1))
    case('previous 7, next FFFFFFFE: not judged in a chunk by itself', 'C1',
         listing(mixed(2), prev=7, next=0xFFFFFFFE), L(2, 7, 0xFFFFFFFE))
    case('previous 0, next 80000000', 'C1', listing(mixed(2), prev=0, next=1 << 31), L(2, 0, 1 << 31))


def quick_words():
    raw = [listing_entry(*e) for e in mixed(16)]
    at = offsets(raw)
    case('words shifted: entry 0 has one, 6 entries', 'C8', listing(raw[:6], words=[0, at[5]]), 11)
    case('words shifted: entry 0 has one, 11 entries', 'C8', listing(raw[:11], words=[0, at[5], at[10]]), 11)
    case('words spaced by four, 6 entries: the same bytes', 'C7', listing(raw[:6], spaced=4), L(6))
    case('words spaced by four, 11 entries', 'C7', listing(raw[:11], spaced=4), 11)
    case('words spaced by four, 16 entries', 'C7', listing(raw, spaced=4), 11)
    case('words spaced by four, 11 entries, tail filled with FF', 'C7',
         listing(raw[:11], spaced=4, fill=255), 11)
    case('words in forward order, 11 entries', 'C7', listing(raw[:11], words=[at[10], at[5]]), 11)
    case('word counts from the chunk\'s start', 'C8', listing(raw[:6], words=[at[5] + 20]), 11)
    case('word one too high', 'C8', listing(raw[:6], words=[at[5] + 1]), 11)
    case('word one too low', 'C8', listing(raw[:6], words=[at[5] - 1]), 11)
    case('word is that of entry 4', 'C8', listing(raw[:6], words=[at[4]]), 11)
    case('word big-endian', 'N1, C8',
         listing(raw[:6], words=[int.from_bytes(at[5].to_bytes(2, 'little'), 'big')]), 11)
    case('words for every fourth entry', 'C5, C8', listing(raw[:11], words=[at[4], at[8]]), 11)
    case('word missing (0), 6 entries', 'C8', listing(raw[:6], words=[]), 11)
    case('second of two words missing', 'C8', listing(raw[:11], words=[at[5]]), 11)
    case('only the third of three words wrong', 'C8', listing(raw, words=[at[5], at[10], at[15] ^ 256]), 11)
    case('only the first of three words wrong', 'C8', listing(raw, words=[at[5] ^ 256, at[10], at[15]]), 11)
    case('5 entries, junk where a first word would stand', 'C6, C11', listing(raw[:5], words=[0xFFFF]), L(5))
    case('10 entries, junk where a second word would stand', 'C6, C11',
         listing(raw[:10], words=[at[5], 0xFFFF]), L(10))
    case('1 entry, junk in all unused tail bytes', 'C11', listing(raw[:1], fill=junk(1)), L(1))
    case('11 entries, junk in all unused tail bytes', 'C11', listing(raw[:11], fill=junk(2)), L(11))
    case('6 entries, the unused tail bytes look like entries', 'C11',
         listing(raw[:6], fill=lambda n: (listing_entry(b'/zzz') * n)[:n]), L(6))


def tails():
    room = CHUNK - 20
    for c, tail, answer in ((4, 2, L(4)), (5, 2, L(5)), (6, 2, 9), (6, 3, 9), (6, 4, L(6)),
                            (10, 4, L(10)), (11, 4, 9), (11, 5, 9), (11, 6, L(11))):
        raw = full(c, room - tail, listing_entry)
        fits = tail >= 2 + 2 * ((c - 1) // 5)
        case('%d entries that leave a tail of %d' % (c, tail), 'C9',
             listing(raw, words=None if fits else []), answer)
    some = mixed(1)
    case('tail length 0', 'C9', listing(some, tail=0), 9)
    case('tail length 1', 'C9', listing(some, tail=1), 9)
    case('6 entries, tail length 3 in a chunk with room', 'C9', listing(mixed(6), tail=3), 9)
    case('tail length 4,076: no room for the entry', 'C3, C10', listing(some, tail=4076), 10)
    case('tail length 4,077', 'C10', listing(some, tail=4077), 9)
    case('tail length 4,096', 'C10', listing(some, tail=4096), 9)
    case('tail length FFFFFFFF', 'C10', listing(some, tail=NONE), 9)
    right = CHUNK - 20 - len(listing_entry(*some[0]))
    case('tail length 65,536 too high', 'C10', listing(some, tail=right + 65536), 9)
    case('entry count 0, all else good', 'C4', listing(some, count=0), 9)
    case('entry count 0, no entries, tail length 4,076', 'C4', listing([]), 9)
    case('entry count 65,535', 'C4, C9', listing(some, count=65535), 9)
    case('entry count 65,535, tail length 4,076', 'C4, C9', listing(some, tail=4076, count=65535), 9)
    case('entry count 10,190: 2,037 words just fill a tail of 4,076', 'C3, C9',
         listing(some, tail=4076, count=10190), 10)
    case('entry count 10,191: a word more than that', 'C9', listing(some, tail=4076, count=10191), 9)


def filling():
    two = mixed(2)
    third = listing_entry(b'/zzz')
    case('one byte between the last entry and the tail', 'C3', listing(two, slack=1), 10)
    case('tail starts one byte inside the last entry', 'C3', listing(two, slack=-1), 10)
    case('tail starts inside the last entry\'s name', 'C3', listing(two, slack=-6), 10)
    case('tail starts inside entry 0 of two', 'C3',
         listing(two, tail=CHUNK - 20 - len(listing_entry(*two[0])) + 2), 10)
    case('last number goes on into the tail', 'N6, C3', listing([one(length=b'\x81')], fill=0), 10)
    case('three entries, count 2', 'C3', listing(mixed(3), count=2), 10)
    case('two entries, count 3, zeros behind', 'C3', listing(two, count=3), 10)
    case('two entries, count 3, a good third one in the tail', 'C3', listing(two, count=3, gap=third), 10)
    case('tail leaves out a good third entry, count 2', 'C11', listing(two, gap=third), L(2))
    case('name length past the tail', 'C3, E3', listing([one(b'/abc', size=encode(60))]), 10)


def names():
    case('name of 0 bytes', 'E4', listing([one(b'')]), 10)
    case('name of 1 byte', 'E4', listing([(b'/',)]), L(1))
    case('name of 127 bytes', 'E4, N2', listing([(name(1, 127),)]), L(1))
    case('name of 128 bytes', 'E4, N2', listing([(name(1, 128),)]), L(1))
    case('name of 1,024 bytes', 'E4', listing([(name(1, 1024),)]), L(1))
    case('name of 1,025 bytes', 'E4', listing([(name(1, 1025),)]), 10)
    case('name length 2^63 - 1', 'E4', listing([one(b'/a', size=encode(TOP))]), 10)
    case('name of any bytes, 00 and FF too', 'S4', listing([(bytes(range(256)),)]), L(1))
    case('second of three names empty', 'E4', listing([one(b'/a'), one(b''), one(b'/b')]), 10)


def numbers():
    nine, ten = b'\xff' * 8 + b'\x7f', b'\xff' * 9 + b'\x7f'
    case('offset of nine bytes, 2^63 - 1, section 1', 'N3', listing([one(section=b'\x01', offset=nine)]), L(1))
    case('offset of nine bytes, 2^56, section 1', 'N3',
         listing([one(section=b'\x01', offset=b'\x81' + b'\x80' * 7 + b'\x00')]), L(1))
    case('offset of ten bytes, section 1', 'N3', listing([one(section=b'\x01', offset=ten)]), 10)
    case('length of ten bytes, 81, eight 80, 00, section 1', 'N3',
         listing([one(section=b'\x01', length=b'\x81' + b'\x80' * 8 + b'\x00')]), 10)
    case('offset and length 2^63 - 1, section 1', 'N3, E6', listing([(b'/a', 1, TOP, TOP)]), L(1))
    case('section 65,535', 'E5', listing([(b'/a', 65535, 9, 9)]), L(1))
    case('section 65,536', 'E5', listing([(b'/a', 65536, 0, 0)]), 10)
    case('section 2^32', 'E5', listing([(b'/a', 1 << 32, 0, 0)]), 10)
    case('section 2^63 - 1', 'E5', listing([(b'/a', TOP, 0, 0)]), 10)
    for offset, length, answer in ((2, 3, L(1)), (3, 3, 10), (0, 5, L(1)), (0, 6, 10), (5, 0, L(1)), (6, 0, 10),
                                   (TOP, 1, 10), (1, TOP, 10), (TOP, TOP, 10), (TOP, 0, 10)):
        case('section 0, offset %s, length %s' % tuple('2^63 - 1' if n == TOP else n for n in (offset, length)),
             'E6, N7', listing([(b'/a', 0, offset, length)]), answer)
    case('section 1, offset 6, length 0', 'E6', listing([(b'/a', 1, 6, 0)]), L(1))
    case('only the last of 6 entries beyond the content', 'E6', listing(mixed(5) + [(b'/zz', 0, 3, 3)]), 10)


def padding():
    for pad, told, row, answer in ((1, '80', 'N4', L(1)), (8, 'eight 80 and', 'N4', L(1)), (9, 'nine 80 and', 'N3', 10)):
        front = b'\x80' * pad
        case('name length %s 02' % told, row, listing([one(size=front + b'\x02')]), answer)
        case('section %s 00' % told, row, listing([one(section=front + b'\x00')]), answer)
        case('offset %s 01' % told, row, listing([one(offset=front + b'\x01')]), answer)
        case('length %s 01' % told, row, listing([one(length=front + b'\x01')]), answer)
    case('offset 80 81 00, 128, section 1', 'N4', listing([one(section=b'\x01', offset=b'\x80\x81\x00')]), L(1))
    case('offset 80 and a number of nine bytes, section 1', 'N3', listing([one(section=b'\x01', offset=b'\x80' + encode(TOP))]), 10)
    case('name length 80 at the end of the space', 'N6, C3', listing([b'\x80']), 10)
    case('length 80 at the end of the space', 'N6, C3', listing([one(length=b'\x80')]), 10)
    case('length 80, its 01 in the tail', 'N6, C3', listing([one(length=b'\x80')], gap=b'\x01'), 10)
    case('name length 80 00', 'N4, E4', listing([one(b'', size=b'\x80\x00')]), 10)
    case('name length 80 88 01, 1,025 bytes', 'N4, E4', listing([one(name(1, 1025), size=b'\x80\x88\x01')]), 10)
    case('section 80 84 80 00, 65,536', 'N4, E5', listing([one(section=b'\x80\x84\x80\x00')]), 10)
    case('section 0, offset 80 03, length 80 03', 'N4, E6', listing([one(offset=b'\x80\x03', length=b'\x80\x03')]), 10)


def padded_words():
    """Padding in front of an entry moves it, and its quick word with it."""
    pads = [(i % 3, i % 2, i % 4, 0) for i in range(16)]
    raw = [listing_entry(*e, p) for e, p in zip(mixed(16), pads)]
    short = offsets([listing_entry(*e) for e in mixed(16)])
    for c in (6, 11, 16):
        case('%s, padded' % of(c), 'N4, C8', listing(raw[:c]), L(c))
        case('%s, padded, words of the short forms' % of(c), 'N4, C8', listing(raw[:c], words=short[5:c:5]), 11)
    case('only entry 5 padded, in its name length', 'N4, C8',
         listing([listing_entry(*e, (8 * (i == 5), 0, 0, 0)) for i, e in enumerate(mixed(6))], words=short[5:6]), L(6))
    case('padded names that fall', 'N4, C12', listing([one(b'/b', size=b'\x80\x02'), one(b'/a', size=b'\x80\x02')]), 12)


def order():
    for a, b, answer in ((b'/A', b'/a', 12), (b'/a', b'/A', 12), (b'/a', b'/a', 12), (b'/Z', b'/[', 12),
                         (b'/[', b'/Z', L(2)), (b'/Z', b'/{', L(2)), (b'/@', b'/A', L(2)), (b'/A', b'/`', 12),
                         (b'/a', b'/B', L(2)), (b'/B', b'/a', 12), (b'/a', b'/a.htm', L(2)),
                         (b'/a.htm', b'/a', 12), (b'/a.htm', b'/A', 12), (b'/b', b'/a.htm', 12),
                         (b'/z', b'/\x80', L(2)), (b'/\x80', b'/z', 12), (b'/\xc0', b'/\xe0', L(2)),
                         (b'/a', b'/a\x00', L(2))):
        case('`%s` then `%s`' % (shown(a), shown(b)), 'S1, S2, C12', listing(pair(a, b)), answer)
    ten = [(name(i), 0, 0, 0) for i in range(10)]
    case('10 entries, 0 and 1 exchanged', 'C12', listing(ten, swap=(0, 1)), 12)
    case('10 entries, 4 and 5 exchanged', 'C12', listing(ten, swap=(4, 5)), 12)
    case('10 entries, 8 and 9 exchanged', 'C12', listing(ten, swap=(8, 9)), 12)


def several():
    ten = [(name(i), 0, 0, 0) for i in range(10)]
    bad = [(name(11), 0, 6, 0)]
    case('order and quick word wrong', 'RO2', listing(ten, swap=(0, 1), words=[1]), 12)
    case('quick word and order wrong, the order behind it', 'RO2', listing(ten, swap=(8, 9), words=[1]), 12)
    case('order wrong, then an entry wrong', 'RO2', listing(ten + bad, swap=(0, 1)), 10)
    case('entry wrong, then the order', 'RO2', listing(bad + ten, swap=(9, 10)), 10)
    case('entry and quick word wrong', 'RO2', listing(ten + bad, words=[1, 1]), 10)
    case('order wrong and a byte before the tail', 'RO2', listing(ten, swap=(0, 1), slack=1), 10)
    case('quick word wrong and a byte before the tail', 'RO2', listing(ten, words=[1], slack=1), 10)
    case('entry, order and quick word wrong', 'RO2', listing(ten + bad, swap=(0, 1), words=[1, 1]), 10)
    case('tail length, entry, order and quick word wrong', 'RO2',
         listing(ten + bad, swap=(0, 1), words=[1, 1], tail=5), 9)
    case('tag and all else wrong', 'RO2',
         listing(ten + bad, swap=(0, 1), words=[1, 1], tail=5, as_tag=b'PMGM'), 8)


def tags():
    for tag in (b'PMGM', b'pmgl', b'LGMP', b'ITSP', b'PMG\x00'):
        case('tag `%s`' % shown(tag), 'R8', listing(mixed(2), as_tag=tag), 8)
    case('all zero', 'R8', bytes(CHUNK), 8)
    case('all FF', 'R8', b'\xff' * CHUNK, 8)
    case('listing chunk tagged `PMGI`: entry 0 starts with the word 0', 'C2, E4', listing(mixed(2), as_tag=b'PMGI'), 10)
    case('index chunk tagged `PMGL`: the tail is too long for it', 'C1, C10', index([(b'/', 0)], as_tag=LISTING), 9)


def index_chunks():
    for c in (1, 4, 5, 6, 10, 11, 12, 16):
        case('index: %s' % of(c), 'C6, C8, C13', index(pages(c)), I(c))
    case('index: child 2, the last chunk', 'E7', index([(b'/a', 2)]), I(1))
    case('index: child 3', 'E7', index([(b'/a', 3)]), 10)
    case('index: child 2^32', 'E7', index([(b'/a', 1 << 32)]), 10)
    case('index: child 2^63 - 1', 'E7', index([(b'/a', TOP)]), 10)
    case('index: child of ten bytes', 'N3', index([leaf(child=b'\xff' * 9 + b'\x7f')]), 10)
    case('index: two entries with one child', 'E7', index([(b'/a', 1), (b'/b', 1)]), I(2))
    case('index: only the last of 6 children too high', 'E7', index(pages(5) + [(b'/zz', 3)]), 10)
    for size, answer in ((0, 10), (1, I(1)), (1024, I(1)), (1025, 10)):
        case('index: name of %s byte%s' % ('{:,}'.format(size), '' if size == 1 else 's'), 'E4',
             index([leaf(b'/' * size, b'\x02')]), answer)
    raw = [index_entry(*e) for e in pages(16)]
    at = offsets(raw)
    case('index: words shifted, entry 0 has one', 'C8, C13', index(raw[:6], words=[0, at[5]]), 11)
    case('index: words spaced by four, 11 entries', 'C7, C13', index(raw[:11], spaced=4), 11)
    case('index: word counts from the chunk\'s start', 'C8, C13', index(raw[:6], words=[at[5] + 8]), 11)
    case('index: third of three words wrong', 'C8, C13', index(raw, words=[at[5], at[10], at[15] + 1]), 11)
    case('index: junk in all unused tail bytes', 'C11, C13', index(raw[:11], fill=junk(3)), I(11))
    room = CHUNK - 8
    for c, tail, answer in ((5, 2, I(5)), (6, 2, 9), (6, 3, 9), (6, 4, I(6))):
        case('index: %d entries that leave a tail of %d' % (c, tail), 'C9, C13',
             index(full(c, room - tail, index_entry), words=None if c == 5 or tail == 4 else []), answer)
    case('index: tail length 4,088: no room for the entry', 'C3, C10', index(raw[:1], tail=4088), 10)
    case('index: tail length 4,089', 'C10', index(raw[:1], tail=4089), 9)
    case('index: entry count 0', 'C4, C13', index(raw[:1], count=0), 9)
    case('index: entry count 65,535', 'C4, C9', index(raw[:1], count=65535), 9)
    case('index: one byte before the tail', 'C3, C13', index(raw[:2], slack=1), 10)
    case('index: tail starts one byte inside the last entry', 'C3, C13', index(raw[:2], slack=-1), 10)
    case('index: three entries, count 2', 'C3, C13', index(raw[:3], count=2), 10)
    for a, b, answer in ((b'/A', b'/a', 12), (b'/Z', b'/[', 12), (b'/[', b'/Z', I(2)), (b'/a.htm', b'/a', 12)):
        case('index: `%s` then `%s`' % (shown(a), shown(b)), 'C12, C13', index([(a, 0), (b, 1)]), answer)
    ten = [(name(i), 1) for i in range(10)]
    case('index: order and quick word wrong', 'RO2', index(ten, swap=(8, 9), words=[1]), 12)
    case('index: order and a child wrong', 'RO2', index(ten + [(b'/zz', 3)], swap=(0, 1)), 10)
    case('index: tag and tail length wrong', 'RO2', index(ten, tail=0, as_tag=b'PMGK'), 8)


def padded_children():
    case('index: child 80 01', 'N4', index([leaf(child=b'\x80\x01')]), I(1))
    case('index: child eight 80 and 02', 'N4', index([leaf(child=b'\x80' * 8 + b'\x02')]), I(1))
    case('index: child nine 80 and 01', 'N3', index([leaf(child=b'\x80' * 9 + b'\x01')]), 10)
    case('index: child 80 03', 'N4, E7', index([leaf(child=b'\x80\x03')]), 10)
    case('index: child 80 at the end of the space', 'N6, C3', index([leaf(child=b'\x80')]), 10)
    case('index: name length 80 02', 'N4', index([leaf(size=b'\x80\x02')]), I(1))
    raw = [index_entry(*e, (i % 3, i % 2)) for i, e in enumerate(pages(11))]
    short = offsets([index_entry(*e) for e in pages(11)])
    case('index: 11 entries, padded', 'N4, C8, C13', index(raw), I(11))
    case('index: 11 entries, padded, words of the short forms', 'N4, C8, C13', index(raw, words=short[5::5]), 11)


def of(c):
    return '%d entr%s' % (c, 'y' if c == 1 else 'ies')


def shown(name_bytes):
    return ''.join(chr(b) if 32 < b < 127 and b != 0x60 else '<%02X>' % b for b in name_bytes)


def made():
    """The chunks, the report's output and the table of cases; ends with a message where the second implementation differs from an answer set by hand."""
    for group in (good_chunks, quick_words, tails, filling, names, numbers, padding, padded_words, order, several, tags, index_chunks,
                  padded_children):
        group()
    lines = [answer(chunk, REPORT) for _, _, chunk, _ in cases] + [answer(bytes(100), REPORT)]
    wrong = ['case %d (%s): by hand %s, by the second implementation %s' % (k, what, by_hand, told)
             for k, ((what, _, _, by_hand), told) in enumerate(zip(cases, lines), 1) if told.split(' :')[0] != by_hand]
    if wrong:
        raise SystemExit('\n'.join(wrong))
    table = ['# Cases of the chunk report', '',
             'Each is one chunk of 4,096 bytes, held to density 2, 3 chunks and a content of 5 bytes; behind them stand 100 bytes more.',
             'Rows are those of docs/FORMAT.md. Made by tests/make_chunks.py, where the answers are set by hand; host/second has to agree.', '',
             '| Case | What it holds | Rows | Answer |', '|---|---|---|---|']
    table += ['| %d | %s | %s | %s |' % (k, what, rows, answer) for k, (what, rows, _, answer) in enumerate(cases, 1)]
    return {'crates/chunk_report/stdin': b''.join(c[2] for c in cases) + bytes(100),
            'crates/chunk_report/stdout': ''.join(l + '\n' for l in lines).encode(),
            'tests/cases.md': ('\n'.join(table) + '\n').encode(),
            'samples/chunk.bin': cases[0][2]}


def main(words):
    """Writes the files, or with --check says which of them differ from what is made."""
    top = os.path.dirname(os.path.dirname(os.path.abspath(__file__)))
    differ = []
    for path, data in made().items():
        path = os.path.join(top, path)
        if '--check' in words:
            if not os.path.exists(path) or open(path, 'rb').read() != data:
                differ.append(path)
        else:
            os.makedirs(os.path.dirname(path), exist_ok=True)
            with open(path, 'wb') as f:
                f.write(data)
    if differ:
        raise SystemExit('differ from what is made: ' + ', '.join(differ))
    print('%d cases' % len(cases))


if __name__ == '__main__':
    main(sys.argv[1:])
