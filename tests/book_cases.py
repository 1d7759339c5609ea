"""Whole books on both sides of each rule, with answers set by hand from docs/FORMAT.md, and books with random damage.

  cases()         (what, rows, data, answer); an answer is 'book' or (number, place)
  padded_books()  (what, builder, frames) of books with padded numbers; the frames are the lines of the program `list`
  batch_cases()   (what, rows, data, names, room, answer); an answer is the bytes of the answers or (number, place)
  damaged(r)      (what, data) of a random book with some damage
"""

from books import AS_BYTES, DIRECTORY, FILE, SECTION0, Builder, Part, lined_up, random_book
from chunks import CHUNK, INDEX, LISTING, NONE, encode

WIDTH = {name: width for table in (FILE, SECTION0, DIRECTORY) for name, (_, width) in table.items()}
made = []


def case(what, rows, data, answer):
    if isinstance(answer, int):
        answer = answer, NONE
    made.append((what, rows, data, answer))


def plain(**options):
    """The sample book of W16: section 0 at 60, the directory at 78, the content at 4,300, 4,305 bytes."""
    return Builder([(b'/', 0, 0, 0), (b'/a.htm', 0, 0, 5)], b'hello', **options)


def wood(names=(b'/a', b'/b', b'/c', b'/d', b'/e', b'/f', b'/g', b'/h'), **options):
    """Listing chunks 0 to 3 of two entries each, index chunks 4 (over 0, 1) and 5 (over 2, 3), root 6."""
    options = dict(dict(per=2, fan=2), **options)
    return Builder([(n, 0, 0, 0) for n in names], b'hello', **options)


def put(data, at, new):
    return data[:at] + new + data[at + len(new):]


def short_files():
    book = plain().build()
    for size in (0, 1, 4, 88, 95):
        case('the first %d bytes of a book' % size, 'R1', book[:size], 1)
    case('the first 96 bytes of a book', 'R1, F11', book[:96], 4)
    case('95 bytes of a book of version 2', 'R1', plain(version=2).build()[:95], 1)
    case('96 bytes of a book of version 2', 'R1, F11', plain(version=2).build()[:96], 4)
    case('95 zeros', 'R1', bytes(95), 1)
    case('96 zeros', 'F1', bytes(96), 2)


def tags():
    b = plain()
    for tag in (b'ITSP', b'itsf', b'ITSG', b'JTSF', bytes(4)):
        case('tag %s' % tag, 'F1', b.build(tag=tag), 2)
    good = b.values()
    for name in ('guid_1', 'guid_2'):
        guid = good[name]
        for i in (0, 3, 4, 8, 15):
            case('%s, byte %d changed' % (name, i), 'F5, F6', b.build(**{name: put(guid, i, bytes([guid[i] ^ 1]))}), 2)
    case('GUIDs exchanged', 'F5, F6', b.build(guid_1=good['guid_2'], guid_2=good['guid_1']), 2)
    text = bytes.fromhex('7c01fd117baa11d09e0c00a0c922e6ec')
    case('GUID in the order of its text', 'F6, N5', b.build(guid_2=text), 2)
    case('tag and version wrong', 'RO1', b.build(tag=b'ITSX', version=9), 2)
    case('only the last byte of the second GUID wrong, version too', 'RO1', b.build(guid_2=bytes(16), version=9), 2)


def versions():
    b, old = plain(), plain(version=2)
    case('version 3', 'F2', b.build(), 'book')
    case('version 2', 'F2, F10', old.build(), 'book')
    for version in (0, 1, 4, 0x103, 0x03000000, NONE):
        case('version %X' % version, 'F2', b.build(version=version), 3)
    for length in (0x5F, 0x61, 0x58, 0x160, 0):
        case('version 3, header length %X' % length, 'F3', b.build(header_length=length), 3)
    for length in (0x57, 0x59, 0x60):
        case('version 2, header length %X' % length, 'F3', old.build(header_length=length), 3)
    case('version 2 over the places of version 3', 'F10, F12', b.build(version=2, header_length=0x58), 'book')
    case('version 3 over the places of version 2', 'F12', old.build(version=3, header_length=0x60), 4)
    case('version and section 0 wrong', 'RO1', b.build(version=9, section0_length=9), 3)


def places():
    b, turned = plain(), plain(behind=True)
    for length in (0, 23, 25, 24 + (1 << 32)):
        case('section 0 of %d bytes' % length, 'F7', b.build(section0_length=length), 4)
    case('section 0 of 25 bytes, with room', 'F7', plain(gaps=(0, 1, 0)).build(section0_length=25), 4)
    case('directory of 83 bytes', 'F8', b.build(directory_length=83), 4)
    case('directory of 84 bytes', 'F8, D14', b.build(directory_length=84), 7)
    case('directory of 0 bytes', 'F8', b.build(directory_length=0), 4)
    case('section 0 one byte inside the header', 'F12', b.build(section0_start=0x5F), 4)
    case('directory first, at the header\'s end', 'F12, F13', turned.build(), 'book')
    case('directory one byte inside the header', 'F12', turned.build(directory_start=0x5F), 4)
    case('version 2, section 0 one byte inside the header', 'F12', plain(version=2).build(section0_start=0x57), 4)
    case('both sections at place 0', 'F12', b.build(section0_start=0, directory_start=0), 4)
    case('directory over the last byte of section 0', 'F13', b.build(directory_start=0x77), 4)
    case('section 0 over the first byte of the directory', 'F13', b.build(section0_start=0x61), 4)
    case('section 0 over the last byte of the directory', 'F13',
         turned.build(section0_start=turned.places[0] - 1), 4)
    case('section 0 inside the directory', 'F13', b.build(section0_start=0x78 + 84), 4)
    case('section 0 at the directory', 'F13', b.build(section0_start=0x78), 4)
    for gaps in ((1, 0, 0), (0, 1, 0), (0, 0, 1), (7, 300, 19)):
        case('gaps %d, %d, %d' % gaps, 'F13, F14', plain(gaps=gaps, fill=0xFF).build(), 'book')
        case('gaps %d, %d, %d, directory first' % gaps, 'F13, F14', plain(gaps=gaps, behind=True).build(), 'book')
        case('gaps %d, %d, %d, version 2' % gaps, 'F10, F13', plain(gaps=gaps, version=2).build(), 'book')
    case('version 2, section 0 behind the directory', 'F14', plain(version=2, behind=True).build(), 4)
    case('content one byte inside the directory', 'F14', b.build(content_start=4299), 4)
    case('content one byte inside section 0', 'F14', turned.build(content_start=turned.places[2] - 1), 4)
    case('content at section 0, behind the directory', 'F14', turned.build(content_start=turned.places[0]), 4)
    case('content start 0', 'F14', b.build(content_start=0), 4)
    hollow = Builder([(b'/', 0, 0, 0)], b'hello')
    case('content start at the file\'s end', 'F14, E6', hollow.build(content_start=4305), 'book')
    case('content start one behind the file\'s end', 'F14', hollow.build(content_start=4306), 4)
    empty = Builder([(b'/', 0, 0, 0)])
    case('no content', 'F14', empty.build(), 'book')
    case('no content, version 2', 'F10, F14', Builder([(b'/', 0, 0, 0)], version=2).build(), 'book')
    case('no content, directory one byte past the end', 'F11', empty.build(directory_length=84 + CHUNK + 1), 4)
    case('no content, last byte missing', 'F11', empty.build()[:-1], 4)
    last = Builder([(b'/', 0, 0, 0)], behind=True)
    case('section 0 at the file\'s end', 'F11', last.build(), 'book')
    case('section 0 at the file\'s end, last byte missing', 'F11', last.build()[:-1], 4)
    case('section 0 one byte past the end', 'F11', last.build(section0_start=last.places[0] + 1), 4)
    top = 1 << 64
    for what, hurt in (('section 0 start 2^64 - 24', dict(section0_start=top - 24)),
                       ('section 0 start 2^64 - 1', dict(section0_start=top - 1)),
                       ('section 0 start 2^63', dict(section0_start=top // 2)),
                       ('section 0 start 2^32 too high', dict(section0_start=0x60 + (1 << 32))),
                       ('section 0 length 2^64 - 1', dict(section0_length=top - 1)),
                       ('directory start 2^64 - 4,180', dict(directory_start=top - 4180)),
                       ('directory start 2^64 - 1', dict(directory_start=top - 1)),
                       ('directory start 2^32 too high', dict(directory_start=0x78 + (1 << 32))),
                       ('directory length 2^64 - 120', dict(directory_length=top - 120)),
                       ('directory length 2^64 - 1', dict(directory_length=top - 1)),
                       ('directory length 2^63', dict(directory_length=top // 2)),
                       ('directory length 2^32 too high', dict(directory_length=4180 + (1 << 32))),
                       ('content start 2^64 - 1', dict(content_start=top - 1)),
                       ('content start 2^32 too high', dict(content_start=4300 + (1 << 32)))):
        case(what, 'F11, F14, N7', b.build(**hurt), 4)
    case('section 0 and the file\'s length wrong', 'RO1', b.build(section0_length=23, file_length=1), 4)


def lengths():
    b = plain()
    for more in (-1, 1, 256, 1 << 32, 1 << 63):
        case('file length %+d' % more, 'F15', b.build(file_length=4305 + more), 5)
    case('file length 0', 'F15', b.build(file_length=0), 5)
    case('one byte more', 'F15', b.build() + b'\0', 5)
    case('last byte of the content missing', 'F15', b.build()[:-1], 5)
    case('all of the content missing', 'F15', b.build()[:4300], 5)
    case('a byte of the directory missing', 'F11', b.build()[:4299], 4)
    case('file length in front of the directory, one byte more', 'F15', plain(behind=True).build() + b'\0', 5)
    case('file length and directory tag wrong', 'RO1', b.build(file_length=1, d_tag=b'ITSF'), 5)


def directory_tags():
    b = plain()
    for tag in (b'ITSF', b'itsp', b'ITSQ', bytes(4)):
        case('directory tag %s' % tag, 'D2', b.build(d_tag=tag), 6)
    for version in (0, 2, 0x101):
        case('directory version %X' % version, 'D3', b.build(d_version=version), 6)
    for length in (0, 0x53, 0x55, 0x154):
        case('directory header length %X' % length, 'D4', b.build(d_length=length), 6)
        case('second directory header length %X' % length, 'D13', b.build(d_length_2=length), 6)
    guid = b.values()['d_guid']
    for i in (0, 3, 7, 8, 15):
        case('directory GUID, byte %d changed' % i, 'D12', b.build(d_guid=put(guid, i, bytes([guid[i] ^ 0x80]))), 6)
    case('directory version and chunk size wrong', 'RO1', b.build(d_version=2, chunk_size=1), 6)
    case('second directory header length and depth wrong', 'RO1', b.build(d_length_2=0, depth=0), 6)


def directory_numbers():
    b, w = plain(), wood()
    for size in (0, 2048, 4095, 4097, 8192, 4096 + 65536):
        case('chunk size %d' % size, 'D6', b.build(chunk_size=size), 7)
    for density in range(8):
        case('density %d' % density, 'D7', wood(density=density, per=4).build(), 'book')
    for density in (8, 9, 258, NONE):
        case('density %d' % density, 'D7', b.build(density=density), 7)
    for depth in (0, 2, 5, 6, 257, NONE):
        case('one chunk, depth %d' % depth, 'D8, D16', b.build(depth=depth), 7)
    for depth in (0, 1, 6, NONE):
        case('7 chunks, depth %d' % depth, 'D8, D16', w.build(depth=depth), 7)
    case('one chunk, depth 2, root 0', 'D16', b.build(depth=2, root=0), 7)
    for root in (0, NONE):
        case('7 chunks, depth 1, root %d' % root, 'D16', w.build(depth=1, root=root), 7)
    for count in (0, 2, 4096, 4097, 0x100001, NONE):
        case('one chunk, count %d' % count, 'D11, D14', b.build(count=count), 7)
    for count in (0, 1, 6, 8):
        case('7 chunks, count %d' % count, 'D14', w.build(count=count), 7)
    case('count 0, depth 1, directory of 84 bytes', 'D11', b.build(count=0, directory_length=84), 7)
    case('directory longer by a byte', 'D14', plain(gaps=(0, 0, 1)).build(directory_length=4181), 7)
    case('directory shorter by a byte', 'D14', b.build(directory_length=4179), 7)
    case('directory longer by a chunk', 'D14', plain(gaps=(0, 0, CHUNK)).build(directory_length=84 + 2 * CHUNK), 7)
    for name in ('first', 'last'):
        for number in (1, NONE):
            case('one chunk, %s listing chunk %d' % (name, number), 'D15', b.build(**{name: number}), 7)
        for number in (7, 8, NONE):
            case('7 chunks, %s listing chunk %d' % (name, number), 'D15', w.build(**{name: number}), 7)
    case('depth 1, root none', 'D17', b.build(root=NONE), 'book')
    case('depth 1, root 0', 'D17', b.build(root=0), 'book')
    for root in (1, 0xFFFFFFFE, 0xFFFF0000):
        case('depth 1, root %d' % root, 'D17', b.build(root=root), 7)
    for root in (7, NONE):
        case('depth 3, root %d of 7' % root, 'D18', w.build(root=root), 7)
    case('directory number wrong and a chunk wrong', 'RO1', put(w.build(density=8), w.part_at(0), b'?'), 7)


def hurt_part(position, order=None, **damage):
    w = wood(order=order)
    w.parts[position].damage = damage
    return w.build()


def filled(c, room):
    """c listing entries that take so many bytes."""
    return [((b'/%02d' % i).ljust(room // c + (i < room % c) - 5, b'x'), 0, 0, 0) for i in range(c)]


def chunk_faults():
    back = [6, 5, 4, 3, 2, 1, 0]
    for i in (0, 3, 4, 6):
        for tag in (b'PMGM', b'pmgl', b'ITSP'):
            case('chunk %d tagged %s' % (i, tag), 'R8', hurt_part(i, as_tag=tag), (8, i))
        case('chunk %d tagged as nothing, numbers backward' % i, 'R8, D19', hurt_part(i, back, as_tag=bytes(4)), (8, 6 - i))
        case('chunk %d with count 0' % i, 'C4', hurt_part(i, count=0), (9, i))
        case('chunk %d with tail length 1' % i, 'C9', hurt_part(i, tail=1), (9, i))
        case('chunk %d with tail length FFFFFFFF' % i, 'C10', hurt_part(i, tail=NONE), (9, i))
        case('chunk %d with a byte before the tail' % i, 'C3', hurt_part(i, slack=1), (10, i))
        case('chunk %d with a byte too few' % i, 'C3', hurt_part(i, slack=-1), (10, i))
        case('chunk %d with count 3' % i, 'C3', hurt_part(i, count=3), (10, i))
        case('chunk %d with names exchanged' % i, 'C12', hurt_part(i, swap=(0, 1)), (12, i))
    case('listing chunk, tail 4,076', 'C3, C10', hurt_part(2, tail=4076), (10, 2))
    case('listing chunk, tail 4,077', 'C10', hurt_part(2, tail=4077), (9, 2))
    case('index chunk, tail 4,088', 'C3, C10', hurt_part(5, tail=4088), (10, 5))
    case('index chunk, tail 4,089', 'C10', hurt_part(5, tail=4089), (9, 5))
    for c, tail, answer in ((5, 2, 'book'), (6, 2, (9, 0)), (6, 3, (9, 0)), (6, 4, 'book'), (10, 4, 'book'), (11, 4, (9, 0)),
                            (11, 6, 'book')):
        b = Builder([(b'/', 0, 0, 0)])
        b.parts[0].entries = filled(c, CHUNK - 20 - tail)
        b.parts[0].damage = {} if answer == 'book' else dict(words=[])
        case('%d entries that leave a tail of %d' % (c, tail), 'C9', b.build(), answer)
    eleven = [b'/%02d' % i for i in range(11)]
    for c, words in ((5, 0), (6, 1), (10, 1), (11, 2)):
        b = Builder([(n, 1, 0, 0) for n in eleven[:c]], fill=0xFF)
        case('%d entries, density 2' % c, 'C6, C14', b.build(), 'book')
        for k in range(1, words + 1):
            right = 35 * k
            for word in (right - 1, right + 1, right + 20, right - 7):
                case('%d entries, word %d is %d' % (c, k, word), 'C7, C8',
                     put(b.build(), b.part_at(0) + CHUNK - 2 - 2 * k, word.to_bytes(2, 'little')), (11, 0))
        b.parts[0].damage = dict(spaced=4)
        case('%d entries, words four apart' % c, 'C7', b.build(), 'book' if words < 2 else (11, 0))
    six = wood(names=eleven[:6] + [b'/z'], per=6)
    six.parts[0].damage = dict(swap=(2, 3), words=[1])
    case('order and quick word', 'RO2', six.build(), (12, 0))
    six.parts[0].damage = dict(swap=(2, 3), slack=1)
    case('order and filling', 'RO2', six.build(), (10, 0))
    six.parts[0].damage = dict(words=[1], slack=1)
    case('quick word and filling', 'RO2', six.build(), (10, 0))
    six.parts[0].damage = dict(words=[1])
    case('quick word', 'C8', six.build(), (11, 0))
    six.parts[1].damage = dict(as_tag=b'PMGX')
    case('quick word in chunk 0, tag in chunk 1', 'RO2', six.build(), (11, 0))
    two = wood()
    two.parts[1].damage, two.parts[2].damage = dict(swap=(0, 1)), dict(as_tag=b'?MGL')
    case('order in chunk 1, tag in chunk 2', 'RO2', two.build(), (12, 1))
    two.numbers[1:3] = 2, 1
    case('the same with these numbers exchanged', 'RO2', two.build(), (8, 1))
    chained = wood()
    chained.parts[0].prev = 3
    chained.parts[6].damage = dict(as_tag=b'PMGX')
    case('chain and the last chunk\'s tag', 'RO2, RO3', chained.build(), (8, 6))


def single(raw, content=b'hello', **options):
    """A book of one entry, its bytes or its name and numbers."""
    b = Builder([(b'/a', 0, 0, 0)], content, **options)
    b.parts[0].entries = [raw]
    return b.build()


def entries():
    for offset, length, answer in ((0, 5, 'book'), (5, 0, 'book'), (2, 3, 'book'), (0, 6, (10, 0)), (6, 0, (10, 0)),
                                   (3, 3, (10, 0)), (2 ** 63 - 1, 1, (10, 0)), (2 ** 63 - 1, 2 ** 63 - 1, (10, 0))):
        for version in (2, 3):
            case('5 bytes of content, version %d, section 0, %d and %d' % (version, offset, length), 'E6, F16',
                 single((b'/a', 0, offset, length), version=version), answer)
        case('section 1, %d and %d' % (offset, length), 'E6', single((b'/a', 1, offset, length)), 'book')
    case('no content, section 0, 0 and 0', 'E6', single((b'/a', 0, 0, 0), b''), 'book')
    case('no content, section 0, 1 and 0', 'E6', single((b'/a', 0, 1, 0), b''), (10, 0))
    gap = dict(content=b'hello', gaps=(0, 0, 3))
    case('a gap is no content in version 3', 'E6, F9', single((b'/a', 0, 0, 6), **gap), (10, 0))
    case('a gap is content in version 2', 'E6, F10', single((b'/a', 0, 0, 8), version=2, **gap), 'book')
    case('such a gap and a byte more', 'E6, F10', single((b'/a', 0, 0, 9), version=2, **gap), (10, 0))
    case('section 65,535', 'E5', single((b'/a', 65535, 9, 9)), 'book')
    case('section 65,536', 'E5', single((b'/a', 65536, 0, 0)), (10, 0))
    case('section 2^32', 'E5', single((b'/a', 1 << 32, 0, 0)), (10, 0))
    case('name length 2^32 + 2', 'E4', single(encode((1 << 32) + 2) + b'/a\0\0\0'), (10, 0))
    case('offset 2^32, section 0', 'E6', single((b'/a', 0, 1 << 32, 0)), (10, 0))
    case('length 2^32 + 5, section 0', 'E6', single((b'/a', 0, 0, (1 << 32) + 5)), (10, 0))
    case('name of 1,024 bytes', 'E4', single((b'/' * 1024, 0, 0, 0)), 'book')
    case('name of 1,025 bytes', 'E4', single((b'/' * 1025, 0, 0, 0)), (10, 0))
    case('name of 0 bytes', 'E4', single(b'\0\0\0\0'), (10, 0))
    case('offset of nine bytes', 'N3', single(b'\x02/a\x01' + b'\xff' * 8 + b'\x7f\x00'), 'book')
    case('offset of ten bytes', 'N3', single(b'\x02/a\x01' + b'\xff' * 9 + b'\x7f\x00'), (10, 0))
    for child, answer in ((6, 14), (7, (10, 4)), (1 << 32, (10, 4))):
        w = wood()
        w.parts[4].entries[0] = (b'/a', child)
        case('child %d of 7 chunks' % child, 'E7, T3', w.build(), answer)
    for a, b, answer in ((b'/A', b'/a', (12, 0)), (b'/Z', b'/[', (12, 0)), (b'/[', b'/Z', 'book'),
                         (b'/a', b'/a.htm', 'book'), (b'/a.htm', b'/a', (12, 0)), (b'/A', b'/b', 'book'),
                         (b'/z', b'/\x80', 'book'), (b'/\xe0', b'/\xc0', (12, 0)), (b'/\xc0', b'/\xe0', 'book'),
                         (b'/@', b'/a', 'book'), (b'/`', b'/A', 'book'), (b'/A', b'/`', (12, 0)), (b'/Z', b'/{', 'book')):
        case('names %s, %s' % (a, b), 'S1, S2, C12', Builder([(a, 0, 0, 0), (b, 0, 0, 0)]).build(), answer)
        case('names %s, %s in two chunks: the index chunk has them too' % (a, b), 'L5, C12',
             Builder([(a, 0, 0, 0), (b, 0, 0, 0)], per=1).build(), 'book' if answer == 'book' else (12, 2))


def chains():
    def links(position, **changed):
        w = wood()
        for name, value in changed.items():
            setattr(w.parts[position], name, value)
        return w.build()

    for prev in (0, 1, 4, 7, 0xFFFFFFFE):
        case('first chunk with previous %d' % prev, 'L1, L6', links(0, prev=prev), 13)
    for prev in (NONE, 1, 3, 0xFFFFFFFE):
        case('chunk 1 with previous %d' % prev, 'L2, L6', links(1, prev=prev), 13)
    for prev in (NONE, 0, 1, 3):
        case('last chunk with previous %d' % prev, 'L2', links(3, prev=prev), 13)
    for nxt in (0, 2, 3, 6, 7, 0xFFFFFFFE):
        case('last chunk with next %d' % nxt, 'L3, L6', links(3, next=nxt), 13)
    for nxt in (NONE, 0, 1, 3, 4, 7, 0xFFFFFFFE):
        case('chunk 1 with next %d' % nxt, 'L2, L4, L6', links(1, next=nxt), 13)
    w = wood()
    for first in (1, 3, 4, 6):
        case('first listing chunk %d' % first, 'L1, L7', w.build(first=first), 13)
    for last in (0, 2, 5, 6):
        case('last listing chunk %d' % last, 'L3, L7', w.build(last=last), 13)
    ring = wood()
    ring.parts[0].prev, ring.parts[3].next = 3, 0
    case('the chain is a ring', 'L1', ring.build(), 13)
    one = Builder([(b'/a', 0, 0, 0)])
    one.parts[0].prev = 0
    case('one chunk, its own previous', 'L1', one.build(), 13)
    one.parts[0].prev, one.parts[0].next = NONE, 0
    case('one chunk, its own next', 'L3', one.build(), 13)
    one.parts[0].next = 1
    case('one chunk, next 1', 'L6', one.build(), 13)
    only = Builder([(b'/a', 0, 0, 0)])
    only.parts[0] = Part(INDEX, [(b'/a', 0)])
    case('the only chunk is an index chunk', 'L7, T1', only.build(), 13)
    # the bytes of an index chunk's first name stand where a listing chunk has its previous and next
    name = b'/zz' + bytes(4) + b'\xff' * 4
    posing = Builder([(b'/a', 0, 0, 0)], depth=2)
    posing.parts[0].next, posing.parts[1].entries = 1, [(name, 0)]
    case('next leads to an index chunk that looks like the last', 'L2', posing.build(last=1), 13)
    name = b'/00' + b'\xff' * 4 + bytes(4)
    posing.parts[0].prev, posing.parts[0].next, posing.parts[1].entries = 1, NONE, [(name, 0)]
    case('first listing chunk is an index chunk that looks like one', 'L7', posing.build(first=1), 13)
    spare = wood(order=[1, 2, 3, 4, 5, 6, 7])
    spare.parts.append(Part(LISTING, [(b'/z', 0, 0, 0)]))
    spare.numbers.append(0)
    case('a listing chunk off the chain', 'L4', spare.build(), 13)
    spare.parts[-1].prev = 4
    case('a listing chunk that only looks back', 'L4', spare.build(), 13)
    spare.parts[-1].next = 1
    case('a listing chunk that looks back and on', 'L4', spare.build(), 13)
    for names in ((b'/a', b'/b', b'/B', b'/d'), (b'/a', b'/c', b'/b', b'/d'), (b'/9', b'/Z', b'/[', b'/~'),
                  (b'/0', b'/a.htm', b'/A', b'/d'), (b'/a', b'/b', b'/b', b'/c')):
        case('names %s, %s over a border' % names[1:3], 'L5', wood(names=names).build(), 13)
    case('names rise over a border by folding only', 'L5, S3', wood(names=(b'/9', b'/[', b'/Z', b'/~')).build(), 'book')
    both = wood()
    both.parts[1].prev = NONE
    both.parts[4].entries[0] = (b'/A', 0)
    case('chain and tree', 'RO3', both.build(), 13)


def trees():
    case('three levels', 'T2, T7', wood().build(), 'book')
    for order in ([6, 5, 4, 3, 2, 1, 0], [3, 0, 6, 1, 5, 2, 4]):
        case('three levels, numbers %s' % order, 'D19, T5', wood(order=order).build(), 'book')
    for depth in (2, 3, 4, 5):
        case('one listing chunk under %d levels' % (depth - 1), 'T2, T7', Builder([(b'/', 0, 0, 0)], depth=depth).build(), 'book')
    case('five levels, numbers backward', 'T2, T7',
         wood(per=1, depth=5, names=(b'/a', b'/b', b'/c', b'/d'), order=lambda c: range(c - 1, -1, -1)).build(), 'book')
    long = [(b'/%d' % i).ljust(1024, b'Z') for i in range(3)]
    case('names of 1,024 bytes, three levels', 'E4, T4', wood(names=long, per=1).build(), 'book')
    w = wood()
    for root in (0, 3):
        case('root %d is a listing chunk' % root, 'T2', w.build(root=root), 14)
    case('root 4 is an index chunk of level 2', 'T2, T7', w.build(root=4), 14)
    case('root 4, depth 2: half of the tree', 'T5, T6', w.build(root=4, depth=2), 14)
    for depth in (2, 4, 5):
        case('depth %d over three levels' % depth, 'T7', w.build(depth=depth), 14)
    two = wood(fan=None)
    case('depth 3 over two levels', 'T7', two.build(depth=3), 14)

    def index(position, *links):
        w = wood()
        w.parts[position].entries = list(links)
        return w.build()

    case('separator /A for /a', 'T4', index(4, (b'/A', 0), (b'/c', 1)), 14)
    case('separator /C for /c', 'T4', index(4, (b'/a', 0), (b'/C', 1)), 14)
    case('separator above the child\'s first name', 'T4', index(4, (b'/a', 0), (b'/c1', 1)), 14)
    case('separator below the child\'s first name', 'T4', index(4, (b'/a', 0), (b'/b9', 1)), 14)
    case('separator is the child\'s second name', 'T4', index(4, (b'/a', 0), (b'/d', 1)), 14)
    case('separator longer by a byte', 'T4', index(4, (b'/a', 0), (b'/c\0', 1)), 14)
    case('root separator in another case', 'T4', index(6, (b'/A', 4), (b'/e', 5)), 14)
    case('root separator above its child\'s', 'T4', index(6, (b'/a', 4), (b'/f', 5)), 14)
    case('children exchanged', 'T4', index(4, (b'/a', 1), (b'/c', 0)), 14)
    case('root children exchanged', 'T4', index(6, (b'/a', 5), (b'/e', 4)), 14)
    case('one child twice', 'T4', index(4, (b'/a', 0), (b'/c', 0)), 14)
    case('a listing chunk under the root', 'T3', index(6, (b'/a', 4), (b'/e', 2)), 14)
    case('an index chunk at level 1', 'T3', index(4, (b'/a', 4), (b'/c', 1)), 14)
    case('first listing chunk not in the tree', 'T5', wood_of([(b'/c', 1)], [(b'/e', 2), (b'/g', 3)]), 14)
    case('last listing chunk not in the tree', 'T5', wood_of([(b'/a', 0), (b'/c', 1)], [(b'/e', 2)]), 14)
    case('a listing chunk between not in the tree', 'T5', wood_of([(b'/a', 0)], [(b'/e', 2), (b'/g', 3)]), 14)
    case('a listing chunk twice', 'T5', wood_of([(b'/a', 0), (b'/c', 1), (b'/e', 2)], [(b'/e', 2), (b'/g', 3)]), 14)
    case('the last listing chunk twice', 'T5', wood_of([(b'/a', 0), (b'/c', 1), (b'/g', 3)], [(b'/e', 2), (b'/g', 3)]), 14)
    case('leaves crossed', 'T5', wood_of([(b'/a', 0), (b'/e', 2)], [(b'/c', 1), (b'/g', 3)]), 14)
    case('leaves shared unevenly', 'T5', wood_of([(b'/a', 0)], [(b'/c', 1), (b'/e', 2), (b'/g', 3)]), 'book')
    for links in ([(b'/a', 0)], [(b'/a', 7)], [(b'/a', 6)]):
        spare = wood()
        spare.parts.append(Part(INDEX, links))
        spare.numbers.append(7)
        case('an index chunk out of the tree, child %d' % links[0][1], 'T6', spare.build(), 14)
    for depth in (2, 5):
        knot = Builder([(b'/a', 0, 0, 0)], depth=2)
        knot.parts[1].entries = [(b'/a', 1)]
        case('an index chunk under itself, depth %d' % depth, 'E7, T3', knot.build(depth=depth), 14)
    knot = Builder([(b'/a', 0, 0, 0)], depth=3)
    knot.parts[1].entries, knot.parts[2].entries = [(b'/a', 2)], [(b'/a', 1)]
    case('two index chunks under one another', 'T3', knot.build(), 14)
    shared = wood(names=(b'/a', b'/b', b'/c', b'/d'), depth=4)
    shared.parts[2:] = [Part(INDEX, links) for links in ([(b'/a', 0)], [(b'/c', 1)], [(b'/a', 2), (b'/c', 3)],
                                                         [(b'/c', 3)], [(b'/a', 4), (b'/c', 5)])]
    shared.numbers, shared.root = list(range(7)), 6
    case('an index chunk under two others', 'T5', shared.build(), 14)
    shared.parts[4].entries = [(b'/a', 2)]
    case('the same under one', 'T5', shared.build(), 'book')


def wood_of(left, right):
    """The book of `wood` with these entries in its two index chunks of level 2."""
    w = wood()
    w.parts[4].entries, w.parts[5].entries = left, right
    w.parts[6].entries = [(left[0][0], 4), (right[0][0], 5)]
    return w.build()


def padding():
    """Bytes 80 in front of each number, on both sides of the nine bytes of N3, and numbers that are too high behind them."""
    for what, ahead, number, behind in (('name length', b'', b'\x02', b'/a\0\x01\x01'), ('section', b'\x02/a', b'\0', b'\x01\x01'),
                                        ('offset', b'\x02/a\0', b'\x05', b'\0'), ('length', b'\x02/a\0\0', b'\x05', b'')):
        for pad, answer in ((1, 'book'), (8, 'book'), (9, (10, 0)), (20, (10, 0))):
            case('%s behind %d bytes 80' % (what, pad), 'N3' if pad > 8 else 'N4', single(ahead + b'\x80' * pad + number + behind), answer)
        case('%s of 80 at the end of the entries' % what, 'N6, C3', single(ahead + b'\x80'), (10, 0))
    case('name length 80 00', 'E4, N4', single(b'\x80\0/a\0\0\0'), (10, 0))
    case('name length 80 88 01, 1,025 bytes', 'E4, N4', single(b'\x80\x88\x01' + b'/' * 1025 + b'\0\0\0'), (10, 0))
    case('section 80 84 80 00, 65,536', 'E5, N4', single(b'\x02/a\x80\x84\x80\0\0\0'), (10, 0))
    case('offset 80 06, 5 bytes of content', 'E6, N4', single(b'\x02/a\0\x80\x06\0'), (10, 0))
    for child, rows, answer in ((b'\x80\0', 'N4', 'book'), (b'\x80' * 8 + b'\0', 'N4', 'book'), (b'\x80' * 9 + b'\0', 'N3', (10, 4)),
                                (b'\x80\x07', 'E7', (10, 4)), (b'\x80\x01', 'T4', 14)):
        w = wood()
        w.parts[4].entries[0] = b'\x02/a' + child
        case('child %s' % child.hex(' '), rows, w.build(), answer)
    for what, b, _ in padded_books():
        case(what, 'N4', b.build(), 'book')


EIGHT = '80' * 8


def padded_trio():
    """Three entries with each number padded alone, with all of them and with a mix."""
    def book(*pads, **options):
        pads = dict(zip((b'/', b'/a', b'/b'), pads if len(pads) == 3 else 3 * pads))
        return Builder([(b'/', 0, 0, 0), (b'/a', 0, 2, 3), (b'/b', 16391, 7, 9)], b'hello', pads=pads.get, **options)

    yield 'no number padded', book((0, 0, 0, 0)), ('012f000000', '022f61000203', '022f628180070709')
    yield 'name lengths padded', book((1, 0, 0, 0)), ('80012f000000', '80022f61000203', '80022f628180070709')
    yield 'sections padded', book((0, 1, 0, 0)), ('012f80000000', '022f6180000203', '022f62808180070709')
    yield 'offsets padded', book((0, 0, 1, 0)), ('012f00800000', '022f6100800203', '022f62818007800709')
    yield 'lengths padded', book((0, 0, 0, 1)), ('012f00008000', '022f6100028003', '022f62818007078009')
    yield 'a mix', book((2, 0, 1, 0), (0, 0, 0, 0), (0, 3, 0, 8)), ('8080012f00800000', '022f61000203', '022f6280808081800707' + EIGHT + '09')
    yield 'all numbers of nine bytes, depth 3', book((8, 8, 8, 8), depth=3), (
        EIGHT + '012f' + 3 * (EIGHT + '00'), EIGHT + '022f61' + EIGHT + '00' + EIGHT + '02' + EIGHT + '03',
        EIGHT + '022f62' + '80' * 6 + '818007' + EIGHT + '07' + EIGHT + '09')


def padded_books():
    """Three entries, then quick words behind padded entries, then padded children."""
    yield from padded_trio()
    names = [b'/%02d' % i for i in range(11)]
    pads = dict(zip(names, ((i % 3, i % 2, 0, i % 5) for i in range(11))))
    yield 'eleven padded entries, two quick words', Builder([(n, 1, 0, 2) for n in names], pads=pads.get, fill=0xFF), tuple(
        '80' * (i % 3) + '032f' + n[1:].hex() + '80' * (i % 2) + '0100' + '80' * (i % 5) + '02' for i, n in enumerate(names))
    yield 'three levels with padded children', wood(pads=lambda name: (1, 8, 0, 0)), tuple('80022f6%d' % i + EIGHT + '000000' for i in range(1, 9))


def cases():
    if not made:
        for group in (short_files, tags, versions, places, lengths, directory_tags, directory_numbers, chunk_faults,
                      entries, padding, chains, trees):
            group()
    return made


def batch_cases():
    book = plain().build()
    refused = put(book, 204, b'?')
    padded = next(b for what, b, _ in padded_books() if what == 'a mix').build()
    names = b'/', b'/A.HTM', b'/b', b'', b'x' * 1025
    five = b'\x01/' + b'\x06/A.HTM' + b'\x02/b' + b'\x00' + b'\x88\x01' + b'x' * 1025
    numbers_of = lambda *answers: b''.join(n.to_bytes(8, 'little') for answer in answers for n in answer)
    told = numbers_of((0, 0, 0, 0), (0, 0, 0, 5), (255, 0, 0, 0), (15, 0, 0, 0), (15, 0, 0, 0))
    return [
        ('two names of the book, one that it lacks, one empty, one too long', 'B3, B4, B6', book, five, 160, told),
        ('room to spare', 'B5', book, five, 161, told),
        ('one byte too little room', 'B5, R22', book, five, 159, (22, NONE)),
        ('no room', 'B5, R22', book, five, 0, (22, NONE)),
        ('no names, no room', 'B5', book, b'', 0, b''),
        ('no names, some room', 'B5', book, b'', 7, b''),
        ('the last byte of the names is missing', 'B2, R22', book, five[:-1], 160, (22, NONE)),
        ('one name whole, the next cut off', 'B2, B7', book, b'\x01/\x02/', 64, (22, NONE)),
        ('a length cut off', 'B2, N6', book, b'\x01/\x81', 64, (22, NONE)),
        ('a length of 80 alone', 'B2, N6', book, b'\x01/\x80', 64, (22, NONE)),
        ('a length of 80 01', 'B2, N4', book, b'\x80\x01/', 32, told[:32]),
        ('a length of 80 00', 'B2, B3, N4', book, b'\x80\x00', 32, told[96:128]),
        ('a length of eight 80 and 06', 'B2, N4', book, b'\x80' * 8 + b'\x06/a.htm', 32, told[32:64]),
        ('a length of nine 80 and 01', 'B2, N3', book, b'\x80' * 9 + b'\x01/', 32, (22, NONE)),
        ('each length behind one 80', 'B2, N4', book, lined_up(names, 1), 160, told),
        ('each length of nine bytes', 'B2, N4', book, lined_up(names, 8), 160, told),
        ('padded lengths, the last byte missing', 'B2, N4', book, lined_up(names, 8)[:-1], 160, (22, NONE)),
        ('padded lengths, one byte too little room', 'B5, N4', book, lined_up(names, 1), 159, (22, NONE)),
        ('a book with padded numbers', 'B6, N4', padded, b'\x02/A\x80\x02/b\x02/c', 96, numbers_of((0, 0, 2, 3), (0, 16391, 7, 9), (255, 0, 0, 0))),
        ('a length of 2^63 - 1', 'B2, N3', book, b'\xff' * 8 + b'\x7f', 64, (22, NONE)),
        ('a length of ten bytes', 'B2, N3', book, b'\xff' * 9 + b'\x7f', 64, (22, NONE)),
        ('a refused book, names that are none, no room', 'RO10', refused, b'\x80\x01', 0, (8, 0)),
        ('a refused book, no names', 'RO10', refused, b'', 0, (8, 0)),
        ('no book, good names', 'RO10', b'', five, 160, (1, NONE))]


# Random damage. Each function changes the builder, or returns the bytes.

def near(r, value, width):
    """A number of so many bytes that is likely to be at some boundary."""
    top = 1 << 8 * width
    return r.choice((0, 1, value - 1, value + 1, value ^ 1 << r.randrange(8 * width), top - 1, top // 2,
                     r.randrange(16), r.randrange(top))) % top


def hurt_field(r, b):
    name = r.choice(list(WIDTH))
    old, width = b.values()[name], WIDTH[name]
    if name in AS_BYTES:
        i = r.randrange(width)
        return b.build(**{name: put(old, i, bytes([old[i] ^ 1 << r.randrange(8)]))})
    return b.build(**{name: near(r, old, width)})


def hurt_bytes(r, b):
    data = bytearray(b.build())
    for _ in range(r.randint(1, 3)):
        at = b.part_at(r.randrange(len(b.parts)))
        at = r.choice((r.randrange(len(data)), r.randrange(96), b.places[0] + r.randrange(24), b.places[1] + r.randrange(84),
                       at + r.randrange(20), at + r.randrange(60), at + CHUNK - 1 - r.randrange(8)))
        data[at] = r.choice((data[at] ^ 1 << r.randrange(8), r.randrange(256)))
    return bytes(data)


def hurt_length(r, b):
    data = b.build()
    return r.choice((data + bytes(r.choice((1, 4096))), data[:-1], data[:-r.randrange(1, len(data))], data[:r.randrange(200)]))


def hurt_frame(r, b):
    part = r.choice(b.parts)
    c = len(part.entries)
    part.damage = r.choice((dict(slack=r.choice((-1, 1, 5))), dict(count=r.choice((0, c - 1, c + 1, 65535))),
                            dict(tail=r.choice((0, 1, 2, 4076, 4077, 4088, 4089, 65536))), dict(spaced=4),
                            dict(as_tag=r.choice((LISTING, INDEX, b'PMGM'))), dict(swap=(c - 1, r.randrange(c))),
                            dict(words=[r.randrange(4096)] * r.randrange(1, 3))))


def hurt_links(r, b):
    part, count = r.choice(b.levels[0]), len(b.parts)
    number = r.choice((NONE, 0, count - 1, count, r.randrange(count), r.getrandbits(32)))
    if r.random() < .5:
        part.prev = number
    else:
        part.next = number


def hurt_entry(r, b):
    part = r.choice(b.parts)
    i = r.randrange(len(part.entries))
    name, *numbers = part.entries[i]
    k = r.randrange(len(numbers))
    if r.random() < .5:
        numbers[k] = near(r, numbers[k], 7)
    else:
        j = r.randrange(len(name))
        name = r.choice((name.swapcase(), name[:-1], put(name, j, bytes([r.randrange(256)])), name + b'a'))[:1024]
    made_entry = Part(part.kind, [(name, *numbers)], pads=part.pads).raw()[0]
    if r.random() < .2:
        made_entry = made_entry[:-1] + r.choice((b'', b'\x80\x00', b'\x80' * 8 + b'\x00', b'\x80' * 9 + b'\x00', b'\x80', b'\x81'))
    part.entries[i] = made_entry


def hurt_numbers(r, b):
    """Other numbers for two chunks, while all others name them by the old ones."""
    i, j = r.randrange(len(b.parts)), r.randrange(len(b.parts))
    b.numbers[i], b.numbers[j] = b.numbers[j], b.numbers[i]


def hurt_children(r, b):
    indexes = b.parts[len(b.levels[0]):]
    if not indexes:
        return hurt_links(r, b)
    part = r.choice(indexes)
    i = r.randrange(len(part.entries))
    if r.random() < .3 and len(part.entries) > 1:
        del part.entries[i]
    else:
        part.entries[i] = part.entries[i][0], r.choice((r.randrange(len(b.parts)), len(b.parts)))


def hurt_border(r, b):
    """Moves an entry to a neighbouring chunk, or repeats it there."""
    leaf = b.levels[0]
    i = r.randrange(len(leaf))
    entry = leaf[i].entries[-1]
    if r.random() < .5 and len(leaf[i].entries) > 1:
        leaf[i].entries.pop()
    if i + 1 < len(leaf):
        leaf[i + 1].entries.insert(0, entry)


def hurt_spare(r, b):
    """Adds a chunk that nothing leads to."""
    part = r.choice(b.parts)
    b.parts.append(Part(part.kind, part.entries, prev=part.prev, next=part.next))
    b.numbers.append(len(b.numbers))
    if len(b.parts) == 2:
        b.depth, b.root = 2, r.randrange(2)


HURTS = (hurt_field, hurt_field, hurt_bytes, hurt_bytes, hurt_length, hurt_frame, hurt_links, hurt_links, hurt_entry,
         hurt_entry, hurt_numbers, hurt_children, hurt_children, hurt_border, hurt_spare)


def damaged(r):
    """A random book with one damage, which may leave it good."""
    while True:
        b, hurt = random_book(r, 13), r.choice(HURTS)
        try:
            data = hurt(r, b) or b.build()
        except ValueError:      # entries that no longer fit in their chunk
            continue
        return hurt.__name__, data
