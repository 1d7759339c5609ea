"""The bytes of whole books, good or damaged. Nothing here judges: what such bytes are says second.py.

  Builder        the bytes of a book, and what was put into it
  fields         the values that stand in a header
  chunk_place    where a chunk stands
  lined_up       names as a batch takes them
  random_book    a builder with random options

A record is a dict with the keys of RECORD.
"""

from zlib import crc32

from chunks import CHUNK, HEADER, INDEX, LISTING, NONE, build_index, build_listing, index_entry, listing_entry, padded, quick_count

RECORD = ('version', 'time', 'language', 'directory_start', 'count', 'density', 'depth',
          'root', 'first', 'last', 'content_start')

GUID_1 = bytes.fromhex('10fd017caa7bd0119e0c00a0c922e6ec')
GUID_2 = bytes.fromhex('11fd017caa7bd0119e0c00a0c922e6ec')
GUID_D = bytes.fromhex('6a92025d2e21d0119df900a0c922e6ec')
HEADER_LENGTH = {2: 0x58, 3: 0x60}

# Offset and width of each field; tags, GUIDs and unknown runs are kept as bytes.
FILE = {'tag': (0x00, 4), 'version': (0x04, 4), 'header_length': (0x08, 4), 'word': (0x0C, 4),
        'time': (0x10, 4), 'language': (0x14, 4), 'guid_1': (0x18, 16), 'guid_2': (0x28, 16),
        'section0_start': (0x38, 8), 'section0_length': (0x40, 8),
        'directory_start': (0x48, 8), 'directory_length': (0x50, 8), 'content_start': (0x58, 8)}
SECTION0 = {'s_words': (0x00, 8), 'file_length': (0x08, 8), 's_rest': (0x10, 8)}
DIRECTORY = {'d_tag': (0x00, 4), 'd_version': (0x04, 4), 'd_length': (0x08, 4), 'd_word': (0x0C, 4),
             'chunk_size': (0x10, 4), 'density': (0x14, 4), 'depth': (0x18, 4), 'root': (0x1C, 4),
             'first': (0x20, 4), 'last': (0x24, 4), 'd_word_28': (0x28, 4), 'count': (0x2C, 4),
             'd_language': (0x30, 4), 'd_guid': (0x34, 16), 'd_length_2': (0x44, 4), 'd_rest': (0x48, 12)}
AS_BYTES = {'tag', 'guid_1', 'guid_2', 's_words', 's_rest', 'd_tag', 'd_guid', 'd_rest'}
UNCHECKED = ('word', 'time', 'language', 's_words', 's_rest', 'd_word', 'd_word_28', 'd_language', 'd_rest')


def fields(data, table, base):
    """The values of a table's fields, its header standing at a place."""
    out = {}
    for name, (at, width) in table.items():
        part = data[base + at:base + at + width]
        out[name] = bytes(part) if name in AS_BYTES else int.from_bytes(part, 'little')
    return out


def chunk_place(record, number):
    return record['directory_start'] + 84 + CHUNK * number


def lined_up(names, pad=0):
    """The bytes of these names as a batch takes them (B2), each length behind
    so many bytes 80."""
    return b''.join(padded(len(name), pad) + bytes(name) for name in names)


# Building

def runs(sizes, header, density, most=None):
    """The entries of these sizes in runs (from, to), each filling a chunk with
    as many as fit. `most` also bounds a run: a number, or a function that is
    called for each."""
    out, begin, used, bound = [], 0, 0, None
    for i, size in enumerate(sizes):
        if i == begin:
            bound = most() if callable(most) else most
        elif (i - begin == bound
              or header + used + size + 2 + 2 * quick_count(i - begin + 1, density) > CHUNK):
            out.append((begin, i))
            begin, used = i, 0
            bound = most() if callable(most) else most
        used += size
    if used:
        out.append((begin, len(sizes)))
    return out


def short(name):
    """No bytes 80 in front of a number."""
    return 0, 0, 0, 0


class Part:
    """A chunk to be built. Entries are tuples, or bytes that stand as they
    are; `pads` is that of the Builder; `damage` goes to the builders of
    chunks.py."""

    def __init__(self, kind, entries, level=1, prev=NONE, next=NONE, word=0, pads=short, **damage):
        self.kind, self.entries, self.level, self.pads = kind, list(entries), level, pads
        self.prev, self.next, self.word, self.damage = prev, next, word, damage

    def raw(self):
        """The bytes of each entry."""
        maker = index_entry if self.kind == INDEX else listing_entry
        return [e if isinstance(e, bytes) else maker(*e, self.pads(e[0])) for e in self.entries]

    def build(self, density, fill):
        more = dict({'fill': fill}, **self.damage)
        if self.kind == INDEX:
            return build_index(self.raw(), density, **more)
        return build_listing(self.raw(), density, self.prev, self.next, self.word, **more)


class Builder:
    """A book to be built from rising listing entries (name, section, offset, length).

    With no options it has the head that FORMAT, Writer, describes. Options:

    content     bytes, or their number
    version     2 or 3
    density     of the quick words
    per, fan    most entries of a listing chunk, of an index chunk: a number,
                or a function that is called for each chunk
    depth       at least so many levels, the upper ones with one entry a chunk
    order       the chunk's numbers, listing chunks first in the order of the
                chain, then the index levels from the lowest: a list, or a
                function from the count to one
    behind      section 0 stands behind the directory
    gaps        bytes in front of the first section, between the two, and
                behind the second (version 2: the last belongs to the content)
    fill        unused tail bytes and gaps: a value, or a function from a length
    chunk_word  the unchecked word of listing chunks: a number or a function
    pads        how many bytes 80 stand in front of each number of an entry,
                name length, section (or child), offset, length: a function
                from its name
    others      the fields of UNCHECKED

    Damage: change `parts`, `numbers` (the number of each part), or name
    fields of FILE, SECTION0 and DIRECTORY in `build`, which then stand there
    whatever else the book holds. Nothing is checked.
    """

    def __init__(self, entries, content=b'', version=3, density=2, per=None, fan=None, depth=1, order=None,
                 behind=False, gaps=(0, 0, 0), fill=0, chunk_word=0, pads=short, **others):
        self.content = bytes(content)
        self.version, self.density, self.behind, self.gaps, self.fill, self.pads = version, density, behind, gaps, fill, pads
        self.others = others
        if not set(others) <= set(UNCHECKED):
            raise ValueError('no such option: %s' % sorted(others))
        word = chunk_word if callable(chunk_word) else lambda: chunk_word
        entries = list(entries)
        bounds = runs([len(listing_entry(*e, pads(e[0]))) for e in entries], HEADER[LISTING], density, per)
        level = [Part(LISTING, entries[a:b], word=word(), pads=pads) for a, b in bounds]
        levels = [level]
        while len(level) > 1 or len(levels) < depth:
            below = sum(map(len, levels[:-1]))
            links = [(p.entries[0][0], below + i) for i, p in enumerate(level)]
            # where the numbers are not known yet, room for the longest
            sizes = [len(index_entry(n, i if order is None else 4095, pads(n))) for n, i in links]
            level = [Part(INDEX, links[a:b], len(levels) + 1, pads=pads) for a, b in runs(sizes, HEADER[INDEX], density, fan)]
            levels.append(level)
            if len(levels) > 16:
                raise ValueError('the levels do not end')
        self.levels = levels
        self.parts = [p for level in levels for p in level]
        self.depth = len(levels)
        self.numbers = list(order(len(self.parts)) if callable(order) else order or range(len(self.parts)))
        self._link()

    def _link(self):
        """Puts numbers where there were positions."""
        numbers, leaf = self.numbers, self.levels[0]
        for part, i in zip(leaf[1:], numbers):
            part.prev = i
        for part, i in zip(leaf[:-1], numbers[1:]):
            part.next = i
        for part in self.parts[len(leaf):]:
            part.entries = [(name, numbers[i]) for name, i in part.entries]
        self.first, self.last = numbers[0], numbers[len(leaf) - 1]
        self.root = NONE if self.depth == 1 else numbers[len(self.parts) - 1]

    @property
    def places(self):
        """Where section 0, the directory, the content and the end are."""
        size = 84 + CHUNK * len(self.parts)
        lengths = (size, 24) if self.behind else (24, size)
        a = HEADER_LENGTH[self.version] + self.gaps[0]
        b = a + lengths[0] + self.gaps[1]
        content = b + lengths[1] + self.gaps[2]
        if self.behind:
            a, b = b, a
        return a, b, content, content + len(self.content)

    def values(self):
        """The value of every field of a sound book."""
        section0, directory, content, end = self.places
        language = self.others.get('language', 0x409)
        out = dict(tag=b'ITSF', version=self.version, header_length=HEADER_LENGTH[self.version], word=1, time=0,
                   language=language, guid_1=GUID_1, guid_2=GUID_2, section0_start=section0, section0_length=24,
                   directory_start=directory, directory_length=84 + CHUNK * len(self.parts), content_start=content,
                   s_words=bytes.fromhex('fe01000000000000'), file_length=end, s_rest=bytes(8),
                   d_tag=b'ITSP', d_version=1, d_length=0x54, d_word=0x0A, chunk_size=CHUNK, density=self.density,
                   depth=self.depth, root=self.root, first=self.first, last=self.last, d_word_28=NONE,
                   count=len(self.parts), d_language=language, d_guid=GUID_D, d_length_2=0x54, d_rest=b'\xff' * 12)
        out.update(self.others)
        return out

    def junk(self, length):
        return self.fill(length) if callable(self.fill) else bytes([self.fill]) * length

    def build(self, **damage):
        """The bytes of the book, with other values in the named fields."""
        section0, directory, content, end = self.places
        values = self.values()
        if not set(damage) <= set(values):
            raise ValueError('no such field: %s' % sorted(damage))
        values.update(damage)
        out = bytearray(self.junk(content)) + self.content
        if sorted(self.numbers) != list(range(len(self.parts))):
            raise ValueError('numbers of chunks: %s' % self.numbers)
        for number, part in zip(self.numbers, self.parts):
            at = directory + 84 + CHUNK * number
            out[at:at + CHUNK] = part.build(self.density, self.fill)
        for table, base in ((FILE, 0), (SECTION0, section0), (DIRECTORY, directory)):
            for name, (at, width) in table.items():
                if name == 'content_start' and self.version == 2:
                    continue
                v = values[name]
                v = bytes(v) if name in AS_BYTES else v.to_bytes(width, 'little')
                if len(v) != width:
                    raise ValueError('%s has %d bytes' % (name, width))
                out[base + at:base + at + width] = v
        return bytes(out)

    # What was put into a book that is built without damage

    def record(self):
        v = self.values()
        if self.version == 2:
            v['content_start'] = v['directory_start'] + v['directory_length']
        return {name: v[name] for name in RECORD}

    def part_at(self, position):
        """The place of a part in the file."""
        return self.places[1] + 84 + CHUNK * self.numbers[position]

    def entries(self):
        return [e for part in self.levels[0] for e in part.entries]

    def own(self):
        """The own bytes of each entry, as they are to stand."""
        return [raw for part in self.levels[0] for raw in part.raw()]

    def names(self):
        return [e[0] for e in self.entries()]


# Random books

# 41..5A are raised to 61..7A: by this key names rise in the order of S1 and S2.
FOLDED = bytes(b + 0x20 if 0x41 <= b <= 0x5A else b for b in range(256))


def rising(names):
    """The names in their order, each once."""
    return [n for _, n in sorted({n.translate(FOLDED): n for n in names}.items())]


def random_names(r, many):
    kind = r.choice(('short', 'path', 'path', 'odd', 'long', 'mixed'))
    out = [b'/'] if r.random() < .5 else []
    for _ in range(many):
        k = r.choice(('short', 'path', 'odd', 'long')) if kind == 'mixed' else kind
        if k == 'short':
            n = bytes(r.choice(b'/abAB[_`{.') for _ in range(r.randint(1, 6)))
        elif k == 'path':
            n = b'/%s/Page-%03X%s.htm' % (r.choice((b'events', b'Events', b'maps', b'MAPS/upper')),
                                          r.randrange(4096), b'x' * r.choice((0, 0, 3, 90, 110)))
        elif k == 'odd':
            n = bytes(r.choice((0, 0x40, 0x41, 0x5A, 0x5B, 0x60, 0x61, 0x7A, 0x7B, 0x80, 0xC1, 0xFF, r.randrange(256)))
                      for _ in range(r.choice((1, 2, 3, 20))))
        else:
            n = (b'/%04d' % r.randrange(10000)).ljust(r.choice((127, 128, 600, 1000, 1024)), r.choice((b'a', b'Z', b'[')))
        out.append(n)
    return rising(out) or [b'/']


def random_entries(r, names, content):
    out = []
    for n in names:
        if r.random() < .6:
            offset = r.choice((0, content, r.randint(0, content)))
            out.append((n, 0, offset, r.choice((0, content - offset, r.randint(0, content - offset)))))
        else:
            out.append((n, r.choice((1, 2, 127, 128, 65535)), r.getrandbits(r.choice((1, 7, 8, 32, 63))),
                        r.getrandbits(r.choice((1, 7, 14, 63)))))
    return out


def random_pads(r):
    """No padding, the same for each number, or another for each name."""
    same, salt = r.choice((0, 0, 0, 1, 8, None, None)), r.getrandbits(32)
    if same is None:
        return lambda name: [(0, 0, 0, 1, 1, 2, 5, 8)[byte % 8] for byte in crc32(name, salt).to_bytes(4, 'little')]
    return lambda name: (same,) * 4


def random_options(r):
    """Options of a Builder."""
    options = dict(
        version=r.choice((2, 3, 3)), density=r.choice((0, 1, 2, 2, 3, 4, 5, 6, 7)),
        per=r.choice((None, None, 1, 5, 6, 11, 40, lambda: r.randint(1, 30))),
        fan=r.choice((None, None, 2, 3, lambda: r.randint(2, 6))), depth=r.choice((1, 1, 1, 2, 3, 4, 5)),
        order=r.choice((None, lambda c: r.sample(range(c), c))), fill=r.choice((0, 0xFF, r.randbytes)),
        gaps=r.choice(((0, 0, 0), (0, 0, 0), (1, 0, 0), tuple(r.randint(0, 300) for _ in range(3)))),
        chunk_word=r.choice((0, NONE, lambda: r.getrandbits(32))), pads=random_pads(r))
    if options['version'] == 3:
        options['behind'] = r.random() < .4
    if r.random() < .5:
        for name in UNCHECKED:
            width = {**FILE, **SECTION0, **DIRECTORY}[name][1]
            options[name] = r.randbytes(width) if name in AS_BYTES else r.getrandbits(8 * width)
    return options


def fitted(entries, content, options, chunks):
    """A builder for a good book of at most so many chunks, with as many of the
    entries as that takes."""
    while True:
        b = Builder(entries, content, **options)
        if b.depth <= 5 and len(b.parts) <= chunks:
            return b
        if len(entries) == 1:
            options['depth'] = 1
        entries = entries[:max(1, len(entries) * 2 // 3)]


def random_book(r, chunks=14):
    """A builder for a good book with random options, of at most so many chunks."""
    content = r.randbytes(r.choice((0, 1, 5, 127, 128, 1500)))
    names = random_names(r, r.choice((1, 2, 3, 6, 11, 20, 40, 40, 80, 300)))
    options = random_options(r)
    return fitted(random_entries(r, names, len(content)), content, options, chunks)
