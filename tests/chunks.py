"""The bytes of one directory chunk, good or damaged, and of what it holds. Nothing here judges: what such bytes are says second.py.

  encode, padded                 ENCINTs
  listing_entry, index_entry     the bytes of one entry
  build_listing, build_index     the bytes of one chunk
"""

CHUNK = 4096
NONE = 0xFFFFFFFF
LISTING, INDEX = b'PMGL', b'PMGI'
HEADER = {LISTING: 20, INDEX: 8}


# Numbers

def encode(value):
    """The ENCINT of a value in its short form."""
    if not 0 <= value < 1 << 63:
        raise ValueError('no ENCINT for %d' % value)
    groups = [value & 0x7F]
    value >>= 7
    while value:
        groups.append(0x80 | value & 0x7F)
        value >>= 7
    return bytes(reversed(groups))


def padded(value, pad):
    """The ENCINT of a value behind so many bytes 80, or as many as the nine
    bytes of N3 leave room for (N4)."""
    short = encode(value)
    return b'\x80' * min(pad, 9 - len(short)) + short


def little(data, at, width):
    return int.from_bytes(bytes(data[at:at + width]), 'little')


def quick_count(c, density):
    """How many quick words a chunk of c entries has, c at least 1."""
    return (c - 1) // (1 + 2 ** density)


# Building

def listing_entry(name, section=0, offset=0, length=0, pads=(0, 0, 0, 0)):
    """The bytes of an entry; `pads` are the bytes 80 in front of each number."""
    return _entry_bytes(name, (section, offset, length), pads)


def index_entry(name, child=0, pads=(0, 0)):
    return _entry_bytes(name, (child,), pads)


def _entry_bytes(name, numbers, pads):
    return padded(len(name), pads[0]) + bytes(name) + b''.join(map(padded, numbers, pads[1:]))


def build_listing(entries, density, prev=NONE, next=NONE, word=0, **damage):
    """A listing chunk. An entry is a tuple for listing_entry, or bytes that
    stand as they are. Entries are not sorted and not checked. See `_build`
    for the damage."""
    middle = b''.join(n.to_bytes(4, 'little') for n in (word, prev, next))
    return _build(LISTING, middle, _raw(entries, listing_entry), density, **damage)


def build_index(entries, density, **damage):
    """An index chunk; entries are tuples for index_entry, or bytes."""
    return _build(INDEX, b'', _raw(entries, index_entry), density, **damage)


def _raw(entries, maker):
    return [e if isinstance(e, (bytes, bytearray)) else maker(*e) for e in entries]


def _build(tag, middle, raw, density, tail=None, slack=0, count=None,
           words=None, spaced=2, fill=0, gap=b'', as_tag=None, swap=None):
    """The chunk of these raw entries.

    tail    this tail length instead of the right one
    slack   tail length less by so many bytes than the free space (the entries
            then miss the tail by that many, or run into it if negative)
    count   this entry count instead of the right one
    words   these quick words instead of the right ones
    spaced  how many bytes quick words are apart
    fill    the unused tail bytes: one value, or a function from a length
    gap     bytes that follow the last entry, in front of any filling
    as_tag  this tag, with all else as before
    swap    a pair of entry numbers to exchange before building
    """
    raw = list(raw)
    if swap:
        i, j = swap
        raw[i], raw[j] = raw[j], raw[i]
    header = HEADER[tag]
    places, at = [], header
    for r in raw:
        places.append(at)
        at += len(r)
    body = b''.join(raw) + gap
    if at > CHUNK - 2:
        raise ValueError('%d bytes of entries do not fit' % (at - header))
    free = CHUNK - at
    if tail is None:
        tail = free - slack
    if words is None:
        n = 1 + 2 ** density
        q = quick_count(len(raw), density) if raw else 0
        words = [places[k * n] - header for k in range(1, q + 1)]
    if count is None:
        count = len(raw)
    left = CHUNK - header - len(body)
    rest = fill(left) if callable(fill) else bytes([fill]) * left
    chunk = bytearray((as_tag or tag) + tail.to_bytes(4, 'little') + middle + body + rest)
    for k, w in enumerate(words):
        place = CHUNK - 4 - spaced * k
        chunk[place:place + 2] = w.to_bytes(2, 'little')
    chunk[CHUNK - 2:] = count.to_bytes(2, 'little')
    assert len(chunk) == CHUNK
    return bytes(chunk)
