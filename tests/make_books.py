"""Makes the sample books, and the input and expected output of the programs `list` and `diff`.

  make_books.py                      writes the files
  make_books.py --check              writes nothing and says what differs
  make_books.py --large FILE [LESS]  a book of 4,096 chunks with about 30 entries a listing chunk, and the same book without each 61st name
  make_books.py --large-short FILE [LESS]
                                     one with short names, about 210 entries a listing chunk
  make_books.py --measured KIND FILE NAMES
                                     a book of 100,000 long or 600,000 short names (KIND long, short) in about 3,700 chunks, and names to
                                     look up in it, a line each: 4,000 that it has, behind +, and 4,000 that it lacks, behind -

The books for measuring are not kept.
"""

import os
import random
import sys

from books import Builder, rising, runs
from chunks import HEADER, INDEX, LISTING, index_entry, listing_entry
from second import frames, opened

YEARS = ('1720', '1749', '1808', '1888')
PLACES = ('Upper-Reaches', 'lower-reaches', 'Oberwald', 'St-Anton-am-Bach')


def sample():
    """The sample book of FORMAT W16."""
    return Builder([(b'/', 0, 0, 0), (b'/a.htm', 0, 0, 5)], b'hello')


def later():
    """The second book of FORMAT P10: the sample book with an entry changed, its name in another case, and one more."""
    return Builder([(b'/', 0, 0, 0), (b'/A.htm', 0, 0, 4), (b'/b', 1, 7, 9)], b'help')


# what the program `diff` prints of the two, by FORMAT P10
DIFFERENCES = b'03062f612e68746d000005062f412e68746d000004\n02022f62010709\n'


def several():
    """Six listing chunks under index chunks of two levels, the numbers not along the chain."""
    pages = ['/events/%s/%s/station-%02d/Protocol-of-the-slide-and-of-all-its-damage.htm' % (y, p, i)
             for y in YEARS for p in PLACES for i in range(1, 15)]
    names = rising([n.encode() for n in pages] + [b'/', b'/#SYSTEM', b'/#TOPICS', b'/index.hhc', b'/[drafts]/', b'/Zones.htm',
                                                 b'/z\xc3\xbcge.htm', b'::DataSpace/NameList',
                                                 b'::DataSpace/Storage/MSCompressed/Content'])
    entries, content = [], b''
    for i, name in enumerate(names):
        if name in (b'/', b'/[drafts]/'):
            entries.append((name, 0, 0, 0))
        elif name.startswith(b'/events'):
            entries.append((name, 1, 4700 * i, 4211 + i))
        else:
            entries.append((name, 0, len(content), len(name)))
            content += name
    return Builder(entries, content, fan=3, order=(7, 2, 4, 0, 8, 3, 5, 1, 6), time=0x5C1E2A90, language=0x407)


def made():
    """The files and what they hold."""
    books = {'samples/sample.chm': sample().build(), 'samples/later.chm': later().build(), 'samples/several.chm': several().build()}
    for path, data in books.items():
        if opened(data)[0] != 'book' or len(data) > 60000:
            raise SystemExit('%s is no book for the program' % path)
    data = books['samples/sample.chm']
    programs = {'crates/list/stdin': data, 'crates/list/stdout': frames(data).encode(), 'crates/diff/stdout': DIFFERENCES,
                'crates/diff/data/sample.chm': data, 'crates/diff/data/later.chm': books['samples/later.chm']}
    return dict(books, **programs)


# Books for measuring

def long_entry(i):
    day = i // 400
    return (b'/events/%04d/%02d/%02d/valley-of-the-upper-reaches/station-%04d/protocol-of-the-slide-and-of-all-its-damage-%08d.html'
            % (1600 + day // 336, day // 28 % 12 + 1, day % 28 + 1, i % 400, i * 37), 1, i * 70000, 68211)


def short_entry(i):
    return b'/e/%07d.h' % i, 1, i * 30, 30


def large(entry, count=4096, density=2):
    """The builder of a book with exactly so many chunks."""
    entries, sizes, bounds = [], [], []
    while len(bounds) < count:
        for i in range(len(entries), len(entries) + (count - len(bounds)) * 4096 // len(listing_entry(*entry(0)))):
            entries.append(entry(i))
            sizes.append(len(listing_entry(*entries[i])))
        bounds = runs(sizes, HEADER[LISTING], density)
    for fan in (None, 30, 29, 28, 27):
        for listed in range(count - 1, 0, -1):
            above, total = [entries[a][0] for a, _ in bounds[:listed]], listed
            while len(above) > 1:
                links = [len(index_entry(n, total - len(above) + k)) for k, n in enumerate(above)]
                above = [above[a] for a, _ in runs(links, HEADER[INDEX], density, fan)]
                total += len(above)
            if total == count:
                return Builder(entries[:bounds[listed - 1][1]], density=density, fan=fan)
            if total < count:
                break
    raise SystemExit('no book of %d chunks' % count)


def write_built(b, path):
    data = b.build()
    if opened(data) != ('book', b.record()):
        raise SystemExit('the large book is refused')
    with open(path, 'wb') as f:
        f.write(data)
    print('%d bytes, %d chunks, %d of them listing chunks, depth %d, %d entries'
          % (len(data), len(b.parts), len(b.levels[0]), b.depth, len(b.names())))


def write_large(entry, path, less=None):
    b = large(entry)
    write_built(b, path)
    if less:
        write_built(Builder([e for i, e in enumerate(b.entries(), 1) if i % 61], density=b.density), less)


def measured_long(i):
    day = i // 400
    return (b'/events/%04d/%02d/%02d/valley-of-the-upper-reaches/station-%04d/protocol-of-the-slide-and-of-all-its-damage-and-its-mending-%08d.html'
            % (1600 + day // 336, day // 28 % 12 + 1, day % 28 + 1, i % 400, i * 37), 1, i * 70000, 68211)


def measured_short(i):
    return b'/e%03d/%07d.html' % (i // 5000, i), 1, i * 30, 30


MEASURED = {'long': (measured_long, 100000), 'short': (measured_short, 600000)}


def write_measured(kind, path, names_path, asked=4000):
    entry, count = MEASURED[kind]
    b = Builder([entry(i) for i in range(count)])
    with open(path, 'wb') as f:
        f.write(b.build())
    r = random.Random(3700)
    there = [entry(i)[0] for i in r.sample(range(count), 2 * asked)]
    # one letter less at its end, a missing name stands right in front of one that is there
    lines = [b'+' + n for n in there[:asked]] + [b'-' + n[:-1] + bytes([n[-1] - 1]) for n in there[asked:]]
    with open(names_path, 'wb') as f:
        f.write(b'\n'.join(lines) + b'\n')
    print('%d chunks, depth %d, %d entries, names of %d bytes' % (len(b.parts), b.depth, count, len(there[0])))


def main():
    if len(sys.argv) == 5 and sys.argv[1] == '--measured' and sys.argv[2] in MEASURED:
        return write_measured(*sys.argv[2:])
    if len(sys.argv) in (3, 4) and sys.argv[1] in ('--large', '--large-short'):
        return write_large(long_entry if sys.argv[1] == '--large' else short_entry, *sys.argv[2:])
    if sys.argv[1:] not in ([], ['--check']):
        raise SystemExit(__doc__)
    top = os.path.dirname(os.path.dirname(os.path.abspath(__file__)))
    differ, files = [], made()
    for path, data in files.items():
        whole = os.path.join(top, path)
        if sys.argv[1:]:
            if not os.path.exists(whole) or open(whole, 'rb').read() != data:
                differ.append(path)
        else:
            os.makedirs(os.path.dirname(whole), exist_ok=True)
            with open(whole, 'wb') as f:
                f.write(data)
    if differ:
        raise SystemExit('differ from what is made: ' + ', '.join(differ))
    print('%d files' % len(files))


if __name__ == '__main__':
    main()
