"""Writes a listing chunk for the benchmark to standard output: `long` has about 30 entries with names such as an archive of records has, `short` about 245."""

import sys

from chunks import build_listing, listing_entry


def filled(entry):
    """As many entries as a chunk takes at density 2."""
    entries, size = [], 0
    while True:
        e = entry(len(entries))
        size += len(listing_entry(*e))
        if 20 + size + 2 + 2 * (len(entries) // 5) > 4096:
            return entries
        entries.append(e)


KINDS = {
    'long': lambda i: (b'/events/1888/02/%02d/valley-of-the-upper-reaches/station-%04d/protocol-of-the-slide-and-of-all-its-damage-%08d.html' % (i // 4, i, i * 37), 1, i * 70000, 68211),
    'short': lambda i: (b'/e/%06d.h' % i, 1, i * 30, 30),
}

if __name__ == '__main__':
    entries = filled(KINDS[sys.argv[1]])
    print('%d entries' % len(entries), file=sys.stderr)
    sys.stdout.buffer.write(build_listing(entries, 2))
