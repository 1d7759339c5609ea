"""Two issues of a book side by side, by the second implementation. Kinds are those of `hods compare`.

  differences(old, new)   [(kind, the old entry, the new entry)] in the order of names; an entry is (name, section, offset, length), None where there is none
  totals(old, new)        how many names there are of each kind
  unescaped(text)         the bytes of a name that the tool printed
  pages(many, hard)       the entries of two issues: so many plain pages, and each of the hard names, of every kind in turn
"""
import re

from second import answer, numbers

KINDS = 'only_old', 'only_new', 'changed'


def compared(old, new):
    """The totals, and the differences, 15 numbers each: the kind, and seven of each entry."""
    told = numbers(answer(old, 'X', new))
    return told[:4], [told[i:i + 15] for i in range(4, len(told), 15)]


def entry(data, seven):
    place, size, *stored = seven[:5]
    return (data[place:place + size], *stored) if size else None


def differences(old, new):
    return [(KINDS[kind - 1], entry(old, rest[:7]), entry(new, rest[7:])) for kind, *rest in compared(old, new)[1]]


def totals(old, new):
    only_old, only_new, same, changed = compared(old, new)[0]
    return dict(only_old=only_old, only_new=only_new, changed=changed, same=same)


def unescaped(text):
    return re.sub(rb'\\(?:x([0-9a-f]{2})|\\)', lambda m: bytes.fromhex(m[1].decode()) if m[1] else b'\\', text.encode())


def pages(many, hard=()):
    """Both lists of entries; section 1, so that any offset will do."""
    old, new = [], []
    for i, name in enumerate([b'/pages/%05d.htm' % i for i in range(many)] + list(hard)):
        was = (name, 1, 100 * i, 90 + i % 7)
        other = [was, (name.swapcase(), *was[1:]), None, (name, 2, *was[2:]), (name, 1, was[2] + 1, was[3]), (name.swapcase(), 1, was[2], was[3] + 1), was][i % 7]
        if other:
            new.append(other)
        if i % 7 < 6:
            old.append(was)
    return old, new
