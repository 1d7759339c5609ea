#!/usr/bin/env python3
"""Draws docs/crates.svg from crates.txt: each crate below those it depends on, an arrow from each to those that use what it hands on, but none where a longer way
leads. The comments of crates.txt are the groups, by colour; pointing at a crate shows the first sentence of its source."""
import html
import pathlib
import re

top = pathlib.Path(__file__).resolve().parents[1]
HIGH, STEP, GAP, EDGE = 30, 66, 22, 16        # of a box; from layer to layer; between boxes; around all
LETTER, SIZE = 8.5, 14                        # a letter's width, and its size
COLOURS = [('#d6e6ff', '#2f5fa8'), ('#dcf2d6', '#3d7a34'), ('#ffe3bf', '#a05f10'), ('#f0dcf7', '#7d3f95'), ('#e8e8e8', '#666666'), ('#ffd9d9', '#a03a3a')]
LINE = '#7d8694'                              # to be seen on white and on black


def read():
    """The crates of each group, and what each depends on; what comes with the kit is left out."""
    groups, depends = [], {}
    for row in (top / 'crates.txt').read_text().split('\n'):
        m = re.match(r'(\w+)(?: [^:#]*)?:(.*)', row)
        if row.startswith('#'):
            groups.append((row.strip('# '), []))
        elif m:
            groups[-1][1].append(m[1])
            depends[m[1]] = m[2].split()
    return groups, {crate: [d for d in those if d in depends] for crate, those in depends.items()}


def reduced(depends):
    """The same without what another dependency brings."""
    def below(crate):
        found = set(depends[crate])
        for d in depends[crate]:
            found |= below(d)
        return found
    return {crate: [d for d in those if not any(d in below(other) for other in those if other != d)] for crate, those in depends.items()}


def layered(depends):
    """A layer for each crate, behind those of its dependencies, so that the ways are short."""
    users = {crate: [u for u in depends if crate in depends[u]] for crate in depends}
    layer = {}
    for crate in depends:
        layer[crate] = 1 + max((layer[d] for d in depends[crate]), default=-1)
    for _ in range(len(depends)):
        for crate in reversed(depends):
            if users[crate] and len(users[crate]) >= len(depends[crate]) and depends[crate]:
                layer[crate] = min(layer[u] for u in users[crate]) - 1
    return layer


def routed(depends, layer):
    """The rows of boxes and of the bends of longer ways, and the pieces of the ways: (upper, lower)."""
    rows = [[] for _ in range(1 + max(layer.values()))]
    for crate in depends:
        rows[layer[crate]].append(crate)
    ways = []
    for crate, those in depends.items():
        for d in those:
            way = [d]
            for i in range(layer[d] + 1, layer[crate]):
                way.append((d, crate, i))
                rows[i].append(way[-1])
            ways.append(way + [crate])
    return rows, ways


def crossings(rows, pieces):
    place = {n: i for row in rows for i, n in enumerate(row)}
    count = 0
    for some in pieces:
        ends = sorted((place[a], place[b]) for a, b in some)
        count += sum(1 for i, x in enumerate(ends) for y in ends[i + 1:] if x[0] < y[0] and x[1] > y[1])
    return count


def ordered(rows, ways):
    """The rows with few crossings: each node goes to the middle of its neighbours, down and up, and the best is kept."""
    at = {n: i for i, row in enumerate(rows) for n in row}
    pieces = [[] for _ in rows]
    up, down = {}, {}
    for way in ways:
        for a, b in zip(way, way[1:]):
            pieces[at[a]].append((a, b))
            down.setdefault(a, []).append(b)
            up.setdefault(b, []).append(a)
    best = [list(row) for row in rows]
    least = crossings(best, pieces)
    now = [list(row) for row in rows]
    for turn in range(60):
        beside = up if turn % 2 == 0 else down
        for i in (range(len(now)) if turn % 2 == 0 else reversed(range(len(now)))):
            place = {n: k / max(1, len(row) - 1) for row in now for k, n in enumerate(row)}
            now[i].sort(key=lambda n: sum(place[m] for m in beside[n]) / len(beside[n]) if beside.get(n) else place[n])
        improve(now, pieces)
        if crossings(now, pieces) < least:
            best, least = [list(row) for row in now], crossings(now, pieces)
    return best, up, down


def improve(rows, pieces):
    """Neighbours change places where that spares crossings."""
    for row in rows:
        for i in range(len(row) - 1):
            before = crossings(rows, pieces)
            row[i], row[i + 1] = row[i + 1], row[i]
            if crossings(rows, pieces) >= before:
                row[i], row[i + 1] = row[i + 1], row[i]


def width(n):
    return LETTER * len(n) + 22 if isinstance(n, str) else 6


def placed(rows, up, down):
    """The middle of each node: near the mean of its neighbours, with room between."""
    x = {}
    for row in rows:
        left = 0
        for n in row:
            x[n] = left + width(n) / 2
            left += width(n) + GAP
    for turn in range(400):
        for row in rows if turn % 2 == 0 else reversed(rows):
            wish = []
            for n in row:
                near = up.get(n, []) + down.get(n, [])
                wish.append(sum(x[m] for m in near) / len(near) if near else x[n])
            offset, left = [], 0
            for i, n in enumerate(row):
                left += 0 if i == 0 else (width(row[i - 1]) + width(n)) / 2 + GAP
                offset.append(left)
            pools = []            # (sum, how many) of wishes that have to share one
            for w, o, n in zip(wish, offset, row):
                weight = 1 if isinstance(n, str) else 2
                pools.append([(w - o) * weight, weight, 1])
                while len(pools) > 1 and pools[-2][0] / pools[-2][1] > pools[-1][0] / pools[-1][1]:
                    last = pools.pop()
                    pools[-1] = [a + b for a, b in zip(pools[-1], last)]
            values = [p[0] / p[1] for p in pools for _ in range(p[2])]
            for n, v, o in zip(row, values, offset):
                x[n] = v + o
    return x


def first_sentence(crate):
    source = next((top / 'crates' / crate / 'src').glob('*.rt')).read_text()
    words = ' '.join(re.match(r'(?://.*\n)*', source)[0].replace('//', '').split())
    return re.match(r'.*?[.](?= |$)|.*', words)[0]


def curve(points):
    """A way through points, upright at each of them."""
    said = 'M%.0f %.0f' % points[0]
    for (a, b), (c, d) in zip(points, points[1:]):
        said += ' C%.0f %.0f %.0f %.0f %.0f %.0f' % (a, (b + d) / 2, c, (b + d) / 2, c, d)
    return said


def picture():
    groups, depends = read()
    fewer = reduced(depends)
    rows, ways = routed(fewer, layered(fewer))
    rows, up, down = ordered(rows, ways)
    x = placed(rows, up, down)
    left = min(x[n] - width(n) / 2 for n in x) - EDGE
    x = {n: v - left for n, v in x.items()}
    y = {n: EDGE + STEP * i for i, row in enumerate(rows) for n in row}
    across = max(max(x[n] + width(n) / 2 for n in x), max(LETTER * len(name) * .85 + 44 for name, _ in groups)) + EDGE
    under = EDGE + STEP * (len(rows) - 1) + HIGH + 26
    high = under + 26 * len(groups) + EDGE - 6
    said = '; '.join('%s to %s' % (crate, ', '.join(u for u in fewer if crate in fewer[u])) for crate in fewer if any(crate in those for those in fewer.values()))
    out = ['<svg xmlns="http://www.w3.org/2000/svg" width="%.0f" height="%.0f" viewBox="0 0 %.0f %.0f" role="img" aria-labelledby="title desc" font-family="ui-monospace, Menlo, Consolas, monospace">' % (across, high, across, high),
           '<title id="title">The crates, and the way of the data through them</title>',
           '<desc id="desc">Each crate stands below those it is built on. What each hands on goes: %s.</desc>' % html.escape(said),
           '<defs><marker id="tip" viewBox="0 0 8 8" refX="7" refY="4" markerWidth="7" markerHeight="7" orient="auto"><path d="M0 0 L8 4 L0 8 z" fill="%s"/></marker></defs>' % LINE,
           '<g fill="none" stroke="%s" stroke-width="1.6">' % LINE]
    for way in ways:
        points = [(x[way[0]], y[way[0]] + HIGH)] + [p for n in way[1:-1] for p in ((x[n], y[n]), (x[n], y[n] + HIGH))] + [(x[way[-1]], y[way[-1]] - 1)]
        out.append('<path d="%s" marker-end="url(#tip)"/>' % curve(points))
    out.append('</g>')
    for i, (name, crates) in enumerate(groups):
        fill, stroke = COLOURS[i % len(COLOURS)]
        out.append('<g fill="%s" stroke="%s">' % (fill, stroke))
        for crate in crates:
            out.append('<g><title>%s</title><rect x="%.0f" y="%.0f" width="%.0f" height="%d" rx="6"/><text x="%.0f" y="%.0f" font-size="%d" text-anchor="middle" fill="#111" stroke="none">%s</text></g>' % (
                html.escape(first_sentence(crate)), x[crate] - width(crate) / 2, y[crate], width(crate), HIGH, x[crate], y[crate] + HIGH / 2 + 5, SIZE, crate))
        line = under + 26 * i
        out.append('<rect x="%d" y="%.0f" width="%.0f" height="20" rx="4"/><text x="%d" y="%.0f" font-size="12" fill="#111" stroke="none">%s</text>' % (
            EDGE, line, LETTER * len(name) * .85 + 20, EDGE + 10, line + 14, html.escape(name)))
        out.append('</g>')
    return '\n'.join(out + ['</svg>', ''])


if __name__ == '__main__':
    (top / 'docs/crates.svg').write_text(picture())
