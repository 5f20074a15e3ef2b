"""picture.py FILE [write]: the picture of the crates, made from crates.txt. Compares FILE, crates/crates.svg, with it, or writes it.

A crate stands below all that it rests on. An edge that follows from others is left out, and so are the kit's libraries. Within a row the order
is one with few crossings, found by trying: each crate goes to the middle of what it is joined to, row by row, down and up again. All of it is
done in whole numbers, so that every machine makes the same picture.
"""
import os
import sys

from made import kept
from sources import crates

GAP, ROW, HEIGHT, LETTER, EDGE = 26, 78, 30, 8, 24
STYLE = """text { font: 14px sans-serif; text-anchor: middle; fill: #222 }
.note { text-anchor: start; fill: #555 }
path { fill: none; stroke: #8a94a6; stroke-width: 1.3 }
rect { stroke-width: 1.3 }
.code { fill: #dfe9f7; stroke: #3b6ea5 }
.test { fill: #f8ecd2; stroke: #b07d1f }
.program { stroke-width: 3 }"""


def listed():
    """What each crate of crates.txt rests on, in that order; the kit's libraries left out."""
    return {name: [other for other in rest if other in crates()] for name, rest in crates().items()}


def reduced(rests):
    """The same without what follows: a rests on c by way of b."""
    below = {}
    for name in in_turn(rests):
        below[name] = set(rests[name]).union(*(below[other] for other in rests[name]))
    return {name: [one for one in on if not any(one in below[other] for other in on)] for name, on in rests.items()}


def in_turn(rests):
    """The crates, each after all that it rests on."""
    done = []
    while len(done) < len(rests):
        done += [name for name in rests if name not in done and all(other in done for other in rests[name])]
    return done


def placed(rests):
    """Rows of crates and of points that long edges pass, and the edges between neighbouring rows. A point is named by its edge and its row."""
    row = {}
    for name in in_turn(rests):
        row[name] = 1 + max((row[other] for other in rests[name]), default=-1)
    rows, edges = [[] for _ in range(max(row.values()) + 1)], []
    for name in rests:
        rows[row[name]].append(name)
    for name, on in rests.items():
        for other in on:
            way = [other, *((other, name, at) for at in range(row[other] + 1, row[name])), name]
            for point in way[1:-1]:
                rows[point[2]].append(point)
            edges += zip(way, way[1:])
    return rows, edges


def neighbours(edges):
    up, down = {}, {}
    for one, other in edges:
        down.setdefault(one, []).append(other)
        up.setdefault(other, []).append(one)
    return up, down


def crossings(rows, edges):
    at = {point: i for row in rows for i, point in enumerate(row)}
    found = 0
    for row in rows:
        here = [(at[one], at[other]) for one, other in edges if one in row]
        found += sum((a - c) * (b - d) < 0 for i, (a, b) in enumerate(here) for c, d in here[i + 1:])
    return found


def ordered(rows, edges):
    """The rows, each in the best order that was found."""
    up, down = neighbours(edges)
    best = rows
    for turn in range(24):
        sides = (rows, up) if turn % 2 == 0 else (rows[::-1], down)
        at, tried = {}, []
        for row in sides[0]:
            def middle(point):
                beside = [at[other] for other in sides[1].get(point, []) if other in at]
                return sum(beside) * 1000 // len(beside) if beside else 1000 * row.index(point)
            tried.append(sorted(row, key=middle))
            at.update({point: i for i, point in enumerate(tried[-1])})
        rows = tried if turn % 2 == 0 else tried[::-1]
        if crossings(rows, edges) < crossings(best, edges):
            best = rows
    return best


def width(point):
    return LETTER * len(point) + 22 if isinstance(point, str) else 2


def spread(row, wanted):
    """Middles in the order of the row, as near to those wanted as their widths allow: half pushed from the left, half from the right."""
    def pushed(points, sign):
        found, edge = {}, None
        for point in points:
            middle = wanted[point] * sign
            if edge is not None:
                middle = max(middle, edge + GAP + width(point) // 2)
            found[point], edge = middle, middle + width(point) // 2
        return {point: middle * sign for point, middle in found.items()}
    left, right = pushed(row, 1), pushed(row[::-1], -1)
    return pushed_apart(row, {point: (left[point] + right[point]) // 2 for point in row})


def pushed_apart(row, middles):
    for one, other in zip(row, row[1:]):
        middles[other] = max(middles[other], middles[one] + width(one) // 2 + GAP + width(other) // 2)
    return middles


def middles(rows, edges):
    """Where each point's middle is: first side by side, then drawn towards what it is joined to."""
    up, down = neighbours(edges)
    x = {}
    for row in rows:
        x.update(pushed_apart(row, {point: 0 for point in row}))
    for turn in range(40):
        side = (up, down, {point: up.get(point, []) + down.get(point, []) for row in rows for point in row})[turn % 3]
        for row in rows if turn % 2 == 0 else rows[::-1]:
            wanted = {point: sum(x[other] for other in side[point]) // len(side[point]) if side.get(point) else x[point] for point in row}
            x.update(spread(row, wanted))
    return x


def drawn(rows, edges, x):
    left = min(x[point] - width(point) // 2 for row in rows for point in row) - EDGE
    right = max(x[point] + width(point) // 2 for row in rows for point in row) + EDGE
    y = {point: EDGE + ROW * i for i, row in enumerate(rows) for point in row}
    high = EDGE + ROW * len(rows) + HEIGHT
    lines = [f'<svg xmlns="http://www.w3.org/2000/svg" viewBox="{left} 0 {right - left} {high}" width="{right - left}" height="{high}">',
             f"<style>{STYLE}</style>", f'<rect x="{left}" y="0" width="{right - left}" height="{high}" fill="#fff"/>']
    for one, other in edges:
        above = y[one] + (HEIGHT if isinstance(one, str) else 0)
        low = y[other]
        half = (above + low) // 2
        down = "" if isinstance(one, str) else f"M{x[one]} {y[one]}V{above + HEIGHT} "
        above += 0 if isinstance(one, str) else HEIGHT
        lines.append(f'<path d="{down}M{x[one]} {above}C{x[one]} {half} {x[other]} {half} {x[other]} {low}"/>')
    for point in (point for row in rows for point in row if isinstance(point, str)):
        lines += box(point, x[point], y[point])
    return "\n".join(lines + legend(left + EDGE, high - EDGE - HEIGHT) + ["</svg>"]) + "\n"


def kind(name):
    program = " program" if os.path.exists(f"crates/{name}/src/main.rt") else ""
    return ("test" if name.startswith("test_") else "code") + program


def box(name, x, y, style=None):
    wide = width(name)
    return [f'<rect class="{style or kind(name)}" x="{x - wide // 2}" y="{y}" width="{wide}" height="{HEIGHT}" rx="6"/>',
            f'<text x="{x}" y="{y + 20}">{name}</text>']


def legend(x, y):
    lines = []
    for style, word in (("code", "crate"), ("test", "for testing"), ("code program", "program")):
        lines += box(word, x + width(word) // 2, y, style)
        x += width(word) + GAP
    return lines + [f'<text class="note" x="{x}" y="{y + 20}">a crate stands below what it rests on</text>']


def main():
    rows, edges = placed(reduced(listed()))
    rows = ordered(rows, edges)
    made = drawn(rows, edges, middles(rows, edges))
    return kept("picture", sys.argv[1], made, sys.argv[2:], f"{len(listed())} crates, {crossings(rows, edges)} crossings")


if __name__ == "__main__":
    sys.exit(main())
