"""The picture of the crates, and the rows of the table on docs/CRATES.md, from crates.txt.

A line leads down to a crate that is used. A crate that is also used by way of another has no line of its own."""
import random
import re
from functools import lru_cache

from answers import ROOT
from svg import Picture

TITLE = "The crates: a crate uses those that its lines lead down to"
HIGH, GAP, STEP, MARGIN, MOST_WIDE, TRIES = 34, 16, 92, 30, 1080, 300
THEORY, CODE, OUTSIDE = "kernel1", "grid", "kernel0"


@lru_cache(None)
def listed():
    """{crate: (what it holds, the crates of the repository that it names)}, in the order of crates.txt."""
    found = re.findall(r"^# (.*)\n(\w+)(?: staticlib)?:(.*)$", (ROOT / "crates.txt").read_text(), re.M)
    names = {name for _, name, _ in found}
    return {name: (said, [d for d in deps.split() if d in names]) for said, name, deps in found}


@lru_cache(None)
def below(name):
    """All that a crate uses, by way of others too."""
    uses = listed()[name][1]
    return frozenset(uses).union(*map(below, uses))


@lru_cache(None)
def direct(name):
    """What a crate uses not by way of another."""
    uses = listed()[name][1]
    return [d for d in uses if not any(d in below(e) for e in uses if e != d)]


def users(name):
    return [other for other in listed() if name in direct(other)]


def kind(name):
    said = listed()[name][0]
    if "no function" in said:
        return THEORY
    return OUTSIDE if re.match(r"the C interface|the archive |the program |what the programs", said) else CODE


# ---- floors


def floors():
    """A floor for each crate, above all that it uses, and moved until no crate has shorter lines on another floor."""
    floor = {}
    for name in sorted(listed(), key=lambda name: len(below(name))):
        floor[name] = 1 + max((floor[d] for d in direct(name)), default=-1)
    top = max(floor.values())
    moved = True
    while moved:
        moved = False
        for name in listed():
            lowest = 1 + max((floor[d] for d in direct(name)), default=-1)
            highest = min((floor[u] for u in users(name)), default=top + 1) - 1
            pull = len(users(name)) - len(direct(name))
            best = highest if pull > 0 else lowest if pull < 0 else floor[name]
            moved, floor[name] = moved or best != floor[name], best
    return floor


def chains(floor):
    """Each line as what it passes from floor to floor: a crate, places between crates, a crate. Lines to one crate share
    their places."""
    for name in listed():
        for d in direct(name):
            yield [name, *((d, f) for f in range(floor[name] - 1, floor[d], -1)), d]


def wide(item):
    return 22 + 9.6 * len(item) if isinstance(item, str) else 4


def joined(floor, lines):
    """{item: (those above that it is joined with, those below)}, and the items of each floor."""
    near, rows = {name: ([], []) for name in floor}, [[] for _ in range(max(floor.values()) + 1)]
    for upper, lower in sorted({pair for line in lines for pair in zip(line, line[1:])}, key=str):
        near.setdefault(upper, ([], []))[1].append(lower)
        near.setdefault(lower, ([], []))[0].append(upper)
    for item in near:
        rows[floor[item] if isinstance(item, str) else item[1]].append(item)
    return near, rows


def swept(rows, near):
    """The items of each floor from left to right, each near the mean place of those that it is joined with."""
    place = {}

    def note(row):
        place.update((item, (k + 0.5) / len(row)) for k, item in enumerate(row))

    for row in rows:
        note(row)
    for sweep in range(16):
        side = sweep % 2
        for row in rows if side else reversed(rows):
            row.sort(key=lambda item: sum(place[o] for o in near[item][side]) / len(near[item][side]) if near[item][side] else place[item])
            note(row)
    return rows


def crossings(rows, near):
    """How many lines cross between floors."""
    found = 0
    for lower, upper in zip(rows, rows[1:]):
        place = {item: k for k, item in enumerate(lower)}
        ends = [place[o] for item in upper for o in sorted(near[item][1], key=place.get)]
        found += sum(ends[j] < ends[i] for i in range(len(ends)) for j in range(i + 1, len(ends)))
    return found


def ordered(rows, near):
    """The best of some orders to begin with, drawn by a fixed seed: fewest crossings."""
    rng, best = random.Random(1), None
    for _ in range(TRIES):
        tried = [rng.sample(row, len(row)) for row in rows]
        tried = swept(tried, near)
        cost = crossings(tried, near)
        if best is None or cost < best[0]:
            best = cost, tried
    return best[1]


def placed(rows, near, width):
    """The middle of each item: as near to those that it is joined with as the items beside it allow."""
    middle = {}
    for row in rows:
        room = (width - 2 * MARGIN - sum(map(wide, row))) / (len(row) + 1)
        x = MARGIN + room
        for item in row:
            middle[item] = x + wide(item) / 2
            x += wide(item) + room
    for sweep in range(60):
        for row in rows if sweep % 2 else reversed(rows):
            wish = {}
            for item in row:
                others = [middle[o] for side in near[item] for o in side] or [middle[item]]
                wish[item] = sum(others) / len(others)
            settle(row, wish, middle, width)
    return middle


def settle(row, wish, middle, width):
    """Items in their order, not overlapping: from the left, then pushed back from the right."""
    x = MARGIN
    for item in row:
        middle[item] = max(x + wide(item) / 2, wish[item])
        x = middle[item] + wide(item) / 2 + GAP
    x = width - MARGIN
    for item in reversed(row):
        middle[item] = min(x - wide(item) / 2, middle[item])
        x = middle[item] - wide(item) / 2 - GAP


# ---- the picture


def pictures():
    floor = floors()
    lines = list(chains(floor))
    near, rows = joined(floor, lines)
    rows = ordered(rows, near)
    middle = placed(rows, near, MOST_WIDE)
    left = min(x - wide(item) / 2 for item, x in middle.items()) - MARGIN
    width = round(max(x + wide(item) / 2 for item, x in middle.items()) + MARGIN - left)
    height = STEP * (len(rows) - 1) + HIGH + 2 * MARGIN + 50
    picture = Picture("crates", TITLE, width, height)
    bottom = height - MARGIN - 50 - HIGH / 2
    at = lambda item: (middle[item] - left, bottom - STEP * (floor[item] if isinstance(item, str) else item[1]))
    for upper, lower in sorted({pair for line in lines for pair in zip(line, line[1:])}, key=str):
        join(picture, at(upper), at(lower), isinstance(lower, str))
    for name in listed():
        x, y = at(name)
        picture.box(x - wide(name) / 2, y - HIGH / 2, wide(name), HIGH, kind(name))
        picture.text((x, y + 6), name, "ink", 17, "middle")
    for k, (fill, words) in enumerate(((THEORY, "definitions and theorems alone"), (CODE, "functions with their proofs"), (OUTSIDE, "libraries for C, programs"))):
        picture.box(MARGIN + 318 * k, height - 42, 30, 22, fill)
        picture.text((MARGIN + 318 * k + 40, height - 25), words, "soft", 16)
    yield picture


def join(picture, upper, lower, to_crate):
    """A line from floor to floor. It bends between the floors alone, and goes straight down past the crates of one."""
    (x, y), (u, v) = upper, lower
    y, v = y + HIGH / 2, v - HIGH / 2
    half = (v - y) / 2
    straight = "" if to_crate else f" V{v + HIGH:.0f}"
    picture.path(f"M{x:.0f},{y:.0f} C{x:.0f},{y + half:.0f} {u:.0f},{v - half:.0f} {u:.0f},{v:.0f}{straight}", "soft", 1.5)


# ---- the table


def table_rows():
    """The rows of docs/CRATES.md."""
    for name, (said, _) in listed().items():
        uses = ", ".join(direct(name)) or "nothing"
        by = ", ".join(users(name)) or "nothing"
        yield f"| {name} | {said} | {uses} | {by} |"
