"""The pictures of the small maps."""
import layouts
from answers import CONTRACT, Level, record, refusal, walk
from layouts import mean, plus
from svg import Picture, points

ROWS = ["a₀", "a₁", "a₂"]


# ---- a map, drawn


def skeleton(picture, layout, kind="grid"):
    """Edges and vertices beneath the darts."""
    for p, q in layout.edges:
        picture.line(p, q, kind, 3)
    for vertex in layout.vertices.values():
        picture.dot(vertex, 5 * layout.scale, kind)


def shade(picture, layout, darts, kernel):
    for d in darts:
        picture.line(layout.outer[d], layout.inner[d], f"kernel{kernel}", 22 * layout.scale, ' stroke-linecap="round"')


def dart(picture, layout, d, kind="ink", words=None, width=4):
    picture.line(layout.outer[d], layout.inner[d], kind, width)
    picture.dot(layout.outer[d], 4, kind)
    if words != "":
        x, y = layout.label[d]
        picture.text((x, y + 6), str(d) if words is None else words, kind, 18, "middle", True)


def link(picture, layout, i, d, e, bends=(), width=2.5, kind=None):
    """A link by a_i; a free dart has a ring at its end."""
    kind = kind or f"row{i}"
    p, q = layout.point(i, d), layout.point(i, e)
    if d == e:
        picture.ring(p, 7, kind, 2)
    else:
        bend = dict(bends).get((i, *sorted((d, e)))) or layout.bend(i, d, e)
        picture.curve(p, bend, q, kind, width)


def links(picture, layout, rows, darts, bends=()):
    for i, row in enumerate(rows):
        for d in darts:
            if d <= row[d]:
                link(picture, layout, i, d, row[d], bends)


def level(picture, layout, shown, bends=()):
    """A level: what is gone faintly, the survivors and their links."""
    for d in shown.gone:
        dart(picture, layout, d, "faint", "", 2)
    links(picture, layout, shown.rows, shown.survivors, bends)
    for d in shown.survivors:
        dart(picture, layout, d)


def legend(picture, at, dimension):
    said = ["the other end of the edge", "the next edge at the vertex", "the other side of the edge"]
    for i in range(dimension + 1):
        y = at[1] + 30 * i
        picture.line((at[0], y), (at[0] + 44, y), f"row{i}", 3)
        picture.text((at[0] + 54, y + 6), f"{ROWS[i]}  {said[i]}", "ink")


def lines(picture, at, words, fill="ink", step=26, size=17):
    for k, line in enumerate(words):
        picture.text((at[0], at[1] + step * k), line, fill, size)


def many(count, word):
    return f"{count} {word}" + ("" if count == 1 else "s")


# ---- the star


def kernel_of(name, k):
    r = record(name)
    return [d for d in range(r.darts) if r.lam[d] == k and r.lam[d] < r.h]


def marked(name, k):
    """What kernel k does, in words: its cells are of one mark in the small maps."""
    darts = kernel_of(name, k)
    mark = record(name).delta[darts[0]]
    cell = ["vertex", "edge", "face"][mark % CONTRACT]
    return f"{cell} {{{', '.join(map(str, darts))}}} {'contracted' if mark > CONTRACT else 'removed'}"


def star_base():
    picture = Picture("star", "The star: twelve darts, three involutions, two kernels", 960, 420)
    layout, base = layouts.star((265, 245), 200, 1.25), Level("star", 0)
    skeleton(picture, layout)
    for k in (0, 1):
        shade(picture, layout, kernel_of("star", k), k)
    level(picture, layout, base)
    picture.text((520, 60), "12 darts: each is one end of an edge,", "ink")
    picture.text((520, 86), "seen from one of its two sides", "ink")
    legend(picture, (520, 128), 2)
    for k in (0, 1):
        picture.box(520, 226 + 40 * k, 44, 24, f"kernel{k}")
        picture.text((574, 245 + 40 * k), f"kernel {k}: {marked('star', k)}", "ink")
    lines(picture, (520, 330), ["Kernel 0 is taken out of level 0, kernel 1 of", "level 1, where the centre has four darts left."], "soft")
    return picture


STAR_BENDS = {(0, 7, 10): (0, -46), (0, 6, 11): (0, 14), (1, 1, 4): (0, -26)}


def star_levels():
    picture = Picture("star-levels", "Levels 0, 1 and 2 of the star, and what reading each takes", 1000, 400)
    for l in range(3):
        centre = (170 + 330 * l, 195)
        layout, shown = layouts.star(centre, 160, 1), Level("star", l)
        skeleton(picture, layout)
        if l < 2:
            shade(picture, layout, kernel_of("star", l), l)
        level(picture, layout, shown, {key: plus(centre, way) for key, way in STAR_BENDS.items()})
        picture.text((centre[0], 330), f"level {l}", "ink", 19, "middle", True)
        picture.text((centre[0], 356), f"{many(len(shown.survivors), 'dart')}, {many(shown.reads, 'read')}", "ink", 17, "middle")
        if l < 2:
            picture.text((centre[0], 382), f"kernel {l}: {marked('star', l)}", "soft", 16, "middle")
    return picture


def star_folded():
    """The whole record: rows, and Λ and Δ in the darts."""
    r = record("star")
    picture = Picture("star-folded", "The star folded: the base, and Λ and Δ in its darts", 1000, 480)
    layout = layouts.star((245, 290), 215, 1.3)
    skeleton(picture, layout)
    for k in (0, 1):
        shade(picture, layout, kernel_of("star", k), k)
    for d in range(r.darts):
        dart(picture, layout, d, "ink", "")
        x, y = plus(layout.label[d], layout.aside[d], 4)
        picture.text((x, y + 6), str(d), "soft", 16, "middle")
        x, y = plus((x, y), beyond(layout.aside[d]))
        picture.text((x, y + 6), f"{r.lam[d]} {r.delta[d]}", "ink", 19, "middle", True)
    picture.text((40, 44), "Beside each dart its Λ and Δ", "ink")
    left, top, step = 560, 96, 34
    for d in range(r.darts):
        picture.text((left + step * d, 60), str(d), "soft", 17, "middle")
    for k, (name, row) in enumerate([*zip(ROWS, r.rows), ("Λ", r.lam), ("Δ", r.delta)]):
        picture.text((left - 50, top + 34 * k), name, "ink", 18, "start", True)
        for d in range(r.darts):
            if name in "ΛΔ" and r.lam[d] < r.h:
                picture.box(left + step * d - 15, top + 34 * k - 20, 30, 28, f"kernel{r.lam[d]}")
            picture.text((left + step * d, top + 34 * k), str(row[d]), "ink", 17, "middle")
    lines(picture, (left - 50, 300), [
        f"Λ: the kernel that takes the dart out, {r.h} if none does.",
        f"Δ: with which dimension, {r.n} if it stays.",
        "The record holds these five rows and their sizes:",
        f"{len(r.bytes)} bytes. Levels 1 and 2 are not stored.",
    ], "ink", 30)
    return picture


def beyond(way):
    """From a dart's number to what stands beside it: above or below, or at its side where the way out is level."""
    return (0, 24 if way[1] > 0 else -24) if abs(way[1]) > 0.5 else (30 * way[0], 0)


# ---- walks


def arrow(picture, p, bend, q, kind, width=4):
    """A link that is walked, with a head at its end."""
    picture.curve(p, bend, q, kind, width, f' marker-end="url(#{kind})"')


def heads(picture, kinds):
    for kind in kinds:
        shape = f'<path class="f-{kind}" d="M0,0 L9,4.5 L0,9 z"/>'
        picture.put(
            f'<marker id="{kind}" viewBox="0 0 9 9" refX="7" refY="4.5" markerWidth="4" markerHeight="4" orient="auto">{shape}</marker>', kind
        )


def read_number(picture, at, k):
    picture.dot(at, 12, "card")
    picture.ring(at, 12, "ink", 1.5)
    picture.text((at[0], at[1] + 6), str(k), "ink", 16, "middle", True)


def steps_table(picture, name, question, left, top):
    """The reads of a walk, a line each, with the mark of the dart met."""
    r, steps = record(name), walk(name, *question)
    columns = [0, 70, 150, 250, 300]
    for x, words in zip(columns, ["read", "row", "dart met", "Λ", "Δ"]):
        picture.text((left + x, top), words, "soft", 16)
    for k, (row, met) in enumerate(steps):
        y = top + 34 * (k + 1)
        gone = r.lam[met] < question[0]
        if gone:
            picture.box(left + 240, y - 20, 88, 28, f"kernel{r.lam[met]}")
        for x, words, kind in zip(columns, [k + 1, ROWS[row], met, r.lam[met], r.delta[met]], ["ink", f"row{row}", "ink", "ink", "ink"]):
            picture.text((left + x, y), str(words), kind, 18, "start", x == 70)
        said = "" if not gone else f"passed from {ROWS[row]} to {ROWS[steps[k + 1][0]]}"
        picture.text((left + 350, y), said or "survives: the neighbour", "soft" if gone else "good", 16)


def star_walk():
    question = (2, 0, 7)
    picture = Picture("star-walk", "The walk of dart 7 by a₀ on level 2: through the base by the rows 0, 1, 2, 1, 0", 1040, 430)
    layout, base = layouts.star((240, 245), 205, 1.3), Level("star", 0)
    heads(picture, ["row0", "row1", "row2"])
    skeleton(picture, layout)
    for k in (0, 1):
        shade(picture, layout, kernel_of("star", k), k)
    for d in base.survivors:
        dart(picture, layout, d, "ink" if d in (7, 10) else "soft")
    before = question[2]
    for k, (row, met) in enumerate(walk("star", *question)):
        p, q = layout.point(row, before), layout.point(row, met)
        bend = layout.bend(row, before, met)
        arrow(picture, p, bend, q, f"row{row}", 4)
        read_number(picture, beside(layout, row, before, met), k + 1)
        before = met
    steps_table(picture, "star", question, 480, 90)
    lines(picture, (480, 330), ["From dart 7 by a₀, on level 2, the neighbour is dart 10.", "No level is stored: five entries of the base are read."], "ink", 30)
    return picture


def beside(layout, row, d, e):
    """Where the number of a read stands: on the edge, between the darts of its sides, or outward from the centre."""
    at = mean(layout.point(row, d), layout.point(row, e))
    if row == 0:
        return mean(layout.vertex[d], layout.vertex[e])
    if row == 2:
        return plus(at, (0, -27))
    way = plus(at, layout.vertices["centre"], -1)
    return plus(at, way, 20 / (way[0] ** 2 + way[1] ** 2) ** 0.5)


# ---- the segment: why twice


def segment():
    r, question = record("segment"), (1, 0, 0)
    steps = walk("segment", *question)
    first = Level("segment", 1)
    gone, n, survivors = len(first.gone), r.n, len(first.survivors)
    picture = Picture("segment", "The segment: a walk that comes back through the dart that is gone", 1000, 420)
    heads(picture, ["row0", "row1"])
    layout = layouts.segment((50, 130), 330, 1.6)
    skeleton(picture, layout)
    shade(picture, layout, kernel_of("segment", 0), 0)
    for d in range(r.darts):
        dart(picture, layout, d)
    segment_walk(picture, layout, steps)
    picture.text((50, 46), f"kernel 0: {marked('segment', 0)}", "ink")
    lines(picture, (50, 250), [
        "a₀ of dart 0 on level 1:",
        "1  a₀ leads to dart 1, which is gone",
        "2  a₁ of dart 1 is dart 1: it is free there",
        "3  a₀ of dart 1 leads back to dart 0",
        "Dart 1 is met twice, once from either side.",
    ], "ink", 30)
    bars(picture, 520, 60, "one walk: reads", len(steps), 1 + gone, 1 + 2 * gone)
    bars(picture, 520, 230, "all of level 1: reads", first.reads, (n + 1) * survivors + gone, (n + 1) * survivors + 2 * gone)
    return picture


def segment_walk(picture, layout, steps):
    """There above the edge, back below it; round the free end between."""
    p, q, end = layout.inner[0], layout.inner[1], layout.outer[1]
    up, down = (0, -34), (0, 34)
    arrow(picture, plus(p, (0, -8)), plus(mean(p, q), up), plus(q, (0, -8)), "row0")
    loop = f"M{points(plus(end, (2, -10)))} C{points(plus(end, (60, -62)), plus(end, (60, 62)), plus(end, (4, 12)))}"
    picture.path(loop, "row1", 4, ' marker-end="url(#row1)"')
    arrow(picture, plus(q, (0, 8)), plus(mean(p, q), down), plus(p, (0, 8)), "row0")
    for k, at in enumerate([plus(mean(p, q), (0, -44)), plus(end, (62, 0)), plus(mean(p, q), (0, 44))]):
        read_number(picture, at, k + 1)
    assert [row for row, _ in steps] == [0, 1, 0]


def bars(picture, left, top, title, reads, once, twice):
    """What the walk takes, between the bound that counts a dart once and the one that counts it twice."""
    unit = 32
    picture.text((left, top), title, "ink", 17, "start", True)
    rows = [
        ("version three: a dart once", once, "bad"),
        ("what is read", reads, "ours"),
        ("proved: a dart twice", twice, "good"),
    ]
    for k, (words, value, fill) in enumerate(rows):
        y = top + 22 + 38 * k
        picture.box(left + 240, y, unit * value, 24, fill, 4)
        picture.text((left, y + 18), words, "ink", 16)
        picture.text((left + 252 + unit * value, y + 18), f"{value}" + (", too low" if value < reads else ""), fill, 17, "start", True)


# ---- a contraction


def contraction():
    question = (2, 1, 7)
    picture = Picture("contraction", "The square: a vertex removed, then an edge contracted, and the walk past both", 1060, 400)
    heads(picture, ["row0", "row1"])
    for l in range(3):
        layout = layouts.square((46 + 262 * l, 70), 176, 1)
        corner = layout.vertices["b"]
        shown = Level("square", l)
        skeleton(picture, layout)
        if l < 2:
            shade(picture, layout, kernel_of("square", l), l)
        level(picture, layout, shown, {(0, 0, 3): corner, (1, 4, 7): corner})
        x = layout.vertices["a"][0] + 88
        picture.text((x, 300), f"level {l}", "ink", 19, "middle", True)
        picture.text((x, 326), f"{many(len(shown.survivors), 'dart')}, {many(shown.reads, 'read')}", "ink", 17, "middle")
        if l < 2:
            words = marked("square", l).rsplit(" ", 1)
            picture.text((x, 354), f"kernel {l}: {words[0]}", "soft", 16, "middle")
            picture.text((x, 376), words[1], "soft", 16, "middle")
    contraction_walk(picture, question)
    return picture


def contraction_walk(picture, question):
    """The walk along the base, outside the square."""
    layout, r = layouts.square((832, 70), 176, 1), record("square")
    steps = walk("square", *question)
    skeleton(picture, layout)
    for k in (0, 1):
        shade(picture, layout, kernel_of("square", k), k)
    for d in range(r.darts):
        dart(picture, layout, d, "ink" if d in (question[2], steps[-1][1]) else "soft")
    before = question[2]
    for k, (row, met) in enumerate(steps):
        p, q = layout.point(row, before), layout.point(row, met)
        arrow(picture, p, layout.bend(row, before, met), q, f"row{row}", 4)
        middle = layout.vertices["a"][0] + 88, layout.vertices["a"][1] + 88
        way = plus(mean(p, q), middle, -1)
        size = (way[0] ** 2 + way[1] ** 2) ** 0.5
        read_number(picture, plus(mean(p, q), way, 27 / size), k + 1)
        before = met
    x = layout.vertices["a"][0] + 88
    picture.text((x, 300), f"{ROWS[question[1]]} of {question[2]} on level {question[0]} is {steps[-1][1]}", "ink", 18, "middle", True)
    picture.text((x, 326), "by the rows " + ", ".join(str(row) for row, _ in steps), "ink", 17, "middle")


# ---- an open boundary


def boundary():
    """P6: counting says yes, the test says no, and why."""
    name = "refused/open"
    r, said = record(name), refusal(name)
    picture = Picture("open", "An open boundary, where counting edges goes wrong", 1000, 430)
    layout = layouts.opened((255, 150), 200, 1.25)
    skeleton(picture, layout)
    shade(picture, layout, kernel_of(name, 0), 0)
    level(picture, layout, Level(name, 0))
    picture.text((40, 44), f"Is the vertex {{{', '.join(map(str, kernel_of(name, 0)))}}} removable?", "ink", 18, "start", True)
    there, other = r.rows[2][r.rows[1][0]], r.rows[1][r.rows[2][0]]
    lines(picture, (40, 268), ["By count: two edges meet there, so yes."], "bad")
    lines(picture, (40, 304), [
        f"By the test: from dart {said[3]}",
        f"a₁ leads to {r.rows[1][0]}, then a₂ to {there};",
        f"a₂ leads to {r.rows[2][0]}, then a₁ to {other}, since 1 is free.",
        f"{there} is not {other}: refused {' '.join(map(str, said))}.",
    ], "good", 28)
    boundary_after(picture, name)
    return picture


def boundary_after(picture, name):
    """What a reading of the unchecked tables finds on level 1, which is no map."""
    layout, shown = layouts.opened((760, 150), 200, 1.25), Level(name, 1)
    skeleton(picture, layout)
    level(picture, layout, shown)
    picture.text((545, 44), "If it were taken out all the same", "ink", 18, "start", True)
    up, down = walk(name, 1, 0, 4)[-1][1], walk(name, 1, 0, 5)[-1][1]
    across = shown.rows[2]
    lines(picture, (545, 268), [
        f"Above, a₀ leads from 4 to {up}.",
        f"Below, it leads from 5 back to {down}.",
        f"a₀ then a₂ from 4: {up}, {across[up]}.   a₂ then a₀: {across[4]}, {shown.rows[0][across[4]]}.",
        f"{across[up]} is not {shown.rows[0][across[4]]}: this is no valid map.",
        "A ring is a dart that is free: its link leads to itself.",
    ], "ink", 30)
    return picture


def pictures():
    yield from (star_base(), star_levels(), star_folded(), star_walk(), segment(), contraction(), boundary())
