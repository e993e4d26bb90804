#!/usr/bin/env python3
"""Python against the command, on the same records: the sample records, grids, and pyramids that random choices of cells
make.    tests/office_python.py COUNT SEED"""
import random
import sys

from office_tools import ABSENT, ROOT, Folder, said, zg

sys.path.insert(0, str(ROOT / "python"))
import zompelgors  # noqa: E402
from zompelgors import Pyramid, Refused  # noqa: E402

FOLDER = Folder()


def answer(job, *arguments):
    """What a job answers, or the fields of its refusal."""
    try:
        return job(*arguments)
    except Refused as refused:
        return refused.fields


def asked(*arguments):
    """What the command answers in JSON, or the fields of its refusal."""
    ran = zg(*arguments, "--json")
    return ran.json if ran.status == 0 else ran.refusal


def pick(found, *names):
    """Some fields of an answer; a refusal as it is."""
    return found if isinstance(found, tuple) else [found[name] for name in names]


def plain(found):
    """An answer of Python as lists."""
    return found if isinstance(found, tuple) and len(found) == 4 and not hasattr(found, "_fields") else list(found)


def on_level(pyramid, file, level):
    """Both asked about one level, which need not be there."""
    here = ("--level", level)
    yield "survivors", answer(pyramid.survivors, level), unlisted(asked("survivors", file, *here), "darts")
    yield "marks", plain(answer(pyramid.marks, level)), unlisted(asked("marks", file, *here), "marks")
    yield "regions", plain(answer(pyramid.regions, level)), unlisted(asked("regions", file, *here), "names")
    factor = asked("decimation", file, *here)
    factor = factor if isinstance(factor, tuple) else factor["decimation"][0]["factor"]
    yield "decimation", answer(pyramid.decimation, level), factor
    for involution in range(pyramid.n + 2):
        row = unlisted(asked("row", file, *here, "--involution", involution), "row")
        row = row if isinstance(row, tuple) else [ABSENT if dart is None else dart for dart in row]
        yield "row", plain(answer(pyramid.row, level, involution)), row
    unfolding, found = answer(pyramid.unfold, level), asked("unfold", file, *here)
    if isinstance(found, tuple):
        yield "unfold", unfolding, found
        return
    yield "unfold", [unfolding.count, unfolding.since], pick(found["levels"][0], "reads", "since")
    rows = [unfolding.table[at : at + pyramid.darts] for at in range(0, len(unfolding.table), pyramid.darts)]
    darts = [dart for dart in range(pyramid.darts) if rows[0][dart] != ABSENT]
    yield "unfold", [[level, dart, *(row[dart] for row in rows)] for dart in darts], [list(e.values()) for e in found["entries"]]


def unlisted(found, name):
    return found if isinstance(found, tuple) else found[name]


def readings(pyramid, file, rng):
    """Both asked for neighbours, of darts that are on the level and of others."""
    for _ in range(6):
        question = rng.randrange(pyramid.height + 2), rng.randrange(pyramid.n + 2), rng.randrange(pyramid.darts + 1)
        options = [word for pair in zip(("--level", "--involution", "--dart"), question) for word in pair]
        yield "read", plain(answer(pyramid.read, *question)), pick(asked("read", file, *options), "neighbour", "count", "since")
        by_levels = pick(asked("read", file, *options, "--by-levels"), "neighbour", "count")
        yield "by levels", plain(answer(pyramid.read_by_levels, *question)), by_levels


def changes(pyramid, file, rng):
    """Both make a record of it: the same bytes, or the same refusal."""
    level = rng.randrange(pyramid.height + 2)
    yield "join", *both(pyramid, lambda one: one.join(level), "join", file, "--level", level)
    yield "rebase", *both(pyramid, lambda one: one.rebase(level), "rebase", file, "--level", level)
    for dimension in range(pyramid.n + 1):
        made = both(pyramid, lambda one: one.add(one.mark_cells(dimension)), "add", file, "--cells", dimension)
        yield "add --cells", *made
    marks = [rng.choice((255, 255, 0)) for _ in range(pyramid.darts)]
    yield "add --marks", *both(pyramid, lambda one: one.add(marks), "add", file, "--marks", FOLDER.numbers("M", marks))
    partner = answer(pyramid.partner)
    out = FOLDER / "MAP"
    out.unlink(missing_ok=True)
    exported = asked("export", file, "-o", out)
    numbers = list(map(int, out.read_text().split())) if out.exists() else exported
    yield "export", [pyramid.darts // 2, *partner.edges, *partner.vertices] if out.exists() else partner, numbers


def both(pyramid, job, *call):
    """What a job leaves of a copy, and what the command writes."""
    copy, out = Pyramid.take(pyramid.record()), FOLDER / "OUT"
    out.unlink(missing_ok=True)
    found = asked(*call, "-o", out)
    done = answer(job, copy)
    refused = isinstance(done, tuple) and len(done) == 4
    return done if refused else copy.record(), out.read_bytes() if out.exists() else found


def whole(pyramid, file):
    """Both asked about all levels."""
    census = [[level, *cells.counts, cells.sum] for level, cells in enumerate(pyramid.census())]
    yield "census", census, [list(line.values()) for line in asked("census", file)["census"]]
    levels = [[at, len(pyramid.survivors(at)), one.count, one.since] for at, one in enumerate(pyramid.levels())]
    yield "levels", levels, [list(line.values()) for line in asked("levels", file)["levels"]]
    info = asked("info", file)[0]
    yield "info", [pyramid.n, pyramid.darts, pyramid.height], pick(info, "n", "N", "h")


def grown(rng):
    """A pyramid of a grid, grown by cells that are chosen at random."""
    size = rng.choice(("3x4", "2x2x2", "7", "1x2x1x1", "5x1"))
    zg("grid", size, "-o", FOLDER / "grid")
    pyramid = Pyramid.open(FOLDER / "grid")
    for _ in range(rng.randrange(5)):
        dimension = rng.randrange(pyramid.n)
        pyramid.add(pyramid.mark_cells(dimension) if rng.random() < 0.7 else [255] * pyramid.darts)
    return pyramid


def compare(pyramid, rng):
    file = FOLDER / "F"
    pyramid.save(file)
    for level in sorted({0, pyramid.height // 2, pyramid.height, pyramid.height + 1}):
        yield from on_level(pyramid, file, level)
    yield from whole(pyramid, file)
    yield from readings(pyramid, file, rng)
    yield from changes(pyramid, file, rng)


if __name__ == "__main__":
    rng = random.Random(int(sys.argv[2]))
    pyramids = [Pyramid.open(path) for path in sorted((ROOT / "samples").glob("*.record"))]
    pyramids += [grown(rng) for _ in range(int(sys.argv[1]))]
    done, wrong = 0, []
    for pyramid in pyramids:
        for name, ours, theirs in compare(pyramid, rng):
            done += 1
            if ours != theirs:
                wrong.append(f"{pyramid} {name}: {str(ours)[:80]} and {str(theirs)[:80]}")
    sys.exit(said("python", f"{done} answers on {len(pyramids)} records, library {zompelgors.version()}", wrong))
