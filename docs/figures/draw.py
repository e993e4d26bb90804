#!/usr/bin/env python3
"""Draws the pictures of the tour and of the crates, and the plots of what was measured.

draw.py                  writes every SVG of docs/figures
draw.py --check          says which SVG differs from what would be written, and fails if one does
draw.py --cases          prints what the library is asked for the pictures (asked.cases)
draw.py --plots FOLDER   writes the plots of FOLDER/measured.txt into that folder

Small maps are drawn from samples/ and from what the library answered (asked.answers), the crates from crates.txt, the
plots from what bench/run.sh counted (measured.txt). Python's standard library is all it needs."""
import sys
from pathlib import Path

import answers
import crates
import maps
import plots
from svg import MOST_BYTES


def pictures():
    yield from maps.pictures()
    yield from crates.pictures()
    yield from plots.pictures()


def write(some, folder):
    for picture in some:
        (folder / f"{picture.name}.svg").write_text(picture.written())


def differences():
    """What is on file and is not what would be written, too large, or drawn by nothing."""
    drawn = {f"{picture.name}.svg": picture.written() for picture in pictures()}
    for name in sorted(drawn.keys() | {path.name for path in answers.FIGURES.glob("*.svg")}):
        path = answers.FIGURES / name
        if name not in drawn:
            yield f"docs/figures/{name} is drawn by nothing"
        elif not path.is_file() or path.read_text() != drawn[name]:
            yield f"docs/figures/{name} is not what draw.py writes"
        elif path.stat().st_size > MOST_BYTES:
            yield f"docs/figures/{name} has {path.stat().st_size} bytes, over {MOST_BYTES}"
    if (answers.FIGURES / "asked.cases").read_text().splitlines() != list(answers.cases()):
        yield "docs/figures/asked.cases is not what draw.py --cases prints"


if __name__ == "__main__":
    if sys.argv[1:] == ["--cases"]:
        print("\n".join(answers.cases()))
    elif sys.argv[1:] == ["--check"]:
        found = list(differences())
        print("\n".join(found + [f"figures: {len(found)} differences"]))
        sys.exit(1 if found else 0)
    elif sys.argv[1:2] == ["--plots"] and len(sys.argv) == 3:
        write(plots.pictures(Path(sys.argv[2])), Path(sys.argv[2]))
    elif sys.argv[1:]:
        sys.exit(__doc__)
    else:
        write(pictures(), answers.FIGURES)
