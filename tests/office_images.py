#!/usr/bin/env python3
"""Labelled images through `build`, against regions that are known otherwise: the connected components of scipy, 4-connected
pixels and 6-connected voxels.    tests/office_images.py COUNT SEED

Of every image the region names of the last level must be those of the components: of each cell the lowest dart of its
component. The census counts the n-cells, which are the boundaries of the regions: a region has one for each piece into
which it cuts the rest of space (8-connected, 26-connected), so as many as regions where none has a hole. In 3D this is so
on level 1, before faces are merged; later a face may lose its inner edges, and a boundary falls apart."""
import itertools
import sys

import numpy as np
from office_tools import Folder, said, zg
from scipy import ndimage

FOLDER = Folder()
EACH = {1: 2, 2: 8, 3: 48, 4: 384}


def known(labels):
    """The component of each cell, numbered as they come, and their number."""
    found, number = np.zeros(labels.shape, int), 0
    for label in np.unique(labels):
        components, count = ndimage.label(labels == label)
        found[components > 0] = components[components > 0] + number
        number += count
    return found, number


def boundaries(components, number):
    """Into how many pieces all regions cut the rest of space."""
    touching = np.ones((3,) * components.ndim)
    padded = np.pad(components, 1)
    return sum(ndimage.label(padded != region, touching)[1] for region in range(1, number + 1))


def names(components):
    """For each cell, the first axis running fastest in the file, the lowest dart of its component."""
    flat = components.ravel()
    first = {}
    for cell, component in enumerate(flat):
        first.setdefault(component, cell)
    return [first[component] * EACH[components.ndim] for component in flat]


def pgm(labels, kind):
    """A PGM: plain, of bytes, or of two bytes a pixel."""
    height, width = labels.shape
    if kind == "plain":
        rows = "\n".join(" ".join(map(str, row)) for row in labels)
        return f"P2\n# labels\n{width} {height}\n255\n{rows}\n".encode()
    largest, type_ = (255, ">u1") if kind == "bytes" else (65535, ">u2")
    return f"P5 {width} {height}\n# labels\n{largest}\n".encode() + labels.astype(type_).tobytes()


def built(labels, kind):
    """The record that `build` makes of an image."""
    if kind == "raw":
        size = "x".join(map(str, reversed(labels.shape)))
        arguments = [FOLDER.put("labels", labels.astype("u1").tobytes()), "--size", size]
    else:
        arguments = [FOLDER.put("labels", pgm(labels, kind))]
    out = FOLDER / "out.record"
    return out, zg("build", *arguments, "-o", out, "--json")


def compare(labels, kind):
    """What is wrong with the pyramid of an image, if anything."""
    out, ran = built(labels, kind)
    if ran.status:
        return ran.error
    components, number = known(labels)
    found = zg("regions", out, "--level", ran.json["h"], "--json").json
    each, n = EACH[labels.ndim], labels.ndim
    cells = [found["names"][at : at + each] for at in range(0, len(found["names"]), each)]
    if [set(cell) for cell in cells] != [{name} for name in names(components)]:
        return "other names"
    if (ran.json["regions"], found["count"], len(set(found["names"]))) != (number, number, number):
        return f"{found['count']} regions and not {number}"
    census = zg("census", out, "--json").json["census"]
    merged = census[-1 if n == 2 else min(1, len(census) - 1)][f"{n}-cells"]
    due = boundaries(components, number) if n in (2, 3) else merged
    return None if merged == due else f"{merged} {n}-cells and not {due}"


def random_image(rng, size):
    """Blobs or noise of a few labels."""
    labels = rng.integers(0, rng.integers(1, 6) + 1, size)
    if rng.random() < 0.6:
        labels = ndimage.median_filter(labels, 3, mode="nearest")
    return labels


def random_size(rng, n):
    most = {2: 512, 3: 85, 4: 10}[n]
    while True:
        size = tuple(rng.integers(1, {2: 33, 3: 10, 4: 6}[n], n))
        if np.prod(size) <= most:
            return size


def chosen():
    """Images whose answers are known by hand: labels, regions, n-cells on the last level."""
    island = np.ones((3, 3), int)
    island[1, 1] = 2
    slabs = np.zeros((4, 3, 3), int)
    slabs[2:] = 1
    cavity = np.zeros((3, 3, 3), int)
    cavity[1, 1, 1] = 1
    return [
        ("an island", island, 2, 3),
        ("one label", np.zeros((16, 32), int), 1, 1),
        ("all different", np.arange(20).reshape(4, 5), 20, 20),
        ("a chess board", np.indices((22, 23)).sum(0) % 2, 506, 506),
        ("two slabs", slabs, 2, 2),
        ("voxels all different", np.arange(12).reshape(2, 2, 3), 12, 12),
        ("a cavity", cavity, 2, 3),
    ]


def on_chosen():
    for title, labels, regions, cells in chosen():
        out, ran = built(labels, "plain" if labels.ndim == 2 else "raw")
        last = zg("census", out, "--json").json["census"][-1][f"{labels.ndim}-cells"]
        if (ran.json["regions"], last) != (regions, cells):
            yield f"{title}: {ran.json['regions']} regions and {last} cells"
        problem = compare(labels, "plain" if labels.ndim == 2 else "raw")
        if problem:
            yield f"{title}: {problem}"


def grids():
    """Grids: the cells of each dimension by formula, and darts free by the last involution at the border alone."""
    for size in ((7,), (1,), (3, 4), (16, 32), (1, 1), (2, 3, 4), (5, 17, 1), (1, 1, 1, 1), (5, 2, 1, 1), (1, 2, 2, 2)):
        n, out = len(size), FOLDER / "grid"
        zg("grid", "x".join(map(str, size)), "-o", out)
        # A k-cell spans k of the axes, and lies between cells along the others.
        spans = [itertools.combinations(range(n), k) for k in range(n + 1)]
        placed = lambda span: np.prod([s if axis in span else s + 1 for axis, s in enumerate(size)])
        due = [sum(map(placed, same)) for same in spans]
        census = list(zg("census", out, "--json").json["census"][0].values())
        row = zg("row", out, "--level", 0, "--involution", n, "--json").json["row"]
        sides = 2 * sum(np.prod(size) // s for s in size)
        free = sum(dart == neighbour for dart, neighbour in enumerate(row))
        if census[1:-1] != due or free != sides * EACH[n] // (2 * n):
            yield f"grid {size}: {census} and not {due}, {free} free"


def too_large():
    """What is larger is said at once, and nothing is written."""
    image = FOLDER.put("large", b"P5 640 480\n255\n")
    for arguments in ([image], [image, "--size", "5x5x4"], [image, "--size", "999999999999x999999999999"]):
        ran = zg("build", *arguments, "-o", FOLDER / "none")
        if ran.status != 2 or "at most" not in ran.error or (FOLDER / "none").exists():
            yield f"too large: {ran.status} {ran.error}"


if __name__ == "__main__":
    count, rng = int(sys.argv[1]), np.random.default_rng(int(sys.argv[2]))
    wrong = [*on_chosen(), *grids(), *too_large()]
    kinds = itertools.cycle(["plain", "bytes", "wide", "raw"])
    for at in range(count):
        n = (2, 3, 2, 3, 4)[at % 5]
        labels, kind = random_image(rng, random_size(rng, n)), next(kinds)
        problem = compare(labels, kind if n == 2 else "raw")
        if problem:
            wrong.append(f"{labels.shape} {kind}: {problem}")
    sys.exit(said("images", f"10 grids, {len(chosen())} images known by hand and {count} by scipy", wrong))
