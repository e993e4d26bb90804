#!/usr/bin/env python3
"""Makes the sample records, in the folder that it lies in, or in the one that is named.   python3 make.py [FOLDER]

Small maps of docs/SCOPE.md: star.record (P8, P9), segment.record (P1), square.record (C3, a vertex removed and then an
edge contracted), and refused/open.record (P6), which is refused 10.

voxels.record: a block of 3 x 3 x 9 voxels with a cavity of one voxel (dimension 3, 80 cubes of 48 darts), with 12
removals: on each level a seeded choice of the removable cells of one dimension, faces, edges and vertices in turn.

pipe.record: a pipe of three rings of four blocks (dimension 3, 12 cubes), with 4 kernels, each a seeded choice of faces
to remove and of edges to contract."""
import itertools, random, sys
from pathlib import Path


def record(n, h, rows, marks):
    darts = len(rows[0])
    two = lambda x: bytes((x % 256, x // 256))
    field = lambda tag, body: bytes((tag,)) + two(len(body)) + body
    out = field(0x01, bytes((n, h)) + two(darts))
    for i, row in enumerate(rows):
        out += field(0x10 + i, b"".join(two(x) for x in row))
    return out + field(0x30, bytes(marks[0])) + field(0x31, bytes(marks[1]))


def cube_flags():
    """The 48 flags of a cube: vertex, edge and face, each in the next, as corners, axes and sides."""
    flags = []
    for corner in itertools.product((0, 1), repeat=3):
        for edge in range(3):
            for side in range(3):
                if side != edge:
                    flags.append((corner, edge, side))
    return flags


def voxels(size, holes=(), ring=False):
    """Cubes in a grid, some left out; a ring is closed along the first axis."""
    flags = cube_flags()
    cells = [v for v in itertools.product(*map(range, size)) if v not in holes]
    number = {(v, f): k for k, (v, f) in enumerate(itertools.product(cells, flags))}
    rows = [[0] * len(number) for _ in range(4)]
    for (v, (corner, edge, side)), d in number.items():
        along = tuple(1 - x if a == edge else x for a, x in enumerate(corner))
        rows[0][d] = number[v, (along, edge, side)]
        rows[1][d] = number[v, (corner, 3 - edge - side, side)]
        rows[2][d] = number[v, (corner, edge, 3 - edge - side)]
        step = 1 if corner[side] else -1
        w = tuple(x + step if a == side else x for a, x in enumerate(v))
        if ring:
            w = (w[0] % size[0],) + w[1:]
        across = tuple(1 - x if a == side else x for a, x in enumerate(corner))
        rows[3][d] = number.get((w, (across, edge, side)), d)
    return rows


def cells_of(a, n, here, delta):
    seen, cells = set(), []
    for d in here:
        if d not in seen:
            cell, todo = {d}, [d]
            while todo:
                x = todo.pop()
                for j in range(n + 1):
                    if j != delta and a[j][x] not in cell:
                        cell.add(a[j][x])
                        todo.append(a[j][x])
            seen |= cell
            cells.append(cell)
    return cells


CONTRACT = 8


def rows_of(mark):
    """The dimension, and the other row by which a dart of the mark is passed."""
    return (mark - CONTRACT, mark - CONTRACT - 1) if mark > CONTRACT else (mark, mark + 1)


def fits(a, n, mark, cell):
    """Is the cell removable, or contractible?"""
    i, j = rows_of(mark)
    beyond = 2 * j - i
    return not 0 <= beyond <= n or all(a[beyond][a[j][d]] == a[j][a[beyond][d]] for d in cell)


def take_out(a, n, here, marked):
    left = [d for d in here if d not in marked]
    new = [row[:] for row in a]
    for i in range(n + 1):
        for d in left:
            e = a[i][d]
            while e in marked and rows_of(marked[e])[0] == i:
                e = a[i][a[rows_of(marked[e])[1]][e]]
            new[i][d] = e
    return new, left


def pyramid(rows, n, kernels, share, seed):
    """For each kernel its marks are given: of the cells that fit a mark and meet no earlier one, one in so many."""
    rng = random.Random(seed)
    a, here = rows, list(range(len(rows[0])))
    lam, marks = [len(kernels)] * len(here), [n] * len(here)
    for l, kernel in enumerate(kernels):
        marked = {}
        for mark in kernel:
            cells = cells_of(a, n, here, rows_of(mark)[0])
            good = [c for c in cells if fits(a, n, mark, c) and not any(d in marked for d in c)]
            some = rng.sample(good, (len(good) + share - 1) // share)
            marked.update((d, mark) for c in some for d in c)
        for d in marked:
            lam[d], marks[d] = l, marked[d]
        a, here = take_out(a, n, here, marked)
    return lam, marks


def small_records():
    """The records of small maps, each with n, h, its rows, and Λ and Δ."""
    star = [
        [6, 7, 8, 9, 10, 11, 0, 1, 2, 3, 4, 5],
        [5, 2, 1, 4, 3, 0, 7, 6, 9, 8, 11, 10],
        [1, 0, 3, 2, 5, 4, 7, 6, 9, 8, 11, 10],
    ]
    square = [[1, 0, 3, 2, 5, 4, 7, 6], [7, 2, 1, 4, 3, 6, 5, 0]]
    opened = [[4, 5, 6, 7, 0, 1, 2, 3], [2, 1, 0, 3, 4, 5, 6, 7], [1, 0, 3, 2, 5, 4, 7, 6]]
    edge = CONTRACT + 1
    yield "star", record(2, 2, star, ([1, 1, 0, 0, 1, 1, 2, 2, 0, 0, 2, 2], [0, 0, 1, 1, 0, 0, 2, 2, 1, 1, 2, 2]))
    yield "segment", record(1, 1, [[1, 0], [0, 1]], ([1, 0], [1, 0]))
    yield "square", record(1, 2, square, ([1, 0, 0, 1, 2, 2, 2, 2], [edge, 0, 0, edge, 1, 1, 1, 1]))
    yield "refused/open", record(2, 1, opened, ([0, 0, 0, 0, 1, 1, 1, 1], [0, 0, 0, 0, 2, 2, 2, 2]))


def large_records():
    block = voxels((3, 3, 9), {(1, 1, 4)})
    faces_edges_vertices = [[2 - l % 3] for l in range(12)]
    yield "voxels", record(3, 12, block, pyramid(block, 3, faces_edges_vertices, 4, 1))
    pipe = voxels((4, 1, 3), ring=True)
    faces_and_edges = [[2, CONTRACT + 1]] * 4
    yield "pipe", record(3, 4, pipe, pyramid(pipe, 3, faces_and_edges, 5, 1))


if __name__ == "__main__":
    folder = Path(sys.argv[1]) if len(sys.argv) > 1 else Path(__file__).resolve().parent
    (folder / "refused").mkdir(parents=True, exist_ok=True)
    for name, made in itertools.chain(small_records(), large_records()):
        (folder / f"{name}.record").write_bytes(made)
