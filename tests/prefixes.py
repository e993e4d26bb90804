#!/usr/bin/env python3
"""Every prefix of two records, as case lines of the job take and the answers due: 16 at the offset of the field that the
prefix ends in, nothing lent changed.   prefixes.py cases | prefixes.py answers"""
import sys

def record(n, h, rows, marks):
    darts = len(rows[0])
    field = lambda tag, body: [tag, len(body) % 256, len(body) // 256] + body
    out = field(1, [n, h, darts % 256, darts // 256])
    for i, row in enumerate(rows):
        out += field(0x10 + i, [b for x in row for b in (x % 256, x // 256)])
    return out + field(0x30, marks[0]) + field(0x31, marks[1])

star = [[6, 7, 8, 9, 10, 11, 0, 1, 2, 3, 4, 5], [5, 2, 1, 4, 3, 0, 7, 6, 9, 8, 11, 10], [1, 0, 3, 2, 5, 4, 7, 6, 9, 8, 11, 10]]
marks = [1, 1, 0, 0, 1, 1, 2, 2, 0, 0, 2, 2], [0, 0, 1, 1, 0, 0, 2, 2, 1, 1, 2, 2]
records = [
    record(2, 2, star, marks),
    record(1, 1, [[1, 0], [0, 1]], ([1, 0], [1, 0])),
]
lists = lambda x: " ".join(map(str, [len(x)] + x))
for r in records:
    starts, at = [], 0
    while at < len(r):
        starts.append(at)
        at += 3 + r[at + 1] + 256 * r[at + 2]
    for cut in range(len(r)):
        lent = [7] * 40, [7] * 12, [7] * 12, [7] * 38
        if sys.argv[1] == "cases":
            print("take", lists(r[:cut]), *map(lists, lent))
        else:
            print("16 0 0", max(s for s in starts if s <= cut), "0 0 0", *map(lists, lent))
