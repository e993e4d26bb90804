"""Where the darts of the small maps are drawn. Only places are told here: which darts are there, and what leads where,
comes from the records and from what the library answered."""
from math import cos, radians, sin


def plus(p, q, k=1):
    return p[0] + k * q[0], p[1] + k * q[1]


def mean(p, q):
    return (p[0] + q[0]) / 2, (p[1] + q[1]) / 2


class Layout:
    """For each dart its end at the vertex, its end at the middle of the edge, the place of its number and the way out
    from there, and its vertex."""

    def __init__(self, scale=1):
        self.scale, self.vertices, self.edges = scale, {}, []
        self.outer, self.inner, self.label, self.aside, self.vertex = {}, {}, {}, {}, {}

    def edge(self, start, end, darts, numbers=1):
        """An edge between two vertices by name. With four darts there are two on each side, first those on the left, seen
        from the start; with two darts the map has dimension 1. `numbers` says on which side these have their numbers."""
        p, q = self.vertices[start], self.vertices[end]
        self.edges.append((p, q))
        length = ((q[0] - p[0]) ** 2 + (q[1] - p[1]) ** 2) ** 0.5
        along = (q[0] - p[0]) / length, (q[1] - p[1]) / length
        left = along[1], -along[0]
        sides = [1, -1] if len(darts) == 4 else [0]
        half = len(darts) // 2
        for k, d in enumerate(darts):
            here, way = (p, along) if k < half else (q, (-along[0], -along[1]))
            side = sides[k % half]
            self.place(d, start if k < half else end, here, way, left, side, length, numbers)

    def place(self, d, vertex, here, way, left, side, length, numbers):
        """`way` leads from the vertex along the edge, `left` across it."""
        s = self.scale
        reach = 0.5 * length - 13 * s
        near = 34 * s if len([e for e in self.edges if here in e]) != 1 or vertex == "centre" else 18 * s
        off = plus((0, 0), left, 13 * s * side)
        self.outer[d] = plus(plus(here, way, near), off)
        self.inner[d] = plus(plus(here, way, reach), off)
        outward = 17 * s * side if side else 23 * s * numbers
        self.label[d] = plus(mean(self.outer[d], self.inner[d]), left, outward)
        self.aside[d] = left if (side or numbers) > 0 else plus((0, 0), left, -1)
        self.vertex[d] = here

    def point(self, i, d):
        """Where the link of a dart by a_i begins: at the middle of its edge, at its vertex, or across its edge."""
        return (self.inner[d], self.outer[d], mean(self.outer[d], self.inner[d]))[i]

    def bend(self, i, d, e):
        """The point that a link is bent to. At an end with one edge it goes round the end."""
        p, q = self.point(i, d), self.point(i, e)
        if i != 1 or self.vertex[d] != self.vertex[e]:
            return mean(p, q)
        v, m = self.vertex[d], mean(p, q)
        alone = sum(v in edge for edge in self.edges) == 1
        return plus(v, plus(m, v, -1), -1 if alone else 0.35)


def star(centre, length, scale):
    """Three edges at one vertex: to the left below, up, to the right below."""
    m = Layout(scale)
    m.vertices["centre"] = centre
    for name, angle in (("left", 150), ("top", -90), ("right", 30)):
        m.vertices[name] = plus(centre, (cos(radians(angle)), sin(radians(angle))), length)
    m.edge("centre", "left", (0, 1, 6, 7))
    m.edge("centre", "top", (2, 3, 8, 9))
    m.edge("centre", "right", (4, 5, 10, 11))
    return m


def segment(start, length, scale):
    m = Layout(scale)
    m.vertices = {"left": start, "right": plus(start, (length, 0))}
    m.edge("left", "right", (0, 1))
    return m


def square(corner, side, scale):
    """Four edges round a face; the numbers stand inside."""
    m = Layout(scale)
    x, y = corner
    m.vertices = {"a": (x, y), "b": (x + side, y), "c": (x + side, y + side), "d": (x, y + side)}
    for start, end, darts in (("a", "b", (0, 1)), ("b", "c", (2, 3)), ("c", "d", (4, 5)), ("d", "a", (6, 7))):
        m.edge(start, end, darts, -1)
    return m


def opened(centre, length, scale):
    """Two edges at one vertex, in a line; the side below is open there."""
    m = Layout(scale)
    m.vertices = {"centre": centre, "left": plus(centre, (-length, 0)), "right": plus(centre, (length, 0))}
    m.edge("left", "centre", (4, 5, 0, 1))
    m.edge("centre", "right", (2, 3, 6, 7))
    return m
