#!/usr/bin/env python3
"""Polygon meshes of CGAL's data package, turned into a partner's rows here, through `import`, `census` and `export`: the
vertices, edges and faces of the census must be those of the mesh.    tests/office_meshes.py data.tar.gz

A dart is a half-edge. Of a mesh with a border each border has half-edges too, so each border is one face more. Taken are
meshes of at most 1,024 edges in which every edge has one face or two, on different sides, and every vertex one fan."""
import sys
import tarfile
from collections import Counter, defaultdict

from office_tools import Folder, said, zg

FOLDER = Folder()
MOST_EDGES = 1_024


def faces_of(text):
    """The faces of an OFF file, each a cycle of vertices; nothing if it is another kind of file."""
    words = [word for line in text.split("\n") for word in line.split("#")[0].split()]
    if not words or words[0] != "OFF":
        return None
    try:
        vertices, faces, at = int(words[1]), int(words[2]), 4 + 3 * int(words[1])
        found = []
        # Whatever follows a face in its line, as a colour, is told by the lines alone, so such files are left out.
        for _ in range(faces):
            size = int(words[at])
            found.append(tuple(map(int, words[at + 1 : at + 1 + size])))
            at += 1 + size
    except (ValueError, IndexError):
        return None
    good = at == len(words) and found and all(len(set(face)) == len(face) >= 3 and max(face) < vertices for face in found)
    return found if good else None


def pieces(pairs):
    """The classes that pairs make."""
    of = {}

    def root(x):
        while of.setdefault(x, x) != x:
            x = of[x]
        return x

    for a, b in pairs:
        of[root(a)] = root(b)
    return len({root(x) for x in list(of)})


def manifold(faces):
    """Whether every directed edge has one face and every vertex one fan; then V, E, F and the number of borders."""
    sides = Counter(side for face in faces for side in zip(face, face[1:] + face[:1]))
    if max(sides.values()) > 1:
        return None
    around = defaultdict(list)
    border = []
    for face in faces:
        for at, vertex in enumerate(face):
            around[vertex].append((face[at - 1], face[(at + 1) % len(face)]))
    for a, b in sides:
        if (b, a) not in sides:
            border.append((a, b))
    if any(pieces(around[vertex]) > 1 for vertex in around):
        return None
    return len(around), len({frozenset(side) for side in sides}), len(faces), pieces(border)


def partner(faces):
    """M, edge row and vertex row: half-edges of the faces, then those of the borders."""
    sides = [side for face in faces for side in zip(face, face[1:] + face[:1])]
    known = set(sides)
    sides += [(b, a) for a, b in sides if (b, a) not in known]
    number = {side: dart for dart, side in enumerate(sides)}
    edges = [number[b, a] for a, b in sides]
    # Around a vertex: from a half-edge that leaves it to the opposite of the one before it in its face.
    before = {side: (face[at - 1], face[at]) for face in faces for at, side in enumerate(zip(face, face[1:] + face[:1]))}
    leaves = {a: (a, b) for a, b in sides[len(known) :]}
    for a, b in known:
        if (b, a) not in known:
            # The border's half-edge that leaves b is followed by the one that leaves a.
            before[leaves[a]] = (b, a)
    vertices = [number[before[side][1], before[side][0]] for side in sides]
    return [len(sides), *edges, *vertices]


def compare(faces, sizes):
    """What is wrong with the census of a mesh, if anything."""
    rows = partner(faces)
    file, back = FOLDER / "mesh.record", FOLDER / "back"
    ran = zg("import", FOLDER.numbers("map", rows), "-o", file)
    if ran.status:
        return ran.error
    counts = zg("census", file, "--json").json["census"][0]
    vertices, edges, all_faces, borders = sizes
    due = [vertices, edges, all_faces + borders, vertices - edges + all_faces + borders]
    shown = [counts[name] for name in ("0-cells", "1-cells", "2-cells", "sum")]
    if shown != due:
        return f"{shown} and not {due}"
    zg("export", file, "-o", back)
    return None if list(map(int, back.read_text().split())) == rows else "other rows come back"


if __name__ == "__main__":
    done, bordered, wrong, left = 0, 0, [], 0
    with tarfile.open(sys.argv[1]) as package:
        for member in sorted(package.getmembers(), key=lambda member: member.name):
            if not member.name.endswith(".off"):
                continue
            faces = faces_of(package.extractfile(member).read().decode(errors="replace"))
            sizes = manifold(faces) if faces else None
            if not sizes or sizes[1] > MOST_EDGES:
                left += 1
                continue
            done += 1
            bordered += sizes[3] > 0
            problem = compare(faces, sizes)
            if problem:
                wrong.append(f"{member.name}: {problem}")
    if done < 20:
        wrong.append(f"only {done} meshes can be used")
    sys.exit(said("meshes", f"{done} meshes, {bordered} with a border, {left} larger or no manifold", wrong))
