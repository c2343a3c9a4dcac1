#!/usr/bin/env python3
"""Makes the sample floors: samples/make.py FOLDER writes each NAME.wok and, from the table below, NAME.line, the line that the program
`inspect` has to write of it. The lines are worked out by hand from the paper's rules, not by our code.

A floor is a dictionary: vertices, faces (triples of vertex numbers, the walkable ones first), materials, and what follows from them
(normals, distances, a tree that halves the faces, adjacency, edges and perimeters), each of which a sample may replace."""
import pathlib, struct, sys

NONE = 0xFFFFFFFF
WALKABLE = {1, 3, 4, 5, 6, 9, 10, 11, 12, 13, 14, 16, 18, 20, 21, 22}


def halves(faces):
    return [(f[e], f[(e + 1) % 3]) for f in faces for e in range(3)]


def floor(vertices, faces, materials, **change):
    """The parts of a floor. `change` replaces parts after they are worked out."""
    walkable = [f for f, m in zip(faces, materials) if m in WALKABLE]
    edges_of = halves(walkable)
    number = {run: h for h, run in enumerate(edges_of)}
    adjacency = [number.get((b, a), NONE) for a, b in edges_of]
    entries, ends, left = [], [], [h for h, a in enumerate(adjacency) if a == NONE]
    while left:
        start = at = left[0]
        while True:
            left.remove(at)
            entries.append(at)
            following = [h for h in left if edges_of[h][0] == edges_of[at][1]]
            if edges_of[at][1] == edges_of[start][0] or not following:
                break
            at = following[0]
        ends.append(len(entries))
    nodes = []

    def build(low, high):
        own = len(nodes)
        nodes.append(None)
        corners = [vertices[v] for f in faces[low:high] for v in f]
        box = [min(c[i] for c in corners) for i in range(3)] + [max(c[i] for c in corners) for i in range(3)]
        if high - low == 1:
            nodes[own] = [*box, low, 4, 0, NONE, NONE]
        else:
            middle = (low + high) // 2
            left = build(low, middle)
            nodes[own] = [*box, NONE, 4, 1, left, build(middle, high)]
        return own

    if faces:
        build(0, len(faces))
    parts = dict(
        head=[0.0] * 15, world=1, root=0, vertices=[list(v) for v in vertices], faces=[list(f) for f in faces], materials=[[m] for m in materials],
        normals=[[0.0, 0.0, 1.0] for _ in faces], distances=[[0.0] for _ in faces], nodes=nodes,
        adjacency=[adjacency[3 * i:3 * i + 3] for i in range(len(walkable))], edges=[[h, NONE] for h in entries], perimeters=[[e] for e in ends])
    parts.update(change)
    return parts


TABLES = "vertices faces materials normals distances nodes adjacency edges perimeters".split()
OFFSETS = {"vertices": 76, "faces": 84, "materials": 88, "normals": 92, "distances": 96, "nodes": 104, "adjacency": 116, "edges": 124, "perimeters": 132}
COUNTS = {"vertices": 72, "faces": 80, "nodes": 100, "adjacency": 112, "edges": 120, "perimeters": 128}


def word(x):
    return struct.pack("<f", x) if isinstance(x, float) else struct.pack("<I", x & NONE)


def spelled(parts, order=TABLES, gap=0):
    """The bytes of a floor: the tables in some order, with some bytes between them."""
    head = bytearray(136)
    head[0:8] = b"BWM V1.0"
    head[8:12] = word(parts["world"])
    head[12:72] = b"".join(word(x) for x in parts["head"])
    body = b""
    for name in order:
        body += b"\xAA" * gap
        head[OFFSETS[name]:OFFSETS[name] + 4] = word(136 + len(body))
        body += b"".join(word(x) for entry in parts[name] for x in entry)
    for name, at in COUNTS.items():
        head[at:at + 4] = word(len(parts[name]))
    head[108:112] = word(parts["root"])
    return bytes(head) + body


def changed(b, at, w):
    return b[:at] + word(w) + b[at + 4:]


def with_entry(parts, table, i, entry):
    parts = dict(parts)
    parts[table] = [list(e) for e in parts[table]]
    parts[table][i] = entry
    return parts


def renumbered(parts, new):
    """The same tree with other numbers: node n becomes node new[n], the root too."""
    nodes = [None] * len(new)
    for n, node in enumerate(parts["nodes"]):
        nodes[new[n]] = node[:9] + [c if c == NONE else new[c] for c in node[9:]]
    return dict(parts, nodes=nodes, root=new[parts["root"]])


def samples():
    """name, what it is for, the bytes, the line"""
    corner = [(0.0, 0.0, 0.0), (1.0, 0.0, 0.0), (0.0, 1.0, 0.0), (1.0, 1.0, 0.0)]
    one = floor(corner[:3], [(0, 1, 2)], [4])
    two = floor(corner, [(0, 1, 2), (2, 1, 3)], [4, 4], edges=[[0, NONE], [4, NONE], [5, NONE], [2, NONE]], perimeters=[[4]])
    grid = [(float(x), float(y), 0.0) for y in range(4) for x in range(4)]
    cells = [(x, y) for y in range(3) for x in range(3) if (x, y) != (1, 1)]
    rings = [t for x, y in cells for t in ((4 * y + x, 4 * y + x + 1, 4 * y + x + 5), (4 * y + x, 4 * y + x + 5, 4 * y + x + 4))]
    ring = floor(grid, rings, [3] * 16)
    mixed = floor(corner, [(0, 1, 2), (2, 1, 3)], [4, 7])
    w1 = spelled(floor([], [], []))
    b = spelled(one)
    bad = struct.unpack("<f", struct.pack("<I", 0x7F800000))[0]
    yield "empty", "W1: a right header alone", w1, "accepted faces 0 walkable 0 edges 0 perimeters 0"
    yield "triangle", "W4: one walkable triangle in fixed form, 288 bytes", b, "accepted faces 1 walkable 1 edges 3 perimeters 1"
    yield "square", "W5 and W6: two triangles, edges 0, 4, 5, 2 in one loop", spelled(two), "accepted faces 2 walkable 2 edges 4 perimeters 1"
    yield "hole", "a floor with a hole in it: two loops", spelled(ring), "accepted faces 16 walkable 16 edges 16 perimeters 2"
    yield "shuffled", "the square with its tables in another order and gaps between them", spelled(two, TABLES[::-1], 5), "accepted faces 2 walkable 2 edges 4 perimeters 1"
    yield "mixed", "a walkable and an unwalkable face", spelled(mixed), "accepted faces 2 walkable 1 edges 3 perimeters 1"
    yield "linked", "the triangle with an edge linked to room 63", spelled(with_entry(one, "edges", 1, [1, 63])), "accepted faces 1 walkable 1 edges 3 perimeters 1"
    yield "root-last", "the floor with a hole, its tree numbered from the last node down", spelled(renumbered(ring, range(31)[::-1])), "accepted faces 16 walkable 16 edges 16 perimeters 2"
    yield "root-between", "the square, whose tree hangs from node 1", spelled(renumbered(two, [1, 2, 0])), "accepted faces 2 walkable 2 edges 4 perimeters 1"
    yield "root-of-none", "a header alone with any root: without nodes the field is ignored", spelled(dict(floor([], [], []), root=7)), "accepted faces 0 walkable 0 edges 0 perimeters 0"
    yield "01-short", "W2: 135 bytes", w1[:135], "refused 1 at 0"
    yield "02-word", "another first byte", b"C" + w1[1:], "refused 2 at 0"
    yield "03-world", "world_coords 0", changed(w1, 8, 0), "refused 3 at 8"
    yield "04-faces", "4,097 faces", changed(b, 80, 4097), "refused 4 at 80"
    yield "05-outside", "the faces end past the file", changed(b, 84, 280), "refused 5 at 84"
    yield "06-overlap", "the edges share a byte with the adjacency table", changed(b, 124, 259), "refused 6 at 124"
    yield "07-infinite", "an infinite coordinate: vertex 1, y", spelled(with_entry(one, "vertices", 1, [1.0, bad, 0.0])), "refused 7 at 152"
    yield "08-corner", "a corner used twice in face 1", spelled(with_entry(two, "faces", 1, [2, 1, 1])), "refused 8 at 1"
    yield "09-material", "material 23", spelled(with_entry(one, "materials", 0, [23])), "refused 9 at 0"
    yield "10-order", "a walkable face behind an unwalkable one", spelled(floor(corner, [(0, 1, 2), (2, 1, 3)], [7, 4])), "refused 10 at 0"
    yield "11-nodes", "no nodes at all", spelled(dict(one, nodes=[])), "refused 11 at 100"
    yield "11-root", "a root equal to the node count", spelled(dict(two, root=3)), "refused 11 at 108"
    yield "12-node", "a leaf with plane 1", spelled(with_entry(two, "nodes", 2, two["nodes"][2][:8] + [1, NONE, NONE])), "refused 12 at 2"
    yield "13-root", "the root field names a leaf of the square", spelled(dict(two, root=1)), "refused 13 at 0"
    yield "13-ring", "nodes that hang in a ring, apart from the root", spelled(
        with_entry(with_entry(ring, "nodes", 1, ring["nodes"][1][:9] + [2, 1]), "nodes", 0, ring["nodes"][0])), "refused 13 at 0"
    yield "14-box", "the root's box misses a corner", spelled(with_entry(two, "nodes", 0, [0.0, 0.0, 0.0, 0.5, 1.0, 0.0] + two["nodes"][0][6:])), "refused 14 at 0"
    yield "15-twice", "two faces that run the same way", spelled(
        dict(floor(corner, [(0, 1, 2), (0, 1, 3)], [4, 4]), adjacency=[[NONE] * 3] * 2)), "refused 15 at 3"
    yield "16-partner", "an adjacency entry that names no partner", spelled(with_entry(two, "adjacency", 0, [NONE, NONE, NONE])), "refused 16 at 1"
    yield "17-repeat", "an edge entry that repeats an earlier one", spelled(with_entry(one, "edges", 2, [0, NONE])), "refused 17 at 2"
    yield "17-missing", "a border that stands in no entry", spelled(dict(one, edges=one["edges"][:2], perimeters=[[2]])), "refused 17 at 2"
    yield "18-transition", "a transition to room 64", spelled(with_entry(one, "edges", 1, [1, 64])), "refused 18 at 1"
    yield "19-loop", "W7: edges 0, 5, 4, 2", spelled(dict(two, edges=[[0, NONE], [5, NONE], [4, NONE], [2, NONE]])), "refused 19 at 0"
    yield "19-count", "no perimeter entry", spelled(dict(one, perimeters=[])), "refused 19 at 0"
    yield "too-long", "65,537 bytes", b + bytes(65537 - len(b)), "too long"


if __name__ == "__main__":
    folder = pathlib.Path(sys.argv[1])
    folder.mkdir(parents=True, exist_ok=True)
    for name, purpose, data, line in samples():
        (folder / f"{name}.wok").write_bytes(data)
        (folder / f"{name}.line").write_text(line + "\n")
        (folder / f"{name}.txt").write_text(purpose + "\n")
