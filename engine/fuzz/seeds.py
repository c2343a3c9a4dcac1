#!/usr/bin/env python3
"""Writes the fuzz target's first inputs: seeds.py FOLDER. Each is a head of 28 bytes and then the slices, as calls.cpp reads
them: the sample floors under every call over a floor, floors with split seams, floors without nodes, small journals of two benches, pairs of edits, and texts that read and texts that do not, with door hooks and without."""
import importlib.util, pathlib, struct, sys

READ, REWRITE, QUERY, PAINT, LINK, NUDGE, UNDO, PUT_BACK, LAYOUT, LAYOUT_NAME, SIGHT, SIGHT_NAME, ROW, CHECK, CAPTION, MEND, TREE = range(17)

here = pathlib.Path(__file__).resolve().parent
spec = importlib.util.spec_from_file_location("make", here.parent.parent / "samples" / "make.py")
make = importlib.util.module_from_spec(spec)
spec.loader.exec_module(make)


def case(call, first, second=b"", third=b"", f=0, bench=0, a=0, b=0, work=65536, out=4096, lie=0b10110):
    head = struct.pack("<BBIHHHIIII", call, lie, work, out, len(second), len(third), f, bench, a & make.NONE, b & make.NONE)
    return head + third + second + first


RECORD = 16
ONE, TWO = 0x3F800000, 0x40000000  # floats


def record(bench, tag, place, old, new, length=13):
    return struct.pack("<BHBIII", tag, length, bench, place, old, new)


def second_edit(call, place, value, bench):
    """The edit that is made beside the first one, in both orders."""
    return struct.pack("<BIIB", call - PAINT, place, value & make.NONE, bench)


LAYOUTS = [
    b"beginlayout\nroomcount 2\nHall 1.5 0 -0\nKitchen 00012.25 -7.000001 3\ndonelayout\n",
    b"beginlayout\r\n\r\n roomcount\t1\r\n a 0 0 0\r\ntrackcount 1\r\nt 1 2 3\r\nobstaclecount 1\r\no 4 5 6\r\ndoorhookcount 0\r\ndonelayout",
    b"beginlayout\nroomcount 0\ndonelayout\n",
    b"beginlayout\nroomcount 64\n" + b"".join(b"room_%d %d.5 0 0\n" % (i, i) for i in range(64)) + b"donelayout\n",
    b"beginlayout\nroomcount 2\na 0 0 0\nA 0 0 0\ndonelayout\n",
    b"beginlayout\nroomcount 1\na 0 0 123456\ndonelayout\n",
    b"beginlayout\nroomcount 65\ndonelayout\n",
    b"beginlayout\nroomcount 1\n",
    b"",
]
ROOMS = b"beginlayout\nroomcount 2\nHall 1.5 0 -0\nKitchen 00012.25 -7.000001 3\n"
HOOK, FIVE = b" 1 -2.50 0 1 0 0 -0", b" 0 1 2 3 007.10"


def hooked(*hooks, count=None):
    """A layout with these door hooks, or with another count of them."""
    return ROOMS + b"doorhookcount %d\n" % (len(hooks) if count is None else count) + b"".join(hook + b"\n" for hook in hooks) + b"donelayout\n"


HOOKED = [
    hooked(b"HALL Front" + HOOK, b"kitchen Larder" + HOOK + FIVE, b"Kitchen hall" + HOOK),
    hooked(b"kitchen new_name" + HOOK + FIVE, b"Kitchen Kitchen" + HOOK),
    hooked(*(b"%s door_%d" % ((b"hall", b"KITCHEN")[i % 2], i) + HOOK + FIVE * (i % 3 == 0) for i in range(64))),
    hooked(*(b"hall d%d" % i + HOOK for i in range(65))),
    hooked(b"hall a" + HOOK, b"hall A" + HOOK), hooked(b"hall a" + HOOK, b"hall A 1." + HOOK[2:]),
    hooked(b"cellar a" + HOOK), hooked(b"cellar a.b" + HOOK), hooked(b"ha.l a" + HOOK), hooked(b"hall a.b" + HOOK), hooked(b"hall a" + HOOK + b"."),
    hooked(b"hall a" + HOOK[2:]), hooked(b"hall a" + HOOK + b" 0"), hooked(b"hall a" + HOOK + FIVE[2:]), hooked(b"hall a" + HOOK + FIVE + b" 0"),
    hooked(b"hall a" + HOOK, count=2), hooked(b"hall a" + HOOK, count=0), hooked(b"hall a" + HOOK, b"hall b" + HOOK, count=3)[:-12],
    b"beginlayout\nroomcount 0\ndoorhookcount 1\nhall a" + HOOK + b"\ndonelayout\n",
]
SIGHTS = [b"hall 1\n  Kitchen\nkitchen 2\n  hall\n  kitchen\n", b"HALL 0\n", b"", b"hall 1\n  garden\n", b"hall 2\n hall\n hall\n", b"hall 1\n", b"hall"]


def moves_of(bench):
    """What a visitor at a bench does in visits.hpp, each in three bytes."""
    return (lambda face, material: (bench, face, material), lambda entry, to: (2 + bench, entry, to + 2),
            lambda place, step: (4 + bench, place, step // 8 + 128), (6 + bench, 0, 0), (8 + bench, 0, 0))


(PAINT0, LINK0, NUDGE0, BACK0, UNDO0), (PAINT1, LINK1, NUDGE1, BACK1, UNDO1) = moves_of(0), moves_of(1)
VISITS = [
    [PAINT0(0, 5), PAINT1(0, 6), LINK1(0, 1), LINK0(0, 2), NUDGE0(2, 64), NUDGE1(2, -64), UNDO0, UNDO1],  # in each other's way
    [NUDGE0(0, 8), NUDGE1(0, 8), NUDGE0(0, 8), NUDGE1(0, 8), NUDGE0(0, 8), NUDGE1(0, 8), NUDGE0(0, 8), NUDGE1(0, 8), NUDGE0(0, 8), BACK0, BACK1],
    [PAINT0(0, 5), LINK1(0, 1), UNDO0, PAINT0(0, 3), BACK1, PAINT1(0, 4), LINK0(1, 63), BACK0, UNDO1, BACK0],
    [PAINT0(0, 5), PAINT0(0, 3), PAINT0(0, 4), PAINT0(0, 6), PAINT0(0, 5), PAINT1(0, 9), PAINT0(0, 1), NUDGE1(12, 0), LINK1(0, 64)],
    [],
]


def parted(parts, apart):
    """The floor with corners of their own for these faces, its lists left as they are."""
    vertices, faces = list(parts["vertices"]), [list(f) for f in parts["faces"]]
    for f in apart:
        for e in range(3):
            vertices.append(vertices[faces[f][e]])
            faces[f][e] = len(vertices) - 1
    return dict(parts, vertices=vertices, faces=faces)


def seams():
    """Floors with split seams: lists of all kinds, zeros of either sign, a fan, two loops at one vertex, and corners that meet where none may."""
    square = [(0.0, 0.0, 0.0), (1.0, 0.0, 0.0), (0.0, 1.0, 0.0), (1.0, 1.0, 0.0)]
    two = make.floor(square, [(0, 1, 2), (2, 1, 3)], [4, 4])
    fan = make.floor([(0.0, 0.0, 0.0), (1.0, 0.0, 0.0), (0.0, 1.0, 0.0), (-1.0, 0.0, 0.0), (0.0, -1.0, 0.0)],
                     [(0, 1, 2), (0, 2, 3), (0, 3, 4), (0, 4, 1)], [4, 4, 4, 4])
    bow = make.floor(fan["vertices"], [(0, 1, 2), (0, 3, 4)], [4, 4])
    touching = make.floor(square + [(2.0, 1.0, 0.0), (1.0, 2.0, 0.0)], [(0, 1, 2), (3, 4, 5), (2, 1, 3)], [4, 4, 4])
    over = make.floor(square, [(0, 1, 2), (1, 0, 3)], [4, 4])
    for parts, apart in ((two, [1]), (two, [0, 1]), (fan, [1, 3]), (fan, [0, 1, 2, 3]), (bow, [1]), (touching, [1]), (touching, [0, 1, 2])):
        whole = parted(parts, apart)
        yield whole
        yield dict(whole, edges=[[h, h % 64] for h in range(3 * len(parts["faces"]))], perimeters=[])
        yield dict(whole, edges=[[1, 5], [1, 5], [0, 64], [0, 3], [99, 1], [3, make.NONE - 1], [2, 63]], perimeters=[[7], [0]])
    alone = parted(two, [1])
    yield dict(alone, vertices=[[-0.0 if x == 0.0 else x for x in v] for v in alone["vertices"][:4]] + alone["vertices"][4:])
    yield dict(alone, materials=[[4], [7]], adjacency=alone["adjacency"][:1])
    same_way = parted(over, [1])
    yield dict(same_way, faces=[same_way["faces"][0], same_way["faces"][1][::-1]])
    yield dict(alone, vertices=alone["vertices"][:5] + [alone["vertices"][4]] + alone["vertices"][6:])


def strip(count, place):
    """A strip of so many faces, each beside the next: face i has the vertices from i to i + 2, and vertex i stands at place(i)."""
    faces = [(i, i + 1, i + 2) if i % 2 == 0 else (i + 1, i, i + 2) for i in range(count)]
    return make.floor([place(i) for i in range(count + 2)], faces, [4] * count)


def treeless():
    """Floors without nodes: few faces and many, each axis the longest, ties, sides that are ties as floats alone, infinite sides, zeros of either
    sign, faces nobody walks on, any root; then lists that are wrong, and floors that have nodes."""
    huge = 3.0e38
    places = [
        lambda i: (float(i // 2), float(i % 2), 0.0), lambda i: (float(i % 2), float(i // 2), 0.0), lambda i: (float(i % 2), 0.0, float(i // 2)),
        lambda i: (float(i), float(i), -float(i)), lambda i: (0.0, 0.0, 0.0), lambda i: (-0.0, float(i % 2), -0.0 if i % 3 else 0.0),
        lambda i: (float(i % 2), 1.0 if i % 2 else -1e-9, 0.0), lambda i: (-1e-9 * i, 1.0 - i, 1e-9 - i),
        lambda i: (0.0, huge * (-1) ** i, float(i)), lambda i: (huge * (i % 3 - 1), huge * (1 - i % 2), huge * (i % 2 * 2 - 1)),
        lambda i: (1.0, 2.0 * i, huge * (1 - i) if i < 3 else 0.0),
    ]
    for place in places:
        for count in (1, 2, 3, 5, 8, 13):
            yield dict(strip(count, place), nodes=[])
    yield dict(strip(130, places[0]), nodes=[])
    plain = strip(7, places[0])
    yield dict(plain, nodes=[], root=make.NONE)
    yield dict(make.floor(plain["vertices"], plain["faces"], [4, 4, 4, 7, 7, 7, 7]), nodes=[], root=12)
    yield dict(make.floor(plain["vertices"], plain["faces"], [7] * 7), nodes=[])
    yield dict(plain, nodes=[], adjacency=plain["adjacency"][1:] + plain["adjacency"][:1])
    yield dict(plain, nodes=[], perimeters=[])
    yield dict(plain, nodes=[], faces=[plain["faces"][0]] * 7)
    yield dict(plain, nodes=plain["nodes"][:1])
    yield dict(plain, nodes=[[float("inf")] * 6 + [0] * 5])


def halves(floor):
    """Edits where a bench has its half, one less or more than it, where nobody's record is among them, and with f up to and past what fits."""
    for own, other, nobody, fit in ((1, 0, 0, 2), (0, 1, 0, 2), (1, 0, 0, 3), (0, 1, 1, 2), (1, 1, 0, 4), (2, 1, 0, 4), (0, 3, 0, 4), (0, 4, 0, 4), (1, 1, 1, 5), (3, 0, 0, 4)):
        kept = [record(0, 3, 0, 0, 0)] * own + [record(1, 3, 0, 0, 0)] * other + [record(2, 3, 0, 0, 0)] * nobody
        journal = b"".join(kept).ljust(fit * RECORD, b"\0")
        for bench in (0, 1):
            yield case(PAINT, floor, journal, second_edit(LINK, 0, 1, bench), f=len(kept), bench=bench, a=0, b=5)
            yield case(NUDGE, floor, journal[:-1], f=len(kept), bench=bench, a=0, b=1)


def taken_out(floor):
    """Undo and put-back over journals of two benches. The floor's first two floats are those that the records leave."""
    floor = make.changed(make.changed(floor, 12, ONE), 16, TWO)
    up, down, beside = (3, 0, 0, ONE), (3, 0, ONE, 0), (3, 1, 0, TWO)
    for journal in (
            record(0, *up), record(1, *up), record(2, *up),
            record(0, *up) + record(1, *beside), record(1, *beside) + record(0, *up), record(0, *up) + record(0, *beside),
            record(1, *up) + record(0, *down) + record(1, *up),                       # each blocks the other
            record(0, *beside) + record(0, *up) + record(1, *down) + record(1, *up),  # bench 1 frees bench 0
            record(0, *up) + record(2, *up) + record(1, 3, 0, 0, TWO, length=12),     # nobody's is no hindrance, but a wrong length is
            record(0, *up) + record(1, 2, 0, 0, ONE) + record(1, *beside),            # another tag is no hindrance
            record(0, *beside) + record(1, 1, 0, 4, 5) + record(0, *up) + record(1, 2, 0, make.NONE, 7),
            record(0, *up, length=12), record(0, 4, 0, 0, ONE), record(0, 3, 12, 0, ONE), record(0, 3, 0, TWO, 0), record(0, 3, 0, 1, ONE)):
        f = len(journal) // RECORD
        for call in (UNDO, PUT_BACK):
            for bench in (0, 1, 2, make.NONE):
                yield case(call, floor, journal, f=f, bench=bench)
            yield case(call, floor, journal + record(0, *up) + b"rest", f=f)
            yield case(call, floor, journal, f=f + 1)
            yield case(call, floor, journal, f=f - 1, bench=1)
    painted = make.changed(floor, struct.unpack_from("<I", floor, 88)[0], 5)
    for journal in (record(0, 1, 0, 4, 5) + record(1, *beside), record(1, 1, 0, 3, 5) + record(0, *up) + record(0, 1, 0, 5, 5)):
        for call, bench in ((UNDO, 0), (UNDO, 1), (PUT_BACK, 0), (PUT_BACK, 1)):
            yield case(call, painted, journal, f=len(journal) // RECORD, bench=bench)


def floor_cases(floors):
    """Every sample under every call over a floor."""
    for data in floors.values():
        yield case(READ, data)
        yield case(REWRITE, data)
        yield case(QUERY, data, a=32, b=32)
        yield case(CHECK, data, LAYOUTS[0])
        yield case(MEND, data)
        yield case(MEND, data, bytes(64))
        yield case(TREE, data)
        # the nodes are no longer counted and their bytes are a gap
        if len(data) >= 136:
            yield case(TREE, make.changed(data, 100, 0))
        yield case(PAINT, data, bytes(2 * RECORD), a=0, b=5)
        for moves in VISITS:
            yield case(PUT_BACK, data, bytes(8 * RECORD), bytes(x for move in moves for x in move))


def bench_cases(floors):
    """Edits and journals on samples that are accepted."""
    for name in ("triangle", "square", "hole", "shuffled", "mixed", "linked"):
        data = floors[name]
        for a, b in ((0, 0), (64, 0), (-1, 5), (96, 96), (65537, 0)):
            yield case(QUERY, data, a=a, b=b, lie=a & 31)
        for journal in (bytes(2 * RECORD - 1), bytes(2 * RECORD), bytes(5 * RECORD)):
            for bench in (0, 1, 2):
                yield case(PAINT, data, journal, bench=bench, a=0, b=5)
                yield case(LINK, data, journal, bench=bench, a=1, b=63)
                yield case(NUDGE, data, journal, bench=bench, a=11, b=-640)
        edits = ((PAINT, 0, 5), (PAINT, 0, 3), (LINK, 0, 9), (LINK, 0, -1), (LINK, 1, 2), (NUDGE, 0, 640), (NUDGE, 0, -640), (NUDGE, 1, 1))
        for call, a, b in edits:
            for other in edits:
                yield case(call, data, bytes(2 * RECORD), second_edit(*other, 1), a=a, b=b)
                yield case(call, data, bytes(4 * RECORD), second_edit(*other, 0), a=a, b=b)
                yield case(call, data, bytes(4 * RECORD), second_edit(*other, 0), bench=1, a=a, b=b)
        yield case(PAINT, data, bytes(2 * RECORD), f=1, a=0, b=7)
        yield case(PAINT, data, bytes(2 * RECORD), f=3, a=0, b=5)
        yield case(PAINT, data, bytes(2 * RECORD), a=2, b=5)
        yield case(LINK, data, bytes(2 * RECORD), a=0, b=64)
        yield case(NUDGE, data, bytes(2 * RECORD), a=0, b=641)
        yield from halves(data)
        yield case(NUDGE, make.changed(data, 12, 0x80000000), bytes(2 * RECORD), a=0, b=0)
        yield case(NUDGE, make.changed(data, 12, 0x80000000), bytes(2 * RECORD), a=0, b=1)
        yield case(READ, data, work=16384)
        yield case(READ, data, work=65535)
        yield case(READ, data, work=70000, lie=9)
        yield case(REWRITE, data, out=len(data) - 1)
        yield from taken_out(data)


def desk_cases():
    """Floors that are mended or given a tree, with room enough and too little."""
    for data in map(make.spelled, seams()):
        for room in (0, 14, 15, 30, 90, 400):
            yield case(MEND, data, bytes(room))
        yield case(MEND, data, bytes(400), out=440)
        yield case(MEND, data, bytes(400), out=464, work=65535)
        yield case(READ, data)
    for parts in treeless():
        data = make.spelled(parts)
        planted = len(data) + 44 * (2 * len(parts["faces"]) - 1)
        yield case(TREE, data)
        yield case(TREE, data, out=planted, lie=9)
        yield case(TREE, data, out=planted - 1)
        yield case(TREE, make.spelled(parts, make.TABLES[::-1], 3), out=planted, work=70000)
    yield case(TREE, data, work=65535)


def text_cases(floors):
    """Layouts and sights, alone and with each other."""
    for text in HOOKED:
        yield case(LAYOUT, text, out=8192)
        for room, name in ((0, b"New_Name"), (1, b"New_Name"), (1, b"hall"), (1, b"LARDER"), (0, b"HALL")):
            yield case(LAYOUT_NAME, text, third=name, a=room, out=8192)
        yield case(CAPTION, text, LAYOUTS[0], a=1)
        yield case(SIGHT, SIGHTS[0], text)
        yield case(SIGHT_NAME, SIGHTS[0], text, b"Front", a=0)
        yield case(ROW, SIGHTS[0], text, a=1)
        yield case(CHECK, floors["linked"], text)
    for text in LAYOUTS:
        yield case(LAYOUT, text)
        yield case(LAYOUT, text, lie=0b0110110)
        yield case(LAYOUT, text, lie=0b1110110)
        yield case(LAYOUT_NAME, text, third=b"New_Name", a=1)
        yield case(CAPTION, text, LAYOUTS[0], a=1)
        yield case(CAPTION, LAYOUTS[1], text, a=1)
        yield case(SIGHT, SIGHTS[0], text)
        yield case(CHECK, floors["linked"], text)
    for text in SIGHTS:
        yield case(SIGHT, text, LAYOUTS[0])
        yield case(SIGHT_NAME, text, LAYOUTS[0], b"Den", a=1)
        yield case(SIGHT_NAME, text, LAYOUTS[0], b"HALL", a=1)
        yield case(ROW, text, LAYOUTS[0], a=1)
        yield case(ROW, text, LAYOUTS[0], a=1, lie=0b1110110)


def cases():
    floors = {name: data for name, _, data, _ in make.samples() if len(data) < 8192}
    yield from floor_cases(floors)
    yield from bench_cases(floors)
    yield from desk_cases()
    yield from text_cases(floors)


if __name__ == "__main__":
    folder = pathlib.Path(sys.argv[1])
    folder.mkdir(parents=True, exist_ok=True)
    for number, data in enumerate(cases()):
        (folder / f"{number:04}").write_bytes(data)
