"""The rows of crates/halls_test that make a call on a hall or look something up in one; tests/expected/halls.py adds them to its own. Each row has its
own buffer, and in a chain of calls it is the one that the book says the call before left.

No list of 4,096 bytes fails check 19: rust/calicofern/tests/limits.rs has those."""
import random
import struct

import book
import checks
from book import Declaration, Geometry, Model
from layouts import FLOATS, SHAPES, components_of, shape_of, size_of
from rows import U64, checksum, hexed, packed_with, pattern

ROOM = 4096
# the buffer before a row's bytes are copied to its beginning
FIRST = pattern(ROOM, 129)
# each row and its line, the same one only once
rows = {}
HUGE = [255, 256, 65536, 1 << 32, 1 << 40, 1 << 63, U64 - 1]


# ---- further arguments, as the crate `replay` reads them


def given_bytes(g):
    """Of an added geometry: declaration, length of the vertex bytes, how many indices, and six of which the call takes the first; then the vertex bytes."""
    return struct.pack("<IHBBQ2Q6I", *g.declaration, len(g.data), len(g.indices), *g.indices, *[7] * (6 - len(g.indices))) + g.data


def value_bytes(semantic, value):
    """The semantic, the shape, and four floats or bytes of which the value takes the first."""
    shape, items = value
    raw = bytes(items) if shape == "bytes" else struct.pack("<%dI" % len(items), *items)
    return struct.pack("<2Q", semantic, SHAPES.index(shape)) + raw.ljust(16, b"\x7b")


def index_bytes(indices):
    """How many, and six of which the call takes the first."""
    return struct.pack("<Q6I", len(indices), *indices, *[7] * (6 - len(indices)))


# ---- rows


def buffer_of(hall):
    """A whole buffer that begins with these bytes."""
    return hall + FIRST[len(hall) :]


def changed(buffer):
    """How a buffer begins, up to where the pattern stands."""
    end = ROOM
    while end and buffer[end - 1] == FIRST[end - 1]:
        end -= 1
    return buffer[:end]


def asked(kind, name, numbers, buffer, more, line):
    data = more + changed(buffer)
    assert len(data) <= ROOM and len(buffer) == ROOM
    # the further arguments are told where there are any, all but the vertex bytes
    told = " " + more[:56].hex() + ":" if any(more) else ""
    rows[packed_with(kind, numbers, data)] = name + hexed(*numbers) + ":" + told + line


def call_row(kind, name, call, arguments, numbers, buffer, n, room, more=bytes(32)):
    """Answers the buffer afterwards, the new n, and the refusal's number or 0."""
    lent, number = buffer[:room], 0
    try:
        hall = book.answered(call, arguments, lent, n)
        after = book.rewritten(lent, n, hall) + buffer[room:]
        new = book.length_of(hall)
        triangles = sum(len(g.indices) // 3 for model in hall for g in model.geometries)
        line = " accepted" + hexed(new, checksum(after), triangles) + (" " + after[:new].hex() if new <= 256 else "")
    except book.Refused as refused:
        after, new, number = buffer, n, refused.number
        line = " refused" + hexed(number) + " needed" + hexed(refused.needed) + hexed(checksum(buffer))
    asked(kind, name, [n, room, *numbers], buffer, more, line)
    return after, new, number


def add_model(buffer, n, room, binding=0xA1B2C3D4, mask=0xE5F6):
    return call_row(5, "add model", book.add_model, [binding, mask], [binding, mask], buffer, n, room)


def add_geometry(buffer, n, room, g, count=None):
    given = len(g.data) // g.stride if count is None else count
    arguments = [g.shader, g.declaration, g.stride, given, g.data, g.indices]
    return call_row(12, "add geometry", book.add_geometry, arguments, [g.shader, g.stride, given], buffer, n, room, given_bytes(g))


def remove_model(buffer, n, room, model):
    return call_row(6, "remove model", book.remove_model, [model], [model], buffer, n, room)


def remove_geometry(buffer, n, room, model, geometry):
    return call_row(7, "remove geometry", book.remove_geometry, [model, geometry], [model, geometry], buffer, n, room)


def set_attribute(buffer, n, room, model, geometry, vertex, semantic, value):
    arguments = [model, geometry, vertex, semantic, value]
    return call_row(8, "set attribute", book.set_attribute, arguments, [model, geometry, vertex], buffer, n, room, value_bytes(semantic, value))


def replace_indices(buffer, n, room, model, geometry, indices):
    return call_row(11, "replace indices", book.replace_indices, [model, geometry, indices], [model, geometry], buffer, n, room, index_bytes(indices))


def found_row(kind, name, numbers, buffer, n, room, found):
    line = " absent" if found is None else " at" + hexed(*found)
    asked(kind, name, [n, room, *numbers], buffer, bytes(32), line)


def held(buffer, n, room):
    """An unsound list has no models to be found."""
    return () if checks.verdict(buffer[:room], n) else book.held_hall(buffer[:room], n)


def find_model(buffer, n, room, model):
    place = book.model_place(held(buffer, n, room), model)
    found_row(9, "find model", [model], buffer, n, room, None if place is None else [place])


def find_geometry(buffer, n, room, model, geometry):
    places = book.geometry_places(held(buffer, n, room), model, geometry)
    found_row(10, "find geometry", [model, geometry], buffer, n, room, places)


# ---- halls


def size_declared(flags, types):
    return sum(size_of(nibble) for _, nibble, _ in components_of(flags, types))


def geometry(shader, count=3, triangles=1, flags=1, types=6, more=0):
    """Sound from three vertices on. `more`: how many bytes the stride has behind the components."""
    stride = size_declared(flags, types) + more
    declaration = Declaration(flags, stride, shader % 256, bin(flags).count("1"), types)
    indices = tuple((i + shader) % count for i in range(3 * triangles))
    return Geometry(shader, declaration, stride, pattern(count * stride, shader % 256), indices)


def model(number, *geometries):
    return Model(0x01020304 + 0x10001 * number, 0x0506 + number, geometries)


# the types of semantics 0 to 15: all that have a size, some twice, and 0, 4, 11 and 15, which have none; 12 is not declared
TYPES = [6, 1, 2, 3, 4, 5, 7, 8, 9, 10, 0, 11, 3, 15, 10, 1]
EVERY = geometry(0x1234, 5, 2, 0xEFFF, sum(nibble << 4 * i for i, nibble in enumerate(TYPES)), 3)
HALL = (
    model(0, geometry(1), geometry(0x202, 4, 2, 3, 0x96, 4), geometry(3, 3)),
    model(1),
    model(2, EVERY),
    model(3, geometry(65535, 3, 3, 1, 1), geometry(0, 5, 1, 0x8001, 0x8000000000000007)),
)
# the test vector
VECTOR = (Model(0x01020304, 0x0506, (geometry(0),)),)


def rooms(n):
    """Exactly long enough, one byte short, longer."""
    return [n, max(n - 1, 0), n + 1, ROOM]


def value_for(nibble, first=0):
    """A value of the type's shape; without a size, an unsupported one."""
    shape = shape_of(nibble)
    if shape == "bytes":
        return shape, [(first + 85 * i) % 256 for i in range(4)]
    return shape, (FLOATS + FLOATS)[first : first + SHAPES.index(shape)]


# ---- adding and removing


def add_rows():
    for hall in [(), VECTOR, HALL, HALL[:2], HALL[1:2]]:
        n = book.length_of(hall)
        buffer = buffer_of(book.written(hall))
        for room, number in [(n, 24), (n + 11, 24), (n + 1, 24), (n + 12, 0), (n + 13, 0), (ROOM, 0)]:
            assert add_model(buffer, n, room)[2] == number
        if n:
            assert add_model(buffer, n, n - 1)[2] == 11
    buffer = buffer_of(book.written(VECTOR))
    for binding, mask in [(0, 0), (1, 0xFFFF), (0xFFFFFFFF, 0), (0x80000000, 0x8000)]:
        add_model(buffer, 127, ROOM, binding, mask)
    # n = 0: the buffer's content is no hall's
    for room in [0, 1, 11, 12, 13, 127, ROOM]:
        assert add_model(buffer, 0, room)[2] == (24 if room < 12 else 0)


def doubled_indices():
    """Of two triangles over four vertices, the first or the second with two equal indices, and an index that is too great nowhere, before or behind; with the
    number that tells. Then one triangle, with two and three equal indices."""
    strip = [0, 1, 2, 2, 1, 3]
    for pair in checks.PAIRS:
        yield 27, checks.doubled(strip[:3], 0, pair)
        for triangle in range(2):
            twice = checks.doubled(strip, triangle, pair)
            yield 27, twice
            for other in range(2):
                yield 18, checks.beyond(twice, other, pair, [4, 0x10001][other])
    yield 27, [3, 3, 3]
    yield 18, [4, 4, 4]


def given_rows():
    """Geometries added."""
    every = [geometry(7), geometry(0xFFFF, 3, 1, 1, 2), EVERY, geometry(9, 4, 2, 0x8001, 0x8000000000000007, 5), geometry(2, 5, 1, 0x10001, 3)]
    for hall in [VECTOR, HALL, HALL[:2], HALL[:1]]:
        n = book.length_of(hall)
        buffer = buffer_of(book.written(hall))
        for g in every:
            due = n + 2 + book.geometry_length(g)
            for room in [due, due - 1, due + 1, n, ROOM]:
                assert add_geometry(buffer, n, room, g)[2] == (24 if room < due else 0)
        # one behind the other
        after, new = buffer, n
        for g in every:
            after, new, number = add_geometry(after, new, ROOM, g)
            assert number == 0
    n = book.length_of(HALL)
    buffer = buffer_of(book.written(HALL))
    plain = geometry(7, 4, 2)
    wrong = plain.declaration
    for check, g, count in [
        (11, plain, 3),
        (11, plain, 5),
        (11, plain, 0),
        (11, plain, 0xFFFFFFFF),
        (11, plain._replace(data=plain.data + b"a"), 4),
        (11, plain._replace(data=b""), 4),
        (11, plain._replace(stride=11), 4),
        (14, plain._replace(declaration=wrong._replace(stride=13)), None),
        (14, plain._replace(declaration=wrong._replace(stride=0)), None),
        (14, plain._replace(stride=24, data=plain.data * 2), None),
        (14, plain._replace(stride=0, data=b""), 4),
        (15, plain._replace(declaration=wrong._replace(flags=0)), None),
        (15, plain._replace(declaration=wrong._replace(flags=2)), None),
        (15, plain._replace(declaration=wrong._replace(types=0)), None),
        (15, plain._replace(declaration=wrong._replace(types=7)), None),
        (15, plain._replace(declaration=wrong._replace(flags=3, types=0x26)), None),
        (15, plain._replace(declaration=wrong._replace(stride=0), stride=0, data=b""), 0xFFFFFFFF),
        (16, plain._replace(data=b""), 0),
        (17, plain._replace(indices=()), None),
        (17, plain._replace(indices=(0,)), None),
        (17, plain._replace(indices=(0, 0, 0, 0)), None),
        (17, plain._replace(indices=(4, 4)), None),
        (18, plain._replace(indices=(0, 1, 4)), None),
        (18, plain._replace(indices=(0xFFFFFFFF, 0, 1)), None),
        (18, plain._replace(indices=(0, 1, 3, 3, 2, 65536)), None),
        # one vertex or two: no triangle has three
        (27, geometry(7, 1), None),
        (27, geometry(7, 2, 2), None),
        (18, geometry(7, 2)._replace(indices=(0, 1, 2)), None),
        # every other check of the geometry comes before 27
        (11, plain._replace(indices=(0, 0, 1)), 3),
        (14, plain._replace(declaration=wrong._replace(stride=13), indices=(0, 1, 1)), None),
        (15, plain._replace(declaration=wrong._replace(flags=2), indices=(0, 1, 0)), None),
        (16, plain._replace(data=b"", indices=(0, 0, 0)), 0),
        (17, plain._replace(indices=(0, 1, 2, 3, 3)), None),
    ]:
        # each comes before 24
        assert add_geometry(buffer, n, n, g, count)[2] == check
        assert add_geometry(buffer, n, ROOM, g, count)[2] == check
    for check, indices in doubled_indices():
        for room in [127, ROOM]:
            assert add_geometry(buffer_of(book.written(VECTOR)), 127, room, plain._replace(indices=tuple(indices)))[2] == check
    # without any model, even where the geometry is wrong too
    for g, count in [(plain, None), (plain, 3), (plain._replace(indices=(0, 0, 1)), None)]:
        assert add_geometry(buffer_of(b""), 0, ROOM, g, count)[2] == 21
    for check, hall in damaged():
        assert add_geometry(buffer_of(hall), len(hall), ROOM, plain, 3)[2] == check


def many_rows():
    """At most 256 models; 13 comes before 24."""
    hall = tuple(model(i) for i in range(256))
    full, fewer = book.written(hall), book.written(hall[:255])
    assert add_model(buffer_of(fewer), len(fewer), ROOM)[2] == 0
    assert add_model(buffer_of(fewer), len(fewer), len(fewer) + 11)[2] == 24
    for room in [len(full), len(full) + 11, len(full) + 12, ROOM]:
        assert add_model(buffer_of(full), len(full), room)[2] == 13
    for number in [0, 128, 255]:
        assert remove_model(buffer_of(full), len(full), len(full), number)[2] == 0
        find_model(buffer_of(full), len(full), ROOM, number)
    assert remove_model(buffer_of(full), len(full), ROOM, 256)[2] == 21
    find_model(buffer_of(full), len(full), ROOM, 256)
    more = book.written(hall + hall[:1])
    for call, arguments in [(add_model, []), (remove_model, [0]), (remove_geometry, [0, 0]), (set_attribute, [0, 0, 0, 0, value_for(6)])]:
        assert call(buffer_of(more), len(more), ROOM, *arguments)[2] == 13
    find_model(buffer_of(more), len(more), ROOM, 0)


def removal_rows():
    for hall in [VECTOR, HALL, HALL[:2], HALL[:1], HALL[1:2], ()]:
        n = book.length_of(hall)
        buffer = buffer_of(book.written(hall))
        for number, there in enumerate(hall):
            for room in rooms(n) if number == 0 else [n + number]:
                assert remove_model(buffer, n, room, number)[2] == (11 if room < n else 0)
            for place in range(len(there.geometries)):
                for room in rooms(n) if number + place == 0 else [n + number]:
                    assert remove_geometry(buffer, n, room, number, place)[2] == (11 if room < n else 0)
            assert remove_geometry(buffer, n, ROOM, number, len(there.geometries))[2] == 21
        assert remove_model(buffer, n, ROOM, len(hall))[2] == 21
        assert remove_geometry(buffer, n, ROOM, len(hall), 0)[2] == 21
    n = book.length_of(HALL)
    buffer = buffer_of(book.written(HALL))
    for huge in HUGE:
        assert remove_model(buffer, n, n, huge)[2] == 21
        assert remove_geometry(buffer, n, n, huge, 0)[2] == remove_geometry(buffer, n, n, 0, huge)[2] == 21
    # models behind n are no part of the hall, and stay
    for count in range(len(HALL)):
        part = book.length_of(HALL[:count])
        for number in range(count + 1):
            remove_model(buffer, part, n, number)
            remove_geometry(buffer, part, ROOM, number, 0)
        add_model(buffer, part, n)


# ---- attributes


EVERY_AT = (2, 0)


def set_every(vertex, semantic, value, room=None):
    n = book.length_of(HALL)
    return set_attribute(buffer_of(book.written(HALL)), n, n if room is None else room, *EVERY_AT, vertex, semantic, value)[2]


def type_rows():
    """Every semantic at both ends of the vertices; every other shape; what has no size or is not declared."""
    for semantic, nibble in enumerate(TYPES):
        known = semantic != 12 and size_of(nibble) != 0
        for vertex in [0, 4]:
            assert set_every(vertex, semantic, value_for(nibble, 3 * semantic + vertex)) == (0 if known else 22)
        for shape in SHAPES if semantic < 11 else []:
            items = [1, 2, 3, 255] if shape == "bytes" else FLOATS[2 : 2 + SHAPES.index(shape)]
            assert set_every(1, semantic, (shape, items)) == (22 if not known else 0 if shape == shape_of(nibble) else 23)
    for semantic in [16, 17, 32, 64, *HUGE, (1 << 32) + 3, (1 << 40) + 1]:
        assert set_every(0, semantic, value_for(6)) == 22
    for vertex in [5, 6, *HUGE, (1 << 32) + 1, 65535]:
        assert set_every(vertex, 0, value_for(6)) == 21
    # 21 before 22 before 23, and 11 before all
    assert set_every(5, 16, ("unsupported", [])) == 21
    assert set_every(4, 12, ("unsupported", [])) == 22
    assert set_every(4, 0, ("unsupported", [])) == 23
    assert set_every(5, 16, ("unsupported", []), book.length_of(HALL) - 1) == 11
    # halves and normalised bytes of more floats
    for semantic in [3, 9]:
        for first in range(0, len(FLOATS), 4):
            assert set_every(3, semantic, ("four", FLOATS[first : first + 4])) == 0


def attribute_rows():
    """In every geometry, at both ends of its vertices, in buffers of several lengths."""
    for hall in [HALL, VECTOR]:
        n = book.length_of(hall)
        buffer = buffer_of(book.written(hall))
        for number, there in enumerate(hall):
            for place, g in enumerate(there.geometries):
                count = len(g.data) // g.stride
                for semantic, nibble, _ in components_of(g.declaration.flags, g.declaration.types)[:2]:
                    for vertex, room in [(0, ROOM), (count - 1, n)]:
                        assert set_attribute(buffer, n, room, number, place, vertex, semantic, value_for(nibble, 7 * place))[2] == 0
                    assert set_attribute(buffer, n, n, number, place, count, semantic, value_for(nibble))[2] == 21
            assert set_attribute(buffer, n, n, number, len(there.geometries), 0, 0, value_for(6))[2] == 21
        assert set_attribute(buffer, n, n, len(hall), 0, 0, 0, value_for(6))[2] == 21
        assert set_attribute(buffer, n, n - 1, 0, 0, 0, 0, value_for(6))[2] == 11
        for huge in HUGE if hall == HALL else []:
            assert set_attribute(buffer, n, ROOM, huge, 0, 0, 0, value_for(6))[2] == 21
            assert set_attribute(buffer, n, ROOM, 0, huge, 0, 0, value_for(6))[2] == 21
    assert set_attribute(buffer_of(b""), 0, ROOM, 0, 0, 0, 0, value_for(6))[2] == 21


# ---- unsound halls, finders, chains


# ---- indices


def index_rows():
    for hall in [VECTOR, HALL, HALL[3:], HALL[:1]]:
        n = book.length_of(hall)
        buffer = buffer_of(book.written(hall))
        for number, there in enumerate(hall):
            for place, g in enumerate(there.geometries):
                count, old = len(g.data) // g.stride, len(g.indices)
                last = count - 1
                for new in [[last, 0, 1], [0, 1, last, last, 1, 0]]:
                    due = n + 4 * (len(new) - old)
                    for room in [due, due - 1, due + 1, n, ROOM]:
                        number_told = replace_indices(buffer, n, room, number, place, new)[2]
                        assert number_told == (11 if room < n else 24 if room < due else 0)
                for few in [0, 1, 2, 4, 5]:
                    assert replace_indices(buffer, n, ROOM, number, place, [last] * few)[2] == 17
                    assert replace_indices(buffer, n, ROOM, number, place, [count] * few)[2] == 17
                # 18 and 27 come before 24
                for at in range(6):
                    wrong = [0, 1, last, last, 1, 0]
                    wrong[at] = [count, 65536, 0xFFFFFFFF][at % 3]
                    assert replace_indices(buffer, n, n, number, place, wrong)[2] == 18
                for at, pair in enumerate(checks.PAIRS):
                    twice = checks.doubled([0, 1, last, last, 1, 0], (place + at) % 2, pair)
                    assert replace_indices(buffer, n, n, number, place, twice)[2] == 27
            assert replace_indices(buffer, n, ROOM, number, len(there.geometries), [0, 1, 2])[2] == 21
        assert replace_indices(buffer, n, ROOM, len(hall), 0, [])[2] == 21
        assert replace_indices(buffer, n, ROOM, len(hall), 0, [0, 0, 0])[2] == 21
    for huge in HUGE:
        assert replace_indices(buffer, n, n, huge, 0, [0, 1, 2])[2] == replace_indices(buffer, n, n, 0, huge, [0, 1, 2])[2] == 21
    for check, hall in damaged():
        assert replace_indices(buffer_of(hall), len(hall), ROOM, 0, 0, [0, 1, 2])[2] == check
        assert replace_indices(buffer_of(hall), len(hall), len(hall), 9, 0, [])[2] == check
    four = book.written((model(0, geometry(1, 4)),))
    for check, new in doubled_indices():
        for room in [len(four), ROOM]:
            assert replace_indices(buffer_of(four), len(four), room, 0, 0, new)[2] == check
    # one call behind the other, longer and shorter in turn
    pick = random.Random(5)
    n = book.length_of(HALL)
    buffer = buffer_of(book.written(HALL))
    for turn in range(24):
        number, place = pick.choice([(0, 0), (0, 1), (0, 2), (2, 0), (3, 0), (3, 1)])
        buffer, n, _ = replace_indices(buffer, n, pick.choice([n, n + 12, ROOM]), number, place, [0, 1, 2] * pick.choice([1, 2]))


def damaged():
    """Lists that fail one of checks 11 to 18 or 27, with its number."""
    sound = checks.hall_of([checks.geometry(1), checks.geometry(2)], [checks.geometry(3)])
    yield 11, sound[:-1]
    yield 11, sound + b"\0"
    yield 11, sound[:4] + b"\2" + sound[5:]
    yield 12, checks.model_record([9]) + checks.geometry_bytes(checks.geometry(8))
    yield 12, sound + checks.model_record([4])
    for check, change in checks.BROKEN.items():
        yield check, checks.hall_of([checks.geometry(1)], [checks.geometry(2)._replace(**change)])


def unsound_rows():
    for check, hall in damaged():
        buffer, n = buffer_of(hall), len(hall)
        assert add_model(buffer, n, ROOM)[2] == check
        assert remove_model(buffer, n, n, 0)[2] == remove_geometry(buffer, n, n, 0, 0)[2] == check
        assert set_attribute(buffer, n, n, 0, 0, 0, 0, value_for(6))[2] == check
        # the old hall comes before 21 and 24
        assert add_model(buffer, n, n)[2] == remove_model(buffer, n, n, 9)[2] == check
        find_model(buffer, n, ROOM, 0)
        find_geometry(buffer, n, ROOM, 0, 0)
    # n beyond what is lent
    buffer = buffer_of(book.written(VECTOR))
    for room, n in [(126, 127), (0, 1), (127, (1 << 32) + 127), (127, U64 - 1)]:
        assert add_model(buffer, n, room)[2] == remove_model(buffer, n, room, 0)[2] == 11
        assert remove_geometry(buffer, n, room, 0, 0)[2] == set_attribute(buffer, n, room, 0, 0, 0, 0, value_for(6))[2] == 11
        find_model(buffer, n, room, 0)
        find_geometry(buffer, n, room, 0, 0)


def doubled_halls():
    """Lists with two equal indices in a triangle, and some with an index that is too great besides, with the number that tells. In the long ones a triangle
    is the last of a block of 64, or the last one behind it."""
    for pair in checks.PAIRS:
        yield 27, checks.hall_of([checks.geometry(8, held=checks.doubled([0, 1, 2], 0, pair))])
    sound = checks.geometry(9, held=checks.indices_for(66, 1))
    small = checks.geometry(8, held=[1, 0, 1])
    first, last = (sound._replace(held=checks.doubled(sound.held, place, pair)) for place, pair in [(63, (0, 2)), (65, (1, 2))])
    wrong, both = (sound._replace(held=checks.beyond(held, 65, (0, 1), 3)) for held in (sound.held, first.held))
    for models in [[first]], [[last], []]:
        yield 27, checks.hall_of(*models)
    for models in [[both]], [[small, wrong]], [[last], [wrong]], [[wrong], [small]]:
        yield 18, checks.hall_of(*models)


def doubled_rows():
    """Every call tells what is wrong with the old hall, also one that would remove or replace the triangle, or would be refused for something else."""
    for check, hall in doubled_halls():
        buffer, n = buffer_of(hall), len(hall)
        assert replace_indices(buffer, n, n, 0, 0, [0, 1, 2])[2] == replace_indices(buffer, n, ROOM, 0, 0, [0, 0, 1])[2] == check
        assert replace_indices(buffer, n, n, 9, 0, [])[2] == check
        assert remove_geometry(buffer, n, n, 0, 0)[2] == remove_geometry(buffer, n, n, 0, 9)[2] == check
        assert remove_model(buffer, n, n, 0)[2] == remove_model(buffer, n, ROOM, 9)[2] == check
        assert set_attribute(buffer, n, n, 0, 0, 0, 0, value_for(6))[2] == set_attribute(buffer, n, n, 0, 0, 9, 16, ("unsupported", []))[2] == check
        assert add_model(buffer, n, ROOM)[2] == add_model(buffer, n, n)[2] == check
        assert add_geometry(buffer, n, ROOM, geometry(7))[2] == add_geometry(buffer, n, n, geometry(7), 4)[2] == check
        find_model(buffer, n, ROOM, 0)
        find_geometry(buffer, n, ROOM, 0, 0)


def finder_rows():
    for hall in [HALL, VECTOR, ()]:
        n = book.length_of(hall)
        buffer = buffer_of(book.written(hall))
        for number in range(len(hall) + 1):
            find_model(buffer, n, n, number)
            for place in range(len(hall[number].geometries) + 1 if number < len(hall) else 1):
                find_geometry(buffer, n, ROOM, number, place)
        for huge in HUGE if hall == HALL else HUGE[-1:]:
            find_model(buffer, n, n, huge)
            find_geometry(buffer, n, n, huge, 0)
            find_geometry(buffer, n, n, 0, huge)


# as many models and geometries as check 13 allows: all geometries are one model's, and the others have none
CROWDED = (model(0),) * 128 + (model(0, *[geometry(0, 3, 1, 1, 2)] * 16384),) + (model(0),) * 127


def repeated(at, count, piece):
    """Runs that put these bytes `count` times, one behind the other: eight bytes of them at a time, the last eight where they end."""
    offsets = [*range(0, len(piece) - 8, 8), len(piece) - 8]
    return b"".join(struct.pack("<3Q", at + offset, len(piece), count) + piece[offset : offset + 8] for offset in offsets)


def crowded_row(kind, name, runs, numbers, found):
    n = book.length_of(CROWDED)
    line = " absent" if found is None else " at" + hexed(*found)
    rows[packed_with(kind, [n, n, *numbers, *[0] * (2 - len(numbers)), len(runs) // 32], runs)] = name + hexed(n, n, *numbers) + ":" + line


def crowded_rows():
    """Every search from the front passes all records before what it finds: 65,791 before the last model's."""
    lent, item = book.written(CROWDED), book.geometry_length(CROWDED[128].geometries[0])
    # where the model with the geometries begins, its first geometry, and the model behind it
    full = 128 * 12
    first = full + book.model_length(CROWDED[128])
    behind = first + 16384 * item
    pieces = [(0, 128, 12), (full, 1, 12), (first, 16384, item), (behind, 127, 12)]
    runs = b"".join(repeated(at, count, lent[at : at + length]) for at, count, length in pieces)
    # its mapping is zeros, which no run puts
    assert not any(lent[full + 12 : first]) and checks.first_failing(book.listed_hall(CROWDED)) == 0
    for number in [0, 127, 128, 129, 254, 255, 256]:
        place = book.model_place(CROWDED, number)
        crowded_row(13, "crowded find model", runs, [number], None if place is None else [place])
    for number, place in [(128, 0), (128, 16383), (128, 16384), (127, 0), (129, 0), (255, 0), (256, 0)]:
        crowded_row(14, "crowded find geometry", runs, [number, place], book.geometry_places(CROWDED, number, place))


def random_call(pick, buffer, n, room):
    """Mostly about things that are there; one beyond the last is asked for too."""
    hall = book.held_hall(buffer, n)
    number = pick.randrange(len(hall) + 1) if pick.random() < 0.2 or not hall else pick.randrange(len(hall))
    geometries = hall[number].geometries if number < len(hall) else ()
    place = pick.randrange(len(geometries) or 1) + (pick.random() < 0.1)
    kind = pick.choice(["add", "model", "geometry", "geometry", "set", "set", "set", "set"])
    if kind == "add":
        return add_model(buffer, n, room, pick.getrandbits(32), pick.getrandbits(16))
    if kind == "model":
        return remove_model(buffer, n, room, number)
    if kind == "geometry":
        return remove_geometry(buffer, n, room, number, place)
    g = geometries[place] if place < len(geometries) else EVERY
    semantic, nibble, _ = pick.choice(components_of(g.declaration.flags, g.declaration.types))
    vertex = pick.randrange(len(g.data) // g.stride + (pick.random() < 0.1))
    return set_attribute(buffer, n, room, number, place, vertex, semantic, value_for(nibble, pick.randrange(len(FLOATS))))


def random_geometry(pick):
    flags = 1 | pick.getrandbits(16) & pick.getrandbits(16)
    types = pick.getrandbits(64) & ~15 | pick.choice([1, 2, 3, 5, 6, 7, 8, 9, 10])
    return geometry(pick.getrandbits(16), pick.randrange(3, 5), pick.randrange(1, 4), flags, types, pick.choice([0, 0, 1, 4]))


def chain_rows():
    """Seeded, so that they are the same each time. The lent part of the buffer may be another from call to call."""
    pick = random.Random(3)
    for _ in range(6):
        hall = tuple(model(i, *[random_geometry(pick) for _ in range(pick.randrange(4))]) for i in range(pick.randrange(1, 5)))
        n = book.length_of(hall)
        buffer = buffer_of(book.written(hall))
        for _ in range(11):
            buffer, n, _ = random_call(pick, buffer, n, pick.choice([n, n + 11, n + 12, n + 40, ROOM]))


def call_rows():
    """The rows, and the lines that they must print."""
    makers = [add_rows, given_rows, many_rows, removal_rows, type_rows, attribute_rows, index_rows, unsound_rows, doubled_rows, finder_rows, crowded_rows]
    for make in [*makers, chain_rows]:
        make()
    return list(rows), list(rows.values())
