#!/usr/bin/env python3
"""Makes the lists of calls that crates/images_test replays and the lines that it must print. Run it in the repository's root:
python3 tests/expected/lists.py

It writes crates/images_test/stdin, rows of seven little-endian u64 (what is called, what with, and how many bytes follow) and those bytes,
and crates/images_test/stdout. The answers come from the hall book of book.py, written from documents 01 and 02.
A list has one buffer for the hall, of which a part is lent, and one for images. It starts with an empty hall, or with a list that is none, so that
the questions about the old hall are asked too. Each call gets the buffers as the one before left them. What is saved can be taken in again.

No old hall of 4,096 bytes fails check 19 (rust/calicofern/tests/limits.rs has such), and no section here is longer than check 1 allows. Of the other
refusals each occurs, as the script asserts by `OLD` and `POSSIBLE`."""
import collections
import itertools
import random
import struct

import book
import checks
from blocks import gen9_block, legacy_block
from calls import EVERY, HALL, VECTOR, damaged, doubled_halls, geometry, given_bytes, index_bytes, random_geometry, size_declared, value_bytes, value_for
from checks import PAIRS, beyond, doubled, indices_for, random_doubled, random_indices
from drawables import NAMES, NOWHERE, Drawable, Writer, damage, random_drawable, vector
from layouts import FLOATS, SHAPES, components_of
from rows import SYSTEM, checksum, hexed, packed_with, pattern, store

# a row's bytes, the hall's buffer, the image buffer
ROW, ROOM, IMAGE = 4096, 4096, 16384
# the refusals of a list that is no hall, and those of the calls on one
OLD = {*range(11, 19), 27}
POSSIBLE = {
    "add model": {13, 24},
    "add geometry": {11, 14, 15, 16, 17, 18, 21, 24, 27},
    "remove model": {21},
    "remove geometry": {21},
    "set attribute": {21, 22, 23},
    "replace indices": {17, 18, 21, 24, 27},
    "take in": {2, 3, 4, 5, 6, 11, 13, 14, 15, 16, 17, 18, 19, 24, 27},
    "save": {20},
}
# the lists, and how often each answer is told: by call, whether the old hall is sound, and number, 0 where it is accepted
lists, told = [], collections.Counter()


# ---- replaying, beside the book


class CallList:
    """From the hall `n` of a buffer that begins with these bytes, of which `room` are lent."""

    def __init__(self, room, begins=b"", n=0):
        seed = (37 * len(lists) + 129) % 256
        self.room, self.n, self.greatest = room, n, n
        self.first = self.buffer = begins + pattern(ROOM, seed)[len(begins) :]
        # the state that the calls alone make, nothing where the list is none
        self.hall = None if checks.verdict(self.buffer[:room], n) else book.held_hall(self.buffer, n)
        self.images, self.saved = pattern(IMAGE, seed), b""
        self.rows, self.tellings, self.answers = [], [], []
        self.row(0, "list", [n, room, seed], begins, lambda: "")

    def row(self, kind, name, numbers, data, telling):
        asked = [len(lists), len(self.rows), *numbers, *[0] * (3 - len(numbers))]
        assert len(data) <= ROW
        self.rows.append(packed_with(kind, asked, data))
        self.tellings.append(lambda: name + hexed(*asked) + ":" + telling())

    def answered(self, name, number):
        self.answers.append((name.removesuffix(" the image"), self.hall is not None, number))
        return number

    def refused(self, kind, name, numbers, data, refused, buffer):
        self.row(kind, name, numbers, data, lambda: " refused" + hexed(refused.number) + " needed" + hexed(refused.needed) + hexed(checksum(buffer)))
        return self.answered(name, refused.number)

    def call(self, kind, name, call, arguments, numbers, data=b""):
        lent = self.buffer[: self.room]
        try:
            hall = book.answered(call, arguments, lent, self.n)
        except book.Refused as refused:
            return self.refused(kind, name, numbers, data, refused, self.buffer)
        self.hall = call(self.hall, *arguments)
        assert self.hall == hall
        buffer = self.buffer = book.rewritten(lent, self.n, hall) + self.buffer[self.room :]
        new = self.n = book.length_of(hall)
        self.greatest = max(self.greatest, new)
        assert buffer == book.written(hall) + bytes(self.greatest - new) + self.first[self.greatest :]
        triangles = sum(len(g.indices) // 3 for model in hall for g in model.geometries)
        self.row(kind, name, numbers, data, lambda: " accepted" + hexed(new, checksum(buffer), triangles) + (" " + buffer[:new].hex() if new <= 256 else ""))
        return self.answered(name, 0)

    def add_model(self, binding=0xA1B2C3D4, mask=0xE5F6):
        return self.call(5, "add model", book.add_model, [binding, mask], [binding, mask])

    def add_geometry(self, g, count=None):
        given = len(g.data) // g.stride if count is None else count
        arguments = [g.shader, g.declaration, g.stride, given, g.data, g.indices]
        return self.call(12, "add geometry", book.add_geometry, arguments, [g.shader, g.stride, given], given_bytes(g))

    def remove_model(self, model):
        return self.call(6, "remove model", book.remove_model, [model], [model])

    def remove_geometry(self, model, place):
        return self.call(7, "remove geometry", book.remove_geometry, [model, place], [model, place])

    def set_attribute(self, model, place, vertex, semantic, value):
        more = value_bytes(semantic, value)
        return self.call(8, "set attribute", book.set_attribute, [model, place, vertex, semantic, value], [model, place, vertex], more)

    def replace_indices(self, model, place, indices):
        return self.call(11, "replace indices", book.replace_indices, [model, place, indices], [model, place], index_bytes(indices))

    def take_in(self, drawable):
        return self.call(13, "take in", book.take_in, drawable, [drawable.va, len(drawable.system)], drawable.system + drawable.graphics)

    def take_image(self, more=0, va=SYSTEM):
        """What was saved last, or more or fewer bytes of the image buffer."""
        count = max(len(self.saved) + more, 0)
        return self.call(15, "take in the image", book.take_in, [self.images[:count], b"", va], [va, count])

    def save(self, more=0):
        """Into so many bytes more than the image has."""
        needed = 576 if self.hall is None else len(book.image(self.hall))
        room = min(max(needed + more, 0), IMAGE)
        try:
            image = book.saved(self.buffer[: self.room], self.n, room)
        except book.Refused as refused:
            return self.refused(14, "save", [room], b"", refused, self.images)
        assert len(image) == checks.image_size(book.listed_hall(self.hall)) and len(image) % 16 == 0
        # the image, read back, is the hall
        assert book.take_in((), image, b"", SYSTEM) == self.hall
        images = self.images = image + self.images[len(image) :]
        self.saved = image
        self.row(14, "save", [room], b"", lambda: " accepted" + hexed(len(image), checksum(images)) + (" " + image.hex() if len(image) <= 576 else ""))
        return self.answered("save", 0)

    def made(self, operations):
        """The numbers told."""
        return [getattr(self, name)(*arguments) for name, *arguments in operations]


def keep(made):
    lists.append(made)
    told.update(made.answers)


def replay(operations, room=ROOM, begins=b"", n=0):
    made = CallList(room, begins, n)
    numbers = made.made(operations)
    keep(made)
    return numbers


def made_by(operations):
    """Where the list stands afterwards, in a buffer long enough."""
    made = CallList(ROOM)
    made.made(operations)
    return made


def reached(operations):
    """The greatest n, in a buffer long enough."""
    return made_by(operations).greatest


def replay_in_rooms(operations):
    """In a buffer exactly long enough, one byte short, and longer. Answers the numbers told in the first."""
    due = reached(operations)
    numbers = replay(operations, due)
    if due:
        assert 24 in replay(operations, due - 1)
    for room in [due + 1, ROOM]:
        assert replay(operations, room) == numbers
    return numbers


# ---- drawables to take in


# what is wrong with one of the geometries, or with what leads to them, in the order of the questions
FAULTS = [2, 3, 4, 6, 11, 14, 15, 16, 17, 18, 27]


def put_vertices(w, pick, fault):
    """Address of the vertex block, inline pointer, vertices, stride, and how many there are."""
    # the strides and counts of an inline buffer are one number
    layout, count = pick.randrange(3 if fault in (14, 16) else 4), pick.randrange(3, 6)
    given = random_geometry(pick)
    declared = layout < 2 and pick.random() < 0.7
    stride = given.stride if declared else 12 + pick.choice([0, 0, 1, 4])
    flags, types, stored = given.declaration.flags, given.declaration.types, stride
    if fault == 14 and declared:
        stored = stride + pick.choice([-1, 1, 256])
    if fault == 15:
        flags, types = pick.choice([(flags & ~1, types), (flags, types & ~15), (flags | 2, types & ~0xF0 | 0x70)])
        stride = stored = pick.choice([max(size_declared(flags, types), 1) - 1 or 1, 3]) if declared else pick.choice([1, 4, 11])
    data = w.data(stride * count, pick.randrange(256))
    info = w.declaration(flags, stored % 65536, pick.randrange(256), pick.randrange(256), types) if declared else pick.choice([0, 0x40000000])
    vertices = pick.choice([0, count, count]) if layout < 3 else count
    if fault == 16:
        vertices = count + pick.choice([-1, 1])
    if fault == 11:
        return pick.choice([0, 0x40000000, w.put("vertex block", legacy_block(stride, count, 0, 0, info))]), 0, vertices, stride, count
    if layout == 3:
        return pick.choice([0, 0x40000000]), data, vertices, stride, count
    blocks = [legacy_block(stride, count, data, 0, info), legacy_block(stride, count, pick.choice([0, 0x40000000]), data, info), gen9_block(stride, count, data, info)]
    wrong = 1 if fault == 14 and not declared else 0
    return w.put("vertex block", blocks[layout]), 0, vertices, stride + wrong, count


def put_geometry(w, pick, fault=0):
    lacking = fault == 11 and pick.random() < 0.5
    vertex_block, inline, vertices, stride, count = put_vertices(w, pick, 0 if lacking else fault)
    number = 3 * pick.choice([1, 1, 2, 3, 7])
    indices = random_indices(pick, count, number // 3)
    size = pick.choice([2, 2, 4])
    if fault == 27:
        indices = random_doubled(pick, indices)
    if fault == 18:
        indices[pick.randrange(number)] = pick.choice([count, count + 1, 65535] if size == 2 else [count, 65536, 0xFFFFFFFF])
    items = w.numbers("indices", "HI"[size == 4], indices)
    held, stored, triangles = number, number, number // 3
    if fault == 17:
        wrong = [(number - 3, number, triangles), (number, number + 3, triangles), (number, number, triangles + 1), (number - 1, number - 1, triangles)]
        held, stored, triangles = pick.choice(wrong)
    forms = [(0, size, items), (0x40000000, size, items)] + [(items, 0, 0), (items, 4, 0x40000000)] * (size == 2)
    index_block = pick.choice([0, 0x40000000]) if lacking else w.index_block(held, *pick.choice(forms))
    return w.geometry(vertex_block, index_block, stored, triangles, vertices, stride, inline)


def put_model(w, pick, fault, others):
    """With so many sound geometries beside the one that the fault is in."""
    if fault == 3:
        return pick.choice(NOWHERE)
    members = [put_geometry(w, pick) for _ in range(others)]
    if fault == 6 or fault >= 11:
        members.insert(pick.randrange(len(members) + 1), pick.choice(NOWHERE) if fault == 6 else put_geometry(w, pick, fault))
    if pick.random() < 0.3:
        members.insert(pick.randrange(len(members) + 1), 0)
    mapping = pick.choice([w.mapping([pick.getrandbits(16) for _ in members]), 0, 0x40000000])
    pointers = (pick.choice(NOWHERE), 2) if fault == 4 else (members, None)
    return w.model(*pointers, mapping=mapping, binding=pick.getrandbits(32), mask=pick.getrandbits(16))


def drawable_with(pick, faults, others=(0, 1, 1, 2)):
    """A model for each fault, sound where it is 0. Blocks may lie in either section, in every layout, with nulls between pointers."""
    w = Writer(pick.choice(["system", "graphics"]), pick.sample(NAMES, pick.randrange(5)))
    pointers = []
    for fault in faults:
        pointers += [put_model(w, pick, fault, pick.choice(others))] + [0] * (pick.random() < 0.2)
    count = len(pointers)
    return w.drawable(w.header(pick.choice(NOWHERE) if 2 in faults else pointers, *pick.choice([(count, count), (count, 9), (0, count)])))


def drawable_of(pick, fault=0):
    """Sound, but for the fault."""
    faults = [0] * pick.choice([0, 1, 1, 2])
    if fault:
        faults = [0] * (len(faults) - 1)
        faults.insert(pick.randrange(len(faults) + 1), fault)
    return drawable_with(pick, faults)


def damaged_drawable(pick):
    made = random_drawable(pick)
    if pick.random() < 0.7:
        system, graphics, va = drawable_of(pick)
        made = [bytearray(system), bytearray(graphics), va]
    for _ in range(pick.choice([1, 1, 2, 5])):
        damage(pick, made)
    return Drawable(bytes(made[0]), bytes(made[1]), made[2])


def fitting(make, *arguments):
    """The first one made that a row can hold."""
    while True:
        made = make(*arguments)
        if len(made.system) + len(made.graphics) <= ROW:
            return made


def many(models, geometries, more_models=0, extra=0, stride=16, count=0, indices=3, held=None):
    """The same model so many times with the same geometry so many times; then models without any, and one with `extra` geometries. The vertex bytes are
    the section's first, whatever stands there. `held` are the indices, sound by default."""
    w = Writer()
    items = w.numbers("indices", "H", held or indices_for(indices // 3))
    block = w.put("vertex block", legacy_block(stride, count, SYSTEM, 0, w.declaration(1, stride, types=7))) if count else 0
    at = w.geometry(block, w.index_block(indices, items), indices, indices // 3, count, stride)
    geometry_list = w.numbers("geometries", "Q", [at] * max(geometries, extra))
    pointers = [w.model(geometry_list, geometries)] * models + [w.model(0, 0)] * more_models + [w.model(geometry_list, extra)] * (extra > 0)
    va = w.header(pointers)
    w.put("data", bytes(ROW - len(w.sections["system"])))
    return w.drawable(va)


# ---- lists for each call and each number


ADD_VECTOR = [("add_model", 0x01020304, 0x0506), ("add_geometry", geometry(0))]
AROUND = [("save", -1), ("save",), ("save", 1), ("save", 300)]


def added_geometry(g):
    """A row gives six indices at most."""
    return "add_geometry", g._replace(indices=g.indices[:6])


def added(hall):
    """The calls that make a hall of an empty one."""
    for model in hall:
        yield "add_model", model.binding, model.mask
        yield from map(added_geometry, model.geometries)


def sounding_lists():
    """Document 01's soundings: the empty hall and the one-model sample."""
    assert book.image(()) == bytes(16)
    assert replay([("save",), ("take_image",), *AROUND, ("save", -16), ("take_image", -1)]) == [0, 0, 20, 0, 0, 0, 20, 0]
    made = CallList(127)
    assert made.made([*ADD_VECTOR, *AROUND, ("take_image",), ("take_image", -576), ("take_image",), ("save",)]) == [0, 0, 20, 0, 0, 0, 0, 0, 0, 0]
    assert made.n == 127 and len(made.saved) == 576 and made.saved.find(made.hall[0].geometries[0].data) == 0x1A0
    # the vertex block, behind header, pointers, model, pointers, mapping and geometry
    assert struct.unpack_from("<Q", made.saved, 0x110 + 0x10)[0] == 0x500001A0
    keep(made)
    # every length of both buffers, around those that are needed
    for room in [0, 1, 11, 12, 13, 126, 127, 128]:
        replay([*ADD_VECTOR, ("save",), ("remove_geometry", 0, 0), ("save",), ("take_image",), ("remove_model", 0), ("save",)], room)
    replay([*ADD_VECTOR, *[("save", more) for more in [-576, -575, -561, -560, -16, -2, 2, 15, 16, 17, IMAGE - 576]], ("take_image", 16), ("take_image", -16)])


def old_hall_lists():
    """Lists that are no hall: every call tells the same number, whatever else is wrong, and changes nothing."""
    good, bad = vector(), vector()._replace(system=vector().system[:-1])
    wrong = geometry(7)._replace(indices=(9, 9, 9))
    calls = [("add_model",), ("remove_model", 0), ("remove_model", 9), ("remove_geometry", 0, 0), ("remove_geometry", 0, 9), ("add_geometry", geometry(7))]
    calls += [("add_geometry", wrong), ("set_attribute", 0, 0, 0, 0, value_for(6)), ("set_attribute", 9, 0, 0, 0, value_for(6)), ("replace_indices", 0, 0, [2, 1, 0])]
    calls += [("replace_indices", 0, 0, []), ("take_in", good), ("take_in", bad), ("take_in", good._replace(va=0)), ("save",), ("save", -576), ("take_image",)]
    broken = [*damaged(), *doubled_halls(), (13, checks.model_record() * 257), (12, checks.model_record() * 256 + checks.model_record([1]))]
    for check, hall in broken:
        assert replay(calls, len(hall) + 200 if len(hall) < 3000 else ROOM, hall, len(hall)) == [check] * len(calls)
    # more bytes asked about than are lent
    sound = book.written(VECTOR)
    for room, n in [(126, 127), (0, 1), (127, 128), (ROOM, ROOM + 1), (127, (1 << 32) + 127), (127, (1 << 64) - 1)]:
        assert replay(calls, room, sound, n) == [11] * len(calls)
    # the same calls on the sound hall, and on an empty one whose buffer begins with it
    for n in [127, 0]:
        replay(calls, 400, sound, n)
        replay(calls, 127, sound, n)


def wrong_geometries():
    """With the number that each is refused by, and its count."""
    plain = geometry(7, 4, 2)
    declaration = plain.declaration
    yield 11, plain, 3
    yield 11, plain, 0xFFFFFFFF
    yield 11, plain._replace(data=plain.data[:-1]), 4
    yield 11, plain._replace(stride=11), 4
    yield 14, plain._replace(declaration=declaration._replace(stride=13)), None
    yield 14, plain._replace(stride=24, data=plain.data * 2), None
    yield 15, plain._replace(declaration=declaration._replace(flags=2)), None
    yield 15, plain._replace(declaration=declaration._replace(types=7)), None
    yield 15, plain._replace(declaration=declaration._replace(stride=0), stride=0, data=b""), 7
    yield 16, plain._replace(data=b""), 0
    yield 17, plain._replace(indices=()), None
    yield 17, plain._replace(indices=(0, 1, 2, 3)), None
    yield 17, plain._replace(indices=(0, 0, 0, 0)), None
    yield 18, plain._replace(indices=(0, 4, 1)), None
    yield 18, plain._replace(indices=(0, 1, 3, 3, 2, 65536)), None
    yield 18, plain._replace(indices=(0, 0, 3, 3, 2, 4)), None
    yield 27, plain._replace(indices=(0, 3, 0)), None
    yield 27, plain._replace(indices=(0, 1, 3, 3, 3, 2)), None
    yield 27, plain._replace(indices=(0, 1, 1, 1, 0, 2)), None


def edit_lists():
    """The six calls that edit, accepted and refused in turn, with what was saved before taken in again."""
    for hall in [VECTOR, HALL, HALL[1:], (*VECTOR, *VECTOR)]:
        operations = [*added(hall), ("save",)]
        refusals = []
        for number, g, count in wrong_geometries():
            operations.append(("add_geometry", g, count))
            refusals.append(number)
        assert replay(operations)[-len(refusals) :] == refusals
        last = hall[-1].geometries[-1]
        place = (len(hall) - 1, len(hall[-1].geometries) - 1)
        count = len(last.data) // last.stride
        edits = [
            (0, ("set_attribute", *place, count - 1, 0, value_for(last.declaration.types & 15, 3))),
            (21, ("set_attribute", *place, count, 0, value_for(6))),
            (21, ("set_attribute", place[0], place[1] + 1, 0, 0, value_for(6))),
            (21, ("set_attribute", place[0] + 1, 0, 0, 0, value_for(6))),
            (22, ("set_attribute", *place, 0, 2, value_for(6))),
            (22, ("set_attribute", *place, 0, 16, value_for(6))),
            (23, ("set_attribute", *place, 0, 0, ("unsupported", []))),
            (0, ("save",)),
            (0, ("replace_indices", *place, [0, 1, 2, 2, 1, 0])),
            (0, ("replace_indices", *place, [count - 1, 0, 1])),
            (17, ("replace_indices", *place, [])),
            (17, ("replace_indices", *place, [0] * 5)),
            (18, ("replace_indices", *place, [0, 1, 2, 0, 1, count])),
            (18, ("replace_indices", *place, [0, 0, 0, 0, 0, count])),
            (27, ("replace_indices", *place, [0, 1, 2, 1, 0, 1])),
            (27, ("replace_indices", *place, [0, 0, 1])),
            (21, ("replace_indices", place[0], place[1] + 1, [0, 1, 2])),
            (0, ("save", 7)),
            (21, ("remove_geometry", place[0], place[1] + 1)),
            (21, ("remove_geometry", place[0] + 1, 0)),
            (21, ("remove_model", place[0] + 1)),
            (0, ("remove_geometry", *place)),
            (0, ("take_image",)),
            (0, ("remove_model", 0)),
            (20, ("save", -1)),
            (0, ("take_image",)),
            (0, ("save", 1)),
        ]
        assert replay_in_rooms([*added(hall), *[edit for _, edit in edits]])[-len(edits) :] == [number for number, _ in edits]
    assert replay([("add_geometry", geometry(1)), ("remove_model", 0), ("save",)]) == [21, 21, 0]
    # one to nine geometries in a model, with a save at each
    operations = [("add_model",)]
    for shader in range(9):
        operations += [("add_geometry", geometry(0x101 * shader, 3 + shader % 4, 1 + shader % 2, 1, 1, shader)), ("save",)]
    replay_in_rooms([*operations, ("remove_geometry", 0, 4), ("save",), ("take_image",)])
    # counts, strides and indices of two bytes
    for g in [geometry(300, 300, 1, 1, 1), geometry(256, 3, 2, 1, 6, 300)]:
        count = len(g.data) // g.stride
        indices = ("replace_indices", 0, 0, [count - 1, min(count - 2, 256), 0])
        attribute = ("set_attribute", 0, 0, count - 1, 0, value_for(g.declaration.types, 5))
        replay_in_rooms([("add_model",), ("add_geometry", g), ("save",), indices, ("save",), attribute, ("take_image",), ("save",)])
    # every attribute of a vertex that has all types, between two saves
    operations = [("add_model",), ("add_geometry", EVERY), ("save",)]
    for semantic, nibble, _ in components_of(EVERY.declaration.flags, EVERY.declaration.types):
        operations.append(("set_attribute", 0, 0, 4, semantic, value_for(nibble, 2 * semantic)))
    replay_in_rooms([*operations, ("save",), ("take_image",)])


def taking_lists():
    """Each number of take in, over an empty and over a longer hall; each layout and form."""
    pick = random.Random(6)
    for fault in FAULTS * 2:
        drawables = [fitting(drawable_of, pick, fault) for _ in range(4)]
        operations = [("take_in", drawables[0]), *ADD_VECTOR, ("take_in", drawables[1]), ("save",), ("take_in", drawables[2]), ("take_image",), ("take_in", drawables[3])]
        numbers = replay(operations)
        assert [numbers[i] for i in (0, 3, 5, 7)] == [fault] * 4, (fault, numbers)
    for _ in range(30):
        first, second = fitting(drawable_of, pick), fitting(drawable_of, pick)
        operations = [("take_in", first), *AROUND, ("take_in", second), ("save",), ("take_in", first), ("take_image",), ("take_in", second._replace(va=0)), ("take_image",)]
        if len(lists) % 3:
            replay(operations, max(reached(operations) - len(lists) % 2, 0))
        else:
            replay(operations)
    # two faults: the first in walk order of those that do not resolve, else the earlier question, and none gives way to 24
    pairs = list(itertools.permutations(FAULTS[1:], 2))
    drawables = [fitting(drawable_with, pick, pair, [0]) for pair in pairs]
    expected = [next((fault for fault in pair if fault < 11), min(pair, key=FAULTS.index)) for pair in pairs]
    assert replay([("take_in", drawable) for drawable in drawables], 0) == expected
    # a header that does not resolve: the empty hall
    for va in [0, *NOWHERE, vector().va + 1]:
        assert replay([*ADD_VECTOR, ("take_in", vector()._replace(va=va)), ("save",)]) == [0, 0, 0, 0]
    # an image at other addresses, cut short, and with more of the buffer behind it
    whole = [*added(HALL), ("save",)]
    length = len(book.image(made_by(whole).hall))
    for va in [SYSTEM + 16, SYSTEM + 1, 0x40000000]:
        replay([*whole, ("remove_model", 0), ("take_image", 0, va), ("save",)])
    for more in [-1, -16, -1000, 136 - length, 16 - length, 15 - length, 40]:
        replay([*whole, ("remove_model", 0), ("take_image", more), ("save",)])
    replay_in_rooms([("take_in", vector()), ("remove_model", 0), ("take_in", vector()), ("add_model",)])


def with_indices(indices, form, count=3):
    """One geometry over Float3 positions. `form`: two bytes an index behind the first pointer, or so many behind the second one."""
    w = Writer()
    items = w.numbers("indices", "I" if form == "four" else "H", indices)
    block = w.index_block(len(indices), items) if form == "first" else w.index_block(len(indices), 0, 4 if form == "four" else 2, items)
    vertex_block = w.put("vertex block", legacy_block(12, count, w.data(12 * count), 0, w.declaration()))
    return w.drawable(w.header([w.model([w.geometry(vertex_block, block, len(indices), len(indices) // 3, count)], mapping=w.mapping([5]))]))


def triangle_lists():
    """Triangles that are taken in: two equal indices at each place of a triangle, in and behind blocks of 64 triangles; triangle 21 lies on both sides of the
    64th index. All over a hall that stays, in a buffer that has room for none of them, and sound ones in a longer buffer."""
    lengths = {1: [0], 22: [0, 21], 64: [63], 65: [0, 63, 64], 130: [127, 129]}
    for form in ["first", "second", "four"]:
        operations, expected = [], []
        for triangles, places in lengths.items():
            # once found, two bytes an index are read alike behind either pointer
            for place, pair in itertools.product(places, PAIRS) if form != "second" or triangles < 64 else []:
                operations.append(("take_in", with_indices(doubled(indices_for(triangles, place), place, pair), form)))
                expected.append(27)
        # an index that is too great in the same triangle, in the same block, and in it or behind it
        for (twice, wrong), pair in zip([(0, 0), (0, 64), (64, 0), (10, 50), (50, 10)], itertools.cycle(PAIRS)):
            held = beyond(doubled(indices_for(65), twice, pair), wrong, pair, 3)
            operations.append(("take_in", with_indices(held, form)))
            expected.append(18)
        # one vertex, two, and numbers that differ in their upper byte
        for count, held, number in [(1, [0, 0, 0], 27), (2, [0, 1, 0], 27), (2, [0, 1, 2], 18), (1, [1, 1, 1], 18), (258, [1, 257, 1], 27), (258, [257, 257, 1], 27)]:
            operations.append(("take_in", with_indices(held, form, count)))
            expected.append(number)
        assert replay([*ADD_VECTOR, *operations, ("save",)], 127) == [0, 0, *expected, 0]
        sound = [("take_in", with_indices(indices_for(triangles, number), form)) for number, triangles in enumerate([1, 22, 64, 65, 65, 65])]
        sound += [("take_in", with_indices([1, 257, 0, 257, 0, 1], form, 258)), ("save",), ("take_image",)]
        assert replay(sound) == [0] * len(sound)
        # sound ones too are refused in the short buffer
        assert replay([*ADD_VECTOR, sound[1], sound[3]], 127) == [0, 0, 24, 24]
    # upper halves that differ
    upper = [with_indices(held, "four") for held in ([1, 0x10001, 2], [0x10001, 0x10001, 1])]
    assert replay([("take_in", drawable) for drawable in upper]) == [18, 18]


def limit_lists():
    """The greatest numbers of models and geometries, and the longest image, by pointers that are all the same."""
    full, over = many(256, 0), many(257, 0)
    operations = [("take_in", over), ("take_in", full), ("add_model",), ("take_in", over), ("save", -1), ("save",), ("remove_model", 255), ("take_image",)]
    assert replay([*operations, ("add_model",), ("remove_model", 9)]) == [13, 0, 13, 13, 20, 0, 0, 0, 13, 0]
    assert replay([("take_in", full), ("add_model",)], 3071) == [24, 0]
    assert replay([("take_in", full), ("add_model",)], 3072) == [0, 13]
    # 16,384 geometries, and one more; without vertices, 11 comes first
    numbers = [(128, 128, 0, 3, 24), (128, 128, 1, 3, 5), (128, 128, 0, 0, 11), (100, 163, 84, 3, 24), (100, 163, 85, 3, 5), (257, 63, 0, 3, 13)]
    for models, geometries, extra, count, number in numbers:
        assert replay([*ADD_VECTOR, ("take_in", many(models, geometries, 0, extra, count=count)), ("save",)]) == [0, 0, number, 0]
    # images of exactly 67,108,864 bytes, and of 16 more
    longest, longer = many(60, 261, 24, 11, 29, 132, 9), many(60, 263, 28, 9, 29, 131, 9)
    assert checks.image_size(book.listed_hall(book.take_in((), *longest))) == 67108864
    for drawable, number in [(longest, 24), (longer, 19), (many(128, 128, count=255), 19)]:
        assert replay([*ADD_VECTOR, ("take_in", drawable), ("add_model",)]) == [0, 0, number, 0]
    # the same with two equal indices, which come before 19 and 24, and with one that is too great, which comes before all
    for number, held in [(27, doubled(indices_for(3), 2, (0, 2))), (18, beyond(doubled(indices_for(3), 0, (0, 1)), 2, (0, 1), 255))]:
        drawables = [many(60, 261, 24, 11, 29, 132, 9, held), many(60, 263, 28, 9, 29, 131, 9, held)]
        assert replay([*ADD_VECTOR, *[("take_in", drawable) for drawable in drawables], ("add_model",)]) == [0, 0, number, number, 0]


# ---- random lists


def random_value(pick, nibble):
    if pick.random() < 0.13:
        shape = pick.choice(SHAPES)
        return shape, [1, 2, 3, 255] if shape == "bytes" else FLOATS[2 : 2 + SHAPES.index(shape)]
    return value_for(nibble, pick.randrange(len(FLOATS)))


def random_given(pick):
    if pick.random() < 0.27:
        return "add_geometry", *pick.choice(list(wrong_geometries()))[1:]
    name, g = added_geometry(random_geometry(pick))
    return name, g._replace(indices=tuple(random_doubled(pick, g.indices))) if pick.random() < 0.03 else g


def random_replacement(pick, count):
    """Mostly sound; two equal indices in a triangle, an index that is too great, and wrong numbers of indices are given too."""
    indices = random_indices(pick, count, 2)
    if pick.random() < 0.1:
        indices = random_doubled(pick, indices)
    if pick.random() < 0.1:
        indices[pick.randrange(6)] = count
    return indices[: pick.choice([3, 3, 6, 6, 6, 0, 4])]


def random_operation(pick, made):
    """Mostly about things that are there; one beyond the last is asked for too."""
    hall = made.hall
    kinds = ["model"] * 2 + ["given"] * 10 + ["set"] * 9 + ["indices"] * 7 + ["take"] * 2 + ["save"] * 5 + ["image"] * 3 + ["remove model"] + ["remove geometry"] * 3
    kind = pick.choice(kinds if any(model.geometries for model in hall) else ["model"] * 3 + ["given"] * 4 * len(hall[:1]) + ["take", "save", pick.choice(kinds)])
    full = [i for i, model in enumerate(hall) if model.geometries]
    number = pick.choice(full) if full and kind != "remove model" and pick.random() < 0.9 else pick.randrange(len(hall) + (pick.random() < 0.2 or not hall))
    there = hall[number].geometries if number < len(hall) else ()
    place = pick.randrange(len(there) or 1) + (pick.random() < 0.05)
    g = there[place] if place < len(there) else EVERY
    count = len(g.data) // g.stride
    if kind == "model":
        return "add_model", pick.getrandbits(32), pick.getrandbits(16)
    if kind == "given":
        return random_given(pick)
    if kind == "remove model":
        return "remove_model", number
    if kind == "remove geometry":
        return "remove_geometry", number, place
    if kind == "set":
        semantic, nibble, _ = pick.choice(components_of(g.declaration.flags, g.declaration.types))
        return "set_attribute", number, place, pick.randrange(count + (pick.random() < 0.05)), semantic, random_value(pick, nibble)
    if kind == "indices":
        return "replace_indices", number, place, random_replacement(pick, count)
    if kind == "save":
        return "save", pick.choice([0, 0, 0, 5, 900, -1, -16])
    if kind == "image":
        return "take_image", pick.choice([0, 0, 0, 0, 0, 32, -1, -48]), pick.choice([SYSTEM] * 9 + [SYSTEM + 8])
    choice = pick.random()
    if choice < 0.5:
        return "take_in", fitting(drawable_of, pick)
    if choice < 0.75:
        return "take_in", fitting(drawable_of, pick, pick.choice(FAULTS))
    return "take_in", fitting(damaged_drawable, pick)


def random_lists():
    """Seeded, so that they are the same each time."""
    pick = random.Random(7)
    for _ in range(280):
        made, operations = CallList(ROOM), []
        for _ in range(pick.randrange(1, 31)):
            name, *arguments = operation = random_operation(pick, made)
            getattr(made, name)(*arguments)
            operations.append(operation)
        due = made.greatest
        replay(operations, pick.choice([due, due, max(due - 1, 0), max(due - 1, 0), due // 2, min(due + pick.randrange(1, 300), ROOM), ROOM]))


sounding_lists()
old_hall_lists()
edit_lists()
taking_lists()
triangle_lists()
limit_lists()
random_lists()
for name, numbers in POSSIBLE.items():
    for sound, expected in [(True, numbers | {0}), (False, OLD)]:
        counts = {number: times for (call, state, number), times in sorted(told.items()) if call == name and state == sound}
        assert set(counts) == expected, (name, counts)
        print("%s, %s: %s" % (name, "on a hall" if sound else "on none", ", ".join("%s %d times" % (number or "accepted", times) for number, times in counts.items())))
print("%d lists" % len(lists))
store("images_test", [row for made in lists for row in made.rows], [telling() for made in lists for telling in made.tellings])
