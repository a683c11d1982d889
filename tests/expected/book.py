"""The hall book of document 01, with check 27 of document 02: what the calls make of a state, what they refuse, and the image of a hall. Written from those
documents, not from the program.

A hall is a tuple of models; a call takes one and gives another, or raises Refused with the number of a question that it alone has. `answered` asks the
questions that every call has: 11 to 18, 27 and 19, in this order, about the old hall and about the result, and 24. `saved` asks those of save."""
import collections
import functools
import struct

import checks
from blocks import declaration_bytes
from drawables import Refused, read_models
from layouts import components_of, encoded, shape_of, size_of
from rows import SYSTEM

Model = collections.namedtuple("Model", "binding mask geometries")
Geometry = collections.namedtuple("Geometry", "shader declaration stride data indices")
Declaration = collections.namedtuple("Declaration", "flags stride unknown count types")


# ---- halls as models and as bytes


def listed(g):
    """A geometry as the list has it: layout 0, the held stride, and counts that agree."""
    count, indices = len(g.data) // g.stride, len(g.indices)
    return checks.Geometry(g.shader, indices, indices // 3, count, g.stride, *g.declaration, 0, g.stride, count, g.data, indices, list(g.indices))


def listed_hall(hall):
    return [checks.Model(m.binding, m.mask, [g.shader for g in m.geometries], [listed(g) for g in m.geometries]) for m in hall]


def model_length(model):
    return 12 + 2 * len(model.geometries)


def geometry_length(g):
    return 65 + len(g.data) + 4 * len(g.indices)


def length_of(hall):
    return sum(model_length(model) + sum(geometry_length(g) for g in model.geometries) for model in hall)


def written(hall):
    out = b""
    for m in listed_hall(hall):
        out += checks.model_record(m.mapping, m.binding, m.mask) + b"".join(checks.geometry_bytes(g) for g in m.geometries)
    assert len(out) == length_of(hall)
    return out


def held_geometry(g):
    declaration = Declaration(g.flags, g.declared_stride, g.unknown, g.declared_count, g.types)
    return Geometry(g.shader, declaration, g.stride, g.data, tuple(g.held))


def held_models(models):
    """The hall of models that pass every check of a hall."""
    return tuple(Model(m.binding, m.mask, tuple(held_geometry(g) for g in m.geometries)) for m in models)


def held_hall(lent, n):
    """The hall of the first n bytes."""
    return held_models(checks.models_of(lent[:n]))


# ---- calls


def add_model(hall, binding, mask):
    return hall + (Model(binding, mask, ()),)


def add_geometry(hall, shader, declaration, stride, count, data, indices):
    """Judged with the count and stride given, by 11 first."""
    if not hall:
        raise Refused(21)
    if len(data) != count * stride:
        raise Refused(11)
    given = checks.Geometry(shader, len(indices), len(indices) // 3, count, stride, *declaration, 0, stride, count, data, len(indices), list(indices))
    models = listed_hall(hall)
    models[-1].mapping.append(shader)
    models[-1].geometries.append(given)
    check = checks.first_failing(models)
    if check:
        raise Refused(check)
    last = hall[-1]
    return hall[:-1] + (last._replace(geometries=last.geometries + (Geometry(shader, declaration, stride, data, tuple(indices)),)),)


def present(items, number):
    if number >= len(items):
        raise Refused(21)
    return items[number]


def without(items, number):
    present(items, number)
    return items[:number] + items[number + 1 :]


def replaced(items, number, item):
    return items[:number] + (item,) + items[number + 1 :]


def remove_model(hall, model):
    return without(hall, model)


def remove_geometry(hall, model, geometry):
    old = present(hall, model)
    return replaced(hall, model, old._replace(geometries=without(old.geometries, geometry)))


def component(declaration, semantic):
    """Type and offset of what is declared, of a nonzero size, for a semantic."""
    for index, nibble, offset in components_of(declaration.flags, declaration.types):
        if index == semantic and size_of(nibble):
            return nibble, offset
    raise Refused(22)


def set_attribute(hall, model, geometry, vertex, semantic, value):
    """value: a shape's name, and the floats' bits or the bytes."""
    old = present(hall, model)
    g = present(old.geometries, geometry)
    present(range(len(g.data) // g.stride), vertex)
    nibble, offset = component(g.declaration, semantic)
    shape, items = value
    if shape != shape_of(nibble):
        raise Refused(23)
    at = vertex * g.stride + offset
    data = g.data[:at] + encoded(nibble, items) + g.data[at + size_of(nibble) :]
    return replaced(hall, model, old._replace(geometries=replaced(old.geometries, geometry, g._replace(data=data))))


def replace_indices(hall, model, geometry, indices):
    old = present(hall, model)
    g = present(old.geometries, geometry)
    return replaced(hall, model, old._replace(geometries=replaced(old.geometries, geometry, g._replace(indices=tuple(indices)))))


@functools.lru_cache(None)
def taken_geometry(numbers, parts):
    """A geometry as it is read, but for its layout and a missing declaration; nothing where it lacks vertices or its index block does not resolve."""
    found = dict(checks.records(parts))
    if 4 not in found or 5 not in found:
        return None
    _, stride, count = struct.unpack_from("<BHI", found[4])
    declaration = found.get(3, declaration_bytes(1, stride, 0, 1, 6))
    read = struct.unpack("<HIIHH", numbers[6:]) + struct.unpack("<IHBBQ", declaration)
    return checks.Geometry(*read, 0, stride, count, found[4][7:], struct.unpack_from("<I", found[5])[0], checks.numbers("I", found[5][4:]))


def take_in(hall, system, graphics, va):
    """The whole walk comes before the result, which is judged with the counts and strides read."""
    models = []
    for written_model, geometries in read_models({"system": system, "graphics": graphics}, va):
        binding, mask = struct.unpack_from("<IH", written_model, 6)
        models.append(checks.Model(binding, mask, [], [taken_geometry(*geometry) for geometry in geometries]))
    if any(g is None for model in models for g in model.geometries):
        raise Refused(11)
    models = [model._replace(mapping=[g.shader for g in model.geometries]) for model in models]
    check = checks.first_failing(models)
    if check:
        raise Refused(check)
    return held_models(models)


def answered(call, arguments, lent, n):
    """The hall after a call on the first n of the bytes lent."""
    check = checks.verdict(lent, n)
    if check:
        raise Refused(check)
    hall = call(held_hall(lent, n), *arguments)
    check = checks.first_failing(listed_hall(hall))
    if check:
        raise Refused(check)
    if length_of(hall) > len(lent):
        raise Refused(24, length_of(hall))
    return hall


def rewritten(lent, n, hall):
    """The bytes lent, after an accepted call: zeros from the new to a longer old n."""
    new = written(hall)
    return new + bytes(max(n - len(new), 0)) + lent[max(n, len(new)) :]


# ---- images


class Image:
    """Parts one behind the other, each at a multiple of 16, all zeros until something is put there."""

    def __init__(self):
        self.data = bytearray()

    def part(self, size):
        """The place of so many bytes."""
        at = len(self.data)
        self.data += bytes(checks.padded(size))
        return at

    def put(self, at, *fields):
        for offset, form, value in fields:
            struct.pack_into("<" + form, self.data, at + offset, value)

    def put_bytes(self, at, data):
        self.data[at : at + len(data)] = data


def address(at, count=1):
    """An empty list has pointer 0."""
    return SYSTEM + at if count else 0


def put_geometry(out, g):
    """The place of its block."""
    count, indices = len(g.data) // g.stride, len(g.indices)
    block, vertex_block, declaration, data, index_block, items = [out.part(size) for size in (0x98, 0x80, 16, len(g.data), 0x60, 2 * indices)]
    out.put(block, (0x18, "Q", address(vertex_block)), (0x38, "Q", address(index_block)))
    out.put(block, (0x58, "I", indices), (0x5C, "I", indices // 3), (0x60, "H", count), (0x70, "H", g.stride))
    out.put(vertex_block, (0x08, "H", g.stride), (0x10, "Q", address(data)), (0x18, "I", count), (0x30, "Q", address(declaration)))
    out.put_bytes(declaration, declaration_bytes(*g.declaration))
    out.put_bytes(data, g.data)
    out.put(index_block, (0x08, "I", indices), (0x10, "Q", address(items)))
    out.put_bytes(items, struct.pack("<%dH" % indices, *g.indices))
    return block


def put_model(out, model):
    count = len(model.geometries)
    block, pointers, mapping = out.part(0x30), out.part(8 * count), out.part(2 * count)
    out.put(block, (0x08, "Q", address(pointers, count)), (0x10, "H", count), (0x20, "Q", address(mapping, count)))
    out.put(block, (0x28, "I", model.binding), (0x2C, "H", model.mask))
    for number, g in enumerate(model.geometries):
        out.put(mapping, (2 * number, "H", g.shader))
        out.put(pointers, (8 * number, "Q", address(put_geometry(out, g))))
    return block


def image(hall):
    """The system section that save writes."""
    out, count = Image(), len(hall)
    header, pointers = out.part(16), out.part(8 * count)
    out.put(header, (0, "Q", address(pointers, count)), (8, "H", count), (10, "H", count))
    for number, model in enumerate(hall):
        out.put(pointers, (8 * number, "Q", address(put_model(out, model))))
    return bytes(out.data)


def saved(lent, n, room):
    """The image of the hall in the first n of the bytes lent."""
    check = checks.verdict(lent, n)
    if check:
        raise Refused(check)
    out = image(held_hall(lent, n))
    if len(out) > room:
        raise Refused(20, len(out))
    return out


# ---- finding


def model_place(hall, model):
    return length_of(hall[:model]) if model < len(hall) else None


def geometry_places(hall, model, geometry):
    """Where the model's record and the geometry's four begin."""
    if model >= len(hall) or geometry >= len(hall[model].geometries):
        return None
    start, held = length_of(hall[:model]), hall[model].geometries
    at = start + model_length(hall[model]) + sum(geometry_length(g) for g in held[:geometry])
    return [start, at, at + 20, at + 42, at + 42 + 13 + len(held[geometry].data)]
