"""Drawables: a reader written from document 01, a writer, and drawables made at random."""
import collections
import functools
import itertools
import struct

from blocks import declaration_bytes, field, find_buffer, gen9_block, legacy_block, record
from rows import GRAPHICS, SYSTEM, U64, locate, pattern

BASES = {"system": SYSTEM, "graphics": GRAPHICS}
LIMIT = 67108864
Drawable = collections.namedtuple("Drawable", "system graphics va")


# ---- reading, from document 01


class Refused(Exception):
    def __init__(self, number, needed=0):
        self.number, self.needed = number, needed


def resolve(sections, va, count):
    place = locate(sections, va, count)
    return bytes(sections[place[0]][place[1] : place[1] + count]) if place else None


def number_list(sections, pointer, count, width):
    """A list with count 0 or pointer 0 is empty; nothing where it does not resolve."""
    if count == 0 or pointer == 0:
        return []
    raw = resolve(sections, pointer, count * width)
    return None if raw is None else struct.unpack("<%d%s" % (count, {2: "H", 4: "I", 8: "Q"}[width]), raw)


def indices_of(sections, raw):
    """The indices of an index block, none where neither form serves."""
    count = field(raw, 0x08, 4)
    for width, pointer in [(2, field(raw, 0x10, 8)), (field(raw, 0x0C, 2), field(raw, 0x18, 8))]:
        if pointer and count and width in (2, 4):
            found = number_list(sections, pointer, count, width)
            if found is not None:
                return count, found
    return count, []


def read_geometry(sections, va):
    """The body of record 2 behind the shader id, and records 3 to 5."""
    raw = resolve(sections, va, 0x98)
    if raw is None:
        raise Refused(6)
    stored, stride = field(raw, 0x60, 2), field(raw, 0x70, 2)
    buffer = find_buffer(sections, field(raw, 0x18, 8), field(raw, 0x78, 8), stored, stride)
    vertices = stored if stored else min(buffer[2], 65535) if buffer else 0
    parts = b""
    if buffer:
        layout, buffer_stride, count, pointer, _, _, declared = buffer
        if declared:
            parts += record(3, declaration_bytes(*declared))
        parts += record(4, struct.pack("<BHI", layout, buffer_stride, count) + resolve(sections, pointer, count * buffer_stride))
    block = resolve(sections, field(raw, 0x38, 8), 0x60)
    if block is not None:
        count, indices = indices_of(sections, block)
        parts += record(5, struct.pack("<I%dI" % len(indices), count, *indices))
    return struct.pack("<IIHH", field(raw, 0x58, 4), field(raw, 0x5C, 4), vertices, stride), parts


def read_model(sections, va):
    """Record 1, the geometries' pointers, and the mapping."""
    raw = resolve(sections, va, 0x30)
    if raw is None:
        raise Refused(3)
    count = field(raw, 0x10, 2)
    geometries = number_list(sections, field(raw, 0x08, 8), count, 8)
    if geometries is None:
        raise Refused(4)
    mapping = number_list(sections, field(raw, 0x20, 8), count, 2) or []
    return record(1, raw[0x28:0x2E] + struct.pack("<%dH" % len(mapping), *mapping)), geometries, mapping


def read_models(sections, va):
    """Each model's record 1, and record 2 and records 3 to 5 of each of its geometries. Equal ones are one object: pointers may be the same thousands
    of times."""
    if any(len(section) > LIMIT for section in sections.values()):
        raise Refused(1)
    header = resolve(sections, va, 16)
    if header is None:
        return []
    pointer, count, capacity = struct.unpack_from("<QHH", header)
    models = number_list(sections, pointer, count if count else capacity, 8)
    if models is None:
        raise Refused(2)
    model_at = functools.lru_cache(None)(lambda va: read_model(sections, va))
    geometry_at = functools.lru_cache(None)(lambda va: read_geometry(sections, va))
    out, before = [], 0
    for model in models:
        if model == 0:
            continue
        written, geometries, mapping = model_at(model)
        out.append((written, []))
        for position, geometry in enumerate(geometries):
            if geometry == 0:
                continue
            if before == 16384:
                raise Refused(5)
            before += 1
            numbers, parts = geometry_at(geometry)
            shader = mapping[position] if position < len(mapping) else 0
            out[-1][1].append((record(2, struct.pack("<H", shader) + numbers), parts))
    return out


def pieces(sections, va):
    """The list's bytes, in pieces."""
    return [piece for written, geometries in read_models(sections, va) for piece in [written, *itertools.chain(*geometries)]]


# ---- writing drawables


class Writer:
    """Blocks one behind the other, in the section `home`, those whose names are in `away` in the other one. Unnamed bytes of blocks are no zeros."""

    def __init__(self, home="system", away=()):
        self.sections = {"system": bytearray(), "graphics": bytearray()}
        self.home, self.away = home, set(away)

    def put(self, name, data):
        other = "graphics" if self.home == "system" else "system"
        section = other if name in self.away else self.home
        at = BASES[section] + len(self.sections[section])
        self.sections[section] += data
        return at

    def block(self, name, size, fields):
        raw = bytearray(pattern(size, 77))
        for at, form, value in fields:
            struct.pack_into("<" + form, raw, at, value)
        return self.put(name, bytes(raw))

    def declaration(self, flags=1, stride=12, unknown=0, count=1, types=6):
        return self.put("declaration", declaration_bytes(flags, stride, unknown, count, types))

    def data(self, size=36, seed=3):
        return self.put("data", pattern(size, seed))

    def numbers(self, name, form, values):
        return self.put(name, b"".join(struct.pack("<" + form, value) for value in values))

    def index_block(self, count, legacy=0, size=0, sized=0):
        return self.block("index block", 0x60, [(0x08, "I", count), (0x10, "Q", legacy), (0x0C, "H", size), (0x18, "Q", sized)])

    def geometry(self, vertex_block=0, index_block=0, indices=3, triangles=1, vertices=3, stride=12, inline=0):
        fields = [(0x18, "Q", vertex_block), (0x38, "Q", index_block), (0x58, "I", indices), (0x5C, "I", triangles)]
        return self.block("geometry", 0x98, fields + [(0x60, "H", vertices), (0x70, "H", stride), (0x78, "Q", inline)])

    def model(self, geometries, count=None, mapping=0, binding=0x01020304, mask=0x0506):
        """geometries: addresses, or the address of a list that may be anything."""
        if isinstance(geometries, list):
            count = len(geometries) if count is None else count
            geometries = self.numbers("geometries", "Q", geometries) if geometries else 0
        fields = [(0x08, "Q", geometries), (0x10, "H", count), (0x20, "Q", mapping), (0x28, "I", binding), (0x2C, "H", mask)]
        return self.block("model", 0x30, fields)

    def mapping(self, shaders):
        return self.numbers("mapping", "H", shaders)

    def header(self, models, count=None, capacity=None):
        if isinstance(models, list):
            count = len(models) if count is None else count
            models = self.numbers("models", "Q", models) if models else 0
        capacity = count if capacity is None else capacity
        return self.put("header", struct.pack("<QHHI", models, count, capacity, 0xEEEEEEEE))

    def drawable(self, va):
        return Drawable(bytes(self.sections["system"]), bytes(self.sections["graphics"]), va)

    def end(self, section):
        return BASES[section] + len(self.sections[section])


NAMES = ["header", "models", "model", "geometries", "mapping", "geometry", "vertex block", "declaration", "data", "index block", "indices"]


def triangle(w):
    """The geometry of the test vector: three Float3 positions, three indices."""
    vertex_block = w.put("vertex block", legacy_block(12, 3, w.data(), 0, w.declaration()))
    return w.geometry(vertex_block, w.index_block(3, w.numbers("indices", "H", [0, 1, 2])))


def vector(w=None):
    """One model, one geometry, three Float3 positions, three indices."""
    w = w or Writer()
    return w.drawable(w.header([w.model([triangle(w)], mapping=w.mapping([0]))]))


# addresses that never resolve: nothing's, of no section, beyond every section, with upper bits set. 0x70000000 is in graphics
NOWHERE = [1, 0x30000000, 0x40000000, SYSTEM - 1, 0x5FFFFFFF, 0x6FFFFFFF, 0x70000000, 0x7FFFFFFF, (1 << 32) + SYSTEM, (1 << 63) + GRAPHICS, U64 - 1]


# ---- at random


def random_vertex_block(w, pick, addresses):
    stride, count = pick.choice([4, 8, 12, 12, 16, 1]), pick.randrange(1, 5)
    data = pick.choice([w.data(stride * count - (pick.random() < 0.1), pick.randrange(256)), pick.choice(addresses)])
    info = pick.choice([w.declaration(pick.getrandbits(32), stride, pick.randrange(256), pick.randrange(256), pick.getrandbits(64)), 0, pick.choice(addresses)])
    layout = pick.randrange(4)
    if layout == 3:
        return pick.choice([0, 0x40000000])
    blocks = [legacy_block(stride, count, data, 0, info), legacy_block(stride, count, 0, data, info), gen9_block(stride, count, data, info)]
    return w.put("vertex block", blocks[layout])


def random_index_block(w, pick, addresses):
    count = pick.randrange(7)
    size = pick.choice([2, 4])
    items = pick.choice([w.numbers("indices", "HI"[size == 4], [pick.randrange(9) for _ in range(count)]), pick.choice(addresses)])
    forms = [(items, 0, 0), (0, size, items), (0x40000000, size, items), (items, size, items), (0, 3, items), (0, 0, 0)]
    return pick.choice([w.index_block(count, *pick.choice(forms)), w.index_block(count, *forms[0]), 0])


def random_drawable(pick):
    w = Writer(pick.choice(["system", "graphics"]), pick.sample(NAMES, pick.randrange(5)))
    addresses, geometries = [SYSTEM, GRAPHICS, SYSTEM + 8, 0], [0]
    for _ in range(pick.randrange(1, 5)):
        vertex_block = random_vertex_block(w, pick, addresses)
        index_block = random_index_block(w, pick, addresses)
        geometry = w.geometry(vertex_block, index_block, pick.randrange(9), pick.randrange(4), pick.choice([0, 0, 1, 2, 3]), pick.choice([0, 4, 12]), pick.choice(addresses))
        geometries.append(geometry)
        addresses += [vertex_block, index_block, geometry]
    models = [0]
    for _ in range(pick.randrange(1, 4)):
        members = [pick.choice(geometries) for _ in range(pick.randrange(5))]
        mapping = pick.choice([w.mapping([pick.getrandbits(16) for _ in members]), 0, pick.choice(addresses)])
        models.append(w.model(members, mapping=mapping, binding=pick.getrandbits(32), mask=pick.getrandbits(16)))
    members = models[1:] + [pick.choice(models) for _ in range(pick.randrange(3))]
    va = w.header(members, pick.choice([None, 0, 1]), len(members))
    return [w.sections["system"], w.sections["graphics"], va]


def damage(pick, drawable):
    """Bytes changed, a pointer put anywhere, a section cut short, or another address."""
    kind = pick.randrange(8)
    section = pick.choice([half for half in drawable[:2] if half] or [bytearray(8)])
    if kind < 3:
        section[pick.randrange(len(section))] = pick.choice([0, 1, 0x50, 0x60, 0x70, 255, pick.randrange(256)])
    elif kind < 5 and len(section) >= 8:
        target = pick.choice([SYSTEM + pick.randrange(len(drawable[0]) + 9), GRAPHICS + pick.randrange(len(drawable[1]) + 9), 0, pick.choice(NOWHERE)])
        struct.pack_into("<Q", section, pick.randrange(len(section) - 7), target)
    elif kind == 5:
        del section[-pick.choice([1, 1, 2, 8, 40]) :]
    elif kind == 6 and pick.random() < 0.5:
        drawable[2] = max(drawable[2] + pick.choice([-8, -1, 1, 1 << 28, -(1 << 28), 1 << 32]), 0)
