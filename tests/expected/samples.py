#!/usr/bin/env python3
"""Makes the drawables in samples/. Run it in the repository's root: python3 tests/expected/samples.py

NAME.system and NAME.graphics are a drawable's two sections, with the LOD header at 0x50000000; a graphics section without bytes is not written.
  shoebox   a small concert hall, 20 x 32 x 14 m, z up: shell, seats, balcony, reflectors. All its counts agree.
  layouts   several models, the four layouts of vertices, both forms of indices, packed numbers; a model and a geometry pointer that are null.
  damaged   the shell, a balcony whose block says one triangle less than its index list holds, and other counts that disagree."""
import os
import struct

from blocks import declaration_bytes, gen9_block, legacy_block
from rows import GRAPHICS, SYSTEM

# flags and types of declarations: semantic's number, type's number
POSITION, WEIGHTS, BLEND, NORMAL, COLOUR, TEXTURE, TANGENT = 0, 1, 2, 3, 4, 6, 14
HALF2, FLOAT, HALF4, FLOAT2, FLOAT3, FLOAT4, UBYTE4, COLOUR4, SNORM4 = 1, 2, 3, 5, 6, 7, 8, 9, 10
SIZES = {HALF2: 4, FLOAT: 4, HALF4: 8, FLOAT2: 8, FLOAT3: 12, FLOAT4: 16, UBYTE4: 4, COLOUR4: 4, SNORM4: 4}


class Writer:
    """A drawable's sections. The header is written last, into the 16 bytes that are kept for it; blocks start at multiples of 16."""

    def __init__(self):
        self.system, self.graphics = bytearray(16), bytearray()

    def put(self, data, graphics=False):
        section, base = (self.graphics, GRAPHICS) if graphics else (self.system, SYSTEM)
        at = len(section)
        section += data + bytes(-len(data) % 16)
        return base + at

    def numbers(self, form, values, graphics=False):
        return self.put(struct.pack("<%d%s" % (len(values), form), *values), graphics) if values else 0

    def block(self, size, fields):
        raw = bytearray(size)
        for at, form, value in fields:
            struct.pack_into("<" + form, raw, at, value)
        return self.put(bytes(raw))

    def model(self, geometries, shaders, binding=0, mask=0xFF):
        fields = [(0x08, "Q", self.numbers("Q", geometries)), (0x10, "H", len(geometries)), (0x20, "Q", self.numbers("H", shaders))]
        return self.block(0x30, fields + [(0x28, "I", binding), (0x2C, "H", mask)])

    def geometry(self, vertex_block, index_block, indices, vertices, stride, triangles=None, inline=0):
        fields = [(0x18, "Q", vertex_block), (0x38, "Q", index_block), (0x58, "I", indices), (0x5C, "I", indices // 3 if triangles is None else triangles)]
        return self.block(0x98, fields + [(0x60, "H", vertices), (0x70, "H", stride), (0x78, "Q", inline)])

    def declaration(self, components):
        flags = sum(1 << semantic for semantic, _ in components)
        types = sum(kind << 4 * semantic for semantic, kind in components)
        return self.put(declaration_bytes(flags, stride_of(components), 0, len(components), types))

    def short_indices(self, indices, graphics=False):
        return self.block(0x60, [(0x08, "I", len(indices)), (0x10, "Q", self.numbers("H", indices, graphics))])

    def sized_indices(self, indices, width, graphics=False):
        pointer = self.numbers({2: "H", 4: "I"}[width], indices, graphics)
        return self.block(0x60, [(0x08, "I", len(indices)), (0x0C, "H", width), (0x18, "Q", pointer)])

    def store(self, name, models):
        self.system[:16] = struct.pack("<QHHI", self.numbers("Q", models), len(models), len(models), 0)
        for section, data in [("system", self.system), ("graphics", self.graphics)]:
            path = "samples/%s.%s" % (name, section)
            if data:
                with open(path, "wb") as out:
                    out.write(data)
            elif os.path.exists(path):
                os.remove(path)
        print("%s: %d bytes of system, %d of graphics" % (name, len(self.system), len(self.graphics)))


def stride_of(components):
    return sum(SIZES[kind] for _, kind in components)


# ---- surfaces: vertices as (position, normal, texture coordinates), and triangles


class Mesh:
    def __init__(self):
        self.vertices, self.indices = [], []

    def patch(self, corner, across, along, columns=1, rows=1):
        """A flat patch of triangles from a corner, seen from the side to which across x along points."""
        normal = cross(across, along)
        length = sum(n * n for n in normal) ** 0.5
        normal = tuple(n / length for n in normal)
        first = len(self.vertices)
        for row in range(rows + 1):
            for column in range(columns + 1):
                u, v = column / columns, row / rows
                position = tuple(c + u * a + v * b for c, a, b in zip(corner, across, along))
                self.vertices.append((position, normal, (u, v)))
        for row in range(rows):
            for column in range(columns):
                a = first + row * (columns + 1) + column
                b, c, d = a + 1, a + columns + 1, a + columns + 2
                self.indices += [a, b, d, a, d, c]
        return self


def cross(a, b):
    return a[1] * b[2] - a[2] * b[1], a[2] * b[0] - a[0] * b[2], a[0] * b[1] - a[1] * b[0]


WIDTH, LENGTH, HEIGHT = 20.0, 32.0, 14.0
STONE, PLASTER, OAK, CUSHION, GLASS = range(5)
SURFACE = [(POSITION, FLOAT3), (NORMAL, FLOAT3), (TEXTURE, FLOAT2)]


def floor():
    return Mesh().patch((0, 0, 0), (WIDTH, 0, 0), (0, LENGTH, 0), 5, 8)


def walls():
    mesh = Mesh()
    mesh.patch((0, 0, 0), (0, LENGTH, 0), (0, 0, HEIGHT), 8, 2)
    mesh.patch((WIDTH, LENGTH, 0), (0, -LENGTH, 0), (0, 0, HEIGHT), 8, 2)
    mesh.patch((WIDTH, 0, 0), (-WIDTH, 0, 0), (0, 0, HEIGHT), 4, 2)
    return mesh.patch((0, LENGTH, 0), (WIDTH, 0, 0), (0, 0, HEIGHT), 4, 2)


def ceiling():
    return Mesh().patch((0, LENGTH, HEIGHT), (WIDTH, 0, 0), (0, -LENGTH, 0), 5, 4)


def stage():
    mesh = Mesh().patch((3, 1, 1), (14, 0, 0), (0, 7, 0), 4, 2)
    return mesh.patch((3, 8, 1), (14, 0, 0), (0, 0, -1), 4, 1)


def seats():
    mesh = Mesh()
    for row in range(10):
        mesh.patch((2, 10.5 + 1.2 * row, 0.45), (16, 0, 0), (0, 0.5, 0), 2, 1)
        mesh.patch((2, 11.0 + 1.2 * row, 0.45), (16, 0, 0), (0, 0.1, 0.5), 2, 1)
    return mesh


def balcony():
    mesh = Mesh().patch((0, 25, 6), (WIDTH, 0, 0), (0, 7, 0.8), 5, 2)
    mesh.patch((0, 32, 5.6), (WIDTH, 0, 0), (0, -7, 0), 5, 2)
    return mesh.patch((0, 25, 5.6), (WIDTH, 0, 0), (0, 0, 1.4), 5, 1)


def reflectors():
    mesh = Mesh()
    for across in range(3):
        for along in range(2):
            mesh.patch((3 + 5 * across, 5.0 + 4 * along, 10.0 + along * 0.5), (0, 3.2, 0.6), (4, 0, 0))
    return mesh


# ---- vertices as bytes


def half(value):
    return struct.pack("<e", value)


def component_bytes(semantic, kind, vertex):
    position, normal, texture = vertex
    values = {POSITION: position + (1.0,), NORMAL: normal + (0.0,), TEXTURE: texture + (0.0, 0.0), TANGENT: (1.0, 0.0, 0.0, 1.0), WEIGHTS: (1.0, 0.0, 0.0, 0.0)}
    if kind in (HALF2, HALF4):
        return b"".join(half(value) for value in values[semantic][: SIZES[kind] // 2])
    if kind == SNORM4:
        return struct.pack("<4b", *(int(value * 127) for value in values[semantic]))
    if kind in (UBYTE4, COLOUR4):
        return bytes({BLEND: (2, 0, 0, 0), COLOUR: (200, 180, 140, 255), WEIGHTS: (255, 0, 0, 0)}[semantic])
    return struct.pack("<%df" % (SIZES[kind] // 4), *values[semantic][: SIZES[kind] // 4])


def mesh_bytes(mesh, components):
    return b"".join(component_bytes(semantic, kind, vertex) for vertex in mesh.vertices for semantic, kind in components)


def plain(w, mesh, triangles=None, stored=None, indices=None):
    """A geometry in the first layout, with all numbers as they should be but for those given."""
    stride, count = stride_of(SURFACE), len(mesh.vertices)
    block = w.put(legacy_block(stride, count, w.put(mesh_bytes(mesh, SURFACE)), 0, w.declaration(SURFACE)))
    held = w.short_indices(mesh.indices)
    return w.geometry(block, held, len(mesh.indices) if indices is None else indices, count if stored is None else stored, stride, triangles)


def shoebox():
    w = Writer()
    shell = [plain(w, mesh) for mesh in (floor(), walls(), ceiling())]
    fittings = [plain(w, mesh) for mesh in (stage(), seats(), balcony(), reflectors())]
    w.store("shoebox", [w.model(shell, [STONE, PLASTER, PLASTER]), w.model(fittings, [OAK, CUSHION, OAK, GLASS])])


def layouts():
    w = Writer()
    # Legacy, in the graphics section, packed; indices of two bytes behind the first pointer
    packed = [(POSITION, FLOAT3), (WEIGHTS, COLOUR4), (BLEND, UBYTE4), (NORMAL, SNORM4), (COLOUR, COLOUR4), (TEXTURE, HALF2), (TANGENT, FLOAT4)]
    mesh, stride = balcony(), stride_of(packed)
    data = w.put(mesh_bytes(mesh, packed), True)
    legacy = w.put(legacy_block(stride, len(mesh.vertices), data, 0, w.declaration(packed)))
    first = w.geometry(legacy, w.short_indices(mesh.indices, True), len(mesh.indices), len(mesh.vertices), stride)
    # LegacyData2: the first pointer leads nowhere. Indices of four bytes behind the second
    halves = [(POSITION, HALF4), (NORMAL, FLOAT4), (TEXTURE, FLOAT2)]
    mesh, stride = reflectors(), stride_of(halves)
    data = w.put(mesh_bytes(mesh, halves))
    second_block = w.put(legacy_block(stride, len(mesh.vertices), 0, data, w.declaration(halves)))
    second = w.geometry(second_block, w.sized_indices(mesh.indices, 4), len(mesh.indices), len(mesh.vertices), stride)
    # Gen9, without a declaration: positions. Its own vertex count is 0, so the buffer's is taken. Indices of two bytes behind the second pointer
    mesh = floor()
    positions = [(POSITION, FLOAT3)]
    gen9 = w.put(gen9_block(12, len(mesh.vertices), w.put(mesh_bytes(mesh, positions), True)))
    third = w.geometry(gen9, w.sized_indices(mesh.indices, 2, True), len(mesh.indices), 0, 12)
    # the geometry's own pointer
    mesh = stage()
    inline = w.put(mesh_bytes(mesh, positions))
    fourth = w.geometry(0, w.short_indices(mesh.indices), len(mesh.indices), len(mesh.vertices), 12, None, inline)
    models = [w.model([first, second], [OAK, GLASS], 0x02000100, 0x0F), 0, w.model([0, third, fourth], [9, STONE, OAK], 0x05000000), w.model([], [])]
    w.store("layouts", models)


def damaged():
    w = Writer()
    rear, side = balcony(), ceiling()
    whole = len(rear.indices) // 3
    geometries = [
        plain(w, floor()),
        # the rear balcony's block says one triangle less than its list holds
        plain(w, rear, triangles=whole - 1, indices=3 * (whole - 1)),
        # a vertex count that is not the buffer's
        plain(w, side, stored=len(side.vertices) - 1),
        # an index block whose indices lie beyond the section
        w.geometry(0, w.block(0x60, [(0x08, "I", 36), (0x10, "Q", SYSTEM + 0x03000000)]), 36, 14, 32),
    ]
    w.store("damaged", [w.model(geometries, [STONE, OAK, PLASTER, OAK])])


os.makedirs("samples", exist_ok=True)
shoebox()
layouts()
damaged()
