#!/usr/bin/env python3
"""Makes the rows that crates/layouts_test runs and the lines that it must print, from document 01 and the Rust's vertex.rs and
blocks/vertex.rs, not from the program's output. Run it in the repository's root: python3 tests/expected/layouts.py

It writes crates/layouts_test/stdin, rows of seven little-endian u64 (what is called, what with, and how many bytes follow) and
those bytes, and crates/layouts_test/stdout. Floats are carried as their bits. They become Python's floats only where they are no
NaN: struct's 'e' and 'f' are then exact, a product of 24 and 8 digits or a quotient of such numbers is rounded to 32 bits as if it
was never rounded before, and NaNs are handled by hand."""
import random
import struct

from blocks import LAYOUTS, declaration_bytes, declaration_fields, field, find_buffer, gen9_block, legacy_block
from rows import GRAPHICS, SYSTEM, U64, checksum, hexed, packed_with, pattern, store

rows, lines = [], []


def row(kind, numbers, line, data=b""):
    assert len(data) <= 512
    rows.append(packed_with(kind, numbers, data))
    lines.append(line)


# ---- types and declarations

TYPES = [("Nothing", 0, 0), ("Half2", 4, 2), ("Float", 4, 1), ("Half4", 8, 4), ("FloatUnknown", 0, 0), ("Float2", 8, 2)]
TYPES += [("Float3", 12, 3), ("Float4", 16, 4), ("UByte4", 4, 4), ("Colour", 4, 4), ("Rgba8Snorm", 4, 4)]
SEMANTICS = "Position BlendWeights BlendIndices Normal Colour0 Colour1 TexCoord0 TexCoord1 TexCoord2 TexCoord3 TexCoord4 TexCoord5".split()
SEMANTICS += "TexCoord6 TexCoord7 Tangent Binormal".split()
ALL = 0xFFFF
# the nibbles 0 to 15, each at its own place
EVERY_TYPE = 0xFEDCBA9876543210
# CodeWalker's GTAV1
GTAV1 = 0x7755555555996996


def name_of(nibble):
    return TYPES[nibble][0] if nibble < len(TYPES) else "Unknown %x" % nibble


def size_of(nibble):
    return TYPES[nibble][1] if nibble < len(TYPES) else 0


def count_of(nibble):
    return TYPES[nibble][2] if nibble < len(TYPES) else 0


def semantic_of(index):
    return SEMANTICS[index] if index < len(SEMANTICS) else "Unknown %x" % index


def components_of(flags, types):
    """Index, nibble and offset of each component."""
    found, offset = [], 0
    for index in range(16):
        if flags >> index & 1:
            nibble = types >> 4 * index & 15
            found.append((index, nibble, offset))
            offset += size_of(nibble)
    return found


def component_line(component):
    index, nibble, offset = component
    return " %s %x %s" % (semantic_of(index), index, name_of(nibble)) + hexed(offset, size_of(nibble), count_of(nibble))


def type_rows():
    for nibble in [*range(18), 0x1A, 0x80, 255]:
        row(0, [nibble], "type" + hexed(nibble) + ": " + name_of(nibble) + hexed(nibble, size_of(nibble), count_of(nibble)))
    for index in [*range(18), 255]:
        row(1, [index], "semantic" + hexed(index) + ": " + semantic_of(index))


def flags_and_types():
    """All flags, none, those above bit 15, single ones; every type, sizes of 0 in between."""
    for types in [EVERY_TYPE, GTAV1, 0x7777777777777777, 0x6F6B646064606F06, U64 - 1, 0, 6]:
        for flags in [ALL, 0, 0xFFFF0000, 0xFFFFFFFF, 0x10000, 0x5555, 0xAAAA, 0x40FB, 1, 0x8000, 0x80000001]:
            yield flags, types
    for index in range(16):
        yield 1 << index, EVERY_TYPE
        yield ALL - (1 << index), GTAV1


def declaration_rows():
    for flags, types in flags_and_types():
        mask = sum(15 << 4 * index for index in range(16) if flags >> index & 1)
        row(2, [flags, types], "id" + hexed(flags, types) + ":" + hexed(types & mask))
        found = components_of(flags, types)
        line = "".join("," + component_line(component) for component in found)
        row(3, [flags, types], "components" + hexed(flags, types) + ":" + hexed(len(found)) + line)
    for flags, types in [(ALL, EVERY_TYPE), (0, EVERY_TYPE), (0xFFFF0000, GTAV1), (0x40FB, GTAV1), (0xFFFFFFFF, 0x6F6B646064606F06)]:
        found = components_of(flags, types)
        for index in [*range(18), 255, 256, 1 << 32, 1 << 63, U64 - 1]:
            line = "".join(component_line(component) for component in found if component[0] == index)
            row(4, [flags, types, index], "component" + hexed(flags, types, index) + ":" + (line or " missing"))
    for stride in [0, 11, 12, 65535]:
        row(7, [stride], "position_only" + hexed(stride) + ":" + hexed(1, stride, 0, 1, 6))


def stored_rows():
    for size in [0, 1, 15, 16, 17, 40]:
        data = pattern(size, 129)
        # whole, and with its end further and further outside
        for at in sorted({0, 1, *[n for n in range(size - 17, size + 2) if n >= 0], 1 << 63, U64 - 16, U64 - 8, U64 - 1}):
            row(5, [at], "read" + hexed(at) + ":" + hexed(*declaration_fields(data, at)), data)
    for fields in [(0x81828384, 0x8586, 0x87, 0x88, 0x898A8B8C8D8E8F90), (1, 12, 0, 1, 6)]:
        for size in [0, 15, 16, 17, 64]:
            for at in sorted({0, 1, *[n for n in range(size - 17, size + 2) if n >= 0], 1 << 63, U64 - 16, U64 - 1}):
                whole = bytearray(pattern(64, 129))
                fits = at + 16 <= size
                if fits:
                    whole[at : at + 16] = declaration_bytes(*fields)
                line = (" done " if fits else " refused ") + whole.hex()
                # the declaration stands behind the buffer's 64 bytes, and both are read from there
                row(6, [at, size], "write" + hexed(at, size) + ":" + line, pattern(64, 129) + declaration_bytes(*fields))


# ---- located buffers


def buffer_row(system, graphics, va, pointer=0, count=0, stride=0):
    found = find_buffer({"system": system, "graphics": graphics}, va, pointer, count, stride)
    if found:
        layout, found_stride, found_count, found_pointer, info, place, fields = found
        line = " " + LAYOUTS[layout] + hexed(layout, found_stride, found_count, found_pointer, info) + " %s %x" % place
        line += hexed(*fields) if fields else " absent"
    else:
        line = " not found"
    asked = [len(system), va, pointer, count, stride]
    row(8, asked, "buffer" + hexed(*asked) + ":" + line, system + graphics)


# Behind a block of 0x80 bytes the system section has a declaration at 0x80 and 24 bytes at 0x90; the graphics section has a
# declaration at 0x00 and 24 bytes at 0x10.
DECLARED = declaration_bytes(0x40FB, 0x1234, 5, 9, GTAV1)
TAIL = DECLARED + pattern(24, 65)
IN_SYSTEM, IN_GRAPHICS = SYSTEM + 0x90, GRAPHICS + 0x10
INLINE = (IN_GRAPHICS, 3, 8)


def block_rows(block):
    """With and without a stream of the geometry's own."""
    buffer_row(block + TAIL, TAIL, SYSTEM)
    buffer_row(block + TAIL, TAIL, SYSTEM, *INLINE)


def legacy_rows():
    for place in [IN_SYSTEM, IN_GRAPHICS]:
        for info in [SYSTEM + 0x80, GRAPHICS, 0]:
            block_rows(legacy_block(12, 2, place, 0, info))
            block_rows(legacy_block(12, 2, 0, place, info))
        # ends exactly at the section's end, one byte past, one vertex past
        for at, count, stride in [(0, 2, 12), (0, 3, 8), (0, 24, 1), (0, 1, 24), (1, 1, 23), (1, 1, 24), (1, 2, 12), (0, 1, 25), (0, 3, 12), (24, 1, 1), (23, 1, 1)]:
            block_rows(legacy_block(stride, count, place + at, 0, GRAPHICS))
            block_rows(legacy_block(stride, count, 0, place + at, GRAPHICS))
    # both pointers good: the first is taken; the first unresolved or not in a section: the second
    block_rows(legacy_block(12, 2, IN_SYSTEM, IN_GRAPHICS, GRAPHICS))
    block_rows(legacy_block(12, 2, IN_GRAPHICS, IN_SYSTEM, GRAPHICS))
    for bad in [IN_SYSTEM + 1, SYSTEM + 168, SYSTEM - 1, 1, 0x40000000, 0x30000000, 0x70000000, (1 << 32) + IN_SYSTEM, U64 - 1]:
        block_rows(legacy_block(12, 2, bad, IN_GRAPHICS, GRAPHICS))
        block_rows(legacy_block(12, 2, bad, bad, GRAPHICS))
    # a zero stride or count, both pointers good
    for stride, count in [(0, 2), (12, 0), (0, 0), (65535, (1 << 32) - 1), (12, (1 << 32) - 1), (65535, 1)]:
        block_rows(legacy_block(stride, count, IN_SYSTEM, IN_GRAPHICS, GRAPHICS))
    # the declaration ends exactly at a section's end, one byte past, and nowhere; count × stride does not decide about it
    for info in [SYSTEM + 168 - 16, SYSTEM + 168 - 15, SYSTEM, GRAPHICS + 24, GRAPHICS + 25, GRAPHICS + 40, 1, 0x40000000, (1 << 32) + SYSTEM, U64 - 1]:
        block_rows(legacy_block(12, 2, IN_SYSTEM, 0, info))
        block_rows(legacy_block(12, 2, 0, IN_SYSTEM, info))


def gen9_rows():
    for place in [IN_SYSTEM, IN_GRAPHICS]:
        for info in [0, GRAPHICS]:
            block_rows(gen9_block(12, 2, place, info))
        for at, count, stride in [(0, 3, 8), (0, 24, 1), (0, 1, 24), (1, 1, 24), (1, 2, 12), (0, 1, 25), (0, 3, 12), (24, 1, 1), (23, 1, 1)]:
            block_rows(gen9_block(stride, count, place + at, GRAPHICS))
    for stride, count, pointer in [(0, 2, IN_SYSTEM), (12, 0, IN_SYSTEM), (12, 2, 0), (65535, (1 << 32) - 1, IN_SYSTEM), (12, 2, (1 << 32) + IN_SYSTEM), (12, 2, 0x30000000)]:
        block_rows(gen9_block(stride, count, pointer, GRAPHICS))
    # Legacy's own two pointers good, but its count is the address' lower half
    block_rows(gen9_block(12, 2, IN_SYSTEM, GRAPHICS, IN_GRAPHICS, IN_GRAPHICS))
    # Gen9's stride and count set too. No block within the limit is good as both: Gen9's pointer has Legacy's count as its lower half
    block = bytearray(legacy_block(2, 12, SYSTEM, SYSTEM, GRAPHICS))
    struct.pack_into("<H", block, 0x0C, 12)
    block_rows(bytes(block))


def inline_rows():
    good = legacy_block(12, 2, IN_SYSTEM, 0, SYSTEM + 0x80)
    streams = [INLINE, (IN_SYSTEM, 2, 12), (IN_GRAPHICS, 24, 1), (IN_GRAPHICS, 25, 1), (IN_GRAPHICS + 1, 1, 24), (0, 3, 8), (IN_GRAPHICS, 0, 8)]
    streams += [(IN_GRAPHICS, 3, 0), (IN_GRAPHICS, (1 << 32) - 1, 65535), (1, 1, 1), (U64 - 1, 1, 1), (SYSTEM, 168, 1), (SYSTEM, 169, 1)]
    # no block: address 0, in no section, one byte short, beyond the end; and a whole block without a layout
    for va in [0, 1, 0x40000000, SYSTEM + 41, SYSTEM + 168, GRAPHICS, (1 << 32) + SYSTEM]:
        for stream in streams:
            buffer_row(good + TAIL, TAIL, va, *stream)
    for stream in streams:
        buffer_row(legacy_block() + TAIL, TAIL, SYSTEM, *stream)
    # a block that ends exactly at its section's end, in either section, and one byte short
    block = legacy_block(8, 3, SYSTEM + 0x10, 0, SYSTEM)
    for stream in [INLINE, (0, 0, 0)]:
        buffer_row(TAIL, block, GRAPHICS, *stream)
        buffer_row(TAIL, block[:-1], GRAPHICS, *stream)
        buffer_row(TAIL, pattern(3, 1) + block, GRAPHICS + 3, *stream)
        buffer_row(TAIL, pattern(3, 1) + block, GRAPHICS + 4, *stream)
        buffer_row(TAIL + block, b"", SYSTEM + 40, *stream)
        buffer_row(TAIL + block[:-1], b"", SYSTEM + 40, *stream)
        buffer_row(b"", b"", SYSTEM, *stream)


# ---- values

ONE = 0x3F800000
SHAPES = ["unsupported", "one", "two", "three", "four", "bytes"]
# zeros, ones, infinities, NaNs quiet and signalling, subnormals, the greatest, and values around colours' and halves' bounds
FLOATS = [0, 0x80000000, ONE, 0xBF800000, 0x7F800000, 0xFF800000, 0x7FC00000, 0x7F800001, 0xFFC12345, 0xFF812345, 1, 0x80000001]
FLOATS += [0x007FFFFF, 0x00800000, 0x7F7FFFFF, 0xFF7FFFFF, 0x3F7FFFFF, 0x3F800001, 0x3F000000, 0xBF000000, 0x3B808081, 0x3B808080]
FLOATS += [0x3F7EFEFF, 0x3F7DFDFE, 0xBF7FFFFF, 0xBF800001, 0x33000000, 0x33000001, 0x477FEFFF, 0x477FF000, 0x3F801000, 0x387FC000]
FLOATS += [0x3C010204, 0x3C010205, 0xBC010205, 0x3F7DFBF8, 0x40000000, 0xC0000000, 0x3EAAAAAB, 0x12345678]
# the same of halves: subnormals, the least normal, infinities, NaNs
HALVES = [0, 0x8000, 1, 0x83FF, 0x0400, 0x3C00, 0xBC00, 0x3800, 0x7BFF, 0xFBFF, 0x7C00, 0xFC00, 0x7C01, 0x7E00, 0xFDAB, 0x3555]


def is_nan(bits):
    return bits & 0x7FFFFFFF > 0x7F800000


def number_of(bits):
    return struct.unpack("<f", struct.pack("<I", bits))[0]


def bits_of(x):
    """Rounded to the nearest float, of two the even one. x is no NaN and not too great."""
    return struct.unpack("<I", struct.pack("<f", x))[0]


def half_to_bits(half):
    """Document 01: a NaN keeps sign and payload bits."""
    if half & 0x7FFF > 0x7C00:
        return (half & 0x8000) << 16 | 0x7F800000 | (half & 0x3FF) << 13
    return bits_of(struct.unpack("<e", struct.pack("<H", half))[0])


def half_of_bits(bits):
    """Document 01: a NaN keeps its sign and upper ten fraction bits, with 0x200 set. struct refuses a finite float whose nearest half is infinite."""
    sign = bits >> 16 & 0x8000
    if is_nan(bits):
        return sign | 0x7C00 | 0x200 | bits >> 13 & 0x3FF
    try:
        return struct.unpack("<H", struct.pack("<e", number_of(bits)))[0]
    except OverflowError:
        return sign | 0x7C00


def snorm_to_bits(byte):
    return bits_of(max((byte - 256 if byte > 127 else byte) / 127, -1.0))


def snorm_of_bits(bits):
    """127 is a float, so that clamping before the product is rounded gives the same."""
    if is_nan(bits):
        return 0
    product = max(min(number_of(bits) * 127.0, 127.0), -127.0)
    return int(number_of(bits_of(product))) % 256


def colour_of(nibble, bits):
    if is_nan(bits):
        return 0
    x = number_of(bits)
    if TYPES[nibble][0] == "Rgba8Snorm":
        # clamped before it is rounded: 0 and 1 are floats
        x = number_of(bits_of(max(min(x * 0.5 + 0.5, 1.0), 0.0)))
    return int(number_of(bits_of(max(min(x, 1.0), 0.0) * 255.0)))


def value_at(nibble, data, at):
    """The shape's name and the floats' bits or the bytes."""
    name, size, count = TYPES[nibble] if nibble < len(TYPES) else ("Unknown", 0, 0)
    raw = data[at : at + size]
    if size == 0:
        return "unsupported", []
    if name in ("UByte4", "Colour"):
        return "bytes", list(raw)
    if name in ("Half2", "Half4"):
        return SHAPES[count], [half_to_bits(field(raw, 2 * i, 2)) for i in range(count)]
    if name == "Rgba8Snorm":
        return SHAPES[count], [snorm_to_bits(byte) for byte in raw]
    return SHAPES[count], [field(raw, 4 * i, 4) for i in range(count)]


def shape_of(nibble):
    if size_of(nibble) == 0:
        return "unsupported"
    return "bytes" if TYPES[nibble][0] in ("UByte4", "Colour") else SHAPES[count_of(nibble)]


def as_vector(value, count):
    shape, items = value
    if shape == "unsupported":
        return [0] * count
    if shape == "bytes":
        return [bits_of(byte / 255) for byte in items][:count]
    return (items + [0, 0, 0, ONE][len(items) :])[:count]


def as_rgba8(nibble, value):
    shape, items = value
    if shape == "bytes":
        return items
    return [colour_of(nibble, bits) for bits in items] if shape == "four" else [255] * 4


def value_line(value):
    return " " + value[0] + hexed(*value[1])


def seen_line(nibble, value):
    vectors = "".join(" vec%d" % n + hexed(*as_vector(value, n)) for n in (2, 3, 4))
    return vectors + " xyz" + hexed(*as_vector(value, 4)[:3]) + " rgba8" + hexed(*as_rgba8(nibble, value))


def seen_rows():
    """Each type with values of its own shape: four floats of the list at a time, or four bytes."""
    for nibble in range(16):
        shape = shape_of(nibble)
        for at in range(0, len(FLOATS), 4) if shape not in ("unsupported", "bytes") else range(3):
            if shape == "bytes":
                raw = [b"\x00\x01\x7f\x80", b"\xff\xfe\x81\x33", b"\x10\x20\x30\x40"][at]
                value = (shape, list(raw))
            elif shape == "unsupported":
                raw, value = pattern(16, at), (shape, [])
            else:
                raw = struct.pack("<4I", *FLOATS[at : at + 4])
                value = (shape, FLOATS[at : at + SHAPES.index(shape)])
            asked = [nibble, SHAPES.index(shape)]
            row(9, asked, "seen" + hexed(*asked) + ": " + name_of(nibble) + value_line(value) + seen_line(nibble, value), raw)
    # a snorm's value from each byte, as a colour; 0x00 gives 127
    nibble = 10
    assert colour_of(nibble, snorm_to_bits(0)) == 127
    for byte in range(0, 256, 4):
        items = [snorm_to_bits(byte + i) for i in range(4)]
        value = ("four", items)
        row(9, [nibble, 4], "seen" + hexed(nibble, 4) + ": " + name_of(nibble) + value_line(value) + seen_line(nibble, value), struct.pack("<4I", *items))


# ---- attributes


def attributes_line(data, stride, count, flags, types, index):
    """The refusal's number, 8 before 9, or 0; then how many attributes, and each."""
    if index >= count:
        return hexed(8, 0)
    base = index * stride
    found = components_of(flags, types)
    if any(size_of(nibble) and base + offset + size_of(nibble) > len(data) for _, nibble, offset in found):
        return hexed(9, 0)
    line = hexed(0, len(found))
    for component in found:
        value = value_at(component[1], data, base + component[2])
        line += "," + component_line(component) + value_line(value) + seen_line(component[1], value)
    return line


def attributes_row(data, stride, count, flags, types, index):
    asked = [stride, count, flags, types, index]
    row(10, asked, "attributes" + hexed(*asked) + ":" + attributes_line(data, *asked), data)


def attribute_rows():
    # position only: stride 11 has vertex 1 end one byte past the data, stride 12 does not
    for stride, size in [(11, 22), (12, 24), (12, 23), (12, 12), (11, 23), (0, 12), (0, 11), (65535, 24)]:
        for index in [0, 1, 2, 3, 1 << 32, U64 - 1]:
            attributes_row(pattern(size, 129), stride, 2, 1, 6, index)
    for count, index in [(0, 0), (0, U64 - 1), (1, 0), (1, 1), ((1 << 32) - 1, (1 << 32) - 2), ((1 << 32) - 1, (1 << 32) - 1)]:
        for types in [6, 0]:
            attributes_row(pattern(24, 129), 65535, count, 1, types, index)
    # every type: inside, ending exactly at the end, one byte short; 8 comes before 9
    for nibble in range(16):
        for size, index in [(32, 0), (32, 1), (15 + size_of(nibble), 1), (16 + size_of(nibble), 1), (0, 0), (0, 2)]:
            attributes_row(pattern(size, 7), 16, 2, 1, nibble, index)
    special_rows()
    # all sixteen flags; those above bit 15; offsets past the stride and the data where the size is 0
    for types in [EVERY_TYPE, GTAV1, 0x7777777777777777, 0xFB40FB40FB40FB40, U64 - 1]:
        total = sum(size_of(types >> 4 * index & 15) for index in range(16))
        for size in [total, total - 1, total + 3, 0]:
            if size >= 0:
                attributes_row(pattern(size, 3), 4, 1, ALL, types, 0)
                attributes_row(pattern(size, 3), 3, 2, 0xFFFFFFFF, types, 1)
    for flags, types in [(3, 0x06), (3, 0xF6), (0x8001, 0x4000000000000006), (7, 0x606), (7, 0x060), (0, 6), (0xFFFF0000, 6)]:
        for size in [0, 11, 12, 13, 24]:
            attributes_row(pattern(size, 200), 4, 1, flags, types, 0)


def special_rows():
    """Bits that arithmetic would change, in each type that holds floats."""
    for nibble in [2, 5, 6, 7]:
        raw = b"".join(struct.pack("<I", bits) for bits in FLOATS)
        size = size_of(nibble)
        for index in range(len(raw) // size):
            attributes_row(raw, size, len(raw) // size, 1, nibble, index)
    for nibble in [1, 3]:
        raw = b"".join(struct.pack("<H", half) for half in HALVES)
        size = size_of(nibble)
        for index in range(len(raw) // size):
            attributes_row(raw, size, len(raw) // size, 0x8000, nibble << 60, index)
    for nibble in [8, 9, 10]:
        for start in [0, 0x7C, 0x80, 0xFC]:
            attributes_row(bytes(range(start, start + 4)), 4, 1, 0x20, nibble << 20, 0)


# ---- unified vertices

# bytes of a long output: 147 vertices of 84 bytes, and 4 more
MANY = 12352


def unified_vertex(data, base, flags, types):
    """84 bytes: the Rust's fields in order, each with its default."""
    position, normal, tangent, weights = [0] * 3, [0, 0, ONE], [ONE, 0, 0, ONE], [0] * 4
    colours, texcoords, indices = [[255] * 4, [255] * 4], [[0, 0], [0, 0]], [0] * 4
    for index, nibble, offset in components_of(flags, types):
        value = value_at(nibble, data, base + offset)
        name = semantic_of(index)
        if name == "Position":
            position = as_vector(value, 3)
        elif name == "Normal":
            normal = as_vector(value, 3)
        elif name in ("Colour0", "Colour1"):
            colours[index - 4] = as_rgba8(nibble, value)
        elif name in ("TexCoord0", "TexCoord1"):
            texcoords[index - 6] = as_vector(value, 2)
        elif name == "Tangent":
            tangent = as_vector(value, 4)
        elif name == "BlendWeights":
            weights = as_vector(value, 4)
        elif name == "BlendIndices" and nibble == 8:
            indices = value[1]
    floats = lambda items: b"".join(struct.pack("<I", bits) for bits in items)
    written = floats(position) + floats(normal) + bytes(colours[0]) + bytes(colours[1]) + floats(texcoords[0]) + floats(texcoords[1])
    written += floats(tangent) + floats(weights) + bytes(indices)
    assert len(written) == 84
    return written


def unified_line(data, stride, count, flags, types, room, whole):
    """The answer, and the output `whole` after the call."""
    sizes = [(offset, size_of(nibble)) for _, nibble, offset in components_of(flags, types) if size_of(nibble)]
    needed = 84 * count
    # the last vertex starts last
    if count and any((count - 1) * stride + offset + size > len(data) for offset, size in sizes):
        return " outside", whole
    if needed > room:
        return " needs" + hexed(needed), whole
    written = b"".join(unified_vertex(data, index * stride, flags, types) for index in range(count))
    return " written" + hexed(needed), written + whole[needed:]


def unify_row(data, stride, count, flags, types, room):
    line, whole = unified_line(data, stride, count, flags, types, room, pattern(512, 129))
    asked = [stride, count, flags, types, room]
    row(11, asked, "unify" + hexed(*asked) + ":" + line + hexed(checksum(whole)) + " " + whole[:100].hex(), data)


def unify_many_row(data, stride, count, flags, types):
    """Into an output of 147 vertices and 4 bytes: the checksum of all of it, and the vertex before its last bytes."""
    line, whole = unified_line(data, stride, count, flags, types, MANY, pattern(MANY, 129))
    asked = [stride, count, flags, types]
    row(13, asked, "unify many" + hexed(*asked) + ":" + line + hexed(checksum(whole)) + " " + whole[-88:].hex(), data)


def unified_rows():
    # position only, by strides of 11 and 12; outputs exactly long enough, one byte short, longer
    for stride, size in [(11, 22), (12, 24), (12, 23), (13, 25), (13, 24), (0, 12), (0, 11), (65535, 512)]:
        for room in [168, 167, 169, 512, 84, 0]:
            unify_row(pattern(size, 129), stride, 2, 1, 6, room)
    for count in [0, 1, 2, 3, 5, 6]:
        for room in sorted({0, max(84 * count - 1, 0), 84 * count, 84 * count + 1, 512}):
            if room <= 512:
                unify_row(pattern(72, 129), 12, count, 1, 6, room)
    # 9 comes before 10, and a declaration without sizes is never outside
    for count in [7, 1 << 31, (1 << 32) - 1]:
        for stride, flags, types in [(0, 1, 6), (12, 1, 6), (65535, 1, 6), (65535, 1, 0), (65535, 0, 6), (12, 0xFFFF0000, 6)]:
            unify_row(pattern(12, 129), stride, count, flags, types, 512)
    unify_row(b"", 0, 0, ALL, EVERY_TYPE, 0)
    unify_row(b"", 12, 0, 1, 6, 512)
    unify_row(b"", 12, 1, 1, 6, 512)
    # nothing declared, each semantic alone in each type, and each in each type beside a position
    for count in [0, 1, 2, 6]:
        unify_row(b"", 12, count, 0, EVERY_TYPE, 512)
    for index in range(16):
        for nibble in range(16):
            unify_row(pattern(40, 7 * index), 19, 2, 1 << index, nibble << 4 * index, 168)
            unify_row(pattern(40, 7 * index), 11, 2, 1 | 1 << index, 6 | nibble << 4 * index, 176)
    # all sixteen, and components that no field shows one byte outside
    for types in [EVERY_TYPE, GTAV1, 0x7777777777777777, 0xFB40FB40FB40FB40, U64 - 1, 0x0300000001996006, 0x0300000001998A86]:
        total = sum(size_of(types >> 4 * index & 15) for index in range(16))
        for size in {total, total + 7, max(total - 1, 0), max(total + 6, 0)}:
            unify_row(pattern(size, 3), 7, 2, ALL, types, 400)
            unify_row(pattern(size, 3), 7, 1, 0xFFFFFFFF, types, 84)
    for size in [16, 15]:
        unify_row(pattern(size, 3), 16, 1, 0x8001, 2 << 60 | 6, 84)
    # bits that arithmetic would change
    for nibble in [5, 6, 7]:
        raw = b"".join(struct.pack("<I", bits) for bits in FLOATS)
        for index in [0, 1, 3, 4, 6, 14]:
            for at in range(0, 5):
                unify_row(raw[at * 32 :], 16, 2, 1 << index, nibble << 4 * index, 168)
    raw = b"".join(struct.pack("<H", half) for half in HALVES)
    for index in [0, 1, 3, 4, 5, 7, 14]:
        unify_row(raw, 8, 4, 1 << index, 3 << 4 * index, 336)
        unify_row(raw, 4, 6, 1 << index, 1 << 4 * index, 512)


def many_unified_rows():
    """Vertices by the dozen: the library writes them in blocks of 48, a word of each vertex after another."""
    # every type in each field, at the offsets 0, 4, 8, 12 and 16 behind a position, with strides that let vertices overlap and begin at any byte; by turns as
    # many vertices as make one, two and three blocks, one more and one less
    counts = [48, 49, 47, 97, 95, 96, 144, 143, 145, 147]
    turn = 0
    for index in [0, 1, 2, 3, 4, 5, 6, 7, 14]:
        for nibble in range(12):
            for stride, before in [(1, 0), (2, 2), (3, 3), (1, 6), (2, 7)][: 5 if index else 3]:
                flags, types = (1 | 1 << index, before | nibble << 4 * index) if index else (1, nibble)
                unify_many_row(pattern(146 * stride + 32, 7 * index + nibble), stride, counts[turn % len(counts)], flags, types)
                turn += 1
    # each count by declarations of many components; constants beside each kind of source
    for count in [0, 1, 2, *sorted(counts), 148]:
        for flags, types in [(ALL, EVERY_TYPE), (ALL, GTAV1), (0x4FF, 0x0300000001996006 | 5 << 8), (0x41F9, 0x0300000001998A86), (1, 6), (0, 6), (0x20, 3 << 20)]:
            total = sum(size_of(nibble) for _, nibble, _ in components_of(flags, types))
            unify_many_row(pattern(146 * 2 + total, count), 2, count, flags, types)
    # one byte short of the last vertex
    for count in [48, 49, 97]:
        unify_many_row(pattern((count - 1) * 4 + 11, 5), 4, count, 1, 6)
    # bits that arithmetic would change, and every half's kind, in each place of a block
    floats = (b"".join(struct.pack("<I", bits) for bits in FLOATS) * 5)[:512]
    halves = (b"".join(struct.pack("<H", half) for half in HALVES) * 16)[:512]
    for index in [0, 1, 4, 6, 14]:
        for nibble, raw, stride in [(2, floats, 4), (5, floats, 4), (6, floats, 4), (7, floats, 4), (1, halves, 2), (3, halves, 2), (3, halves, 4)]:
            for count in [100, 120]:
                unify_many_row(raw, stride, count, 1 << index, nibble << 4 * index)


# ---- encoding


def encoded(nibble, items):
    name = TYPES[nibble][0]
    if name in ("UByte4", "Colour"):
        return bytes(items)
    if name in ("Half2", "Half4"):
        return b"".join(struct.pack("<H", half_of_bits(bits)) for bits in items)
    if name == "Rgba8Snorm":
        return bytes(snorm_of_bits(bits) for bits in items)
    return b"".join(struct.pack("<I", bits) for bits in items)


def encode_row(nibble, shape, raw, at, size):
    """raw: 16 bytes, of which a value of the shape takes its floats or its bytes."""
    name = SHAPES[shape]
    items = list(raw[:4]) if name == "bytes" else [field(raw, 4 * i, 4) for i in range(shape)]
    shaped = size_of(nibble) != 0 and name == shape_of(nibble)
    whole = bytearray(pattern(512, 129))
    fits = shaped and at + size_of(nibble) <= size
    if fits:
        whole[at : at + size_of(nibble)] = encoded(nibble, items)
    asked = [nibble, shape, at, size]
    line = "encode" + hexed(*asked) + ": " + name_of(nibble) + (" yes" if shaped else " no") + (" done " if fits else " refused ") + whole[:64].hex()
    if fits:
        line += attributes_line(bytes(whole), at, 2, 1, nibble, 1)
    row(12, asked, line, raw)


def encoding_rows():
    for nibble in [*range(16), 16, 255]:
        for shape in range(6):
            encode_row(nibble, shape, struct.pack("<4I", 0x3F000000, 0xBF800000, 0x3EAAAAAB, ONE), 5, 64)
    for nibble in range(1, 11):
        if size_of(nibble) == 0:
            continue
        shape, size = SHAPES.index(shape_of(nibble)), size_of(nibble)
        raw = struct.pack("<4I", 0x3F000000, 0x80000000, 0x7F800001, 0x40490FDB)
        for room in [0, size - 1, size, size + 1, 64, 512]:
            for at in sorted({0, 1, max(room - size, 0), max(room - size + 1, 0), room, room + 1, 1 << 63, U64 - size, U64 - 1}):
                encode_row(nibble, shape, raw, at, room)
        for first in range(len(FLOATS)):
            encode_row(nibble, shape, struct.pack("<4I", *(FLOATS + FLOATS)[first : first + 4]), 3, 64)
    # snorm: around each of some multiples of 1/127, as it is cut and not rounded
    for k in [0, 1, 2, 63, 64, 126, 127]:
        for sign in [0, 0x80000000]:
            near = bits_of(k / 127) | sign
            encode_row(10, 4, struct.pack("<4I", near, near + 1, near - 1 if k else near, bits_of((k + 0.5) / 127) | sign), 8, 64)


def random_rows():
    """The same calls with arguments that nothing relates. Seeded, so that they are the same each time."""
    pick = random.Random(1)
    for _ in range(150):
        flags, types = pick.getrandbits(16) & pick.getrandbits(32), pick.getrandbits(64)
        total = sum(size_of(nibble) for _, nibble, _ in components_of(flags, types))
        stride = pick.choice([total, total, max(total - 1, 0), total + pick.randrange(8), pick.randrange(64)])
        count = pick.randrange(1, 7)
        size = min(max(stride * (count - 1) + total + pick.choice([0, 0, 0, -1, 1, 5]), 0), 512)
        data = bytes(pick.getrandbits(8) for _ in range(size))
        attributes_row(data, stride, count, flags, types, pick.randrange(count + 1))
        unify_row(data, stride, count, flags, types, min(84 * count + pick.choice([0, 0, 0, -1, 9]), 512))
        encode_row(pick.randrange(11), pick.randrange(6), bytes(pick.getrandbits(8) for _ in range(16)), pick.randrange(64), 64)


if __name__ == "__main__":
    type_rows()
    declaration_rows()
    stored_rows()
    legacy_rows()
    gen9_rows()
    inline_rows()
    seen_rows()
    attribute_rows()
    unified_rows()
    encoding_rows()
    random_rows()
    many_unified_rows()
    store("layouts_test", rows, lines)
