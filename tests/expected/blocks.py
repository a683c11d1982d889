"""Parts of document 01's formats that more than one maker of rows needs: vertex blocks and declarations, written and read, and a list's records."""
import struct

from rows import locate


def field(data, at, width):
    """A field that does not end inside the data is 0, as in the crate `sections`."""
    return int.from_bytes(data[at : at + width], "little") if at + width <= len(data) else 0


def declaration_fields(data, at):
    return [field(data, at, 4), field(data, at + 4, 2), field(data, at + 6, 1), field(data, at + 7, 1), field(data, at + 8, 8)]


def declaration_bytes(flags, stride, unknown, count, types):
    return struct.pack("<IHBBQ", flags, stride, unknown, count, types)


def record(kind, body):
    return struct.pack("<IH", len(body), kind) + body


LAYOUTS = ["Legacy", "LegacyData2", "Gen9", "GeometryInline"]


def find_buffer(sections, va, inline_pointer, inline_count, inline_stride):
    """(layout, stride, count, data pointer, info pointer, place, declaration's fields) of the first layout whose data resolves."""
    attempts = []
    block = locate(sections, va, 0x80)
    if block:
        raw = sections[block[0]][block[1] : block[1] + 0x80]
        stride, count, info = field(raw, 0x08, 2), field(raw, 0x18, 4), field(raw, 0x30, 8)
        attempts.append((0, stride, count, field(raw, 0x10, 8), info))
        attempts.append((1, stride, count, field(raw, 0x20, 8), info))
        attempts.append((2, field(raw, 0x0C, 2), field(raw, 0x08, 4), field(raw, 0x18, 8), 0))
    attempts.append((3, inline_stride, inline_count, inline_pointer, 0))
    for layout, stride, count, pointer, info in attempts:
        place = locate(sections, pointer, count * stride) if pointer and count and stride else None
        if place:
            stored = locate(sections, info, 16) if info else None
            fields = declaration_fields(sections[stored[0]], stored[1]) if stored else None
            return layout, stride, count, pointer, info, place, fields
    return None


def legacy_block(stride=0, count=0, first=0, second=0, info=0):
    raw = bytearray(0x80)
    struct.pack_into("<H", raw, 0x08, stride)
    struct.pack_into("<I", raw, 0x18, count)
    struct.pack_into("<Q", raw, 0x10, first)
    struct.pack_into("<Q", raw, 0x20, second)
    struct.pack_into("<Q", raw, 0x30, info)
    return bytes(raw)


def gen9_block(stride=0, count=0, pointer=0, info=0, first=0, second=0):
    raw = bytearray(legacy_block(0, 0, first, second, info))
    struct.pack_into("<I", raw, 0x08, count)
    struct.pack_into("<H", raw, 0x0C, stride)
    struct.pack_into("<Q", raw, 0x18, pointer)
    return bytes(raw)
