#!/usr/bin/env python3
"""Makes the rows that crates/sections_test runs and the lines that it must print, from document 01 and the Rust's resource.rs,
not from the program's output. Run it in the repository's root: python3 tests/expected/sections.py

It writes crates/sections_test/stdin, rows of six little-endian u64 (what is called, then what with), and
crates/sections_test/stdout. Sections are modelled as byte strings, and numbers as whole numbers of any size."""
import struct

from rows import GRAPHICS, SYSTEM, U64, checksum, cut, hexed, locate, packed, pattern, store

rows, lines = [], []


def row(kind, numbers, line):
    rows.append(packed(kind, numbers))
    lines.append(line)


# ---- addresses


def placed(found):
    return " %s %x" % found if found else " nothing"


def sections_of(system, graphics):
    return {"system": pattern(64, 129)[:system], "graphics": pattern(64, 65)[:graphics]}


def locate_and_resolve(system, graphics, va, count):
    sections = sections_of(system, graphics)
    asked = (system, graphics, va, count)
    found = locate(sections, va, count)
    row(0, asked, "locate" + hexed(*asked) + ":" + placed(found))
    data = cut(sections[found[0]], found[1], count) if found else b""
    row(1, asked, "resolve" + hexed(*asked) + ":" + hexed(len(data), data[0] if data else 0, checksum(data)))


def address_rows():
    """An address at 0x70000000 is in graphics, at an offset beyond any section within the limit: its rows say nothing either way."""
    bases = [0, 1, 0x50000000, 0x5FFFFFFF, 0x60000000, 0x70000000, 0x40000000, 0x30000000]
    highs = [0, 1 << 31, 1 << 32, 0xFFFFFFFF << 32, 1 << 63]
    for high in highs:
        for base in bases:
            # no bytes, one, and as many as make the end of the range wrap to 0 and to 1
            for count in sorted({0, 1, (U64 - high) % U64, (U64 - high + 1) % U64}):
                locate_and_resolve(64, 48, high + base, count)
    for system, graphics in [(64, 48), (48, 64), (64, 0), (0, 48), (0, 0), (1, 1)]:
        for base, size in [(SYSTEM, system), (GRAPHICS, graphics)]:
            for at in sorted({0, 1, max(size - 1, 0), size, size + 1}):
                left = size - at
                counts = {0, 1, left - 1, left, left + 1, size, size + 1, U64 - at - 1, U64 - at, U64 - at + 1, 1 << 63, U64 - 1}
                for count in sorted(n for n in counts if 0 <= n < U64):
                    locate_and_resolve(system, graphics, base + at, count)
            # one below the base: the last address of the section before it, or of none
            locate_and_resolve(system, graphics, base - 1, 1)


def place_rows():
    for system, graphics in [(64, 48), (0, 48)]:
        sections = sections_of(system, graphics)
        for which, name in enumerate(["system", "graphics", None]):
            size = len(sections[name]) if name else 64
            for at, count in [(0, 0), (0, 1), (0, size), (0, size + 1), (size, 0), (size, 1), (size + 1, 0), (1, size), (2, U64 - 2), (U64 - 1, 1)]:
                data = name and cut(sections[name], at, count) or b""
                asked = (system, graphics, which, at, count)
                row(2, asked, "bytes_of" + hexed(*asked) + ":" + hexed(len(data), data[0] if data else 0, checksum(data)))
    for asked in [(64, 48), (0, 0), (64, 0), (0, 64)]:
        row(3, asked, "within_limit" + hexed(*asked) + ":" + " yes")


# ---- lists


def list_rows():
    for system, graphics in [(64, 48), (63, 41)]:
        sections = sections_of(system, graphics)
        for width in [2, 4, 8]:
            for base, size in [(SYSTEM, system), (GRAPHICS, graphics)]:
                fits = size // width
                # as many as end inside, one more, and as many as take 2^32 bytes
                for at in [0, 1, size - width, size - width + 1, size, size + 1]:
                    for count in sorted({0, 1, (size - at) // width if at < size else 0, fits, fits + 1, (1 << 32) // width, (1 << 32) - 1}):
                        list_row(sections, base + at, count, width)
            for va in [0, 1, 0x40000000, (1 << 32) + SYSTEM]:
                for count in [0, 1]:
                    list_row(sections, va, count, width)
        # widths that the formats do not have
        for width, count in [(0, 0), (0, (1 << 32) - 1), (1, 64), (1, 65), (255, 1), (255, (1 << 32) - 1)]:
            list_row(sections, SYSTEM, count, width)
            list_row(sections, SYSTEM + 64, count, width)


def list_row(sections, va, count, width):
    asked = (len(sections["system"]), len(sections["graphics"]), va, count, width)
    if count == 0 or va == 0:
        answer = " empty"
    else:
        found = locate(sections, va, count * width)
        answer = placed(found) if found else " unresolved"
    row(4, asked, "locate_list" + hexed(*asked) + ":" + answer)


def header_rows():
    for system, graphics in [(64, 48), (15, 16), (16, 15), (0, 0)]:
        for base, size in [(SYSTEM, system), (GRAPHICS, graphics)]:
            for at in sorted({0, 1, max(size - 16, 0), max(size - 15, 0), size}):
                # two zeros out of the way, over the count, over the capacity, and over half of the count
                for gap in [62, at + 8, at + 10, at + 7]:
                    header_row(system, graphics, base + at, gap)
        for va in [0, 0x40000000, (1 << 32) + SYSTEM]:
            header_row(system, graphics, va, 62)


def header_row(system, graphics, va, gap):
    whole = {"system": bytearray(pattern(64, 129)), "graphics": bytearray(pattern(64, 65))}
    for data in whole.values():
        if gap + 2 <= 64:
            data[gap : gap + 2] = b"\0\0"
    sections = {"system": bytes(whole["system"][:system]), "graphics": bytes(whole["graphics"][:graphics])}
    found = locate(sections, va, 16)
    asked = (system, graphics, va, gap)
    if found:
        pointer, count, capacity = struct.unpack_from("<QHH", sections[found[0]], found[1])
        answer = hexed(pointer, count, capacity, count if count else capacity)
    else:
        answer = " unresolved"
    row(5, asked, "header" + hexed(*asked) + ":" + answer)


# ---- fields


def field_rows():
    for width in [1, 2, 4, 8]:
        for size in sorted({0, 1, width - 1, width, width + 1, 9, 64}):
            data = pattern(64, 129)[:size]
            places = {0, 1, size - width, size - width + 1, size - 1, size, size + 1, 1 << 63, U64 - width, U64 - 1}
            for at in sorted(n for n in places if n >= 0):
                inside = cut(data, at, width)
                asked = (width, size, at)
                row(6, asked, "read" + hexed(*asked) + ":" + hexed(int.from_bytes(inside or b"", "little")))
                for value in [(1 << 8 * width) - 1, 0x8877665544332211 % (1 << 8 * width)]:
                    write_row(width, size, at, value)


def write_row(width, size, at, value):
    whole = bytearray(pattern(64, 129))
    fits = at + width <= size
    if fits:
        whole[at : at + width] = value.to_bytes(width, "little")
    asked = (width, size, at, value)
    row(7, asked, "write" + hexed(*asked) + ":" + (" done " if fits else " refused ") + whole.hex())


# ---- edits

SIZE = 16640
COUNTS = [0, 1, 2, 4095, 4096, 4097, 8192, 8193, 12288, 12289]


def edited(kind, name, asked, data, at, new):
    """`new` is what comes to stand at `at`, or nothing where the edit is refused."""
    if new is not None:
        data = data[:at] + new + data[at + len(new) :]
    row(kind, asked, name + hexed(*asked) + ":" + (" refused" if new is None else " done") + hexed(checksum(data)))


def move_row(source, target, count):
    data = pattern(SIZE, 129)
    new = cut(data, source, count) if cut(data, target, count) is not None else None
    edited(8, "copy_within", (source, target, count), data, target, new)


def edit_rows():
    for count in COUNTS:
        for shift in [0, 1, 4095, 4096, 4097]:
            # from the first byte, from the fourth, and up to the last
            for low in sorted({0, 3, SIZE - count - shift}):
                move_row(low, low + shift, count)
                move_row(low + shift, low, count)
        end = SIZE - count
        # one past the end, of the source, of the target and of both
        for source, target in [(end + 1, 0), (0, end + 1), (end + 1, end + 1), (end, end), (end + 1, end)]:
            move_row(source, target, count)
        for at in [0, 3, 4096, end, end + 1, U64 - count if count else U64 - 1, U64 - 1]:
            fits = at + count <= SIZE
            edited(9, "copy_into", (at, count), pattern(SIZE, 129), at, pattern(SIZE, 65)[:count] if fits else None)
            edited(10, "zero", (at, count), pattern(SIZE, 129), at, bytes(count) if fits else None)
    for source, target, count in [(1, 0, U64 - 1), (0, 1, U64 - 1), (U64 - 1, 0, 1), (0, U64 - 1, 1), (0, 0, SIZE), (0, 0, SIZE + 1), (SIZE, SIZE, 0), (SIZE + 1, 0, 0), (0, SIZE + 1, 0)]:
        move_row(source, target, count)
    for at, count in [(0, SIZE), (1, SIZE), (SIZE, 0), (SIZE + 1, 0)]:
        fits = at + count <= SIZE
        edited(9, "copy_into", (at, count), pattern(SIZE, 129), at, pattern(SIZE, 65)[:count] if fits else None)
    for at, count in [(0, SIZE), (0, SIZE + 1), (1, SIZE), (SIZE, 0), (SIZE + 1, 0), (1, U64 - 1), (U64 - 1, U64 - 1)]:
        fits = at + count <= SIZE
        edited(10, "zero", (at, count), pattern(SIZE, 129), at, bytes(count) if fits else None)


address_rows()
place_rows()
list_rows()
header_rows()
field_rows()
edit_rows()
store("sections_test", rows, lines)
