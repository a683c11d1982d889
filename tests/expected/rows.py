"""What the makers of rows share: numbers and bytes as the crate `testing` prints and makes them, addresses in two sections, and the files of
a test program."""
import functools
import struct

U64 = 1 << 64
SYSTEM, GRAPHICS = 0x50000000, 0x60000000


def hexed(*numbers):
    return "".join(" %x" % n for n in numbers)


def pattern(count, seed):
    return bytes((i % 65536 * 167 + i % 65536 // 251 + seed) % 256 for i in range(count))


@functools.lru_cache(maxsize=16)
def checksum(data):
    total = 0
    for b in data:
        total = (total * 257 + b) % ((1 << 55) - 55)
    return total


def section_of(va):
    """Document 01: bits 30 and 29, graphics; else bits 30 and 28, system; else nothing. Address 0 is nothing."""
    if va == 0:
        return None
    if va >> 30 & 1 and va >> 29 & 1:
        return ("graphics", va - GRAPHICS)
    if va >> 30 & 1 and va >> 28 & 1:
        return ("system", va - SYSTEM)
    return None


def cut(data, at, count):
    return data[at : at + count] if at + count <= len(data) else None


def locate(sections, va, count):
    """The section and the offset behind an address, where the range ends inside it."""
    found = section_of(va)
    return found if found and found[1] + count <= len(sections[found[0]]) else None


def packed(kind, numbers):
    """A row: what is called, and five numbers."""
    return struct.pack("<6Q", kind, *numbers, *[0] * (5 - len(numbers)))


def packed_with(kind, numbers, data):
    """A row, how many bytes follow, and those."""
    return packed(kind, numbers) + struct.pack("<Q", len(data)) + data


def store(program, rows, lines):
    """What a test program reads, and what it must print."""
    with open("crates/%s/stdin" % program, "wb") as out:
        out.write(b"".join(rows))
    with open("crates/%s/stdout" % program, "w") as out:
        out.write("".join(line + "\n" for line in lines))
    print("%d rows" % len(rows))
