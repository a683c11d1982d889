#!/usr/bin/env python3
"""Makes the drawables and halls that crates/halls_test reads and the lines that it must print. Run it in the repository's root:
python3 tests/expected/halls.py

It writes crates/halls_test/stdin, rows of seven little-endian u64 (what is called, what with, and how many bytes follow) and those bytes,
and crates/halls_test/stdout. The answers come from the reader of drawables.py, written from document 01. Where cargo and the original Rust are at
hand (rust/differential/README.md), the oracle is asked too, and the two must agree on every drawable. The Rust has no checks 1, 5 and 7: it is not asked
about drawables that 1 or 5 refuse, nor about lists of 64 MiB and more, and of the others the whole list is compared.
The rows of the hall check are made in checks.py, those of the calls and finders in calls.py; the Rust has neither."""
import collections
import functools
import itertools
import os
import random
import shutil
import struct
import subprocess

from blocks import field, gen9_block, legacy_block
from calls import call_rows
from checks import check_rows
from drawables import LIMIT, NAMES, NOWHERE, Drawable, Refused, Writer, damage, pieces, random_drawable, triangle, vector
from rows import GRAPHICS, SYSTEM, checksum, hexed, packed_with, pattern, store

# a row's bytes and a list's buffer; in long rows the section and the buffer
ROW, ROOM, LONG = 4096, 4096, 0x90000
rows, lines, drawables = [], [], {}


def held(parts):
    """How many indices a geometry's records hold."""
    while parts:
        length, kind = struct.unpack_from("<IH", parts)
        if kind == 5:
            return (length - 4) // 4
        parts = parts[6 + length :]
    return 0


def triangles(found):
    """The Rust's sum over geometries: the stored index count, or the indices held where that is 0, in threes."""
    geometries = [(piece, parts) for piece, parts in zip(found, found[1:]) if piece and field(piece, 4, 2) == 2]
    return sum((field(piece, 8, 4) or held(parts)) // 3 for piece, parts in geometries)


# ---- rows


Reading = collections.namedtuple("Reading", "check pieces needed")


@functools.lru_cache(None)
def read(drawable):
    """Checks 1 to 6: the one that refused, or 0, the list's bytes in pieces, and their number."""
    try:
        found = pieces({"system": drawable.system, "graphics": drawable.graphics}, drawable.va)
    except Refused as refused:
        return Reading(refused.number, [], 0)
    return Reading(0, found, sum(len(piece) for piece in found))


def answer(drawable, room, whole):
    """What the call says, the buffer's checksum afterwards, and an accepted list's triangles and, where it is short, its bytes."""
    check, found, needed = read(drawable)
    if check or needed > room:
        return " refused" + hexed(check or 7) + " needed" + hexed(needed) + hexed(checksum(whole))
    written = b"".join(found)
    return " accepted" + hexed(needed, checksum(written + whole[needed:]), triangles(found)) + (" " + written.hex() if needed <= 256 else "")


def row(kind, name, drawable, numbers, whole, data):
    """numbers: the sections' lengths, the address, the length of the list's buffer, and what else the row needs."""
    line = answer(drawable, numbers[3], whole)
    assert len(data) <= ROW and numbers[3] <= len(whole)
    drawables[drawable] = True
    rows.append(packed_with(kind, numbers, data))
    lines.append(name + hexed(*numbers) + ":" + line)
    return line


FIRST_LIST, FIRST_LONG_LIST = pattern(ROOM, 129), pattern(LONG, 129)


def list_row(drawable, room=None):
    """Into a buffer of `room` bytes, by default a few more than are needed."""
    system, graphics, va = drawable
    room = read(drawable).needed + 5 if room is None else room
    row(0, "list", drawable, [len(system), len(graphics), va, room], FIRST_LIST, system + graphics)


def list_rows(drawable):
    """Into buffers exactly long enough, one byte short, empty and longer."""
    needed = read(drawable).needed
    for room in sorted({0, max(needed - 1, 0), needed, needed + 1, ROOM}):
        list_row(drawable, room)


def long_row(head, runs, va, room):
    """The system section begins with head, then zeros; each run puts `count` u64 of a value into it, `step` bytes apart."""
    system = bytearray(head + bytes(LONG - len(head)))
    for at, step, count, value in runs:
        for i in range(count):
            struct.pack_into("<Q", system, at + step * i, value)
    data = b"".join(struct.pack("<4Q", *run) for run in runs) + head
    return row(1, "long", Drawable(bytes(system), b"", va), [LONG, 0, va, room, len(runs)], FIRST_LONG_LIST, data)


def one_geometry(w, geometry, mapping=(9,)):
    return w.drawable(w.header([w.model([geometry], mapping=w.mapping(mapping))]))


def vector_rows():
    assert read(vector()).needed == 127
    list_rows(vector())
    # each block, and all others, alone in the other section: whole at its end, one byte short, one byte further on
    for home, other in [("system", "graphics"), ("graphics", "system")]:
        list_row(vector(Writer(home)))
        for name in NAMES:
            whole = vector(Writer(home, [name]))
            list_row(whole)
            list_row(whole._replace(**{other: getattr(whole, other)[:-1]}))
            list_row(whole._replace(**{other: getattr(whole, other)[1:]}))


# ---- headers


def header_rows():
    for count, capacity in [(2, 2), (2, 0), (2, 9), (0, 2), (0, 1), (1, 2), (0, 0), (1, 0), (3, 0), (0, 3), (65535, 0), (0, 65535)]:
        w = Writer()
        models = w.numbers("models", "Q", [w.model([], binding=7), w.model([], binding=8)])
        # the list ends with the section, and three pointers would be one too many
        w.away = {"header"}
        list_row(w.drawable(w.header(models, count, capacity)))
        for pointer in [0, *NOWHERE[:3], w.end("system") - 7, w.end("system")]:
            list_row(w.drawable(w.header(pointer, count, capacity)))
    # no header: the empty list, in a buffer of any length
    whole = vector()
    for nowhere in [0, *NOWHERE, whole.va + 1, GRAPHICS]:
        list_row(whole._replace(va=nowhere))
        list_row(whole._replace(va=nowhere), 0)
    list_row(Drawable(b"", b"", SYSTEM))
    list_row(Drawable(b"", b"", GRAPHICS))


# ---- models and geometries


def null_rows():
    """Null pointers are skipped, mapping entries are not."""
    for models in [[0], [0, 0], [1, 0], [0, 1], [0, 1, 0, 0, 2], [2, 1]]:
        w = Writer()
        blocks = [0, w.model([triangle(w)], mapping=w.mapping([11])), w.model([], mapping=w.mapping([12]))]
        list_row(w.drawable(w.header([blocks[i] for i in models])))
    for places in [[0], [0, 0, 0], [1, 0, 0], [0, 1, 0], [0, 0, 1], [1, 0, 1], [0, 1, 1], [0, 0, 1, 0, 1, 1]]:
        for shaders in ["all", "null", "nowhere", "short"]:
            w = Writer()
            geometry = w.geometry(indices=5)
            mapping = w.mapping(range(0x101, 0x101 + len(places)))
            w.sections["system"] = w.sections["system"][: -1 if shaders == "short" else None]
            mapping = {"null": 0, "nowhere": NOWHERE[len(places)]}.get(shaders, mapping)
            w.home = "graphics"
            list_row(w.drawable(w.header([w.model([geometry * place for place in places], mapping=mapping)])))


def number_rows():
    """Fields at their least and greatest."""
    for binding, mask in [(0, 0), (0xFFFFFFFF, 0xFFFF), (0x80000001, 0x8001)]:
        w = Writer()
        list_rows(w.drawable(w.header([w.model([], binding=binding, mask=mask)])))
    # indices, triangles, vertices, stride
    for numbers in [(0, 0, 0, 0), (0, 1, 2, 3), (1, 2, 3, 65535), (0xFFFFFFFF, 0xFFFFFFFE, 65535, 65534)]:
        w = Writer()
        list_row(one_geometry(w, w.geometry(0, 0, *numbers), [65535 - numbers[2]]))
    # the geometry's numbers are not the buffers'
    w = Writer()
    vertex_block = w.put("vertex block", legacy_block(12, 3, w.data(), 0, w.declaration(0x81828384, 0x8586, 0x87, 0x88, 0x898A8B8C8D8E8F90)))
    index_block = w.index_block(3, w.numbers("indices", "H", [65535, 0, 256]))
    list_row(one_geometry(w, w.geometry(vertex_block, index_block, 6, 77, 9, 13)))


def model_refusal_rows():
    """2, 3 and 4 at the first and at a later place. A list of no elements is never an error."""
    for place in range(3):
        for bad in [*NOWHERE, "short", "end"]:
            w = Writer()
            models = [w.model([w.geometry()]), w.model([], binding=5), 0]
            short = w.put("model", bytes(0x2F))
            models[place] = {"short": short, "end": w.end("system")}.get(bad, bad)
            w.home = "graphics"
            list_row(w.drawable(w.header(models)))
            w = Writer()
            whole = w.model([w.geometry()])
            short = w.put("geometries", bytes(15))
            pointer = {"short": short, "end": w.end("system")}.get(bad, bad)
            w.home = "graphics"
            models = [whole, whole, 0]
            models[place] = w.model(pointer, 2)
            list_row(w.drawable(w.header(models)))
            models[place] = w.model(pointer, 0)
            list_row(w.drawable(w.header(models)))
    w = Writer()
    list_row(w.drawable(w.header([w.model(0, 3, w.mapping([1, 2, 3]))])))


def geometry_refusal_rows():
    """6 at the first and at a later place, in a later model, and before 7."""
    for place in range(4):
        for bad in [*NOWHERE, "short"]:
            w = Writer()
            whole = triangle(w)
            geometries = [whole, 0, whole, whole]
            geometries[place] = w.put("geometry", bytes(0x97)) if bad == "short" else bad
            w.home = "graphics"
            models = [w.model(geometries[:2], mapping=w.mapping([1, 2])), w.model(geometries[2:])]
            drawable = w.drawable(w.header(models))
            list_row(drawable, ROOM)
            list_row(drawable, 0)
    # walk order: the first that fails decides
    for kinds in ["36", "63", "43", "34", "46", "64", "436", "643", ".6", ".4", ".3", "..643"]:
        w = Writer()
        whole = triangle(w)
        models = [{"3": 1, "4": w.model(1, 1), "6": w.model([whole, 1]), ".": w.model([whole])}[kind] for kind in kinds]
        list_row(w.drawable(w.header(models)), 100)


def binding_rows():
    """The bone is the binding's top byte; its byte 1 says whether vertices are skinned."""
    for binding in [0, 1, 0xFF, 0x100, 0xFF00, 0x10000, 0xFF00FF, 0x1000000, 0x12345678, 0x80000000, 0xFFFF00FF, 0xFFFFFFFF]:
        rows.append(packed_with(2, [binding], b""))
        lines.append("binding" + hexed(binding) + ":" + hexed(binding >> 24) + (" skinned" if binding >> 8 & 0xFF else " rigid"))


# ---- vertices


def stream_rows():
    """All four layouts with their data in either section, then each in turn spoilt, so that the next is taken."""
    for section in ["system", "graphics"]:
        for layouts in range(16):
            for info in ["declaration", "nowhere", "null", "short"]:
                if layouts in (0, 8) and info != "declaration":
                    continue
                w = Writer(away=["data", "declaration"] if section == "graphics" else [])
                data = w.data(24, 65)
                declared = {"declaration": w.declaration(0x40FB, 0x1234, 5, 9, 0x7755555555996996), "nowhere": 0x40000000, "null": 0}.get(info)
                declared = w.end(section) - 15 if info == "short" else declared
                # 1: Legacy, 2: LegacyData2, 4: Gen9, which only an unresolved Legacy leaves room for, 8: inline
                first, second = data if layouts & 1 else 0, data if layouts & 2 else 1
                block = gen9_block(8, 3, data, declared, first, second) if layouts & 4 else legacy_block(12, 2, first, second, declared)
                w.home, w.away = ("graphics" if section == "system" else "system"), set()
                geometry = w.geometry(w.put("vertex block", block), 0, vertices=4, stride=6, inline=data if layouts & 8 else 0)
                list_row(one_geometry(w, geometry))
    # no vertex block, with and without a stream of the geometry's own
    for va in [0, *NOWHERE]:
        w = Writer()
        data = w.data(24)
        list_row(one_geometry(w, w.geometry(va, inline=data, vertices=2)))
        list_row(one_geometry(w, w.geometry(va)))


def stream_end_rows():
    """Data that ends with its section, one byte short, and a zero pointer, count or stride, in each layout."""
    for layout in range(4):
        for short in [0, 1]:
            for pointer, count, stride in [(1, 3, 8), (1, 24, 1), (1, 1, 24), (0, 3, 8), (1, 0, 8), (1, 3, 0), (1, 65535, 65535)]:
                w = Writer()
                w.put("data", b"ab")
                data = w.data(24 - short, 9) if pointer else 0
                w.home = "graphics"
                blocks = [legacy_block(stride, count, data), legacy_block(stride, count, 0, data), gen9_block(stride, count, data)]
                if layout < 3:
                    geometry = w.geometry(w.put("vertex block", blocks[layout]), vertices=0, stride=7)
                else:
                    geometry = w.geometry(vertices=count, stride=stride, inline=data)
                list_row(one_geometry(w, geometry))
                list_row(one_geometry(w, geometry), 50)


def vertex_count_rows():
    """Vertices 0 becomes the buffer's count, up to 65,535; another number stays."""
    for vertices in [0, 1, 3, 7, 65535]:
        for count in [0, 1, 3]:
            w = Writer()
            block = w.put("vertex block", legacy_block(12, count, w.data()))
            list_row(one_geometry(w, w.geometry(block, vertices=vertices)))
    for count in [65534, 65535, 65536, 65537, 131072, 400000]:
        for vertices in [0, 9]:
            for gen9 in [False, True]:
                w = Writer()
                block = gen9_block(1, count, SYSTEM + 7) if gen9 else legacy_block(1, count, SYSTEM + 7)
                system, _, va = one_geometry(w, w.geometry(w.put("vertex block", block), vertices=vertices))
                long_row(system, [], va, LONG)


# ---- indices


def index_rows():
    for section in ["system", "graphics"]:
        for short in [0, 1]:
            for size in [2, 4, 0, 1, 3, 6, 8, 0x0102, 0x0204, 65535]:
                for legacy in ["null", "nowhere"]:
                    w = Writer(away=["indices"] if section == "graphics" else [])
                    # as many bytes as three indices take, or one fewer, at the section's end
                    items = w.put("indices", pattern(3 * (size if size in (2, 4) else 4) - short, 200))
                    w.home, w.away = ("graphics" if section == "system" else "system"), set()
                    block = w.index_block(3, 0 if legacy == "null" else 0x40000000, size, items)
                    list_row(one_geometry(w, w.geometry(0, block)))
            w = Writer(away=["indices"] if section == "graphics" else [])
            items = w.put("indices", pattern(6 - short, 200))
            w.home, w.away = ("graphics" if section == "system" else "system"), set()
            for sized in [0, 0x40000000, items]:
                list_row(one_geometry(w, w.geometry(0, w.index_block(3, items, 2, sized))))
    # both good: the two-byte ones; a count of 0 or too great keeps its number
    for count in [0, 1, 2, 3, 4, 0x7FFFFFFF, 0x80000000, 0xFFFFFFFF]:
        for size in [2, 4]:
            w = Writer()
            two, four = w.numbers("indices", "H", [1, 65535]), w.numbers("indices", "I", [0xFFFFFFFF, 1, 0x10000])
            for legacy, sized in [(two, four), (0, four), (two, 0), (0, 0), (1, 1), (four, two)]:
                list_row(one_geometry(w, w.geometry(0, w.index_block(count, legacy, size, sized))), 300)
    # no index block: no record
    for va in [0, *NOWHERE]:
        w = Writer()
        list_row(one_geometry(w, w.geometry(0, va)))


def triangle_rows():
    """Stored index counts beside indices held, in two models; a stored 0 gives way to what is held."""
    for stored in itertools.product([0, 2, 3, 8, 0xFFFFFFFF], repeat=2):
        for kept in itertools.product([None, 0, 3, 7], repeat=2):
            w, models = Writer(), []
            for indices, count in zip(stored, kept):
                block = 0 if count is None else w.index_block(count, w.numbers("indices", "H", range(count)) if count else 0)
                models.append(w.model([w.geometry(0, block, indices=indices), w.geometry(0, 0, indices=0)]))
            list_row(w.drawable(w.header(models)))


# ---- shared blocks


def aliased_rows():
    for times in [2, 3, 5]:
        w = Writer()
        geometry = triangle(w)
        list_row(w.drawable(w.header([w.model([geometry])] * times)))
        list_row(w.drawable(w.header([w.model([geometry] * times, mapping=w.mapping(range(times)))])))
        list_rows(w.drawable(w.header([w.model([geometry] * times, mapping=w.mapping(range(times)))] * times)))
    # blocks that lie in one another: data, indices, mapping, the declaration and the blocks at one place
    w = Writer()
    at = w.end("system")
    w.put("vertex block", legacy_block(4, 32, at, 0, at + 8))
    block = w.index_block(48, at, 4, at)
    geometry = w.geometry(at, block, vertices=0, inline=at)
    pointers = w.end("system")
    list_row(w.drawable(w.header([w.model([geometry, geometry], mapping=pointers)])))
    # one address for the model, its pointers and its mapping; the header is the list of models
    for at in [SYSTEM, GRAPHICS]:
        raw = bytearray(0x98)
        for place, value in [(0x00, at), (0x08, at), (0x18, at), (0x20, at), (0x28, at), (0x38, at), (0x60, 1), (0x70, 0x98), (0x78, at)]:
            struct.pack_into("<Q", raw, place, value)
        struct.pack_into("<H", raw, 0x10, 1)
        list_rows(Drawable(bytes(raw), bytes(raw), at))
        list_row(Drawable(bytes(raw[:-1]), bytes(raw[:-1]), at))


# ---- many geometries


# where the pointers of long rows begin, behind all blocks
POINTERS = 0x1000


def many(models, geometries, vertex_block=0, index_block=0, mapping=0, tail=(), w=None):
    """The same model so many times, each with the same geometry so many times. `tail` makes further models."""
    w = w or Writer()
    geometry = w.geometry(vertex_block, index_block)
    behind = POINTERS + 8 * (models + len(tail))
    model = w.model(SYSTEM + behind, geometries, mapping)
    runs = [(POINTERS, 8, models, model), (behind, 8, geometries, geometry)]
    runs += [(POINTERS + 8 * (models + i), 8, 1, make(w, geometry)) for i, make in enumerate(tail)]
    va = w.header(SYSTEM + POINTERS, models + len(tail))
    return bytes(w.sections["system"]), runs, va


def many_rows():
    """Check 5: 16,384 geometries are read, nulls aside, and one more is not, even where its block does not resolve."""
    for models, geometries in [(1, 16384), (128, 128), (16384, 1), (2, 8192), (1, 16383)]:
        head, runs, va = many(models, geometries)
        needed = 12 * models + 20 * models * geometries
        for room in [0, needed - 1, needed, LONG]:
            line = long_row(head, runs, va, room)
            assert ("accepted" if room >= needed else " refused 7 needed" + hexed(needed)) in line
    for models, geometries in [(1, 16385), (129, 128), (16385, 1), (2, 8193), (65535, 1), (1, 65535), (3, 8000)]:
        head, runs, va = many(models, geometries)
        for room in [0, LONG]:
            assert " refused 5 needed 0" in long_row(head, runs, va, room)
    tail_rows()
    # nulls before each, and in front of the first two
    for step, start in [(16, POINTERS), (16, POINTERS + 8), (24, POINTERS + 16)]:
        w = Writer()
        geometry = w.geometry()
        va = w.header([w.model(SYSTEM + POINTERS, 65535)])
        head, last = bytes(w.sections["system"]), start + step * 16384
        assert " refused 7" in long_row(head, [(start, step, 16384, geometry)], va, 100)
        assert " refused 5" in long_row(head, [(start, step, 16385, geometry)], va, 100)
        assert " refused 5" in long_row(head, [(start, step, 16384, geometry), (last, 8, 1, 0x40000000)], va, 100)


def tail_rows():
    """What stands behind 16,384 geometries: more of them, none, and what does not resolve."""
    one, none, bad = lambda w, geometry: w.model([geometry]), lambda w, geometry: w.model([0, 0]), lambda w, geometry: w.model([0x40000000])
    no_model, no_list = lambda w, geometry: 1, lambda w, geometry: w.model(1, 1)
    for tail, check in [([one], 5), ([none], 7), ([none, none, one], 5), ([bad], 5), ([none, bad], 5), ([no_model], 3), ([no_list], 4)]:
        for models, geometries in [(1, 16384), (128, 128)]:
            head, runs, va = many(models, geometries, tail=tail)
            assert " refused %d" % check in long_row(head, runs, va, 100)
    # the last of the 16,384 does not resolve
    head, runs, va = many(1, 16383, tail=[bad])
    assert " refused 6" in long_row(head, runs, va, 100)


def enormous_rows():
    """Needed lengths of 2^32 bytes and more, by pointers that are all the same."""
    for models, geometries in [(128, 128), (1, 16384), (100, 163)]:
        w = Writer()
        block = w.put("vertex block", legacy_block(65535, 8, SYSTEM + 1, 0, w.declaration()))
        head, runs, va = many(models, geometries, block, w.index_block(250000, SYSTEM + 2), SYSTEM + 0x100, w=w)
        needed = models * (12 + 2 * geometries + geometries * (20 + 22 + 13 + 65535 * 8 + 10 + 4 * 250000))
        assert needed > 1 << 34
        for room in [0, LONG]:
            assert " refused 7 needed" + hexed(needed) in long_row(head, runs, va, room)
    # models without geometries but with a mapping: exactly 2^32, a little less, a little more, and twice that
    for models, count in [(32768, 65530), (32767, 65530), (32768, 65531), (65535, 65535)]:
        w = Writer()
        model = w.model(0, count, mapping=SYSTEM + 0x2000)
        va = w.header(SYSTEM + POINTERS, models)
        line = long_row(bytes(w.sections["system"]), [(POINTERS, 8, models, model)], va, LONG)
        assert " refused 7 needed" + hexed(models * (12 + 2 * count)) in line


# ---- random drawables


def random_rows():
    """Seeded, so that they are the same each time."""
    pick = random.Random(1)
    made = 0
    while made < 320:
        drawable = random_drawable(pick)
        for _ in range(pick.choice([0, 0, 1, 1, 2, 5])):
            damage(pick, drawable)
        drawable = Drawable(bytes(drawable[0]), bytes(drawable[1]), drawable[2])
        needed = read(drawable).needed
        if len(drawable.system) + len(drawable.graphics) <= ROW and needed < ROOM:
            room = pick.choice([needed, needed, needed + 3, needed + 3, max(needed - 1, 0), 0, ROOM])
            list_row(drawable, room)
            made += 1


# ---- the oracle


def ask_oracle():
    """Every drawable, once, beside the original Rust."""
    original = os.path.abspath(os.environ.get("RAGE_FORMATS", "../shared/docs/src"))
    if not shutil.which("cargo") or not os.path.isdir(original):
        print("the oracle was not asked: no cargo, or no original Rust")
        return
    cases = [drawable for drawable in drawables if read(drawable).check not in (1, 5) and read(drawable).needed < LIMIT]
    data = b"".join(struct.pack("<3Q", len(system), len(graphics), va) + system + graphics for system, graphics, va in cases)
    command = ["cargo", "run", "--profile", "checked", "--offline", "--quiet", "--manifest-path", "rust/differential/oracle/Cargo.toml"]
    run = subprocess.run(command, input=data, stdout=subprocess.PIPE, check=True, env={**os.environ, "RAGE_FORMATS": original})
    found = run.stdout.decode().split("\n")[:-1]
    assert len(found) == len(cases)
    for drawable, said in zip(cases, found):
        check, listed, _ = read(drawable)
        expected = "refused %d" % check if check else "list " + b"".join(listed).hex()
        if said != expected:
            raise SystemExit("the oracle differs: system %s graphics %s address %x\nhere %s\noracle %s" % (drawable.system.hex(), drawable.graphics.hex(), drawable.va, expected, said))
    print("the oracle agrees on %d of %d drawables; the others have more geometries or bytes than it is asked about" % (len(cases), len(drawables)))


vector_rows()
header_rows()
null_rows()
number_rows()
model_refusal_rows()
geometry_refusal_rows()
binding_rows()
stream_rows()
stream_end_rows()
vertex_count_rows()
index_rows()
triangle_rows()
aliased_rows()
many_rows()
enormous_rows()
random_rows()
ask_oracle()
halls, verdicts = check_rows()
print("%d of the rows are about the hall check" % len(halls))
calls, answers = call_rows()
print("%d are about calls and finders" % len(calls))
store("halls_test", rows + halls + calls, lines + verdicts + answers)
