"""Checks 11 to 19, written from document 01, and 27, from document 02's N7; and the rows of crates/halls_test that ask for them.
tests/expected/halls.py adds these rows to its own.

27 comes after 18 and before 19: the check that is told is the first in that order, not the lowest number.
Checks 13 and 19 need longer lists than a row makes, but for the number of models: rust/calicofern/tests/limits.rs has them."""
import collections
import itertools
import random
import re
import struct

from blocks import declaration_bytes, record
from rows import U64, checksum, hexed, packed_with, pattern

LIMIT = 67108864
# a row's bytes, and the buffer that long rows fill
ROW, LONG = 4096, 0x90000


# ---- halls, from documents 01 and 02


Model = collections.namedtuple("Model", "binding mask mapping geometries")
# records 2 (shader to stride), 3 (flags to types), 4 (layout to data) and 5
Geometry = collections.namedtuple(
    "Geometry",
    "shader indices triangles vertices stride flags declared_stride unknown declared_count types layout buffer_stride count data index_count held",
)
SIZES = [0, 4, 4, 8, 0, 8, 12, 16, 4, 4, 4, 0, 0, 0, 0, 0]


def records(hall):
    """Kind and body of each record, or nothing where one is not whole."""
    found = []
    while hall:
        if len(hall) < 6:
            return None
        length, kind = struct.unpack_from("<IH", hall)
        if len(hall) < 6 + length:
            return None
        found.append((kind, hall[6 : 6 + length]))
        hall = hall[6 + length :]
    return found


def exact(kind, body):
    """Whether a body has the length that its kind and its own numbers give it."""
    if kind == 1:
        return len(body) >= 6 and len(body) % 2 == 0
    if kind == 2:
        return len(body) == 14
    if kind == 3:
        return len(body) == 16
    if kind == 4 and len(body) >= 7:
        _, stride, count = struct.unpack_from("<BHI", body)
        return len(body) == 7 + count * stride
    if kind == 5:
        return len(body) >= 4 and len(body) % 4 == 0
    return False


def models_of(hall):
    """The models that the records say, or nothing where check 11 fails."""
    found = records(hall)
    if found is None or not all(exact(kind, body) for kind, body in found):
        return None
    if not re.fullmatch("(1(2345)*)*", "".join(str(kind) for kind, _ in found)):
        return None
    models = []
    for kind, body in found:
        if kind == 1:
            binding, mask = struct.unpack_from("<IH", body)
            models.append(Model(binding, mask, numbers("H", body[6:]), []))
        elif kind == 2:
            parts = struct.unpack("<HIIHH", body)
        elif kind == 3:
            parts += struct.unpack("<IHBBQ", body)
        elif kind == 4:
            parts += struct.unpack_from("<BHI", body) + (body[7:],)
        else:
            models[-1].geometries.append(Geometry(*parts, struct.unpack_from("<I", body)[0], numbers("I", body[4:])))
    return models


def numbers(form, data):
    return [value for value, in struct.iter_unpack("<" + form, data)]


def padded(count):
    return (count + 15) // 16 * 16


def image_size(models):
    """Each piece of the image starts at a multiple of 16, and so does its end."""
    size = padded(16) + padded(8 * len(models))
    for model in models:
        size += padded(0x30) + padded(8 * len(model.geometries)) + padded(2 * len(model.geometries))
        for g in model.geometries:
            size += padded(0x98) + padded(0x80) + padded(16) + padded(len(g.data)) + padded(0x60) + padded(2 * len(g.held))
    return size


def components_size(g):
    return sum(SIZES[g.types >> 4 * bit & 15] for bit in range(16) if g.flags >> bit & 1)


def position_size(g):
    return SIZES[g.types & 15] if g.flags & 1 else 0


def triangles_of(held):
    """Three indices each; one or two at the end make none."""
    return [held[at : at + 3] for at in range(0, len(held) - 2, 3)]


def verdict(lent, n):
    """The first check that fails, in the order of `first_failing` behind 11, or 0."""
    models = models_of(lent[:n]) if n <= len(lent) else None
    return 11 if models is None else first_failing(models)


def first_failing(models):
    """The first of checks 12 to 18, 27 and 19, in this order, that fails anywhere in the hall, or 0."""
    geometries = [g for model in models for g in model.geometries]
    holds = {
        12: all(model.mapping == [g.shader for g in model.geometries] for model in models),
        13: len(models) <= 256 and len(geometries) <= 16384,
        14: all(g.layout == 0 and g.stride == g.declared_stride == g.buffer_stride for g in geometries),
        15: all(position_size(g) > 0 and components_size(g) <= g.stride for g in geometries),
        16: all(g.vertices == g.count and 1 <= g.count <= 65535 for g in geometries),
        17: all(g.indices == g.index_count == len(g.held) == 3 * g.triangles and len(g.held) >= 3 for g in geometries),
        18: all(index < g.count for g in geometries for index in g.held),
        27: all(a != b and b != c and a != c for g in geometries for a, b, c in triangles_of(g.held)),
        19: image_size(models) <= LIMIT,
    }
    return next((check for check, yes in holds.items() if not yes), 0)


# ---- rows


# each row and its line, the same one only once
rows = {}


def row(kind, name, n, lent, asked, data):
    assert len(data) <= ROW
    check = verdict(lent, n)
    rows[packed_with(kind, asked, data)] = name + hexed(n, len(lent), checksum(lent)) + ":" + (" fails %d" % check if check else " sound")
    return check


def check_row(lent, n=None):
    """The first n bytes of those lent, by default all of them."""
    n = len(lent) if n is None else n
    return row(3, "check", n, lent, [n], lent)


def runs_of(words, at, apart):
    """Runs that put these eight bytes each, from an offset on: of every so many words the equal ones that follow one another. Zeros need none."""
    runs = []
    for first in range(min(apart, len(words))):
        place = at + 8 * first
        for word, same in itertools.groupby(words[first::apart]):
            count = len(list(same))
            if any(word):
                runs.append(struct.pack("<4Q", place, 8 * apart, count, int.from_bytes(word, "little")))
            place += 8 * apart * count
    return runs


def long_row(lent, n=None, head=400):
    """The same for a longer list, of which a row holds the first bytes, and the others by runs. Triangles that repeat have 12 or 36 bytes, and so three or
    nine words until the same ones come again."""
    n = len(lent) if n is None else n
    assert len(lent) <= LONG
    words = [lent[at : at + 8].ljust(8, b"\0") for at in range(head, len(lent), 8)]
    runs = min((runs_of(words, head, apart) for apart in (1, 3, 9)), key=len)
    assert len(runs) < 100
    return row(4, "long check", n, lent, [n, len(lent), 0, 0, len(runs)], b"".join(runs) + lent[:head])


# ---- writing halls


def geometry(shader=7, count=3, stride=12, held=(0, 1, 2), flags=1, types=6, data=None):
    """A geometry whose counts and strides agree."""
    data = pattern(count * stride, 3) if data is None else data
    declared = bin(flags & 0xFFFF).count("1")
    return Geometry(shader, len(held), len(held) // 3, count, stride, flags, stride, 0, declared, types, 0, stride, count, data, len(held), list(held))


def bodies(g):
    """The bodies of records 2 to 5."""
    return [
        struct.pack("<HIIHH", g.shader, g.indices, g.triangles, g.vertices, g.stride),
        declaration_bytes(g.flags, g.declared_stride, g.unknown, g.declared_count, g.types),
        struct.pack("<BHI", g.layout, g.buffer_stride, g.count) + g.data,
        struct.pack("<I%dI" % len(g.held), g.index_count, *g.held),
    ]


def geometry_bytes(g):
    return b"".join(record(kind, body) for kind, body in zip([2, 3, 4, 5], bodies(g)))


def model_record(mapping=(), binding=0x01020304, mask=0x0506):
    return record(1, struct.pack("<IH%dH" % len(mapping), binding, mask, *mapping))


def hall_of(*models):
    """Models given as lists of geometries, with the mapping that these want."""
    return b"".join(model_record([g.shader for g in model]) + b"".join(geometry_bytes(g) for g in model) for model in models)


def others(count):
    """Sound geometries that differ."""
    return [geometry(40 + i, 3 + i, 12 + 4 * i, [i, i + 1, i + 2] * (1 + i)) for i in range(count)]


def place_rows(g, check):
    """Beside sound geometries: the first of all, a later one of its model, the first and the last of a later model. `check` is the one that must be
    told, or 0."""
    a, b, c = others(3)
    for hall in [hall_of([g, a], [b]), hall_of([a, g], [b]), hall_of([a], [g, b]), hall_of([a, b], [], [c, g])]:
        assert check_row(hall) == check, (g, check)


def geometry_rows(g, check):
    """Alone, and in a later model."""
    for hall in [hall_of([g]), hall_of(others(1), [g])]:
        assert check_row(hall) == check, (g, check)


# ---- check 11


def length_rows():
    """How many bytes are asked about, and how many are lent."""
    vector = hall_of([geometry(0)])
    assert len(vector) == 127 and image_size(models_of(vector)) == 576 and check_row(vector) == 0
    assert check_row(b"") == 0 and image_size([]) == 16
    for lent in [b"", b"\0", vector, bytes(16)]:
        for n in [len(lent) + 1, len(lent) + 6, (1 << 32) + len(lent), (1 << 63) + len(lent), U64 - 1]:
            assert check_row(lent, n) == 11
        check_row(lent, 0)
    # bytes beyond n are not looked at
    for tail in [b"\0", b"\xff" * 9, vector, vector[:60], vector[12:], geometry_bytes(geometry()._replace(layout=1))]:
        assert check_row(vector + tail, len(vector)) == 0
        check_row(vector + tail)
    # cut at every byte, with what is cut off lent or not, and asked about in whole
    a, b = geometry(5), geometry(6, 3, 4, [1, 0, 2], types=1)
    whole, apart = hall_of([a, b]), hall_of([a], [b])
    for n in range(len(whole)):
        assert (check_row(whole[:n]) if n % 2 else check_row(whole, n)) == {0: 0, 16: 12, 16 + len(geometry_bytes(a)): 12}.get(n, 11)
    for n in range(0, len(whole), 9):
        assert check_row(whole[:n], len(whole)) == 11
    for n in sorted({0, len(apart)} | {at + step for at in [14, 127, 141] for step in (-1, 0, 1)}):
        check_row(apart[:n])
        check_row(apart, n)


def byte_rows():
    """Every byte of a small hall changed."""
    hall = hall_of([geometry(0x0102, 3, 4, [1, 0, 2], types=1)])
    for at, byte in enumerate(hall):
        for value in sorted({255, byte ^ 1, byte ^ 128} - {byte}):
            check_row(hall[:at] + bytes([value]) + hall[at + 1 :])


def kind_rows():
    """Kinds that are missing, doubled, exchanged or unknown, in a first and in a later geometry."""
    first, second = [[record(kind, body) for kind, body in zip([2, 3, 4, 5], bodies(geometry(shader)))] for shader in (1, 2)]
    model = model_record([1, 2])
    whole = [model, *first, *second]
    assert check_row(b"".join(whole)) == 0
    for i in range(len(whole)):
        check_row(b"".join(whole[:i] + whole[i + 1 :]))
        check_row(b"".join(whole[: i + 1] + whole[i:]))
        for kind in [0, 1, 2, 3, 4, 5, 6, 0x0100 + whole[i][4]]:
            changed = whole[i][:4] + struct.pack("<H", kind) + whole[i][6:]
            check_row(b"".join(whole[:i] + [changed] + whole[i + 1 :]))
        for unknown, body in [(0, b""), (6, b""), (0, bytes(4))]:
            assert check_row(b"".join(whole[:i] + [record(unknown, body)] + whole[i:])) == 11
    for i, j in itertools.combinations(range(len(whole)), 2):
        changed = list(whole)
        changed[i], changed[j] = changed[j], changed[i]
        check_row(b"".join(changed))
    # geometries before any model, and each kind alone
    assert check_row(b"".join(first)) == 11
    assert check_row(b"".join(first + [model_record([])])) == 11
    assert check_row(b"".join(first + whole)) == 11
    for part in whole:
        check_row(part)
    # a model between the parts of a geometry
    for i in range(1, 4):
        assert check_row(b"".join([model, *first[:i], model_record([]), *first[i:]])) == 11


def body_rows():
    """Bodies that are longer or shorter than their own numbers say, the records being whole."""
    g = geometry(1)
    whole = [(1, struct.pack("<IHH", 9, 8, 1)), *zip([2, 3, 4, 5], bodies(g))]
    behind = hall_of([geometry(3)])
    for i, (kind, body) in enumerate(whole):
        for change in [-len(body), -4, -3, -2, -1, 1, 2, 4]:
            if len(body) + change < 0:
                continue
            changed = body[: len(body) + change] if change < 0 else body + bytes(change)
            hall = b"".join(record(k, changed if j == i else b) for j, (k, b) in enumerate(whole))
            check_row(hall)
            check_row(behind + hall if change % 2 else hall + behind)
        # the length says more or less, and the bytes stay
        for length in [0, len(body) - 1, len(body) + 1, len(body) + 6, (1 << 16) + len(body), 1 << 31, (1 << 32) - 6, (1 << 32) - 1]:
            parts = [record(k, b) for k, b in whole]
            parts[i] = struct.pack("<I", length) + parts[i][4:]
            check_row(b"".join(parts) + behind)
    for tail in [b"\0", bytes(5), bytes(6), bytes(12)]:
        assert check_row(behind + tail) == check_row(tail) == 11
    # bodies of a few bytes, the numbers in them being 0
    for size in range(10):
        assert check_row(record(1, bytes(size))) == {6: 0, 8: 12}.get(size, 11)
        assert check_row(model_record([1]) + geometry_bytes(g)[:-22] + record(5, bytes(size))) == {4: 17, 8: 17}.get(size, 11)


def content_rows():
    """Vertex bytes = count × stride, as whole numbers of any size."""
    g = geometry()
    for count, stride in [(2, 12), (4, 12), (3, 11), (3, 13), (0, 12), (3, 0), (36, 1), (12, 3), (1, 36), (9, 4), (0x10003, 12), (0xFFFFFFFF, 12), (3, 0xFFFF), (36, 0), (1 << 31, 2)]:
        check_row(hall_of([g._replace(count=count, buffer_stride=stride)]))
        check_row(hall_of(others(1), [g._replace(count=count, buffer_stride=stride)]))
    # products that are a few bytes once 2^32 is taken off them, or nothing at all
    for count, stride in [(1 << 31, 2), (1 << 30, 4), (1 << 28, 16), (1 << 17, 1 << 15), (0x55555558, 12), (0x80000012, 2), (0xAAAAAAAE, 6)]:
        data = bytes(count * stride % (1 << 32))
        assert check_row(hall_of([geometry(stride=stride, data=data)._replace(count=count, vertices=count & 0xFFFF)])) == 11
    # no bytes at all are right where the stride or the count is 0
    for count, stride in [(0, 0), (0, 12), (3, 0), (0xFFFFFFFF, 0), (0, 0xFFFF)]:
        for flags in [0, 1]:
            assert check_row(hall_of([geometry(stride=stride, flags=flags, data=b"")._replace(count=count, vertices=count & 0xFFFF)])) in (15, 16)


# ---- checks 12 and 13


def mapping_rows():
    """One model with a mapping beside its geometries' shader ids, first and later; then two models with wrong mappings, some right across both."""

    def model(mapping, shaders):
        return model_record(mapping) + b"".join(geometry_bytes(geometry(shader)) for shader in shaders)

    pairs = [([], []), ([1], [1]), ([], [1]), ([1], []), ([1, 1], [1]), ([1], [1, 1]), ([0], []), ([], [0]), ([0], [0]), ([2], [1]), ([0x0100], [1])]
    pairs += [([1, 2], [1, 2]), ([2, 1], [1, 2]), ([1, 3], [1, 2]), ([3, 2], [1, 2]), ([1], [1, 2]), ([2], [1, 2]), ([], [1, 2]), ([1, 2, 3], [1, 2]), ([0, 1, 2], [1, 2])]
    pairs += [([5, 5, 5], [5, 5, 5]), ([5, 5], [5, 5, 5]), ([5, 5, 5, 5], [5, 5, 5]), ([65535, 0, 65535], [65535, 0, 65535]), ([65535, 0, 65534], [65535, 0, 65535]), ([1, 2, 0], [1, 2])]
    for mapping, shaders in pairs:
        check = 0 if mapping == shaders else 12
        for hall in [model(mapping, shaders), model(mapping, shaders) + model([9], [9]), model([], []) + model([9], [9]) + model(mapping, shaders)]:
            assert check_row(hall) == check
    for first, second in itertools.product([([1, 2], [1]), ([1], [1, 2]), ([2], [1]), ([], [1]), ([1], [])], [([], [2]), ([2], []), ([1], [2]), ([1], []), ([], [1]), ([1, 2], [2])]):
        assert check_row(model(*first) + model(*second)) == 12
    # mappings whose record has 2^16 bytes, a few less and more
    for entries in [32762, 32765, 32768, 100000]:
        assert long_row(model_record([0] * entries)) == 12
        assert long_row(hall_of([geometry()]) + model_record([0] * entries) + hall_of([])) == 12


def model_count_rows():
    """256 models, and one more; a lower check is told before 13."""
    bad, two = geometry()._replace(layout=3), record(2, bytes(14))
    for count in [2, 255, 256, 257]:
        empty = model_record() * count
        assert check_row(empty) == (13 if count > 256 else 0)
        check_row(empty, 12 * count - 12)
        check_row(empty, 12 * count - 1)
        for tail in [geometry_bytes(geometry()), geometry_bytes(bad), two, hall_of([geometry()]), hall_of([bad]), model_record([0])]:
            if len(empty + tail) <= ROW:
                check_row(empty + tail)
                check_row(tail + empty)
    for place in [0, 100, 256]:
        assert check_row(model_record() * place + model_record([1]) + model_record() * (256 - place)) == 12
        assert check_row(model_record() * place + hall_of([bad]) + model_record() * (256 - place)) == 13


# ---- checks 14 to 17


def stride_rows():
    g = geometry()
    place_rows(g, 0)
    for change in [{"layout": 1}, {"stride": 16}, {"declared_stride": 16}, {"buffer_stride": 16, "data": bytes(48)}]:
        place_rows(g._replace(**change), 14)
    for layout in [1, 2, 3, 4, 128, 255]:
        geometry_rows(g._replace(layout=layout), 14)
    for stride in [11, 13, 0, 24, 12 + 256, 65535]:
        geometry_rows(g._replace(stride=stride), 14)
        geometry_rows(g._replace(declared_stride=stride), 14)
        assert check_row(hall_of([g._replace(stride=stride, declared_stride=stride)])) == 14
        if stride < 300:
            other = g._replace(buffer_stride=stride, data=bytes(3 * stride))
            geometry_rows(other, 14)
            assert check_row(hall_of([other._replace(stride=stride)])) == 14
            assert check_row(hall_of([other._replace(declared_stride=stride)])) == 14
            assert check_row(hall_of([other._replace(stride=stride, declared_stride=stride)])) == (0 if stride > 11 else 15)
    # the least stride and the greatest
    assert check_row(hall_of([geometry(stride=4, types=1)])) == 0
    assert long_row(hall_of([geometry(stride=65535, data=bytes(3 * 65535))])) == 0
    # the declaration's unknown byte and its count are not asked about
    for unknown, count in [(255, 0), (1, 255), (0, 16)]:
        assert check_row(hall_of([g._replace(unknown=unknown, declared_count=count)])) == 0


def position_rows():
    g = geometry()
    # a position of each type, the stride as long as it, a byte longer and a byte shorter
    for nibble in range(16):
        size = SIZES[nibble]
        for stride in sorted({max(size - 1, 0), size, size + 1, 12}):
            check = 0 if size and stride >= size else 15
            assert check_row(hall_of([geometry(stride=stride, types=nibble)])) == check
        # a sixteenth component of size 0, and nibbles that are not declared
        assert check_row(hall_of([geometry(stride=size, types=nibble | 0xB << 60 | 0x777 << 8, flags=0x8001)])) == (0 if size else 15)
    # no position
    for flags, types in [(0, 6), (2, 0x66), (2, 0x60), (0xFFFE, 0x6), (0xFFFF0000, 6), (0x10000, 6), (0xFFFFFFFE, 6), (0x100, 6)]:
        geometry_rows(geometry(flags=flags, types=types), 15)
    for change in [{"flags": 0}, {"types": 4}, {"types": 0x66, "flags": 3}]:
        place_rows(g._replace(**change), 15)
    # flags above bit 15 mean nothing, whatever the types
    for flags in [0x10001, 0xFFFF0001, 0x80000001]:
        for types in [6, 0x7777777777777776]:
            assert check_row(hall_of([geometry(flags=flags, types=types)])) == 0


def component_rows():
    """A position and one more component, or all sixteen: exactly the stride, or a byte more."""
    for bit in range(1, 16):
        for nibble in [7, 1, 13]:
            size = 12 + SIZES[nibble]
            for stride in [size - 1, size]:
                g = geometry(stride=stride, flags=1 | 1 << bit, types=6 | nibble << 4 * bit)
                if nibble == 7 or bit in (1, 15):
                    assert check_row(hall_of([g])) == (15 if stride < size else 0)
    # in the fourth 12 + 4 + 4 + 8 + 8 + 12 + 16 + 4 + 4 + 4
    for types, size in [(0x7777777777777777, 256), (0x1111111111111111, 64), (0x0000000000000007, 16), (0xFEDCBA9876543216, 76)]:
        for stride in [size - 1, size, size + 1]:
            for flags in [0xFFFF, 0xFFFFFFFF]:
                assert check_row(hall_of([geometry(stride=stride, flags=flags, types=types)])) == (15 if stride < size else 0)


def vertex_count_rows():
    g = geometry()
    for vertices in [0, 1, 2, 4, 3 + 256, 65535]:
        geometry_rows(g._replace(vertices=vertices), 16)
    for wrong in [g._replace(vertices=2), geometry(count=0), geometry(count=4)._replace(vertices=3), geometry(count=0)._replace(vertices=3)]:
        place_rows(wrong, 16)
    # one vertex is enough here, though no triangle has its three vertices then
    geometry_rows(geometry(count=1, held=[0, 0, 0]), 27)
    # counts of which the lower 16 bits are the number of vertices, and others
    for count in [255, 256, 257, 65534, 65535, 65536, 65537, 65539, 131072]:
        for vertices in sorted({count & 0xFFFF, min(count, 65535), 3}):
            many = geometry(count=count, stride=4, held=[0, 1, 2], types=1, data=bytes(4 * count))._replace(vertices=vertices)
            assert long_row(hall_of([many])) == (0 if vertices == count else 16)


def index_count_rows():
    g = geometry()
    for wrong in [0, 1, 2, 4, 6, 3 + 256, 3 + 65536, 1 << 31, (1 << 31) + 3, 0xFFFFFFFF]:
        geometry_rows(g._replace(indices=wrong), 17)
        geometry_rows(g._replace(index_count=wrong), 17)
        assert check_row(hall_of([g._replace(indices=wrong, index_count=wrong)])) == 17
    for change in [{"indices": 6}, {"index_count": 6}, {"triangles": 2}, {"held": [0, 1, 2, 0]}, {"indices": 0, "index_count": 0, "triangles": 0, "held": []}]:
        place_rows(g._replace(**change), 17)
    for triangles in [0, 2, 3, 1 + 256, 1 + 65536, 0x55555556, 0x80000001, 0xAAAAAAAC, 0xFFFFFFFF]:
        geometry_rows(g._replace(triangles=triangles), 17)
    # fewer or more indices held than the numbers say, and numbers that agree about no triangles or a part of one
    for held in range(9):
        items = [i % 3 for i in range(held)]
        geometry_rows(g._replace(held=items), 0 if held == 3 else 17)
        agreeing = g._replace(held=items, index_count=held, indices=held, triangles=held // 3)
        geometry_rows(agreeing, 0 if held in (3, 6) else 17)
        # three times these triangles, less 2^32 or 2^33, is the number of indices
        for wide in [1 << 32, 1 << 33]:
            if (wide + held) % 3 == 0:
                assert check_row(hall_of([agreeing._replace(triangles=(wide + held) // 3)])) == 17
    # the geometry says 3 indices, the buffer 6
    assert check_row(hall_of([geometry(held=[0, 1, 2, 2, 1, 0])._replace(indices=3)])) == 17
    assert check_row(hall_of([geometry(held=[0, 1, 2, 2, 1, 0])._replace(index_count=3)])) == 17
    assert check_row(hall_of([geometry(held=[0, 1, 2, 2, 1, 0])._replace(indices=3, triangles=1)])) == 17
    # 412 triangles beside the indices of 413
    for held, indices, index_count, triangles in itertools.product([412, 413], repeat=4):
        g = geometry(held=[2, 1, 0] * held)
        wrong = g._replace(indices=3 * indices, index_count=3 * index_count, triangles=triangles)
        assert long_row(hall_of([wrong])) == (0 if held == indices == index_count == triangles else 17)


# ---- check 18


def index_rows():
    """An index at every place of a triangle or two; a count of one byte and of two."""
    for held in [3, 6]:
        for at in range(held):
            for wrong in [3, 4, 5, 255, 256, 65536, 1 << 24, 1 << 31, 0xFFFF0000, 0xFFFFFFFF] if held == 3 else [3, 4]:
                items = [i % 3 for i in range(held)]
                items[at] = wrong
                g = geometry(count=4, held=items)
                assert check_row(hall_of([g])) == (0 if wrong == 3 else 18)
                if held == 3 and wrong in (4, 0xFFFFFFFF):
                    place_rows(g, 18)
    # a later geometry's own count decides, not an earlier one's
    few, many = geometry(1, 3, held=[2, 1, 0]), geometry(2, 5, held=[4, 3, 0])
    for first, second in itertools.product([few, many, few._replace(held=[1, 3, 0]), many._replace(held=[4, 5, 0])], repeat=2):
        check_row(hall_of([first, second]))
        check_row(hall_of([first], [second]))
    for count in [255, 256, 257, 300]:
        for index in [count - 2, count - 1, count, count + 1, count + 256, count + 65535]:
            check_row(hall_of([geometry(count=count, stride=4, types=1, held=[0, index, 1])]))
    for count in [65534, 65535]:
        for index in [count - 1, count, 65536, 65536 + count - 1]:
            g = geometry(count=count, stride=4, types=1, data=bytes(4 * count), held=[0, 1, index])
            assert long_row(hall_of([g])) == (0 if index < count else 18)


def long_index_rows():
    """A wrong index at the first, middle and last places of longer lists, around multiples of 64 indices."""
    for triangles in [22, 85, 86, 128, 342, 1366, 21846]:
        count = 3 * triangles
        base = [2, 1, 0] * triangles
        places = {0, 1, count // 2, count - 2, count - 1, count - count % 64, count - count % 256}
        places |= {place + step for place in [64, 128, 256, 512, 1024, 4096] for step in (-1, 0)} if count > 250 else {63}
        assert long_row(hall_of([geometry(held=base)])) == 0
        for at in sorted(place for place in places if place < count):
            for wrong in [3, 0xFFFFFFFF, 65536] if at in (0, count // 2, count - 1) and triangles in (86, 342) else [3]:
                items = list(base)
                items[at] = wrong
                assert long_row(hall_of([geometry(held=items)])) == 18
    # 65,538 indices, a number whose lower 16 bits are 2
    for field in ["indices", "index_count"]:
        assert long_row(hall_of([geometry(held=[2, 1, 0] * 21846)._replace(**{field: 2})])) == 17
    # two wrong ones, and a wrong one in the second of two long lists
    base = [2, 1, 0] * 256
    wrong = base[:700] + [3] + base[701:]
    for first, second in itertools.product([base, wrong], repeat=2):
        check = 0 if first == second == base else 18
        assert long_row(hall_of([geometry(1, held=first), geometry(2, held=second)]), head=200) == check
        assert long_row(hall_of([geometry(1, held=first)], [geometry(2, held=second)]), head=200) == check


# ---- check 27


# places in a triangle
PAIRS = [(0, 1), (1, 2), (0, 2)]
# triangles over three vertices, to be repeated: of neighbours, the last and the first index are equal in the second list, the last two and the first two in
# the third
PATTERNS = [[2, 1, 0], [0, 1, 2, 2, 0, 1, 1, 2, 0], [0, 1, 2, 1, 2, 0, 2, 0, 1]]


def indices_for(triangles, number=0):
    """So many sound triangles, by one of the patterns."""
    return (PATTERNS[number % 3] * triangles)[: 3 * triangles]


def doubled(indices, triangle, pair):
    """The same, but that in one triangle a pair is equal."""
    first, second = pair
    out = list(indices)
    out[3 * triangle + second] = out[3 * triangle + first]
    return out


def beyond(indices, triangle, pair, wrong):
    """The same, but that in one triangle the index that is not of the pair is another."""
    out = list(indices)
    out[3 * triangle + 3 - sum(pair)] = wrong
    return out


def triangle_rows():
    """Every triangle over three vertices; where it stands among others; with one vertex or two; beside an index that is too great."""
    for held in itertools.product(range(3), repeat=3):
        assert check_row(hall_of([geometry(held=held)])) == (0 if len(set(held)) == 3 else 27)
        for count in [1, 2]:
            assert check_row(hall_of([geometry(count=count, held=held)])) == (18 if max(held) >= count else 27)
    # a strip: each triangle begins with the vertex that the one before ends with, and has another of its vertices
    strip = [0, 1, 2, 2, 1, 3, 3, 1, 0]
    for held in [strip, strip[:6], [0, 1, 2, 2, 3, 1], [0, 1, 2, 0, 1, 2], [0, 1, 2, 1, 2, 0], [3, 2, 1, 1, 2, 3]]:
        geometry_rows(geometry(count=4, held=held), 0)
    for pair in PAIRS:
        place_rows(geometry(held=doubled([0, 1, 2], 0, pair)), 27)
        for triangle in range(3):
            geometry_rows(geometry(count=4, held=doubled(strip, triangle, pair)), 27)
            for other in range(3):
                geometry_rows(geometry(count=4, held=beyond(doubled(strip, triangle, pair), other, pair, 4)), 18)
    # the doubled index itself is too great, also where its lower 16 bits are another's
    for held in [[3, 3, 0], [0, 3, 3], [3, 0, 3], [3, 3, 3], [1, 0x10001, 2], [0x10001, 0x10001, 2], [2, 1, 0xFFFFFFFF], [0xFFFFFFFF] * 3]:
        geometry_rows(geometry(held=held), 18)
    # equal vertices under different indices
    geometry_rows(geometry(data=bytes(36)), 0)
    geometry_rows(geometry(data=pattern(12, 9) * 3), 0)
    # numbers that differ in one byte alone, or have the same bytes in another order
    for a, b in [(0x0001, 0x0101), (0x0001, 0x8001), (0x00FE, 0xFFFE), (0xFF00, 0xFF01), (0x1234, 0x3412)]:
        for pair in PAIRS:
            held = [2, 2, 2]
            held[pair[0]], held[pair[1]] = a, b
            many = geometry(count=65535, stride=4, types=1, data=bytes(4 * 65535), held=held)
            assert long_row(hall_of([many]), head=120) == 0
            assert long_row(hall_of([many._replace(held=doubled(held, 0, pair))]), head=120) == 27


def long_triangle_rows():
    """A triangle anywhere in and behind blocks of 64 triangles; triangle 21 lies on both sides of the 64th index."""

    def told(*models):
        return long_row(hall_of(*models), head=120)

    for triangles in [21, 22, 63, 64, 65, 85, 86, 127, 128, 129, 191, 192, 193, 200]:
        for number in range(3):
            assert told([geometry(held=indices_for(triangles, number))]) == 0
        for place in sorted({0, 21, triangles // 2, 63, 64, 127, 128, triangles - 1}):
            for pair in PAIRS if place < triangles else []:
                assert told([geometry(held=doubled(indices_for(triangles, triangles + place), place, pair))]) == 27
    for place in range(67):
        assert told([geometry(held=doubled(indices_for(67, 1), place, PAIRS[place % 3]))]) == 27
    # an index that is too great before it, behind it or in it, in the same block, in another, and behind the blocks
    places = [0, 40, 63, 64, 127, 150, 192, 199]
    for at, (twice, wrong) in enumerate(itertools.product(places, repeat=2)):
        pair = PAIRS[at % 3]
        assert told([geometry(held=beyond(doubled(indices_for(200), twice, pair), wrong, pair, [3, 65536, 0xFFFFFFFF][at % 3]))]) == 18
    # two long lists
    base = indices_for(256)
    twice, wrong = doubled(base, 233, (0, 2)), beyond(base, 130, (0, 2), 3)
    for first, second in itertools.product([base, twice, wrong], repeat=2):
        check = 18 if wrong in (first, second) else 27 if twice in (first, second) else 0
        assert told([geometry(1, held=first), geometry(2, held=second)]) == check
        assert told([geometry(1, held=first)], [geometry(2, held=second)]) == check


# ---- several checks


# what makes the geometry fail one check alone, in the order of the checks
BROKEN = {14: {"layout": 1}, 15: {"flags": 2}, 16: {"vertices": 2}, 17: {"triangles": 2}, 18: {"held": [0, 1, 9]}, 27: {"held": [1, 0, 1]}}


def several_rows():
    """Two checks fail, at one place or at two, the earlier check first or last: it is the one that is told. For 18 and 27 at one place see `triangle_rows`."""
    for early, late in itertools.combinations(BROKEN, 2):
        if early != 18:
            geometry_rows(geometry()._replace(**BROKEN[early], **BROKEN[late]), early)
        a, b = geometry(1)._replace(**BROKEN[early]), geometry(2)._replace(**BROKEN[late])
        for hall in [hall_of([a, b]), hall_of([b, a]), hall_of([a], [b]), hall_of([b], [a]), hall_of([b, *others(2)], [a]), hall_of([a, *others(2)], [b])]:
            assert check_row(hall) == early
    for check, change in BROKEN.items():
        g = geometry(7)._replace(**change)
        wrong_mapping = model_record([8]) + geometry_bytes(geometry(7))
        for hall in [model_record([]) + geometry_bytes(g), hall_of([g]) + wrong_mapping, wrong_mapping + hall_of([g]), hall_of([g]) + model_record([1])]:
            assert check_row(hall) == 12
            assert check_row(hall + b"\1") == 11
        assert check_row(hall_of([g], *[[]] * 256)) == 13
        assert check_row(hall_of(*[[]] * 256, [g])) == 13
        assert check_row(hall_of([g], *[[]] * 255)) == check
        assert check_row(geometry_bytes(g) + hall_of([g])) == 11
        assert check_row(hall_of([g]) + hall_of([geometry()])[:-1]) == 11
    every = geometry()._replace(**{field: value for change in BROKEN.values() for field, value in change.items()})
    place_rows(every, 14)
    place_rows(every._replace(layout=0), 15)


def random_indices(pick, count, triangles):
    """Sound triangles over `count` vertices, which are three at least."""
    return [index for _ in range(triangles) for index in pick.sample(range(count), 3)]


def random_doubled(pick, indices):
    """The same, but that in one triangle a pair is equal."""
    return doubled(indices, pick.randrange(len(indices) // 3), pick.choice(PAIRS))


def random_hall(pick):
    models = []
    for _ in range(pick.randrange(1, 4)):
        model = []
        for _ in range(pick.randrange(1, 3)):
            types = pick.choice([6, 6, 1, 3, 7, 0x96, 0x9A6])
            flags = pick.choice([1, 1, 3, 7, 0x10001])
            stride = components_size(geometry(flags=flags, types=types, data=b"")) + pick.choice([0, 0, 4])
            count, triangles = pick.randrange(3, 6), pick.randrange(1, 4)
            model.append(geometry(pick.randrange(4), count, stride, random_indices(pick, count, triangles), flags, types))
        models.append(model)
    return models


FIELDS = [("layout", 2), ("stride", 30), ("declared_stride", 30), ("vertices", 6), ("indices", 12), ("index_count", 12), ("triangles", 4), ("flags", 8), ("types", 256), ("shader", 4)]


def random_rows():
    """Seeded, so that they are the same each time: some fields changed, or an index, or some bytes."""
    pick = random.Random(2)
    for _ in range(120):
        models = random_hall(pick)
        for _ in range(pick.choice([0, 1, 1, 2, 3])):
            model = pick.choice(models)
            at = pick.randrange(len(model))
            field, bound = pick.choice(FIELDS)
            model[at] = model[at]._replace(**{field: pick.randrange(bound)})
            if pick.random() < 0.3:
                model[at].held[pick.randrange(len(model[at].held))] = pick.choice([model[at].count, 1 << 31])
            if pick.random() < 0.3:
                model[at] = model[at]._replace(held=random_doubled(pick, model[at].held))
        hall = bytearray(hall_of(*models))
        for _ in range(pick.choice([0, 0, 0, 1, 2])):
            hall[pick.randrange(len(hall))] = pick.choice([0, 1, 2, 6, 255])
        check_row(bytes(hall), len(hall) - pick.choice([0, 0, 0, 0, 0, 0, 0, 1]))


def check_rows():
    """The rows, and the lines that they must print."""
    length_rows()
    byte_rows()
    kind_rows()
    body_rows()
    content_rows()
    mapping_rows()
    model_count_rows()
    stride_rows()
    position_rows()
    component_rows()
    vertex_count_rows()
    index_count_rows()
    index_rows()
    long_index_rows()
    triangle_rows()
    long_triangle_rows()
    several_rows()
    random_rows()
    return list(rows), list(rows.values())
