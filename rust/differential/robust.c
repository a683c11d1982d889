/* Calls the C functions of include/calicofern.h at random, from a seed, and checks what no proof covers: the declarations, the compiled code and the
   linking. Every buffer has exactly the length that is passed.

       robust heap SEED CALLS     each buffer from malloc, for AddressSanitizer and valgrind
       robust guard SEED CALLS    each buffer flush with a page that cannot be touched, behind it or before it
       robust stack SEED CALLS    as guard, on a painted stack, of which it says how much was used

   After each call: inputs as they were; *size written; after a refusal the output or the hall as it was; after an acceptance the bytes behind the result,
   and in guard mode those around the buffer, as they were. An edited hall passes the check, and its freed bytes are zero; a saved one is read back as it
   was. It ends with a line of figures, or by a signal or abort(). */
#define _GNU_SOURCE
#include <pthread.h>
#include <stdbool.h>
#include <stdint.h>
#include <stdio.h>
#include <stdlib.h>
#include <string.h>
#include <sys/mman.h>

#include "calicofern.h"

#define PAGE 4096u
#define MOST (1u << 20)
#define FILL 0xA5
#define EDGE 0x3C
#define UNWRITTEN 0x5EED5EED5EED5EEDu

static uint64_t state;
static bool guard;

static uint64_t next(void)
{
    uint64_t z = (state += 0x9E3779B97F4A7C15u);
    z = (z ^ (z >> 30)) * 0xBF58476D1CE4E5B9u;
    z = (z ^ (z >> 27)) * 0x94D049BB133111EBu;
    return z ^ (z >> 31);
}

static size_t below(size_t end) { return end ? next() % end : 0; }

static void require(bool holds, const char *what)
{
    if (!holds) {
        fprintf(stderr, "robust: %s\n", what);
        abort();
    }
}

/* ---- buffers of an exact length */

struct area {
    uint8_t *pages; /* MOST bytes between two pages that cannot be touched */
    uint8_t *bytes;
    size_t length;
};

enum { FIRST, SECOND, OUTPUT, SIZE, AREAS };
static struct area areas[AREAS];

static void make_areas(void)
{
    for (int i = 0; i < AREAS; i++) {
        uint8_t *all = mmap(NULL, MOST + 2 * PAGE, PROT_NONE, MAP_PRIVATE | MAP_ANONYMOUS, -1, 0);
        require(all != MAP_FAILED, "mmap");
        require(mprotect(all + PAGE, MOST, PROT_READ | PROT_WRITE) == 0, "mprotect");
        areas[i].pages = all + PAGE;
        memset(areas[i].pages, EDGE, PAGE);
        memset(areas[i].pages + MOST - PAGE, EDGE, PAGE);
    }
}

/* Bytes beside the buffer that are watched, on the side without the forbidden page. */
static size_t watched(const struct area *a) { return MOST - a->length < 64 ? MOST - a->length : 64; }
static bool at_end(const struct area *a) { return a->bytes + a->length == a->pages + MOST; }
static uint8_t *edge(const struct area *a) { return at_end(a) ? a->bytes - watched(a) : a->bytes + a->length; }

static uint8_t *lend(int which, size_t length)
{
    struct area *a = &areas[which];
    a->length = length;
    if (!guard) {
        a->bytes = malloc(length);
        require(a->bytes != NULL, "malloc");
        return a->bytes;
    }
    a->bytes = next() % 4 ? a->pages + MOST - length : a->pages;
    memset(edge(a), EDGE, watched(a));
    return a->bytes;
}

static void give_back(int which)
{
    struct area *a = &areas[which];
    if (!guard) {
        free(a->bytes);
        return;
    }
    for (size_t i = 0; i < watched(a); i++)
        require(edge(a)[i] == EDGE, "a byte beside a buffer was written");
}

/* ---- inputs */

static uint8_t sources[2][MOST];
static size_t source_lengths[2];

static uint8_t *lend_input(int which)
{
    uint8_t *bytes = lend(which, source_lengths[which]);
    memcpy(bytes, sources[which], source_lengths[which]);
    return bytes;
}

static void give_back_input(int which)
{
    require(memcmp(areas[which].bytes, sources[which], source_lengths[which]) == 0, "an input was written");
    give_back(which);
}

static void put(uint8_t *at, uint64_t value, size_t width)
{
    for (size_t i = 0; i < width; i++)
        at[i] = (uint8_t)(value >> (8 * i));
}

static void random_bytes(int which, size_t length)
{
    source_lengths[which] = length;
    for (size_t i = 0; i < length; i += 8)
        put(sources[which] + i, next(), length - i < 8 ? length - i : 8);
}

static uint64_t address(void)
{
    bool graphics = next() % 3 == 0;
    return (graphics ? 0x60000000u : 0x50000000u) + (below(source_lengths[graphics] + 8) & ~(size_t)7);
}

static uint64_t word(void)
{
    switch (next() % 12) {
    case 0: case 1: case 2: case 3: case 4: case 5: return address();
    case 6: return 0;
    case 7: case 8: return below(12) | (uint64_t)below(8) << 32;
    case 9: return below(5) | (uint64_t)(4u << below(4)) << 32;
    case 10: return address() | (uint64_t)1 << (28 + below(36));
    default: return next() >> below(64);
    }
}

/* Words that are pointers, small numbers or anything. */
static uint64_t word_sections(void)
{
    source_lengths[0] = 8 * below(200);
    source_lengths[1] = 8 * below(100);
    for (int s = 0; s < 2; s++)
        for (size_t i = 0; i < source_lengths[s]; i += 8)
            put(sources[s] + i, word(), 8);
    for (int s = 0; s < 2; s++)
        source_lengths[s] -= source_lengths[s] ? below(8) : 0;
    return address();
}

static uint64_t system_at(size_t offset) { return 0x50000000u + offset; }

/* A header, two models with two geometries each, in the system section; data and indices in the graphics section. Then some damage. */
static uint64_t whole_sections(void)
{
    uint8_t *s = sources[0];
    size_t vertices = 1 + below(next() % 8 ? 40 : 700), stride = 12 + 4 * below(12), indices = 3 * below(next() % 8 ? 30 : 2000);
    size_t length = 0x40;
    memset(s, 0, 0x2000);
    put(s, system_at(0x10), 8);
    put(s + 8, next() % 2 ? 2 : 0, 2);
    put(s + 10, 2, 2);
    for (int m = 0; m < 2; m++) {
        size_t model = length, list = model + 0x30, mapping = list + 16;
        length += 0x50;
        put(s + 0x10 + 8 * m, system_at(model), 8);
        put(s + model + 0x08, system_at(list), 8);
        put(s + model + 0x10, 2, 2);
        put(s + model + 0x20, system_at(mapping), 8);
        put(s + model + 0x28, next(), 6);
        put(s + mapping, next(), 4);
        for (int g = 0; g < 2; g++) {
            size_t geometry = length, block = geometry + 0xA0, info = block + 0x80, index = info + 16;
            unsigned layout = next() % 4, form = next() % 3;
            length += 0x190;
            put(s + list + 8 * g, next() % 8 ? system_at(geometry) : 0, 8);
            put(s + geometry + 0x18, layout == 3 ? 0 : system_at(block), 8);
            put(s + geometry + 0x38, system_at(index), 8);
            put(s + geometry + 0x58, next() % 2 ? indices : 0, 4);
            put(s + geometry + 0x5C, indices / 3, 4);
            put(s + geometry + 0x60, next() % 4 ? vertices : 0, 2);
            put(s + geometry + 0x70, stride, 2);
            put(s + geometry + 0x78, layout == 3 ? 0x60000000u : 0, 8);
            put(s + block + 0x08, layout == 2 ? vertices : stride, layout == 2 ? 4 : 2);
            put(s + block + 0x0C, layout == 2 ? stride : 0, 2);
            put(s + block + 0x18, layout == 2 ? 0x60000000u : vertices, layout == 2 ? 8 : 4);
            if (layout < 2)
                put(s + block + (layout ? 0x20 : 0x10), 0x60000000u, 8);
            put(s + block + 0x30, system_at(info), 8);
            put(s + info, next(), 2);
            put(s + info + 8, next(), 8);
            put(s + index + 0x08, indices, 4);
            put(s + index + 0x0C, form == 2 ? 4 : 2, 2);
            put(s + index + (form ? 0x18 : 0x10), 0x60000000u + vertices * stride, 8);
        }
    }
    random_bytes(1, vertices * stride + 4 * indices);
    source_lengths[0] = length;
    for (size_t changes = next() % 2 ? 0 : 1 + below(6); changes; changes--) {
        int t = next() % 4 == 0;
        size_t n = source_lengths[t];
        if (n < 8)
            continue;
        switch (next() % 4) {
        case 0: source_lengths[t] = next() % 4 ? n - below(n < 64 ? n : 64) : below(n + 1); break;
        case 1: put(sources[t] + (below(n - 7) & ~(size_t)7), word(), 8); break;
        default: sources[t][below(n)] ^= 1u << (next() % 8);
        }
    }
    return next() % 16 ? system_at(0) : address();
}

static uint64_t any_sections(void) { return next() % 3 ? whole_sections() : word_sections(); }

/* Whether this is a number that the check of a hall gives to a list that is none. */
static bool refuses_halls(uint8_t check) { return (check >= 11 && check <= 19) || check == 27; }

/* ---- outputs */

static uint64_t *size_out;

static uint8_t *lend_output(size_t length)
{
    size_out = (uint64_t *)(void *)lend(SIZE, 8);
    *size_out = UNWRITTEN;
    uint8_t *out = lend(OUTPUT, length);
    memset(out, FILL, length);
    return out;
}

static uint64_t accepted, refused[28], result_bytes;

/* Looks at the output, gives it back, and returns the size. */
static uint64_t told(uint8_t check)
{
    struct area *out = &areas[OUTPUT];
    uint64_t size = *size_out;
    require(size != UNWRITTEN, "size was not written");
    require(check <= 10 || check == 20 || refuses_halls(check), "no such check");
    require(check != 0 || size <= out->length, "accepted with a size above the output's length");
    bool short_output = check == 7 || check == 10 || check == 20;
    require(!short_output || size > out->length, "7, 10 or 20 though the output was long enough");
    require(check == 0 || short_output || size == 0, "a refusal with a size");
    for (size_t i = check ? 0 : size; i < out->length; i++)
        require(out->bytes[i] == FILL, "a byte of the output was written that must not be");
    if (check)
        refused[check]++;
    else {
        accepted++;
        result_bytes += size;
    }
    give_back(OUTPUT);
    give_back(SIZE);
    return size;
}

static size_t room(uint64_t needed)
{
    if (needed > MOST)
        return below(256);
    switch (next() % 4) {
    case 0: return needed ? needed - 1 : 0;
    case 1: return needed + below(MOST - needed < 80 ? MOST - needed + 1 : 80);
    default: return needed;
    }
}

/* ---- calls */

static uint8_t kept_list[MOST];
static size_t kept_length;

static uint64_t list_into(uint64_t va, size_t length)
{
    uint8_t *s = lend_input(FIRST), *g = lend_input(SECOND), *out = lend_output(length);
    uint8_t check = calicofern_hall_list(s, source_lengths[0], g, source_lengths[1], va, out, length, size_out);
    if (check == 0 && *size_out > 0) {
        kept_length = *size_out;
        memcpy(kept_list, out, kept_length);
    }
    uint64_t size = told(check);
    give_back_input(FIRST);
    give_back_input(SECOND);
    return size;
}

static unsigned call_list(void)
{
    uint64_t va = any_sections();
    uint64_t needed = list_into(va, 0);
    list_into(va, room(needed));
    return 2;
}

static size_t put_record(size_t at, size_t length, unsigned kind)
{
    put(sources[0] + at, length, 4);
    put(sources[0] + at + 4, kind, 2);
    return at + 6;
}

/* A triangle of three different vertices, of at least three, as indices at this place; now and then two of them are equal. */
static void put_triangle(uint8_t *to, size_t vertices)
{
    size_t corners[3] = {below(vertices), 0, 0};
    corners[1] = (corners[0] + 1 + below(vertices - 1)) % vertices;
    do
        corners[2] = below(vertices);
    while (corners[2] == corners[0] || corners[2] == corners[1]);
    if (next() % 1024 == 0) {
        size_t place = below(3);
        corners[place] = corners[(place + 1) % 3];
    }
    for (size_t i = 0; i < 3; i++)
        put(to + 4 * i, corners[i], 4);
}

/* A geometry at this place, with positions of three floats, sound but for a degenerate triangle now and then; the end of it. */
static size_t put_geometry(size_t at, size_t shader)
{
    uint8_t *s = sources[0];
    size_t triangles = 1 + below(60), vertices = 3 + below(28);
    size_t two = put_record(at, 14, 2), three = put_record(two + 14, 16, 3), four = put_record(three + 16, 7 + 12 * vertices, 4);
    size_t five = put_record(four + 7 + 12 * vertices, 4 + 12 * triangles, 5);
    put(s + two, shader, 2);
    put(s + two + 2, 3 * triangles, 4);
    put(s + two + 6, triangles, 4);
    put(s + two + 10, vertices, 2);
    put(s + two + 12, 12, 2);
    put(s + three, 1, 4);
    put(s + three + 4, 12, 2);
    put(s + three + 8, 6, 8);
    put(s + four, 0, 1);
    put(s + four + 1, 12, 2);
    put(s + four + 3, vertices, 4);
    put(s + five, 3 * triangles, 4);
    for (size_t i = 0; i < triangles; i++)
        put_triangle(s + five + 4 + 12 * i, vertices);
    return five + 4 + 12 * triangles;
}

static void any_hall(void)
{
    size_t at = 0;
    for (size_t models = below(4); models > 0; models--) {
        size_t geometries = below(4), mapping = put_record(at, 6 + 2 * geometries, 1) + 6;
        at = mapping + 2 * geometries;
        for (size_t g = 0; g < geometries; g++) {
            put(sources[0] + mapping + 2 * g, g, 2);
            at = put_geometry(at, g);
        }
    }
    source_lengths[0] = at;
}

/* How often the hall check gave each number. */
static uint64_t verdicts[28];

static unsigned call_lists(void)
{
    switch (next() % 8) {
    case 0: random_bytes(0, below(300)); break;
    case 1: case 2: case 3:
        source_lengths[0] = next() % 2 ? kept_length : below(kept_length + 1);
        memcpy(sources[0], kept_list, source_lengths[0]);
        break;
    default: any_hall();
    }
    if (source_lengths[0] && next() % 2)
        sources[0][below(source_lengths[0])] ^= 1u << (next() % 8);
    uint8_t *list = lend_input(FIRST);
    uint64_t triangles = calicofern_triangle_count(list, source_lengths[0]);
    require(triangles == calicofern_triangle_count(list, source_lengths[0]), "triangle_count twice");
    size_t n = next() % 8 ? source_lengths[0] : below(source_lengths[0] + 9);
    uint8_t check = calicofern_hall_check(list, source_lengths[0], n);
    require(check == 0 || refuses_halls(check), "hall_check's number");
    require(n <= source_lengths[0] || check == 11, "hall_check beyond the list");
    verdicts[check]++;
    give_back_input(FIRST);
    return 3;
}

/* ---- calls that edit a hall */

static uint8_t before[MOST];

/* How often each number was given. */
static uint64_t edits[28];

/* A buffer with a hall, at times a damaged one, in its first bytes; their number. */
static size_t any_hall_before(size_t *length)
{
    any_hall();
    size_t n = source_lengths[0];
    if (n && next() % 16 == 0)
        sources[0][below(n)] ^= 1u << (next() % 8);
    *length = n + below(next() % 4 ? 3000 : 60);
    memcpy(before, sources[0], n);
    for (size_t i = n; i < *length; i++)
        before[i] = (uint8_t)next();
    return n;
}

static uint8_t *lend_hall(size_t length)
{
    uint8_t *hall = lend_output(length);
    memcpy(hall, before, length);
    return hall;
}

/* Looks at the buffer after a call on the hall of its first n bytes, and gives it back. */
static void edited(uint8_t check, size_t n)
{
    struct area *hall = &areas[OUTPUT];
    uint64_t size = *size_out;
    require(size != UNWRITTEN, "size was not written");
    require(check <= 6 || refuses_halls(check) || (check >= 21 && check <= 24), "no such check of an edit");
    if (check) {
        require(check == 24 ? size > hall->length : size == 0, "the size of a refused edit");
        require(memcmp(hall->bytes, before, hall->length) == 0, "a refused edit changed the hall");
    } else {
        require(size <= hall->length && n <= hall->length, "accepted beyond the buffer");
        require(calicofern_hall_check(hall->bytes, hall->length, size) == 0, "an edit made a list that is no hall");
        for (size_t i = size; i < n; i++)
            require(hall->bytes[i] == 0, "a freed byte is not zero");
        size_t end = size > n ? size : n;
        require(memcmp(hall->bytes + end, before + end, hall->length - end) == 0, "a byte beyond the hall was written");
    }
    edits[check]++;
    give_back(OUTPUT);
    give_back(SIZE);
}

/* Indices below `end`, mostly of triangles of three different vertices, and at times one that is not below, as the second input. */
static const uint32_t *any_indices(size_t end, size_t *count)
{
    *count = next() % 8 ? 3 * (1 + below(40)) : below(5);
    source_lengths[1] = 4 * *count;
    for (size_t i = 0; i < *count; i++)
        put(sources[1] + 4 * i, below(end), 4);
    for (size_t i = 0; end > 2 && i + 3 <= *count; i += 3)
        put_triangle(sources[1] + 4 * i, end);
    if (*count && next() % 64 == 0)
        put(sources[1] + 4 * below(*count), end, 4);
    return (const uint32_t *)(const void *)lend_input(SECOND);
}

static unsigned call_edit(void)
{
    size_t length, n = any_hall_before(&length), count;
    unsigned which = next() % 7;
    uint64_t model = next() % 16 ? below(4) : next(), geometry = next() % 16 ? below(3) : next();
    if (next() % 64 == 0)
        n = below(length + 20);
    switch (which) {
    case 0: {
        uint8_t *hall = lend_hall(length);
        edited(calicofern_add_model(hall, length, n, (uint32_t)next(), (uint16_t)next(), size_out), n);
        break;
    }
    case 1: {
        uint16_t stride = (uint16_t)(12 + 4 * below(6));
        uint32_t vertices = (uint32_t)below(30), flags = 1u | (next() % 2 ? 1u << below(16) : 0);
        random_bytes(0, stride * vertices + (next() % 16 == 0));
        const uint8_t *content = lend_input(FIRST);
        const uint32_t *indices = any_indices(vertices ? vertices : 1, &count);
        uint8_t *hall = lend_hall(length);
        uint16_t declared = (uint16_t)(stride + (next() % 16 == 0));
        uint64_t types = (next() & ~(uint64_t)15) | (next() % 16 ? 6 : next() % 16);
        edited(calicofern_add_geometry(hall, length, n, (uint16_t)next(), flags, declared, (uint8_t)next(), (uint8_t)next(), types, stride, vertices,
                                       content, source_lengths[0], indices, count, size_out), n);
        give_back_input(FIRST);
        give_back_input(SECOND);
        break;
    }
    case 2: {
        uint8_t *hall = lend_hall(length);
        edited(calicofern_remove_geometry(hall, length, n, model, geometry, size_out), n);
        break;
    }
    case 3: {
        uint8_t *hall = lend_hall(length);
        edited(calicofern_remove_model(hall, length, n, model, size_out), n);
        break;
    }
    case 4: {
        uint8_t *hall = lend_hall(length);
        uint64_t semantic = next() % 4 ? 0 : next() % 20;
        uint8_t shape = (uint8_t)(next() % 4 ? 3 : next() % 8);
        edited(calicofern_set_attribute(hall, length, n, model, geometry, below(31), semantic, shape, (uint32_t)next(), (uint32_t)next(),
                                        (uint32_t)next(), (uint32_t)next(), size_out), n);
        break;
    }
    case 5: {
        const uint32_t *indices = any_indices(1 + below(12), &count);
        uint8_t *hall = lend_hall(length);
        edited(calicofern_replace_indices(hall, length, n, model, geometry, indices, count, size_out), n);
        give_back_input(SECOND);
        break;
    }
    default: {
        uint64_t va = any_sections();
        const uint8_t *s = lend_input(FIRST), *g = lend_input(SECOND);
        uint8_t *hall = lend_hall(length);
        edited(calicofern_take_in(hall, length, n, s, source_lengths[0], g, source_lengths[1], va, size_out), n);
        give_back_input(FIRST);
        give_back_input(SECOND);
    }
    }
    return 1;
}

/* Saves a hall. Read back, the image is the list that was saved. */
static unsigned call_save(void)
{
    size_t length, n = any_hall_before(&length);
    source_lengths[0] = length;
    memcpy(sources[0], before, length);
    const uint8_t *hall = lend_input(FIRST);
    uint8_t *none = lend_output(0);
    uint64_t needed = told(calicofern_save(hall, length, n, none, 0, size_out));
    size_t room_for = room(needed);
    uint8_t *out = lend_output(room_for);
    uint8_t check = calicofern_save(hall, length, n, out, room_for, size_out);
    if (check == 0) {
        static uint8_t list[MOST];
        uint64_t read = 0;
        require(calicofern_hall_list(out, *size_out, before, 0, 0x50000000u, list, MOST, &read) == 0, "a saved hall is not read");
        require(read == n && memcmp(list, before, n) == 0, "a saved hall is read as another");
    }
    told(check);
    give_back_input(FIRST);
    return 2;
}

static unsigned call_buffer(void)
{
    any_sections();
    size_t length = below(64);
    uint8_t *s = lend_input(FIRST), *g = lend_input(SECOND), *out = lend_output(length);
    uint64_t va = next() % 3 ? address() : system_at(0x40 + 0x50 + 0xA0);
    told(calicofern_vertex_buffer(s, source_lengths[0], g, source_lengths[1], va, word(), (uint32_t)below(100), (uint16_t)below(40), out, length, size_out));
    give_back_input(FIRST);
    give_back_input(SECOND);
    return 1;
}

static unsigned call_vertices(void)
{
    uint16_t stride = (uint16_t)(next() % 8 ? 4 * below(40) : next());
    uint32_t count = (uint32_t)(next() % 16 ? below(next() % 8 ? 20 : 600) : next()), flags = (uint32_t)next() & (uint32_t)next();
    uint64_t types = next(), whole = (uint64_t)stride * count;
    random_bytes(0, whole > 50000 ? below(5000) : next() % 4 ? whole + below(3) : below(whole + 1));
    uint8_t *data = lend_input(FIRST);
    if (next() % 2) {
        size_t length = next() % 4 ? 320 : below(321);
        uint8_t *out = lend_output(length);
        uint64_t index = next() % 8 ? below(count) : next();
        told(calicofern_vertex_attributes(data, source_lengths[0], stride, count, flags, types, index, out, length, size_out));
    } else {
        size_t length = room(84 * (uint64_t)count);
        uint8_t *out = lend_output(length);
        told(calicofern_unified_vertices(data, source_lengths[0], stride, count, flags, types, out, length, size_out));
    }
    give_back_input(FIRST);
    return 1;
}

typedef uint8_t run(const uint8_t *, size_t, uint8_t *, size_t, uint64_t *);

static unsigned call_run(void)
{
    static run *const runs[6] = {calicofern_halves_to_floats, calicofern_floats_to_halves, calicofern_snorm8_to_floats,
                                 calicofern_unorm8_to_floats, calicofern_floats_to_snorm8, calicofern_floats_to_unorm8};
    static const uint8_t from[6] = {2, 4, 1, 1, 4, 4}, to[6] = {4, 2, 4, 4, 1, 1};
    unsigned which = next() % 6;
    random_bytes(0, next() % 8 ? below(200) : below(20000));
    uint64_t needed = source_lengths[0] / from[which] * to[which];
    size_t length = room(needed);
    uint8_t *src = lend_input(FIRST), *out = lend_output(length);
    uint64_t size = told(runs[which](src, source_lengths[0], out, length, size_out));
    require(size == needed, "the size of a run");
    give_back_input(FIRST);
    return 1;
}

static unsigned call_numbers(void)
{
    uint32_t bits = (uint32_t)next();
    uint16_t half = calicofern_f32_to_f16(bits);
    require(calicofern_f32_to_f16(calicofern_f16_to_f32(half)) == half, "a half read and written again");
    uint8_t byte = (uint8_t)bits;
    require(calicofern_f32_to_snorm8(calicofern_snorm8_to_f32(byte)) == (byte == 0x80 ? 0x81 : byte), "a snorm byte read and written again");
    require(calicofern_f32_to_unorm8(calicofern_unorm8_to_f32(byte)) == byte, "a byte read and written again");
    require(calicofern_bone_index(bits) == bits >> 24, "bone_index");
    bool skinned = calicofern_is_skinned(bits);
    uint8_t as_byte;
    memcpy(&as_byte, &skinned, 1);
    require(as_byte == ((bits >> 8 & 0xFF) != 0), "is_skinned as 0 or 1");
    require((calicofern_declaration_id(bits, UINT64_MAX) & 15) == (bits & 1 ? 15 : 0), "declaration_id");
    calicofern_snorm_colour8(bits);
    return 11;
}

static uint64_t wanted;

static void *drive(void *nothing)
{
    uint64_t calls = 0;
    while (calls < wanted) {
        switch (next() % 20) {
        case 0: case 1: case 2: case 3: case 4: calls += call_list(); break;
        case 5: case 6: calls += call_lists(); break;
        case 7: case 8: case 9: calls += call_buffer(); break;
        case 10: case 11: case 12: case 13: calls += call_vertices(); break;
        case 14: calls += call_run(); break;
        case 16: case 17: case 18: calls += call_edit(); break;
        case 19: calls += call_save(); break;
        default: calls += call_numbers();
        }
    }
    printf("%llu calls; with an output: %llu accepted (%llu bytes), refused", (unsigned long long)calls, (unsigned long long)accepted,
           (unsigned long long)result_bytes);
    for (int i = 1; i <= 27; i++)
        if (refused[i])
            printf(" %llu by %d", (unsigned long long)refused[i], i);
    printf("; hall checks: %llu sound", (unsigned long long)verdicts[0]);
    for (int i = 11; i <= 27; i++)
        if (verdicts[i])
            printf(", %llu by %d", (unsigned long long)verdicts[i], i);
    printf("; edits: %llu accepted", (unsigned long long)edits[0]);
    for (int i = 1; i <= 27; i++)
        if (edits[i])
            printf(", %llu by %d", (unsigned long long)edits[i], i);
    printf("\n");
    return nothing;
}

/* The driver on a painted stack: the deepest byte that was changed bounds what any call used. */
static void drive_on_painted_stack(void)
{
    size_t length = 1u << 20, untouched = 0;
    uint8_t *stack = mmap(NULL, length, PROT_READ | PROT_WRITE, MAP_PRIVATE | MAP_ANONYMOUS, -1, 0);
    pthread_attr_t attributes;
    pthread_t thread;
    require(stack != MAP_FAILED, "mmap");
    memset(stack, EDGE, length);
    pthread_attr_init(&attributes);
    require(pthread_attr_setstack(&attributes, stack, length) == 0, "pthread_attr_setstack");
    require(pthread_create(&thread, &attributes, drive, NULL) == 0, "pthread_create");
    pthread_join(thread, NULL);
    while (untouched < length && stack[untouched] == EDGE)
        untouched++;
    printf("at most %zu bytes of stack, the driver's and the thread's own included\n", length - untouched);
}

int main(int count, char **words)
{
    if (count != 4) {
        fprintf(stderr, "usage: robust heap|guard|stack SEED CALLS\n");
        return 2;
    }
    guard = strcmp(words[1], "heap") != 0;
    state = strtoull(words[2], NULL, 10);
    wanted = strtoull(words[3], NULL, 10);
    make_areas();
    if (strcmp(words[1], "stack") == 0)
        drive_on_painted_stack();
    else
        drive(NULL);
    return 0;
}
