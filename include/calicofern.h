/* The geometry of RAGE drawables: the C functions of crates/exports.

   Each promise below is proved for every input: the function reads and writes only what it was lent, and always returns.

   To link, with gcc or clang, as C or as C++:

      cc app.c libexports.a -Iinclude

   libexports.a is the static library of these functions; the repository's tools/library proves it and writes it to target/staticlib. It needs nothing
   beside the C library. include/example.c is such an app.c.

   A slice is two arguments, a pointer and the number of its elements, which are bytes, or for indices uint32_t. The pointer must point to that
   many readable elements, and for an output or a hall writable ones; it is aligned for its type and never null, not even with length 0. An output,
   a hall and `size` overlap no other argument. A slice has fewer than 2^63 bytes.
   Numbers in slices of bytes are little-endian. A float is passed as its 32 bits, a half as its 16, so that a NaN keeps sign and payload.

   A function with an output returns 0 where it accepts, else the number of the check that failed:
      1  a section has more than 67,108,864 bytes
      2  the model pointers of a LOD do not resolve
      3  a model's block does not
      4  the geometry pointers of a model do not
      5  a geometry has 16,384 before it
      6  a geometry's block does not resolve
      7  the list buffer is too short
      8  there is no vertex with this index
      9  a component of nonzero size does not end inside the vertex data
     10  an output of the vertex functions is too short
   or one of 11 to 24 and 27, which stand beside the functions that return them.
   It accepts: the result stands in the first bytes of the output, the bytes behind it are as they were, and *size is the length of the
   result. It refuses: no byte of the output is changed, and *size is the length that the output needs for checks 7, 10 and 20, else 0.
   *size is written in either case, and not read. */
#ifndef CALICOFERN_H
#define CALICOFERN_H

#include <stdbool.h>
#include <stddef.h>
#include <stdint.h>

#ifdef __cplusplus
extern "C" {
#endif

/* ---- Numbers with names

   Functions take and return plain integers; these are their values. */

/* What a function that refuses returns; 0 is an acceptance. Later versions may have more. */
enum calicofern_check {
    CALICOFERN_CHECK_SECTION_LENGTH = 1,      /* a section has more than 67,108,864 bytes */
    CALICOFERN_CHECK_MODEL_POINTERS = 2,      /* the model pointers of a LOD do not resolve */
    CALICOFERN_CHECK_MODEL_BLOCK = 3,         /* a model's block does not */
    CALICOFERN_CHECK_GEOMETRY_POINTERS = 4,   /* the geometry pointers of a model do not */
    CALICOFERN_CHECK_GEOMETRY_LIMIT = 5,      /* a geometry has 16,384 before it */
    CALICOFERN_CHECK_GEOMETRY_BLOCK = 6,      /* a geometry's block does not resolve */
    CALICOFERN_CHECK_LIST_BUFFER = 7,         /* the list buffer is too short */
    CALICOFERN_CHECK_VERTEX_INDEX = 8,        /* there is no vertex with this index */
    CALICOFERN_CHECK_VERTEX_DATA = 9,         /* a component does not end inside the vertex data */
    CALICOFERN_CHECK_OUTPUT = 10,             /* an output of the vertex functions is too short */
    CALICOFERN_CHECK_RECORDS = 11,            /* the records are not whole, ordered and exact in length */
    CALICOFERN_CHECK_MAPPING = 12,            /* a mapping is not the shader ids */
    CALICOFERN_CHECK_LIMITS = 13,             /* more than 256 models or 16,384 geometries */
    CALICOFERN_CHECK_STRIDES = 14,            /* strides differ, or the layout is not 0 */
    CALICOFERN_CHECK_DECLARATION = 15,        /* no position, or components beyond the stride */
    CALICOFERN_CHECK_VERTEX_COUNT = 16,       /* vertex counts differ, or are not 1 to 65,535 */
    CALICOFERN_CHECK_INDEX_COUNTS = 17,       /* index counts differ, or are not 3 for each triangle */
    CALICOFERN_CHECK_INDEX_RANGE = 18,        /* an index is not below the count of vertices */
    CALICOFERN_CHECK_IMAGE_LENGTH = 19,       /* the image has more than 67,108,864 bytes */
    CALICOFERN_CHECK_IMAGE_BUFFER = 20,       /* the image buffer is too short */
    CALICOFERN_CHECK_TARGET = 21,             /* there is no such model, geometry or vertex */
    CALICOFERN_CHECK_SEMANTIC = 22,           /* the semantic is not declared, or has no bytes */
    CALICOFERN_CHECK_SHAPE = 23,              /* the value has not the type's shape */
    CALICOFERN_CHECK_HALL_BUFFER = 24,        /* the hall buffer is too short */
    CALICOFERN_CHECK_DEGENERATE_TRIANGLE = 27 /* a triangle has two equal indices; asked after 18 and before 19 */
};

/* What a component of a vertex means: the number of its flag in a declaration, and of its nibble in the types. */
enum calicofern_semantic {
    CALICOFERN_POSITION = 0,      /* where the vertex is */
    CALICOFERN_BLEND_WEIGHTS = 1, /* how much each bone moves it */
    CALICOFERN_BLEND_INDICES = 2, /* which bones do */
    CALICOFERN_NORMAL = 3,        /* the direction of the surface */
    CALICOFERN_COLOUR0 = 4,       /* a colour */
    CALICOFERN_COLOUR1 = 5,       /* a second one */
    CALICOFERN_TEXCOORD0 = 6,     /* where in a texture, two numbers */
    CALICOFERN_TEXCOORD1 = 7,     /* a second place */
    CALICOFERN_TEXCOORD2 = 8,     /* a third place */
    CALICOFERN_TEXCOORD3 = 9,     /* a fourth place */
    CALICOFERN_TEXCOORD4 = 10,    /* a fifth place */
    CALICOFERN_TEXCOORD5 = 11,    /* a sixth place */
    CALICOFERN_TEXCOORD6 = 12,    /* a seventh place */
    CALICOFERN_TEXCOORD7 = 13,    /* an eighth place */
    CALICOFERN_TANGENT = 14,      /* the direction of the texture */
    CALICOFERN_BINORMAL = 15      /* the direction across it */
};

/* How a component is stored: a nibble of a declaration's types. 11 to 15 have no bytes. */
enum calicofern_type {
    CALICOFERN_NOTHING = 0,       /* no bytes */
    CALICOFERN_HALF2 = 1,         /* two halves, 4 bytes */
    CALICOFERN_FLOAT = 2,         /* one float, 4 bytes */
    CALICOFERN_HALF4 = 3,         /* four halves, 8 bytes */
    CALICOFERN_FLOAT_UNKNOWN = 4, /* no bytes */
    CALICOFERN_FLOAT2 = 5,        /* two floats, 8 bytes */
    CALICOFERN_FLOAT3 = 6,        /* three floats, 12 bytes */
    CALICOFERN_FLOAT4 = 7,        /* four floats, 16 bytes */
    CALICOFERN_UBYTE4 = 8,        /* four bytes */
    CALICOFERN_COLOUR = 9,        /* four bytes, a colour */
    CALICOFERN_RGBA8_SNORM = 10   /* four signed bytes, each a number from -1 to 1 */
};

/* How many of x, y, z and w a value for calicofern_set_attribute is made of. */
enum calicofern_shape {
    CALICOFERN_SHAPE_FLOAT = 1,  /* x is a float's bits */
    CALICOFERN_SHAPE_FLOAT2 = 2, /* x and y are */
    CALICOFERN_SHAPE_FLOAT3 = 3, /* x, y and z are */
    CALICOFERN_SHAPE_FLOAT4 = 4, /* all four are */
    CALICOFERN_SHAPE_BYTES = 5   /* each of the four is a number up to 255 */
};

/* ---- Halls */

/* The hall list of the models behind the LOD header at address `va`: records of body length u32, kind u16, body. Kind 1, a model:
   binding u32, mask u16, mapping u16 each. Kind 2, a geometry: shader id u16, indices u32, triangles u32, vertices u16, stride u16. Kind 3, its
   declaration, 16 bytes, if it has one. Kind 4, its vertices, if found: layout u8, stride u16, count u32, data. Kind 5, its indices, if their block
   resolves: count u32, then u32 each. A header that does not resolve has no models. Returns 0 to 7. */
uint8_t calicofern_hall_list(const uint8_t *system, size_t system_length, const uint8_t *graphics, size_t graphics_length, uint64_t va,
                             uint8_t *list, size_t list_length, uint64_t *size);

/* Whether the first n bytes of `list` are a hall. Returns 0 where they are, else the first of these checks, in this order, that fails anywhere in them:
     11  n is within the list's length; records are whole, each model's is followed by those of its geometries as kinds 2, 3, 4, 5, and each is exact in
         length by its own numbers, kind 4 with count x stride vertex bytes
     12  a model's mapping is its geometries' shader ids
     13  there are at most 256 models and 16,384 geometries
     14  a buffer's layout is 0, and the strides of geometry, declaration and buffer are equal
     15  a position of nonzero size is declared, and the components have at most as many bytes as the stride
     16  a geometry's vertices are its buffer's count, 1 to 65,535
     17  both index counts are the indices held and 3 x triangles, at least 3
     18  each index is below the count of vertices
     27  no triangle is degenerate: of the three indices of each no two are equal. Different indices may name vertices at one position
     19  the hall's image has at most 67,108,864 bytes */
uint8_t calicofern_hall_check(const uint8_t *list, size_t list_length, size_t n);

/* ---- Editing a hall

   A hall is the first n bytes of the buffer `hall`, of `hall_length` bytes: a list that passes checks 11 to 18, 27 and 19. n = 0 is the hall without models,
   whatever the buffer holds. Models, the geometries of a model, and vertices are counted from 0.

   Each function checks the hall, then its own arguments, then what the hall would become, and only then writes. It accepts: it returns 0, *size is the new
   n, the first *size bytes are the new hall, bytes from there to a longer old n are zero, and those beyond both are as they were. It refuses: it
   returns a number, no byte of the buffer is changed, and *size is the new n that the buffer is too short for with 24, else 0. *size is written in either
   case, and not read. The numbers, in the order in which they are looked for:
     11 to 18, 27, 19  n bytes of the buffer are no hall: as calicofern_hall_check says
     21                there is no such model, geometry or vertex; in adding a geometry, there is no model
     22                the geometry's declaration has no component of this semantic, or one without bytes
     23                the value has not the shape of the component's type
     11 to 18, 27, 19  what the hall would become is no hall: the first check in this order that fails
     24                the buffer is shorter than the new hall */

/* Adds a model without geometries at the end. Returns 0, 11 to 18, 27, 19 or 24. */
uint8_t calicofern_add_model(uint8_t *hall, size_t hall_length, size_t n, uint32_t binding, uint16_t mask, uint64_t *size);

/* Adds a geometry at the end of the last model: its shader id, its declaration of five numbers, the stride and count of its vertices, their bytes, its
   indices. Its index count is `indices_length`, its triangle count a third of that. 11: `content_length` is not count x stride. 14 to 18
   and 27: the geometry given is at fault. One or two vertices make no triangle: 18 or 27. Returns 0, 11 to 18, 27, 19, 21 or 24. */
uint8_t calicofern_add_geometry(uint8_t *hall, size_t hall_length, size_t n, uint16_t shader, uint32_t flags, uint16_t declared_stride,
                                uint8_t unknown_6h, uint8_t declared_count, uint64_t types, uint16_t stride, uint32_t count,
                                const uint8_t *content, size_t content_length, const uint32_t *indices, size_t indices_length,
                                uint64_t *size);

/* Removes a geometry; later ones of its model get the number before. Returns 0, 11 to 18, 27, 19 or 21. */
uint8_t calicofern_remove_geometry(uint8_t *hall, size_t hall_length, size_t n, uint64_t model, uint64_t geometry, uint64_t *size);

/* Removes a model with its geometries; later ones get the number before. Returns 0, 11 to 18, 27, 19 or 21. */
uint8_t calicofern_remove_model(uint8_t *hall, size_t hall_length, size_t n, uint64_t model, uint64_t *size);

/* Sets the component of a semantic in one vertex; no other byte changes. The value is x, y, z and w, as many as its shape says: 1 to 4, so many floats, each
   as its bits; 5, four bytes, each a number up to 255. Any other shape, and a byte above 255, is a value of no type. Float wants one float, Half2 and
   Float2 two, Float3 three, Half4, Float4 and Rgba8Snorm four, UByte4 and Colour bytes; halves and Rgba8Snorm are stored as the numbers below say.
   Returns 0, 11 to 18, 27, 19, 21, 22 or 23. */
uint8_t calicofern_set_attribute(uint8_t *hall, size_t hall_length, size_t n, uint64_t model, uint64_t geometry, uint64_t vertex,
                                 uint64_t semantic, uint8_t shape, uint32_t x, uint32_t y, uint32_t z, uint32_t w, uint64_t *size);

/* Replaces all indices of a geometry, its two index counts and its triangle count. Returns 0, 11 to 18, 27, 19, 21 or 24. */
uint8_t calicofern_replace_indices(uint8_t *hall, size_t hall_length, size_t n, uint64_t model, uint64_t geometry, const uint32_t *indices,
                                   size_t indices_length, uint64_t *size);

/* The hall becomes what two sections hold behind the LOD header at address `va`, with layout 0, a declaration of three floats of position where none is
   stored, and mappings made of the shader ids. The old hall must be sound too. 1 to 6 are looked for before the result is judged; 11 there: a
   geometry lacks its vertices or its indices. Returns 0, 1 to 6, 11 to 18, 27, 19 or 24. */
uint8_t calicofern_take_in(uint8_t *hall, size_t hall_length, size_t n, const uint8_t *system, size_t system_length, const uint8_t *graphics,
                           size_t graphics_length, uint64_t va, uint64_t *size);

/* The image of the hall in the first n bytes of `hall`: a drawable's system section, with its LOD header at 0x50000000 and the graphics section empty,
   at most 67,108,864 bytes. Read there, it holds the same models and geometries. The image stands in the first *size bytes of `out`, and the
   bytes behind it are as they were; where it refuses, no byte of `out` is changed. 20: `out` is shorter than the image, and *size is the image's length.
   Returns 0, 11 to 18, 27, 19 or 20. */
uint8_t calicofern_save(const uint8_t *hall, size_t hall_length, size_t n, uint8_t *out, size_t out_length, uint64_t *size);

/* ---- Models and lists */

/* The triangles of a hall list: for each geometry its stored index count, or the indices that its kind 5 holds where that is 0, divided by 3; the
   sum, or 2^64 - 1 where the sum is above it. A record that is not whole ends the list. */
uint64_t calicofern_triangle_count(const uint8_t *list, size_t list_length);

/* Bits 24 to 31 of a model's binding: the bone that it hangs off. */
uint8_t calicofern_bone_index(uint32_t skeleton_binding);

/* Whether bits 8 to 15 of a model's binding are not all 0: its vertices are skinned. */
bool calicofern_is_skinned(uint32_t skeleton_binding);

/* ---- Vertex buffers

   A declaration is passed by its flags and types. Bit i of `flags`, 0 to 15, says that each vertex has a component of semantic i, whose type is nibble i of
   `types`: 1 Half2, 2 Float, 3 Half4, 5 Float2, 6 Float3, 7 Float4, 8 UByte4, 9 Colour, 10 Rgba8Snorm; the others have no bytes. Components
   lie one behind the other in rising order. Its stride and count are not looked at. */

/* The vertices of a geometry: the layouts of the block behind `va` are tried in order, 0 Legacy, 1 LegacyData2, 2 Gen9, and then the geometry's own
   pointer, count and stride, 3. The first whose data resolves is written as 32 bytes: layout u8, stride u16, count u32, data pointer u64, info pointer
   u64, section u8 (0 system, 1 graphics), offset of the data in it u64; and behind them the declaration's 16 bytes where one is stored: flags u32,
   stride u16, unknown u8, count u8, types u64. Where none is found nothing is written and *size is 0. Returns 0 or 10. */
uint8_t calicofern_vertex_buffer(const uint8_t *system, size_t system_length, const uint8_t *graphics, size_t graphics_length, uint64_t va,
                                 uint64_t inline_pointer, uint32_t inline_count, uint16_t inline_stride, uint8_t *out, size_t out_length,
                                 uint64_t *size);

/* The components of vertex `index` of `count` vertices, which lie `stride` bytes apart, in order, each as 20 bytes: semantic u8, type nibble u8,
   offset in the vertex u16, and 16 bytes with the value's floats, or its four bytes (UByte4, Colour), and zeros behind them. Halves and Rgba8Snorm are
   given as floats. Returns 0, 8, 9 or 10. */
uint8_t calicofern_vertex_attributes(const uint8_t *data, size_t data_length, uint16_t stride, uint32_t count, uint32_t flags, uint64_t types,
                                     uint64_t index, uint8_t *out, size_t out_length, uint64_t *size);

/* All vertices in one form, 84 bytes each: position 3 floats, normal 3, colour 0 and 1 four bytes each, texture coordinates 0 and 1 2 floats each, tangent
   4, blend weights 4, blend indices four bytes. A field without a component: position, texture coordinates, weights and indices 0, normal (0, 0, 1), colours
   255, tangent (1, 0, 0, 1). Returns 0, 9 or 10. */
uint8_t calicofern_unified_vertices(const uint8_t *data, size_t data_length, uint16_t stride, uint32_t count, uint32_t flags, uint64_t types,
                                    uint8_t *out, size_t out_length, uint64_t *size);

/* The type nibbles of the set flags 0 to 15, each at its own place, the others 0. */
uint64_t calicofern_declaration_id(uint32_t flags, uint64_t types);

/* ---- Numbers */

/* The float with the half's value; a NaN keeps its sign and payload. */
uint32_t calicofern_f16_to_f32(uint16_t half);

/* The half nearest to the float, of two the even one; a NaN keeps its sign and upper ten fraction bits and gets 0x200. */
uint16_t calicofern_f32_to_f16(uint32_t bits);

/* A signed byte divided by 127; -128 gives -1.0 too. */
uint32_t calicofern_snorm8_to_f32(uint8_t byte);

/* A byte divided by 255. */
uint32_t calicofern_unorm8_to_f32(uint8_t byte);

/* A float times 127, clamped to -127 to 127 and cut towards zero, as a signed byte; a NaN gives 0. */
uint8_t calicofern_f32_to_snorm8(uint32_t bits);

/* A float clamped to 0 to 1, times 255, cut towards zero; a NaN gives 0. */
uint8_t calicofern_f32_to_unorm8(uint32_t bits);

/* The same for half of the float plus 0.5: a signed normalised float as a byte of a colour. */
uint8_t calicofern_snorm_colour8(uint32_t bits);

/* ---- Runs of numbers

   Each number of `src` is converted as above and written to `dst`. Last bytes of `src` that make no whole number are not read. Return 0 or 10. Where
   the needed length is above 2^64 - 1, *size is 2^64 - 1. */
uint8_t calicofern_halves_to_floats(const uint8_t *src, size_t src_length, uint8_t *dst, size_t dst_length, uint64_t *size);
uint8_t calicofern_floats_to_halves(const uint8_t *src, size_t src_length, uint8_t *dst, size_t dst_length, uint64_t *size);
uint8_t calicofern_snorm8_to_floats(const uint8_t *src, size_t src_length, uint8_t *dst, size_t dst_length, uint64_t *size);
uint8_t calicofern_unorm8_to_floats(const uint8_t *src, size_t src_length, uint8_t *dst, size_t dst_length, uint64_t *size);
uint8_t calicofern_floats_to_snorm8(const uint8_t *src, size_t src_length, uint8_t *dst, size_t dst_length, uint64_t *size);
uint8_t calicofern_floats_to_unorm8(const uint8_t *src, size_t src_length, uint8_t *dst, size_t dst_length, uint64_t *size);

#ifdef __cplusplus
}
#endif

#endif
