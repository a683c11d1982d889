//! The C functions of the proved library, each behind a safe function. All unsafe code of this crate is here.
//!
//! The library asks of a caller what include/calicofern.h says: a slice's pointer is aligned, not null and points to as many bytes or indices as
//! are said, readable or for an output or a hall writable; an output, a hall and `size` overlap no other argument; a slice has fewer than 2^63
//! bytes. It keeps no pointer, and it is proved to read and write nothing else and to return.
//!
//! Every call below is sound for the same reasons. A Rust slice's pointer is aligned, never null and good for its length, which is at most
//! `isize::MAX` bytes. Outputs and halls are `&mut` borrows, so nothing else overlaps them, and `size` is a variable of the function. No borrow
//! outlives its call. Functions of numbers alone take any number.

/// What a call with an output answers: the number of the check that failed, or 0, and the bytes written or needed.
#[derive(Debug, Clone, Copy, PartialEq, Eq)]
pub struct Told {
    pub check: u8,
    pub size: u64,
}

/// `size` before a call. The library writes it in every call; this number would show one that does not.
const UNWRITTEN: u64 = 0x5EED_5EED_5EED_5EED;

extern "C" {
    fn calicofern_hall_list(
        system: *const u8,
        system_length: usize,
        graphics: *const u8,
        graphics_length: usize,
        va: u64,
        list: *mut u8,
        list_length: usize,
        size: *mut u64,
    ) -> u8;
    fn calicofern_hall_check(list: *const u8, list_length: usize, n: usize) -> u8;
    fn calicofern_add_model(hall: *mut u8, hall_length: usize, n: usize, binding: u32, mask: u16, size: *mut u64) -> u8;
    fn calicofern_add_geometry(
        hall: *mut u8,
        hall_length: usize,
        n: usize,
        shader: u16,
        flags: u32,
        declared_stride: u16,
        unknown_6h: u8,
        declared_count: u8,
        types: u64,
        stride: u16,
        count: u32,
        content: *const u8,
        content_length: usize,
        indices: *const u32,
        indices_length: usize,
        size: *mut u64,
    ) -> u8;
    fn calicofern_remove_geometry(hall: *mut u8, hall_length: usize, n: usize, model: u64, geometry: u64, size: *mut u64) -> u8;
    fn calicofern_remove_model(hall: *mut u8, hall_length: usize, n: usize, model: u64, size: *mut u64) -> u8;
    fn calicofern_set_attribute(
        hall: *mut u8,
        hall_length: usize,
        n: usize,
        model: u64,
        geometry: u64,
        vertex: u64,
        semantic: u64,
        shape: u8,
        x: u32,
        y: u32,
        z: u32,
        w: u32,
        size: *mut u64,
    ) -> u8;
    fn calicofern_replace_indices(
        hall: *mut u8,
        hall_length: usize,
        n: usize,
        model: u64,
        geometry: u64,
        indices: *const u32,
        indices_length: usize,
        size: *mut u64,
    ) -> u8;
    fn calicofern_take_in(
        hall: *mut u8,
        hall_length: usize,
        n: usize,
        system: *const u8,
        system_length: usize,
        graphics: *const u8,
        graphics_length: usize,
        va: u64,
        size: *mut u64,
    ) -> u8;
    fn calicofern_save(hall: *const u8, hall_length: usize, n: usize, out: *mut u8, out_length: usize, size: *mut u64) -> u8;
    fn calicofern_triangle_count(list: *const u8, list_length: usize) -> u64;
    fn calicofern_bone_index(skeleton_binding: u32) -> u8;
    fn calicofern_is_skinned(skeleton_binding: u32) -> bool;
    fn calicofern_vertex_buffer(
        system: *const u8,
        system_length: usize,
        graphics: *const u8,
        graphics_length: usize,
        va: u64,
        inline_pointer: u64,
        inline_count: u32,
        inline_stride: u16,
        out: *mut u8,
        out_length: usize,
        size: *mut u64,
    ) -> u8;
    fn calicofern_vertex_attributes(
        data: *const u8,
        data_length: usize,
        stride: u16,
        count: u32,
        flags: u32,
        types: u64,
        index: u64,
        out: *mut u8,
        out_length: usize,
        size: *mut u64,
    ) -> u8;
    fn calicofern_unified_vertices(
        data: *const u8,
        data_length: usize,
        stride: u16,
        count: u32,
        flags: u32,
        types: u64,
        out: *mut u8,
        out_length: usize,
        size: *mut u64,
    ) -> u8;
    fn calicofern_declaration_id(flags: u32, types: u64) -> u64;
    fn calicofern_f16_to_f32(half: u16) -> u32;
    fn calicofern_f32_to_f16(bits: u32) -> u16;
    fn calicofern_snorm8_to_f32(byte: u8) -> u32;
    fn calicofern_unorm8_to_f32(byte: u8) -> u32;
    fn calicofern_f32_to_snorm8(bits: u32) -> u8;
    fn calicofern_f32_to_unorm8(bits: u32) -> u8;
    fn calicofern_snorm_colour8(bits: u32) -> u8;
    fn calicofern_halves_to_floats(src: *const u8, src_length: usize, dst: *mut u8, dst_length: usize, size: *mut u64) -> u8;
    fn calicofern_floats_to_halves(src: *const u8, src_length: usize, dst: *mut u8, dst_length: usize, size: *mut u64) -> u8;
    fn calicofern_snorm8_to_floats(src: *const u8, src_length: usize, dst: *mut u8, dst_length: usize, size: *mut u64) -> u8;
    fn calicofern_unorm8_to_floats(src: *const u8, src_length: usize, dst: *mut u8, dst_length: usize, size: *mut u64) -> u8;
    fn calicofern_floats_to_snorm8(src: *const u8, src_length: usize, dst: *mut u8, dst_length: usize, size: *mut u64) -> u8;
    fn calicofern_floats_to_unorm8(src: *const u8, src_length: usize, dst: *mut u8, dst_length: usize, size: *mut u64) -> u8;
}

pub fn hall_list(system: &[u8], graphics: &[u8], va: u64, list: &mut [u8]) -> Told {
    let mut size = UNWRITTEN;
    // SAFETY: pointers and lengths of borrowed slices; `list` is an exclusive borrow and `size` a variable of this function.
    let check = unsafe {
        calicofern_hall_list(system.as_ptr(), system.len(), graphics.as_ptr(), graphics.len(), va, list.as_mut_ptr(), list.len(), &mut size)
    };
    Told { check, size }
}

/// The number of the check that the list's bytes fail, 0 where they are a hall.
pub fn hall_check(list: &[u8]) -> u8 {
    // SAFETY: pointer and length of a borrowed slice, which is only read. n may be any number: the library compares it with the length.
    unsafe { calicofern_hall_check(list.as_ptr(), list.len(), list.len()) }
}

// ---- The calls that edit the hall in the first n bytes of a buffer. n may be any number: the library compares it with the buffer's length.

pub fn add_model(hall: &mut [u8], n: usize, binding: u32, mask: u16) -> Told {
    let mut size = UNWRITTEN;
    // SAFETY: pointer and length of an exclusive borrow; `size` is a variable of this function.
    let check = unsafe { calicofern_add_model(hall.as_mut_ptr(), hall.len(), n, binding, mask, &mut size) };
    Told { check, size }
}

/// A geometry to be added.
#[derive(Debug, Clone, Copy)]
pub struct Given<'a> {
    pub shader: u16,
    pub flags: u32,
    pub declared_stride: u16,
    pub unknown_6h: u8,
    pub declared_count: u8,
    pub types: u64,
    pub stride: u16,
    pub count: u32,
    pub content: &'a [u8],
    pub indices: &'a [u32],
}

pub fn add_geometry(hall: &mut [u8], n: usize, given: Given<'_>) -> Told {
    let mut size = UNWRITTEN;
    // SAFETY: pointers and lengths of borrowed slices; `hall` is an exclusive borrow and `size` a variable of this function. The other numbers may be any: the
    // library judges them.
    let check = unsafe {
        calicofern_add_geometry(
            hall.as_mut_ptr(),
            hall.len(),
            n,
            given.shader,
            given.flags,
            given.declared_stride,
            given.unknown_6h,
            given.declared_count,
            given.types,
            given.stride,
            given.count,
            given.content.as_ptr(),
            given.content.len(),
            given.indices.as_ptr(),
            given.indices.len(),
            &mut size,
        )
    };
    Told { check, size }
}

pub fn remove_geometry(hall: &mut [u8], n: usize, model: u64, geometry: u64) -> Told {
    let mut size = UNWRITTEN;
    // SAFETY: as for adding a model.
    let check = unsafe { calicofern_remove_geometry(hall.as_mut_ptr(), hall.len(), n, model, geometry, &mut size) };
    Told { check, size }
}

pub fn remove_model(hall: &mut [u8], n: usize, model: u64) -> Told {
    let mut size = UNWRITTEN;
    // SAFETY: as for adding a model.
    let check = unsafe { calicofern_remove_model(hall.as_mut_ptr(), hall.len(), n, model, &mut size) };
    Told { check, size }
}

/// `place`: the numbers of model, geometry, vertex and semantic. `shape` and `value` as include/calicofern.h says.
pub fn set_attribute(hall: &mut [u8], n: usize, place: [u64; 4], shape: u8, value: [u32; 4]) -> Told {
    let mut size = UNWRITTEN;
    let [model, geometry, vertex, semantic] = place;
    let [x, y, z, w] = value;
    // SAFETY: as for adding a model.
    let check = unsafe {
        calicofern_set_attribute(hall.as_mut_ptr(), hall.len(), n, model, geometry, vertex, semantic, shape, x, y, z, w, &mut size)
    };
    Told { check, size }
}

pub fn replace_indices(hall: &mut [u8], n: usize, model: u64, geometry: u64, indices: &[u32]) -> Told {
    let mut size = UNWRITTEN;
    // SAFETY: pointers and lengths of borrowed slices; `hall` is an exclusive borrow and `size` a variable of this function.
    let check = unsafe {
        calicofern_replace_indices(hall.as_mut_ptr(), hall.len(), n, model, geometry, indices.as_ptr(), indices.len(), &mut size)
    };
    Told { check, size }
}

pub fn take_in(hall: &mut [u8], n: usize, system: &[u8], graphics: &[u8], va: u64) -> Told {
    let mut size = UNWRITTEN;
    // SAFETY: pointers and lengths of borrowed slices; `hall` is an exclusive borrow and `size` a variable of this function.
    let check = unsafe {
        calicofern_take_in(
            hall.as_mut_ptr(),
            hall.len(),
            n,
            system.as_ptr(),
            system.len(),
            graphics.as_ptr(),
            graphics.len(),
            va,
            &mut size,
        )
    };
    Told { check, size }
}

pub fn save(hall: &[u8], n: usize, out: &mut [u8]) -> Told {
    let mut size = UNWRITTEN;
    // SAFETY: pointers and lengths of borrowed slices; `out` is an exclusive borrow and `size` a variable of this function.
    let check = unsafe { calicofern_save(hall.as_ptr(), hall.len(), n, out.as_mut_ptr(), out.len(), &mut size) };
    Told { check, size }
}

pub fn triangle_count(list: &[u8]) -> u64 {
    // SAFETY: pointer and length of a borrowed slice, which is only read.
    unsafe { calicofern_triangle_count(list.as_ptr(), list.len()) }
}

pub fn vertex_buffer(system: &[u8], graphics: &[u8], va: u64, inline: (u64, u32, u16), out: &mut [u8]) -> Told {
    let mut size = UNWRITTEN;
    let (inline_pointer, inline_count, inline_stride) = inline;
    // SAFETY: pointers and lengths of borrowed slices; `out` is an exclusive borrow and `size` a variable of this function. The addresses are numbers:
    // the library looks them up in the sections.
    let check = unsafe {
        calicofern_vertex_buffer(
            system.as_ptr(),
            system.len(),
            graphics.as_ptr(),
            graphics.len(),
            va,
            inline_pointer,
            inline_count,
            inline_stride,
            out.as_mut_ptr(),
            out.len(),
            &mut size,
        )
    };
    Told { check, size }
}

pub fn vertex_attributes(data: &[u8], stride: u16, count: u32, flags: u32, types: u64, index: u64, out: &mut [u8]) -> Told {
    let mut size = UNWRITTEN;
    // SAFETY: pointers and lengths of borrowed slices; `out` is an exclusive borrow and `size` a variable of this function. Stride, count and index may
    // be any numbers: the library checks them against the data's length.
    let check = unsafe {
        calicofern_vertex_attributes(data.as_ptr(), data.len(), stride, count, flags, types, index, out.as_mut_ptr(), out.len(), &mut size)
    };
    Told { check, size }
}

pub fn unified_vertices(data: &[u8], stride: u16, count: u32, flags: u32, types: u64, out: &mut [u8]) -> Told {
    let mut size = UNWRITTEN;
    // SAFETY: as for the attributes.
    let check = unsafe {
        calicofern_unified_vertices(data.as_ptr(), data.len(), stride, count, flags, types, out.as_mut_ptr(), out.len(), &mut size)
    };
    Told { check, size }
}

/// A function of numbers alone.
macro_rules! numbers {
    ($($name:ident = $c:ident($($argument:ident: $type:ty),*) -> $answer:ty;)*) => {
        $(pub fn $name($($argument: $type),*) -> $answer {
            // SAFETY: a function of numbers. C's bool is Rust's.
            unsafe { $c($($argument),*) }
        })*
    };
}

numbers! {
    bone_index = calicofern_bone_index(skeleton_binding: u32) -> u8;
    is_skinned = calicofern_is_skinned(skeleton_binding: u32) -> bool;
    declaration_id = calicofern_declaration_id(flags: u32, types: u64) -> u64;
    f16_to_f32 = calicofern_f16_to_f32(half: u16) -> u32;
    f32_to_f16 = calicofern_f32_to_f16(bits: u32) -> u16;
    snorm8_to_f32 = calicofern_snorm8_to_f32(byte: u8) -> u32;
    unorm8_to_f32 = calicofern_unorm8_to_f32(byte: u8) -> u32;
    f32_to_snorm8 = calicofern_f32_to_snorm8(bits: u32) -> u8;
    f32_to_unorm8 = calicofern_f32_to_unorm8(bits: u32) -> u8;
    snorm_colour8 = calicofern_snorm_colour8(bits: u32) -> u8;
}

/// A run of numbers converted from one slice into another.
macro_rules! runs {
    ($($name:ident = $c:ident;)*) => {
        $(pub fn $name(src: &[u8], dst: &mut [u8]) -> Told {
            let mut size = UNWRITTEN;
            // SAFETY: pointers and lengths of borrowed slices; `dst` is an exclusive borrow and `size` a variable of this function.
            let check = unsafe { $c(src.as_ptr(), src.len(), dst.as_mut_ptr(), dst.len(), &mut size) };
            Told { check, size }
        })*
    };
}

runs! {
    halves_to_floats = calicofern_halves_to_floats;
    floats_to_halves = calicofern_floats_to_halves;
    snorm8_to_floats = calicofern_snorm8_to_floats;
    unorm8_to_floats = calicofern_unorm8_to_floats;
    floats_to_snorm8 = calicofern_floats_to_snorm8;
    floats_to_unorm8 = calicofern_floats_to_unorm8;
}
