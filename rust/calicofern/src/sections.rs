//! The two sections of a drawable, and what is read from them.

use crate::bytes::{array, u16_at, u32_at, u64_at, u8_at};
use crate::lend::{lend, ALLOCATION_LIMIT};
use crate::{calls, HallList, InlineVertices, Refusal, VertexBuffer, VertexBufferLayout, VertexDeclaration, Vertices};

/// The system and the graphics section of a drawable, as bytes. Either may be empty.
///
/// A pointer in a drawable is an address: [`Sections::SYSTEM`] plus an offset in the system section, or [`Sections::GRAPHICS`] plus one in the
/// graphics section.
#[derive(Debug, Clone, Copy, Default, PartialEq, Eq, Hash)]
pub struct Sections<'a> {
    /// The system section.
    pub system: &'a [u8],
    /// The graphics section.
    pub graphics: &'a [u8],
}

impl<'a> Sections<'a> {
    /// The address of the system section's first byte.
    pub const SYSTEM: u64 = 0x5000_0000;
    /// The address of the graphics section's first byte.
    pub const GRAPHICS: u64 = 0x6000_0000;
    /// The most bytes that a section may have: 64 MiB.
    pub const LIMIT: usize = 67_108_864;

    /// Both sections.
    pub fn new(system: &'a [u8], graphics: &'a [u8]) -> Self {
        Sections { system, graphics }
    }

    /// The models and geometries behind the LOD header at an address. A header that is not inside its section has none.
    ///
    /// Refused by checks 1 to 6, and by check 7 where the list has more than [`ALLOCATION_LIMIT`] bytes.
    ///
    /// ```
    /// use calicofern::Sections;
    /// let empty = Sections::new(&[0; 16], &[]).hall_list(Sections::SYSTEM)?;
    /// assert_eq!(empty.models().count(), 0);
    ///
    /// // a header that says: one model pointer at 0x50001000, which is beyond the section
    /// let mut header = [0; 16];
    /// header[..8].copy_from_slice(&0x5000_1000u64.to_le_bytes());
    /// header[8] = 1;
    /// let refusal = Sections::new(&header, &[]).hall_list(Sections::SYSTEM).unwrap_err();
    /// assert_eq!(refusal.number(), 2);
    /// # Ok::<(), calicofern::Refusal>(())
    /// ```
    pub fn hall_list(&self, at: u64) -> Result<HallList, Refusal> {
        self.hall_list_within(at, ALLOCATION_LIMIT)
    }

    /// The same with a limit of one's own: check 7 refuses a list that has more bytes.
    pub fn hall_list_within(&self, at: u64, limit: usize) -> Result<HallList, Refusal> {
        lend(limit, |list| self.hall_list_into(at, list)).map(HallList::from_bytes)
    }

    /// The same into the first bytes of a lent buffer, and how many they are. The bytes behind them are left as they were.
    ///
    /// Refused by checks 1 to 7; 7 has the bytes needed.
    ///
    /// ```
    /// use calicofern::{Models, Sections};
    /// # let system = std::fs::read(concat!(env!("CARGO_MANIFEST_DIR"), "/samples/shoebox.system")).unwrap();
    /// let mut list = vec![0; 65536];
    /// let length = Sections::new(&system, &[]).hall_list_into(Sections::SYSTEM, &mut list)?;
    /// assert_eq!(Models::of(&list[..length]).count(), 2);
    /// # Ok::<(), calicofern::Refusal>(())
    /// ```
    pub fn hall_list_into(&self, at: u64, list: &mut [u8]) -> Result<usize, Refusal> {
        let lent = list.len();
        Refusal::told(calls::hall_list(self.system, self.graphics, at, list), lent)
    }

    /// The vertex buffer behind the block at an address, or else the geometry's own vertices: the first of the four layouts whose data is there.
    ///
    /// ```
    /// use calicofern::{InlineVertices, Sections, VertexBufferLayout};
    /// let system = [0; 64];
    /// let inline = InlineVertices { data_pointer: Sections::SYSTEM + 16, vertex_count: 4, vertex_stride: 12 };
    /// let found = Sections::new(&system, &[]).vertex_buffer_at(0, inline).unwrap();
    /// assert_eq!(found.vertices.layout, VertexBufferLayout::GeometryInline);
    /// assert_eq!(found.vertices.data.len(), 48);
    /// ```
    pub fn vertex_buffer_at(&self, at: u64, inline: InlineVertices) -> Option<VertexBuffer<'a>> {
        let mut out = [0; 48];
        let inline = (inline.data_pointer, inline.vertex_count, inline.vertex_stride);
        let told = calls::vertex_buffer(self.system, self.graphics, at, inline, &mut out);
        let length = Refusal::told(told, out.len()).ok()?;
        if length == 0 {
            return None;
        }
        let section = if u8_at(&out, 23) == 0 { self.system } else { self.graphics };
        let (vertex_stride, vertex_count) = (u16_at(&out, 1), u32_at(&out, 3));
        let data = section.get(u64_at(&out, 24) as usize..)?.get(..vertex_count as usize * usize::from(vertex_stride))?;
        Some(VertexBuffer {
            data_pointer: u64_at(&out, 7),
            info_pointer: u64_at(&out, 15),
            vertices: Vertices {
                layout: VertexBufferLayout::from_number(u8_at(&out, 0)),
                vertex_stride,
                vertex_count,
                declaration: (length == 48).then(|| VertexDeclaration::from_bytes(array(&out, 32))),
                data,
            },
        })
    }
}
