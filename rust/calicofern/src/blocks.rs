//! Vertices unified block by block, and their positions alone.

use crate::bytes::f32s_at;
use crate::detail::Detail;
use crate::lend::ALLOCATION_LIMIT;
use crate::{Check, Refusal, UnifiedVertex, Vertices};

/// How many vertices are unified at a time.
const BLOCK: u32 = 4096;

/// The bytes of one position.
const SIZE: u64 = 12;

/// Unifies vertices block by block, and has each block taken, as bytes.
pub fn unified_blocks<E: From<Refusal>>(vertices: &Vertices<'_>, mut take: impl FnMut(&[u8]) -> Result<(), E>) -> Result<(), E> {
    let count = vertices.vertex_count;
    all_inside(vertices)?;
    let mut out = vec![0; count.min(BLOCK) as usize * UnifiedVertex::SIZE];
    let mut from = 0;
    while from < count {
        let vertex_count = BLOCK.min(count - from);
        // Up to the end of all data: components may end beyond the stride. Data may only begin beyond that end where no component has bytes.
        let start = u64::from(from) * u64::from(vertices.vertex_stride);
        let data = usize::try_from(start).ok().and_then(|start| vertices.data.get(start..)).unwrap_or_default();
        let written = Vertices { vertex_count, data, ..*vertices }.unify_into(&mut out)?;
        take(out.get(..written).unwrap_or_default())?;
        from += vertex_count;
    }
    Ok(())
}

pub fn positions_of(vertices: &Vertices<'_>) -> Result<Vec<[f32; 3]>, Refusal> {
    all_inside(vertices)?;
    let mut positions = room(vertices.vertex_count)?;
    unified_blocks(vertices, |block| {
        positions.extend(block.chunks_exact(UnifiedVertex::SIZE).map(|vertex| f32s_at(vertex, 0)));
        Ok::<(), Refusal>(())
    })?;
    Ok(positions)
}

/// Refuses by check 9 where not every vertex is inside the data. The library asks that before it looks at the output, which is empty here.
fn all_inside(vertices: &Vertices<'_>) -> Result<(), Refusal> {
    match vertices.unify_into(&mut []) {
        Err(refusal) if refusal.check() != Check::Output => Err(refusal),
        _ => Ok(()),
    }
}

/// Room for so many positions.
fn room(count: u32) -> Result<Vec<[f32; 3]>, Refusal> {
    let needed = SIZE * u64::from(count);
    let refusal = Refusal::of(Check::Output).because(Detail::Bytes { needed, lent: ALLOCATION_LIMIT as u64, limit: true });
    if needed > ALLOCATION_LIMIT as u64 {
        return Err(refusal);
    }
    let mut positions = Vec::new();
    positions.try_reserve_exact(count as usize).map_err(|_| refusal)?;
    Ok(positions)
}

#[cfg(test)]
mod tests {
    use super::*;
    use crate::{VertexBufferLayout, VertexDeclaration};

    fn vertices(declaration: Option<VertexDeclaration>, vertex_stride: u16, vertex_count: u32, data: &[u8]) -> Vertices<'_> {
        Vertices { layout: VertexBufferLayout::Legacy, vertex_stride, vertex_count, declaration, data }
    }

    /// Positions as their bits, or the number of the check.
    fn bits(found: Result<Vec<[f32; 3]>, Refusal>) -> Result<Vec<[u32; 3]>, u8> {
        found.map(|positions| positions.iter().map(|position| position.map(f32::to_bits)).collect()).map_err(|refusal| refusal.number())
    }

    fn agree(vertices: Vertices<'_>) -> bool {
        let unified = vertices.to_unified_vertices().map(|all| all.iter().map(|vertex| vertex.position).collect());
        let (expected, found) = (bits(unified), bits(vertices.positions()));
        assert!(expected == found, "{:?}, stride {}, count {}", vertices.declaration, vertices.vertex_stride, vertices.vertex_count);
        found.is_ok()
    }

    #[test]
    fn positions_are_those_of_unified_vertices() {
        let data: Vec<u8> = (0..45 * 9000u32).map(|at| (at.wrapping_mul(2_654_435_761) >> 24) as u8).collect();
        let declared = |flags, types| Some(VertexDeclaration { flags, types, ..VertexDeclaration::default() });
        // three floats; four halves; a position and a normal; a normal alone; nothing; a position and weights
        let declarations = [None, declared(1, 3), declared(9, 0x6006), declared(8, 0x6000), declared(0, 0), declared(3, 0x75)];
        for declaration in declarations {
            let size = usize::from(vertices(declaration, 0, 0, &[]).declaration_or_position_only().size_in_bytes());
            for stride in [0, 1, 11, 12, 13, 24, 40] {
                for count in [0, 1, 2, BLOCK - 1, BLOCK, BLOCK + 1, 2 * BLOCK, 2 * BLOCK + 1] {
                    let needed = (count as usize).saturating_sub(1) * usize::from(stride) + size;
                    assert!(agree(vertices(declaration, stride, count, &data[..needed])));
                    let enough = agree(vertices(declaration, stride, count, &data[..needed.saturating_sub(1)]));
                    assert_eq!(enough, count == 0 || size == 0);
                }
            }
        }
    }

    #[test]
    fn every_stride_up_to_40() {
        let data: Vec<u8> = (0..=255).cycle().take(40 * 5000).collect();
        for stride in 0..=40 {
            for declaration in
                [None, Some(VertexDeclaration { flags: 0xFFFF, types: 0x6543_2187_6543_21A5, ..VertexDeclaration::default() })]
            {
                agree(vertices(declaration, stride, BLOCK + 3, &data[..usize::from(stride) * (BLOCK as usize + 2) + 12]));
                agree(vertices(declaration, stride, BLOCK + 3, &data));
            }
        }
    }

    #[test]
    fn more_positions_than_the_limit_are_refused() {
        let refusal = vertices(None, 0, u32::MAX, &[0; 12]).positions().unwrap_err();
        let words = "check 10: the output is too short: 51539607540 bytes are needed, and the limit is 1073741824";
        assert_eq!(refusal.to_string(), words);
        // what is not inside the data is told first
        assert_eq!(vertices(None, 0, u32::MAX, &[0; 11]).positions().unwrap_err().number(), 9);
        assert_eq!(vertices(None, u16::MAX, u32::MAX, &[0; 999]).positions().unwrap_err().number(), 9);
    }
}
