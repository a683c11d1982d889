//! Outputs that this crate allocates and lends.

use crate::Refusal;

/// The most bytes that a function of this crate allocates for one output, where no other limit is given: 1 GiB.
///
/// Pointers of a drawable may lead to the same bytes many times over, so a small file can ask for a list of terabytes. Without such sharing the list
/// of the longest sections has less than 256 MiB, and their vertices, unified, less than 1 GiB.
pub const ALLOCATION_LIMIT: usize = 1 << 30;

/// Asks with an empty output, and once more with one as long as is needed. Refuses what needs more than `limit`, or more than there is.
pub fn lend(limit: usize, call: impl Fn(&mut [u8]) -> Result<usize, Refusal>) -> Result<Vec<u8>, Refusal> {
    let refusal = match call(&mut []) {
        Ok(_) => return Ok(Vec::new()),
        Err(refusal) => refusal,
    };
    let Some(needed) = refusal.needed() else {
        return Err(refusal);
    };
    let length = match usize::try_from(needed) {
        Ok(length) if length <= limit => length,
        _ => return Err(refusal.with_limit(limit)),
    };
    let mut out = Vec::new();
    out.try_reserve_exact(length).map_err(|_| refusal)?;
    out.resize(length, 0);
    let written = call(&mut out)?;
    out.truncate(written);
    Ok(out)
}
