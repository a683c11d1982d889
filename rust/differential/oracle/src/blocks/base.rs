//! Stands for the original's arrays of structs, which are not read here.
use super::{BlockId, Graph, Reader};

pub struct StructArray<T> {
    pub items: Vec<T>,
}

pub fn read_struct_array<T>(_r: &mut Reader, _g: &mut Graph, _va: u64, _count: usize) -> anyhow::Result<Option<BlockId>> {
    unimplemented!("no blocks are read here")
}
