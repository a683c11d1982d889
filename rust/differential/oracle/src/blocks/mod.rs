//! Stands for the original's graph of blocks, which is neither read nor written here, around its `vertex` and `xml`.
use std::any::Any;

use anyhow::Result;

include!(concat!(env!("OUT_DIR"), "/blocks.rs"));

pub mod base;

#[derive(Clone, Copy, PartialEq, Eq)]
pub struct BlockId;

pub trait Block: Any {
    fn length(&self) -> usize;
    fn references(&self, _g: &Graph) -> Vec<BlockId> {
        Vec::new()
    }
    fn write(&self, w: &mut Writer, g: &Graph) -> Result<()>;
    fn as_any(&self) -> &dyn Any;
    fn as_any_mut(&mut self) -> &mut dyn Any;
}

pub struct Graph;
pub struct Reader;
pub struct Cursor;
pub struct Writer;

impl Graph {
    pub fn add<T>(&mut self, _block: T) -> BlockId {
        unimplemented!("no blocks are kept here")
    }
    pub fn get<T>(&self, _id: BlockId) -> &T {
        unimplemented!("no blocks are kept here")
    }
    pub fn ptr(&self, _id: Option<BlockId>) -> u64 {
        unimplemented!("no blocks are kept here")
    }
}

impl Reader {
    pub fn cached_as<T>(&self, _va: u64) -> Result<Option<BlockId>> {
        unimplemented!("no blocks are read here")
    }
    pub fn cache<T>(&mut self, _va: u64, _id: BlockId) {
        unimplemented!("no blocks are read here")
    }
    pub fn cursor(&self, _va: u64) -> Result<Cursor> {
        unimplemented!("no blocks are read here")
    }
    pub fn bytes(&self, _va: u64, _length: usize) -> Result<Vec<u8>> {
        unimplemented!("no blocks are read here")
    }
}

impl Cursor {
    pub fn u8(&mut self) -> u8 {
        unimplemented!("no blocks are read here")
    }
    pub fn u16(&mut self) -> u16 {
        unimplemented!("no blocks are read here")
    }
    pub fn u32(&mut self) -> u32 {
        unimplemented!("no blocks are read here")
    }
    pub fn u64(&mut self) -> u64 {
        unimplemented!("no blocks are read here")
    }
    pub fn skip(&mut self, _count: usize) {
        unimplemented!("no blocks are read here")
    }
    pub fn check(&self) -> Result<()> {
        unimplemented!("no blocks are read here")
    }
}

impl Writer {
    pub fn u8(&mut self, _value: u8) {
        unimplemented!("no blocks are written here")
    }
    pub fn u16(&mut self, _value: u16) {
        unimplemented!("no blocks are written here")
    }
    pub fn u32(&mut self, _value: u32) {
        unimplemented!("no blocks are written here")
    }
    pub fn u64(&mut self, _value: u64) {
        unimplemented!("no blocks are written here")
    }
    pub fn bytes(&mut self, _bytes: &[u8]) {
        unimplemented!("no blocks are written here")
    }
    pub fn zeros(&mut self, _count: usize) {
        unimplemented!("no blocks are written here")
    }
}
