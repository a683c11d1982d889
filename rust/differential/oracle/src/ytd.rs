//! Stands for the original's texture dictionaries, which no geometry asks for.
use crate::resource::ResReader;

#[derive(Debug, Clone)]
pub struct YtdTexture;

pub fn parse_texture_dict_at(_reader: &ResReader<'_>, _va: u64) -> anyhow::Result<Vec<YtdTexture>> {
    unimplemented!("textures are not read here")
}
