//! Stands for the original's hash of names, which no geometry asks for.
pub fn rage_joaat(_name: &str) -> u32 {
    unimplemented!("names are not read here")
}
