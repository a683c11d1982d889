//! Stands for the original's printing of floats as text.
pub fn float(_value: f32) -> String {
    unimplemented!("no XML is written here")
}
