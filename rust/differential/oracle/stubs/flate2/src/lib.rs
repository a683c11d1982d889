//! Stands for the crate of this name where none can be fetched. Sections are given here, never inflated.
pub struct Compression;

pub mod read {
    pub struct DeflateDecoder<R>(R);

    impl<R> DeflateDecoder<R> {
        pub fn new(from: R) -> Self {
            Self(from)
        }
    }

    impl<R> std::io::Read for DeflateDecoder<R> {
        fn read(&mut self, _into: &mut [u8]) -> std::io::Result<usize> {
            unimplemented!("nothing is inflated here")
        }
    }
}

pub mod write {
    pub struct DeflateEncoder;
}
