// The oracle: the conversion module of mf4-rs 3.8.0 in its own words, under the module names that its files expect.
// What its files name and do not bring is stood in for here: one trait, which no call of the comparison reaches.
#![allow(warnings)]

include!(concat!(env!("OUT_DIR"), "/tree.rs"));

pub mod index {
    // Stands in for the reader of byte ranges. Only `.._via_reader` functions ask for it, and they are left out of the comparison.
    pub trait ByteRangeReader {
        type Error;
        fn read_range(&mut self, offset: u64, length: u64) -> Result<Vec<u8>, Self::Error>;
        fn read_range_optional(&mut self, offset: u64, length: u64) -> Result<Option<Vec<u8>>, Self::Error>;
    }
}
