//! Stand-in for twox-hash: the same hash (XXH3, 64 bits, seed 0) by Debian's xxhash-rust. It only
//! decides which tiles count as the same, and feeds a HashMap.
#[derive(Default)]
pub struct XxHash3_64(Vec<u8>);

impl XxHash3_64 {
    pub fn oneshot(data: &[u8]) -> u64 {
        xxhash_rust::xxh3::xxh3_64(data)
    }
}
impl std::hash::Hasher for XxHash3_64 {
    fn write(&mut self, data: &[u8]) {
        self.0.extend_from_slice(data)
    }
    fn finish(&self) -> u64 {
        xxhash_rust::xxh3::xxh3_64(&self.0)
    }
}
