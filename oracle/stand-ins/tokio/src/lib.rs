//! Stand-in for tokio: the one trait that async_reader.rs imports. Nothing calls it uncompressed.
pub mod io {
    pub trait AsyncReadExt {
        fn read_to_end(
            &mut self,
            out: &mut Vec<u8>,
        ) -> impl Future<Output = std::io::Result<usize>> + Send;
    }
}
