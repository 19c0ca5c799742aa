//! Stand-in for async-compression: refuses. async_reader.rs reaches it for gzip alone.
pub mod tokio {
    pub mod bufread {
        pub struct GzipDecoder;
        impl GzipDecoder {
            pub fn new(_: &[u8]) -> Self {
                Self
            }
        }
        impl ::tokio::io::AsyncReadExt for GzipDecoder {
            async fn read_to_end(&mut self, _: &mut Vec<u8>) -> std::io::Result<usize> {
                Err(std::io::ErrorKind::Unsupported.into())
            }
        }
    }
}
