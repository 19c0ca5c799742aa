//! Stand-in for countio: a writer that counts the bytes it took.
use std::io::{Result, Seek, SeekFrom, Write};

pub struct Counter<D> {
    inner: D,
    written: usize,
}

impl<D> Counter<D> {
    pub fn new(inner: D) -> Self {
        Self { inner, written: 0 }
    }
    pub fn writer_bytes(&self) -> usize {
        self.written
    }
    pub fn into_inner(self) -> D {
        self.inner
    }
}
impl<D: Write> Write for Counter<D> {
    fn write(&mut self, buf: &[u8]) -> Result<usize> {
        let n = self.inner.write(buf)?;
        self.written += n;
        Ok(n)
    }
    fn flush(&mut self) -> Result<()> {
        self.inner.flush()
    }
}
impl<D: Seek> Seek for Counter<D> {
    fn seek(&mut self, pos: SeekFrom) -> Result<u64> {
        self.inner.seek(pos)
    }
}
