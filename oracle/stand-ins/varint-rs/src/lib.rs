//! Stand-in for varint-rs, written from the public definition of LEB128: seven bits a byte, lowest
//! group first, the top bit says that more follows. A number that doesn't fit its width is an error
//! (InvalidData) and never wraps; the real crate's answer there isn't known to us.
use std::io::{Error, ErrorKind, Read, Result, Write};

pub trait VarintReader: Read {
    fn read_bits(&mut self, bits: u32) -> Result<u64> {
        let (mut value, mut shift) = (0u64, 0u32);
        loop {
            let mut b = [0u8];
            self.read_exact(&mut b)?;
            let low = u64::from(b[0] & 127);
            if low != 0 && (shift >= bits || (bits - shift < 7 && low >> (bits - shift) != 0)) {
                return Err(Error::new(ErrorKind::InvalidData, "varint too large"));
            }
            if shift < bits {
                value |= low << shift;
            }
            if b[0] < 128 {
                return Ok(value);
            }
            shift += 7;
            if shift >= bits {
                return Err(Error::new(ErrorKind::InvalidData, "varint too long"));
            }
        }
    }
    fn read_u32_varint(&mut self) -> Result<u32> {
        Ok(self.read_bits(32)? as u32)
    }
    fn read_u64_varint(&mut self) -> Result<u64> {
        self.read_bits(64)
    }
    fn read_usize_varint(&mut self) -> Result<usize> {
        Ok(self.read_bits(64)? as usize)
    }
}
impl<R: Read + ?Sized> VarintReader for R {}

pub trait VarintWriter: Write {
    fn write_u64_varint(&mut self, mut v: u64) -> Result<()> {
        while v >= 128 {
            self.write_all(&[v as u8 | 128])?;
            v >>= 7;
        }
        self.write_all(&[v as u8])
    }
    fn write_u32_varint(&mut self, v: u32) -> Result<()> {
        self.write_u64_varint(v.into())
    }
    fn write_usize_varint(&mut self, v: usize) -> Result<()> {
        self.write_u64_varint(v as u64)
    }
}
impl<W: Write + ?Sized> VarintWriter for W {}
