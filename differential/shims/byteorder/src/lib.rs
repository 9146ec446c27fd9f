//! The part of `byteorder` that common/src/serialize.rs names. Of this, a posting list uses nothing:
//! only the number of tokens that opens a field is written through it.
use std::io::{Read, Result, Write};

pub trait ByteOrder {}
pub enum LittleEndian {}
impl ByteOrder for LittleEndian {}

// Little-endian is the only order in use, so the order's type selects nothing.
macro_rules! numbers {
    ($($number:ident $read:ident $write:ident),*) => {
        pub trait ReadBytesExt: Read {
            fn read_u8(&mut self) -> Result<u8> {
                let mut bytes = [0];
                self.read_exact(&mut bytes)?;
                Ok(bytes[0])
            }
            $(fn $read<O: ByteOrder>(&mut self) -> Result<$number> {
                let mut bytes = [0; size_of::<$number>()];
                self.read_exact(&mut bytes)?;
                Ok($number::from_le_bytes(bytes))
            })*
        }
        pub trait WriteBytesExt: Write {
            fn write_u8(&mut self, value: u8) -> Result<()> {
                self.write_all(&[value])
            }
            $(fn $write<O: ByteOrder>(&mut self, value: $number) -> Result<()> {
                self.write_all(&value.to_le_bytes())
            })*
        }
    };
}

numbers!(u16 read_u16 write_u16, u32 read_u32 write_u32, u64 read_u64 write_u64,
    u128 read_u128 write_u128, i64 read_i64 write_i64, f32 read_f32 write_f32, f64 read_f64 write_f64);

impl<R: Read + ?Sized> ReadBytesExt for R {}
impl<W: Write + ?Sized> WriteBytesExt for W {}
