//! Stand-in: `leb128::write::unsigned`, seven bits at a time.
#![allow(missing_docs)] // what is public here is named and meant as in the crate itself

pub mod write {
    use std::io::{self, Write};

    pub fn unsigned<W: Write + ?Sized>(w: &mut W, mut value: u64) -> io::Result<usize> {
        let mut written = 0;
        loop {
            let mut byte = (value & 0x7f) as u8;
            value >>= 7;
            if value != 0 {
                byte |= 0x80;
            }
            w.write_all(&[byte])?;
            written += 1;
            if value == 0 {
                return Ok(written);
            }
        }
    }
}
