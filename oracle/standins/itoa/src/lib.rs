//! Stand-in: `itoa::write` in the shape of itoa 0.4: a buffer that is not cleared, two digits from a table at a time by pointers without
//! bound checks, the last two numbers of digits by cases, and one `write_all`.
#![allow(missing_docs)] // what is public here is named and meant as in the crate itself

use std::{
    io::{self, Write},
    mem::MaybeUninit,
    ptr, slice,
};

const PAIRS: &[u8; 200] = b"\
    0001020304050607080910111213141516171819\
    2021222324252627282930313233343536373839\
    4041424344454647484950515253545556575859\
    6061626364656667686970717273747576777879\
    8081828384858687888990919293949596979899";

const MOST: usize = 20;

#[inline]
pub fn write<W: Write>(mut w: W, value: isize) -> io::Result<usize> {
    let mut buf = MaybeUninit::<[u8; MOST]>::uninit();
    let digits = unsafe { format(value, buf.as_mut_ptr() as *mut u8) };
    w.write_all(digits)?;
    Ok(digits.len())
}

/// # Safety
/// `buf` points to `MOST` bytes. The longest number, with its minus, takes that many.
#[inline]
unsafe fn format<'a>(value: isize, buf: *mut u8) -> &'a [u8] {
    let pairs = PAIRS.as_ptr();
    let mut n = value.unsigned_abs();
    let mut at = MOST;
    while n >= 10000 {
        let four = n % 10000;
        n /= 10000;
        at -= 4;
        ptr::copy_nonoverlapping(pairs.add(four / 100 * 2), buf.add(at), 2);
        ptr::copy_nonoverlapping(pairs.add(four % 100 * 2), buf.add(at + 2), 2);
    }
    if n >= 100 {
        at -= 2;
        ptr::copy_nonoverlapping(pairs.add(n % 100 * 2), buf.add(at), 2);
        n /= 100;
    }
    if n < 10 {
        at -= 1;
        *buf.add(at) = n as u8 + b'0';
    } else {
        at -= 2;
        ptr::copy_nonoverlapping(pairs.add(n * 2), buf.add(at), 2);
    }
    if value < 0 {
        at -= 1;
        *buf.add(at) = b'-';
    }
    slice::from_raw_parts(buf.add(at), MOST - at)
}

#[cfg(test)]
mod tests {
    #[test]
    fn like_to_string() {
        let all = (-20_000isize..20_000).chain([isize::MIN, isize::MIN + 1, isize::MAX]);
        for n in all {
            let mut out = vec![];
            super::write(&mut out, n).unwrap();
            assert_eq!(out, n.to_string().as_bytes());
        }
    }
}
