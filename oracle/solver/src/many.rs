//! Many sheets in, their listings out: a 4-byte little-endian length and that
//! many bytes, again and again; each listing is followed by a line `--`.

use crate::answer;
use std::io::{self, Read, Write};

/// The longest sheet that the many form carries.
pub const LONGEST: usize = 65_536;

/// A length above `LONGEST` or a cut input gives a line `X` and ends the run.
pub fn run(mut input: impl Read, mut output: impl Write) -> io::Result<()> {
    let mut bytes = Vec::new();
    loop {
        let mut length = [0; 4];
        match fill(&mut input, &mut length)? {
            0 => return Ok(()),
            4 => {}
            _ => return writeln!(output, "X"),
        }
        let length = u32::from_le_bytes(length) as usize;
        if length > LONGEST {
            return writeln!(output, "X");
        }
        bytes.resize(length, 0);
        if fill(&mut input, &mut bytes)? < length {
            return writeln!(output, "X");
        }
        writeln!(output, "{}--", answer::run(&bytes).listing())?;
    }
}

/// Reads until the buffer is full or the input ends; gives the bytes read.
fn fill(input: &mut impl Read, buffer: &mut [u8]) -> io::Result<usize> {
    let mut got = 0;
    while got < buffer.len() {
        match input.read(&mut buffer[got..])? {
            0 => break,
            n => got += n,
        }
    }
    Ok(got)
}

#[cfg(test)]
mod tests {
    use super::*;

    fn of(input: &[u8]) -> String {
        let mut output = Vec::new();
        run(input, &mut output).unwrap();
        String::from_utf8(output).unwrap()
    }

    #[test]
    fn sheets_one_after_the_other() {
        assert_eq!(of(b""), "");
        assert_eq!(of(&[0, 0, 0, 0]), "A 1 0 0 0 0\n--\n");
        let two = b"\x01\0\0\0O\x02\0\0\0NDmore";
        assert_eq!(of(&two[..11]), "A 1 0 0 0 0\n--\nA 1 0 0 0 0\n--\n");
    }

    #[test]
    fn cut_or_too_long() {
        assert_eq!(of(&[0, 0, 0]), "X\n");
        assert_eq!(of(&[2, 0, 0, 0, b'O']), "X\n");
        assert_eq!(of(&[0, 0, 0, 0, 1]), "A 1 0 0 0 0\n--\nX\n");
        let longest = [&65_536u32.to_le_bytes()[..], &[0; LONGEST]].concat();
        assert_eq!(of(&longest), "A 1 0 0 0 0\n--\n");
        let longer = [&65_537u32.to_le_bytes()[..], &[0; LONGEST + 1]].concat();
        assert_eq!(of(&longer), "X\n");
    }
}
