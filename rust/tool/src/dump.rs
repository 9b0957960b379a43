//! Bytes as hex with their text beside it, as `hexdump -C` writes them.

use std::io::{self, Write};

/// How many bytes a line has.
const LINE: usize = 16;

/// Writes the bytes, 16 a line; places are counted from the first of them.
pub fn dump(out: &mut impl Write, bytes: &[u8]) -> io::Result<()> {
    for (number, line) in bytes.chunks(LINE).enumerate() {
        write!(out, "{:08x} ", number * LINE)?;
        for column in 0..LINE {
            let gap = if column % 8 == 0 { " " } else { "" };
            match line.get(column) {
                Some(byte) => write!(out, "{gap}{byte:02x} ")?,
                None => write!(out, "{gap}   ")?,
            }
        }
        let text: String = line.iter().map(printed).collect();
        writeln!(out, " |{text}|")?;
    }
    Ok(())
}

/// The letter of a byte, or a dot where it has none.
fn printed(byte: &u8) -> char {
    match byte {
        b' '..=b'~' => char::from(*byte),
        _ => '.',
    }
}

#[cfg(test)]
mod tests {
    use super::*;

    fn dumped(bytes: &[u8]) -> String {
        let mut out = Vec::new();
        dump(&mut out, bytes).unwrap();
        String::from_utf8(out).unwrap()
    }

    #[test]
    fn lines_are_those_of_hexdump() {
        assert_eq!(dumped(b""), "");
        assert_eq!(
            dumped(b"ABC\0 ~\x7f\xff"),
            "00000000  41 42 43 00 20 7e 7f ff                           |ABC. ~..|\n"
        );
        assert_eq!(
            dumped(b"0123456789abcdefX"),
            "00000000  30 31 32 33 34 35 36 37  38 39 61 62 63 64 65 66  |0123456789abcdef|\n\
             00000010  58                                                |X|\n"
        );
    }
}
