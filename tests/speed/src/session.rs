//! The session text, for lines of document 01's own records, without waits: any other line panics.

use crate::chip::{joined_ticks, Chip};
use std::io::Write;

/// Lines taken.
pub const MOST_LINES: usize = 65_535;

struct Pair {
    a: Chip,
    b: Chip,
}

/// The whole output for the whole input.
pub fn answer(input: &[u8]) -> Vec<u8> {
    let mut pair = Pair {
        a: Chip::just_reset(),
        b: Chip::just_reset(),
    };
    let mut output = Vec::new();
    let (mut taken, mut refused) = (0, 0);
    for line in input
        .split_inclusive(|&byte| byte == b'\n')
        .take(MOST_LINES)
    {
        taken += 1;
        if let Err(number) = pair.act(line.strip_suffix(b"\n").unwrap_or(line), &mut output) {
            refused += 1;
            writeln!(output, "E\t{taken}\t{number}").unwrap();
        }
    }
    writeln!(output, "N\t{taken}\t{refused}").unwrap();
    output
}

impl Pair {
    /// Does one record, or gives its refusal.
    fn act(&mut self, line: &[u8], output: &mut Vec<u8>) -> Result<(), u8> {
        let mut fields = line.split(|&byte| byte == b'\t');
        let letter = field(&mut fields);
        if letter == b"L" {
            joined_ticks(&mut self.a, &mut self.b, number(field(&mut fields)));
            return Ok(());
        }
        let unit = field(&mut fields)[0];
        let chip = match unit {
            b'A' => &mut self.a,
            b'B' => &mut self.b,
            _ => panic!("no unit"),
        };
        let mut byte = || number(field(&mut fields)) as u8;
        match letter {
            b"W" => chip.write(byte(), byte())?,
            b"R" => {
                let address = byte();
                let (unit, value) = (char::from(unit), chip.read(address)?);
                match address {
                    0 => writeln!(output, "R\t{unit}\t0\t{value}\t{}", chip.stamp()),
                    _ => writeln!(output, "R\t{unit}\t{address}\t{value}"),
                }
                .unwrap();
            }
            b"P" => chip.set_pins(byte(), byte(), byte())?,
            b"Z" => chip.reset(),
            _ => panic!("no record"),
        }
        Ok(())
    }
}

fn field<'a>(fields: &mut impl Iterator<Item = &'a [u8]>) -> &'a [u8] {
    fields.next().expect("a field")
}

fn number(digits: &[u8]) -> u16 {
    digits
        .iter()
        .fold(0, |sum, digit| 10 * sum + u16::from(digit - b'0'))
}
