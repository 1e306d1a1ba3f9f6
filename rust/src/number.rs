//! Numbers of a file: groups of seven bits, low group first; the top bit of a
//! byte says that another follows. Only the shortest form is good.

use crate::refusal::{Refusal, BAD_NUMBER, ENDS_EARLY};

/// The longest form: five groups hold 35 bits, so the fifth is at most 15.
pub const LONGEST: usize = 5;

/// Reads the number whose first byte stands at the cursor: its value and the
/// cursor behind it. Any cursor will do, also one past the end.
pub fn read(file: &[u8], cursor: usize) -> Result<(u32, usize), Refusal> {
    let mut value = 0;
    for group in 0..LONGEST {
        let byte = match file.get(cursor.saturating_add(group)) {
            Some(&byte) => byte,
            None => return Err(Refusal::at(ENDS_EARLY, file.len())),
        };
        if group == LONGEST - 1 && byte > 15 {
            // At once: what would follow such a fifth byte is not looked at.
            return Err(Refusal::at(BAD_NUMBER, cursor));
        }
        value |= u32::from(byte & 0x7F) << (7 * group);
        if byte & 0x80 == 0 {
            let shortest = group == 0 || byte != 0;
            return if shortest {
                Ok((value, cursor + group + 1))
            } else {
                Err(Refusal::at(BAD_NUMBER, cursor))
            };
        }
    }
    unreachable!("a fifth byte of at most 15 ends its number")
}

/// Appends the shortest form of a number.
pub fn write(value: u32, file: &mut Vec<u8>) {
    let mut rest = value;
    while rest >= 128 {
        file.push((rest & 0x7F) as u8 | 0x80);
        rest >>= 7;
    }
    file.push(rest as u8);
}

/// How many bytes the shortest form of a number takes.
pub fn length(value: u32) -> usize {
    let mut bytes = Vec::with_capacity(LONGEST);
    write(value, &mut bytes);
    bytes.len()
}
