//! Instructions in words, `SET 0 300; OUT 0`, by the page's table of opcodes.

use crate::number;
use crate::sheet::form::{Form, Judged};

/// What stands before the instructions: in version 1 a global of 8 bytes, a heap
/// site, and a set of each; in version 2 the same objects in colors 2 and 3.
pub fn front_of(version: u32) -> Vec<u32> {
    match version {
        1 => vec![1, 2, 0, 8, 1, 2, 1, 0, 1, 1],
        _ => vec![2, 2, 0, 8, 2, 1, 3],
    }
}

/// The same with the heap site first.
pub fn other_front_of(version: u32) -> Vec<u32> {
    match version {
        1 => vec![1, 2, 1, 0, 8, 2, 1, 0, 1, 1],
        _ => vec![2, 2, 1, 3, 0, 8, 2],
    }
}

/// The file of some instructions behind `front_of`.
pub fn file_of(form: &Form, version: u32, words: &str) -> Result<Vec<u8>, String> {
    let instructions: Vec<&str> = words.split("; ").collect();
    let mut numbers = front_of(version);
    numbers.push(instructions.len() as u32);
    for instruction in instructions {
        numbers.extend(numbers_of(form, version, instruction)?);
    }
    Ok(spell(&numbers))
}

/// The numbers of one instruction.
pub fn numbers_of(form: &Form, version: u32, words: &str) -> Result<Vec<u32>, String> {
    let mut parts = words.split(' ');
    let name = parts.next().unwrap_or("");
    let opcode = form.opcode(name).ok_or(format!("no opcode is called {:?}", name))?;
    let values: Result<Vec<u32>, _> = parts.map(str::parse).collect();
    let values = values.map_err(|_| format!("{:?} has an operand that is no number", words))?;
    let wanted = form.operands(opcode, version);
    if values.len() != wanted.len() {
        return Err(format!("{:?} wants the operands {}", words, wanted.join(" ")));
    }
    Ok([vec![opcode.number], values].concat())
}

/// The instructions of a file that was read, in words.
pub fn listing(judged: &Judged) -> Vec<String> {
    let mut lines: Vec<(&str, String)> = Vec::new();
    for number in judged.numbers.iter().filter(|number| number.of.starts_with("instruction ")) {
        match lines.last_mut() {
            Some((of, words)) if *of == number.of => words.push_str(&format!(" {}", number.value)),
            _ => lines.push((&number.of, number.is.clone())),
        }
    }
    lines.into_iter().map(|(_, words)| words).collect()
}

/// The bytes of numbers.
pub fn spell(numbers: &[u32]) -> Vec<u8> {
    let mut bytes = Vec::new();
    for &value in numbers {
        number::write(value, &mut bytes);
    }
    bytes
}
