//! Objects, sets and single instructions at random: everything in its range and
//! nothing else about it planned.

use crate::file::{Object, Version, LARGEST_OFFSET, LARGEST_SIZE};
use crate::gen::random::Random;
use crate::instruction::{Instruction, Operand, MOST_OPERANDS, OPCODES};
use crate::layout::extent;

/// What stands before the instructions, and how many of these there are.
pub struct Setting<'a> {
    pub objects: &'a [Object],
    pub sets: usize,
    pub instructions: usize,
    pub version: Version,
}

/// A size: mostly small and around slot edges, now and then large.
pub fn size(random: &mut Random) -> u32 {
    match random.below(20) {
        0..=11 => random.between(1, 17),
        12..=15 => random.pick(&[7, 8, 9, 15, 16, 17, 24, 31, 32, 33]),
        16..=18 => random.between(18, 300),
        _ => random.pick(&[4_088, 4_089, 4_095, LARGEST_SIZE]),
    }
}

/// Up to so many objects, globals more often than sites.
pub fn objects(random: &mut Random, most: u32) -> Vec<Object> {
    let count = random.between(0, most);
    let one = |random: &mut Random| match random.chance(65) {
        true => Object::Global { size: size(random) },
        false => Object::Site,
    };
    (0..count).map(|_| one(random)).collect()
}

/// Up to so many sets over the objects, each strictly rising; none without
/// objects.
pub fn sets(random: &mut Random, objects: usize, most: u32) -> Vec<Vec<usize>> {
    if objects == 0 {
        return Vec::new();
    }
    let count = random.between(0, most);
    (0..count).map(|_| set(random, objects, 4)).collect()
}

/// One set of up to so many members.
pub fn set(random: &mut Random, objects: usize, most: u32) -> Vec<usize> {
    let wanted = random.between(1, most);
    let mut set: Vec<usize> = (0..wanted).map(|_| random.index(objects)).collect();
    set.sort_unstable();
    set.dedup();
    set
}

/// Any instruction that the setting allows.
pub fn instruction(random: &mut Random, setting: &Setting) -> Instruction {
    loop {
        let opcode = random.index(OPCODES.len());
        let row = &OPCODES[opcode];
        if row.checks && setting.version == Version::Routine {
            continue;
        }
        let mut operands = [0; MOST_OPERANDS];
        let mut possible = true;
        for (index, &kind) in row.operands.iter().enumerate() {
            match operand(random, setting, kind) {
                Some(value) => operands[index] = value,
                None => possible = false,
            }
        }
        if let (true, Some(made)) = (possible, Instruction::from_numbers(opcode as u32, operands)) {
            return made;
        }
    }
}

/// A value in an operand's range, if there is one.
fn operand(random: &mut Random, setting: &Setting, kind: Operand) -> Option<u32> {
    Some(match kind {
        Operand::Temporary => random.below(16),
        Operand::Number => random.edgy(),
        Operand::Global => any_of(random, setting.objects, true)? as u32,
        Operand::Site => any_of(random, setting.objects, false)? as u32,
        Operand::Offset => offset(random, 32),
        Operand::Set if setting.version == Version::Instrumented => 0,
        Operand::Set if setting.sets == 0 => return None,
        Operand::Set => random.below(setting.sets as u32),
        Operand::Target => random.below(setting.instructions as u32),
        Operand::Color => color(random),
    })
}

/// The number of some global, or of some site.
pub fn any_of(random: &mut Random, objects: &[Object], global: bool) -> Option<usize> {
    let is_global = |object: &Object| matches!(object, Object::Global { .. });
    let numbers = 0..objects.len();
    let fitting: Vec<usize> =
        numbers.filter(|&number| is_global(&objects[number]) == global).collect();
    match fitting.is_empty() {
        true => None,
        false => Some(random.pick(&fitting)),
    }
}

/// A byte of a global: mostly near its start or its end.
pub fn offset(random: &mut Random, size: u32) -> u32 {
    let extent = extent(size);
    match random.below(10) {
        0..=4 => random.below(extent),
        5..=6 => extent - 4 + random.below(6),
        7 => extent + random.below(40),
        8 => random.pick(&[0, 1, 4, 5, 8, 28_664, 28_672, 57_330, 57_336, 65_532]),
        _ => random.below(LARGEST_OFFSET + 1),
    }
}

/// A color of a check: low ones are likely to be some object's.
pub fn color(random: &mut Random) -> u32 {
    match random.below(10) {
        0..=7 => random.between(2, 5),
        8 => 255,
        _ => random.between(2, 255),
    }
}
