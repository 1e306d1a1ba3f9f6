//! Damaged files of every kind, made from the numbers of a good one.

use crate::file::{write_numbers, Version};
use crate::gen::random::Random;
use crate::instruction::{Operand, OPCODES};
use crate::number;

/// A damaged file. Some damage leaves a file good, which is as well.
pub fn damage(random: &mut Random, numbers: &[u32], version: Version) -> Vec<u8> {
    match random.below(18) {
        0 => truncated(random, numbers),
        1 => extended(random, numbers),
        2 => overlong(random, numbers),
        3 => above_32_bits(random, numbers),
        4..=7 => field_changed(random, numbers),
        8 => swapped(random, numbers),
        9 => left_out_or_doubled(random, numbers),
        10 => wrong_version(random, numbers),
        11 => byte_changed(random, numbers),
        12 => garbage(random),
        13 => count_changed(random, numbers, version),
        14..=16 => operand_changed(random, numbers, version),
        _ => around_the_longest(random, numbers, version),
    }
}

fn truncated(random: &mut Random, numbers: &[u32]) -> Vec<u8> {
    let mut file = write_numbers(numbers);
    let length = random.index(file.len());
    file.truncate(length);
    file
}

fn extended(random: &mut Random, numbers: &[u32]) -> Vec<u8> {
    let mut file = write_numbers(numbers);
    for _ in 0..random.between(1, 4) {
        let byte = random.pick(&[0, 1, 0x7F, 0x80, 0xFF]);
        file.push(byte);
    }
    file
}

/// The file with one number's bytes put in place of its own.
fn with_spelling(numbers: &[u32], at: usize, spelling: &[u8]) -> Vec<u8> {
    let mut file = write_numbers(&numbers[..at]);
    file.extend(spelling);
    file.extend(write_numbers(&numbers[at + 1..]));
    file
}

/// A number in a form that is too long by some empty groups.
fn overlong(random: &mut Random, numbers: &[u32]) -> Vec<u8> {
    let at = random.index(numbers.len());
    let mut spelling = Vec::new();
    number::write(numbers[at], &mut spelling);
    for _ in 0..random.between(1, 4) {
        if let Some(last) = spelling.last_mut() {
            *last |= 0x80;
        }
        spelling.push(0);
    }
    with_spelling(numbers, at, &spelling)
}

/// Five groups, the fifth around or above the largest.
fn above_32_bits(random: &mut Random, numbers: &[u32]) -> Vec<u8> {
    let at = random.index(numbers.len());
    let mut spelling: Vec<u8> = (0..4).map(|_| random.byte() | 0x80).collect();
    let fifth = random.pick(&[0, 1, 15, 16, 17, 31, 0x7F, 0x80, 0x8F, 0x90, 0xFF]);
    spelling.push(fifth);
    if fifth >= 0x80 && random.chance(50) {
        spelling.push(random.byte());
    }
    with_spelling(numbers, at, &spelling)
}

/// Numbers around the counts and ranges of a file.
const AROUND_COUNTS: [u32; 25] = [
    0,
    1,
    2,
    15,
    16,
    17,
    18,
    21,
    22,
    254,
    255,
    256,
    399,
    400,
    401,
    999,
    1_000,
    1_001,
    2_000,
    2_001,
    4_096,
    4_097,
    65_535,
    65_536,
    0xFFFF_FFFF,
];

/// One number replaced: by a neighbour, by one at some edge, or by any.
fn field_changed(random: &mut Random, numbers: &[u32]) -> Vec<u8> {
    // The counts stand early, and most files are mostly instructions.
    let early = random.chance(30);
    let at = random.index(if early { numbers.len().min(12) } else { numbers.len() });
    let mut changed = numbers.to_vec();
    changed[at] = match random.below(4) {
        0 => changed[at].wrapping_add(1),
        1 => changed[at].wrapping_sub(1),
        2 => random.pick(&AROUND_COUNTS),
        _ => random.edgy(),
    };
    write_numbers(&changed)
}

/// A count that is too large, too small, or off by one.
fn count_changed(random: &mut Random, numbers: &[u32], version: Version) -> Vec<u8> {
    let places = places_of_counts(numbers, version);
    let at = random.pick(&places);
    let mut changed = numbers.to_vec();
    changed[at] = match random.below(4) {
        0 => 0,
        1 => changed[at] + 1,
        2 => changed[at].saturating_sub(1),
        _ => random.pick(&[400, 401, 1_000, 1_001, 2_000, 2_001, 0xFFFF_FFFF]),
    };
    write_numbers(&changed)
}

/// An operand just inside or just outside its range.
fn operand_changed(random: &mut Random, numbers: &[u32], version: Version) -> Vec<u8> {
    let counts = places_of_counts(numbers, version);
    let objects = numbers[1];
    let sets = match version {
        Version::Routine => counts.len() as u32 - 3,
        Version::Instrumented => 0,
    };
    let code = counts[counts.len() - 1];
    let operands = places_of_operands(numbers, code, version);
    let wanted = random.pick(&EVERY_OPERAND);
    let fitting = operands.iter().filter(|(_, kind)| *kind == wanted);
    let fitting: Vec<usize> = fitting.map(|(at, _)| *at).collect();
    if fitting.is_empty() {
        return field_changed(random, numbers);
    }
    let edge = match wanted {
        Operand::Temporary => 16,
        Operand::Number => random.edgy(),
        Operand::Global | Operand::Site => random.between(0, objects),
        Operand::Offset => 65_536,
        Operand::Set => sets,
        Operand::Target => numbers[code],
        Operand::Color => random.pick(&[1, 2, 256]),
    };
    let mut changed = numbers.to_vec();
    changed[random.pick(&fitting)] = match random.chance(70) {
        true => edge,
        false => edge.wrapping_sub(1),
    };
    write_numbers(&changed)
}

const EVERY_OPERAND: [Operand; 8] = [
    Operand::Temporary,
    Operand::Number,
    Operand::Global,
    Operand::Site,
    Operand::Offset,
    Operand::Set,
    Operand::Target,
    Operand::Color,
];

/// Where the operands stand among the numbers of a good file, whose count of
/// instructions stands where it is told.
fn places_of_operands(numbers: &[u32], code: usize, version: Version) -> Vec<(usize, Operand)> {
    let mut places = Vec::new();
    let mut at = code + 1;
    while at < numbers.len() {
        let row = &OPCODES[numbers[at] as usize];
        at += 1;
        for &kind in row.operands {
            if kind != Operand::Set || version == Version::Routine {
                places.push((at, kind));
                at += 1;
            }
        }
    }
    places
}

/// Where the counts stand among the numbers of a good file.
fn places_of_counts(numbers: &[u32], version: Version) -> Vec<usize> {
    let mut places = vec![1];
    let colors = usize::from(version == Version::Instrumented);
    let mut at = 2;
    for _ in 0..numbers[1] {
        let sizes = usize::from(numbers[at] == 0);
        at += 1 + sizes + colors;
    }
    places.push(at);
    if version == Version::Routine {
        let sets = numbers[at];
        at += 1;
        for _ in 0..sets {
            places.push(at);
            at += 1 + numbers[at] as usize;
        }
        places.push(at);
    }
    places
}

fn swapped(random: &mut Random, numbers: &[u32]) -> Vec<u8> {
    let mut changed = numbers.to_vec();
    let at = random.index(changed.len());
    let other = match random.chance(60) {
        true => (at + 1) % changed.len(),
        false => random.index(changed.len()),
    };
    changed.swap(at, other);
    write_numbers(&changed)
}

fn left_out_or_doubled(random: &mut Random, numbers: &[u32]) -> Vec<u8> {
    let mut changed = numbers.to_vec();
    let at = random.index(changed.len());
    match random.chance(50) {
        true => {
            changed.remove(at);
        }
        false => changed.insert(at, numbers[at]),
    }
    write_numbers(&changed)
}

fn wrong_version(random: &mut Random, numbers: &[u32]) -> Vec<u8> {
    let mut changed = numbers.to_vec();
    changed[0] = random.pick(&[0, 1, 2, 3, 127, 128, 0xFFFF_FFFF]);
    write_numbers(&changed)
}

fn byte_changed(random: &mut Random, numbers: &[u32]) -> Vec<u8> {
    let mut file = write_numbers(numbers);
    for _ in 0..random.between(1, 3) {
        let at = random.index(file.len());
        file[at] = match random.chance(50) {
            true => file[at] ^ (1 << random.below(8)),
            false => random.byte(),
        };
    }
    file
}

fn garbage(random: &mut Random) -> Vec<u8> {
    let length = random.below(40);
    (0..length).map(|_| random.byte()).collect()
}

/// Bytes behind a good file, up to the longest file and one more.
fn around_the_longest(random: &mut Random, numbers: &[u32], version: Version) -> Vec<u8> {
    let mut file = write_numbers(numbers);
    let length = version.longest() + random.pick(&[0, 1, 1, 2, 900]);
    if random.chance(30) {
        file.clear();
    }
    file.resize(length, random.pick(&[0, 1, 0x80, 0xFF]));
    file
}
