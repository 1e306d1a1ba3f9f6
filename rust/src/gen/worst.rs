//! Worst cases: the longest files, the largest counts, 254 and 255 classes,
//! globals that end exactly at the heap and just above it.

use crate::file::{Instrumented, Object, Routine, MOST_OBJECTS, MOST_SETS};
use crate::gen::random::Random;
use crate::gen::soup;
use crate::instruction::Instruction::{self, *};
use crate::number;

/// A version 1 file at some limit of the description.
pub fn routine_file(random: &mut Random) -> Vec<u8> {
    match random.below(6) {
        5 => at_a_count(random).write(),
        0 => largest(random, 16_384).write(),
        1 => {
            let slip = random.pick(&[16_383, 16_385]);
            largest(random, slip).write()
        }
        2 => {
            let count = random.pick(&[254, 255]);
            let mut routine = classes(random, count);
            if random.chance(50) {
                // 9 too, which 8 comes before.
                routine.objects.extend([Object::Global { size: 4_096 }; 7]);
            }
            routine.write()
        }
        3 => {
            let last = random.pick(&[4_080, 4_081]);
            full_of_globals(last).write()
        }
        _ => {
            let above = random.chance(50);
            full_of_unsafe_globals(random, above).write()
        }
    }
}

/// A version 2 file at some limit.
pub fn instrumented_file(random: &mut Random) -> Vec<u8> {
    match random.below(3) {
        0 => largest_instrumented(random).write(),
        1 => {
            let last = random.pick(&[4_080, 4_081]);
            colored(full_of_globals(last), |_| 0).write()
        }
        _ => {
            let above = random.chance(50);
            let routine = full_of_unsafe_globals(random, above);
            colored(routine, |object| 2 + (object % 254) as u8).write()
        }
    }
}

/// The routine's objects and code under colors by somebody, with no checks.
fn colored(routine: Routine, color: impl Fn(usize) -> u8) -> Instrumented {
    Instrumented {
        colors: (0..routine.objects.len()).map(color).collect(),
        objects: routine.objects,
        code: routine.code,
    }
}

/// 400 objects, 400 sets, 1,000 instructions, and so many bytes.
pub fn largest(random: &mut Random, bytes: usize) -> Routine {
    let mut routine = Routine::default();
    for number in 0..MOST_OBJECTS {
        routine.objects.push(match number % 5 {
            4 => Object::Site,
            _ => Object::Global { size: random.between(1, 40) },
        });
    }
    let wide = random.chance(50);
    for number in 0..MOST_SETS {
        // Chains that join late, or sets from anywhere.
        routine.sets.push(match wide {
            true => vec![MOST_OBJECTS - 1 - number],
            false => soup::set(random, MOST_OBJECTS, 6),
        });
        if wide && number > 0 && number % 3 != 0 {
            routine.sets[number].push(MOST_OBJECTS - number);
        }
    }
    for number in 0..1_000 {
        routine.code.push(largest_instruction(random, number));
    }
    pad_sets(random, &mut routine, bytes);
    let length = routine.write().len();
    pad_numbers(&mut routine.code, length, bytes);
    routine
}

/// Mostly stores, with enough SETs among them for padding.
fn largest_instruction(random: &mut Random, number: usize) -> Instruction {
    let s = random.below(MOST_SETS as u32) as u16;
    let g = (number % MOST_OBJECTS) as u16;
    match number % 5 {
        0 => Write8 { a: 0, b: 1, s },
        1 => Write32 { a: 2, b: 3, s },
        2 if g % 5 != 4 => Put32 { g, k: 4, a: 1 },
        3 => JumpIf { a: 9, p: random.below(1_000) as u16 },
        _ => Set { d: 4, n: 0 },
    }
}

/// Adds members to sets until fewer bytes are missing than the SETs can give.
fn pad_sets(random: &mut Random, routine: &mut Routine, bytes: usize) {
    let mut missing = bytes.saturating_sub(routine.write().len());
    let given_by_numbers = 400;
    let mut tries = 0;
    while missing > given_by_numbers && tries < 40_000 {
        tries += 1;
        let set = random.index(routine.sets.len());
        let member = random.index(MOST_OBJECTS);
        let members = &mut routine.sets[set];
        if members.len() < 100 {
            if let Err(at) = members.binary_search(&member) {
                members.insert(at, member);
                missing -= number::length(member as u32);
            }
        }
    }
}

/// Makes the numbers of SETs longer until the file has so many bytes.
fn pad_numbers(code: &mut [Instruction], length: usize, bytes: usize) {
    const BY_LENGTH: [u32; 6] = [0, 1, 128, 16_384, 2_097_152, 0xFFFF_FFFF];
    let mut missing = bytes.saturating_sub(length);
    for instruction in code {
        if let Set { n, .. } = instruction {
            let held = number::length(*n);
            let more = missing.min(number::LONGEST - held);
            *n = BY_LENGTH[held + more];
            missing -= more;
        }
    }
}

/// 400 objects and 2,000 instructions, each in nearly its longest form. No good
/// version 2 file comes near 32,768 bytes.
pub fn largest_instrumented(random: &mut Random) -> Instrumented {
    let fits = random.chance(70);
    let size = if fits { 40 } else { 4_096 };
    let objects = vec![Object::Global { size }; MOST_OBJECTS];
    let mut code = Vec::new();
    while code.len() < 2_000 {
        let (g, p) = (random.between(0, 399) as u16, random.below(2_000) as u16);
        code.push(match random.below(4) {
            0 => CheckPut8 { g, k: 7, c: 255 },
            1 => Set { d: 4, n: u32::MAX },
            2 => JumpIf { a: 9, p },
            _ => Put32 { g, k: 20_000, a: 1 },
        });
    }
    Instrumented { objects, colors: vec![255; MOST_OBJECTS], code }
}

/// A routine with the most objects, sets or instructions, or with one too many.
pub fn at_a_count(random: &mut Random) -> Routine {
    let more = random.index(2);
    let mut routine = Routine {
        objects: vec![Object::Global { size: 8 }],
        sets: vec![vec![0]],
        code: vec![Write8 { a: 0, b: 0, s: 0 }],
    };
    match random.below(3) {
        0 => routine.objects = vec![Object::Global { size: 8 }; MOST_OBJECTS + more],
        1 => routine.sets = vec![vec![0]; MOST_SETS + more],
        _ => routine.code = vec![Set { d: 0, n: 0 }; 1_000 + more],
    }
    routine
}

/// So many classes of one object each, by WRITEs and by PUTs past the object.
pub fn classes(random: &mut Random, count: usize) -> Routine {
    let mut routine = Routine::default();
    for number in 0..count + random.index(5) {
        let unsafe_global = number < count && random.chance(50);
        routine.objects.push(match unsafe_global || random.chance(70) {
            true => Object::Global { size: 8 },
            false => Object::Site,
        });
        let g = number as u16;
        if unsafe_global {
            routine.code.push(Put8 { g, k: 8, a: 0 });
        } else if number < count {
            let s = routine.sets.len() as u16;
            routine.sets.push(vec![number]);
            routine.code.push(Write32 { a: 0, b: 0, s });
        }
    }
    if random.chance(50) {
        routine.code.insert(0, End);
    }
    routine
}

/// Six safe globals of 4,096 and one of so many.
pub fn full_of_globals(last: u32) -> Routine {
    let mut objects = vec![Object::Global { size: 4_096 }; 6];
    objects.push(Object::Global { size: last });
    Routine { objects, sets: Vec::new(), code: vec![Place { d: 0, g: 6 }, Out { a: 0 }, End] }
}

/// Unsafe globals, each with its guard, that end exactly at 28,672 or one slot
/// above.
pub fn full_of_unsafe_globals(random: &mut Random, above: bool) -> Routine {
    let count = random.between(7, 250) as usize;
    let mut slots = vec![1; count];
    // All slots below the heap but slot 0, the first guard and one guard each.
    let mut left = 28_672 / 8 - 2 - 2 * count as u32 + u32::from(above);
    while left > 0 {
        let global = random.index(count);
        let more = random.between(1, 64).min(left).min(512 - slots[global]);
        slots[global] += more;
        left -= more;
    }
    let mut routine = Routine {
        objects: Vec::new(),
        sets: (0..count).map(|global| vec![global]).collect(),
        code: vec![End],
    };
    for (number, slots) in slots.into_iter().enumerate() {
        let size = 8 * slots - random.below(8);
        routine.objects.push(Object::Global { size });
        let s = number as u16;
        routine.code.push(Write8 { a: 0, b: 0, s });
    }
    routine
}
