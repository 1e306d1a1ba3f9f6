//! Version 2 files by somebody else: what no instrumenter of ours would make.
//! Stores without checks, wrong colors, forged headers, marks that name no site,
//! FREE of anything, jumps behind a check.

use crate::file::{Instrumented, Object, Version};
use crate::gen::random::Random;
use crate::gen::{routines, soup};
use crate::instruction::Instruction::{self, *};
use crate::instrument::instrument_routine;
use crate::layout::{END_SLOT, HEAP};

/// A version 2 program. All of its fields are in their ranges.
pub fn program(random: &mut Random) -> Instrumented {
    match random.below(10) {
        0..=2 => random_soup(random),
        3..=6 => spoiled(random),
        _ => forged(random),
    }
}

fn random_soup(random: &mut Random) -> Instrumented {
    let objects = soup::objects(random, 8);
    let count = random.between(1, 60) as usize;
    let setting = soup::Setting {
        objects: &objects,
        sets: 0,
        instructions: count,
        version: Version::Instrumented,
    };
    let code: Vec<Instruction> = (0..count).map(|_| soup::instruction(random, &setting)).collect();
    let colors = objects.iter().map(|_| object_color(random)).collect();
    Instrumented { objects, colors, code }
}

/// 0, or 2 to 255; low ones are likely to meet a check's.
fn object_color(random: &mut Random) -> u8 {
    match random.below(10) {
        0..=2 => 0,
        3..=8 => random.between(2, 5) as u8,
        _ => random.between(2, 255) as u8,
    }
}

/// A good routine's version 2 with its guards damaged.
fn spoiled(random: &mut Random) -> Instrumented {
    let mut program = loop {
        if let Ok(program) = instrument_routine(&routines::routine(random)) {
            break program;
        }
    };
    for _ in 0..random.between(0, 6) {
        spoil(random, &mut program);
    }
    program
}

fn spoil(random: &mut Random, program: &mut Instrumented) {
    let at = random.index(program.code.len());
    let target = random.index(program.code.len());
    match (random.below(6), program.code[at]) {
        (0, _) if !program.colors.is_empty() => {
            let object = random.index(program.colors.len());
            program.colors[object] = object_color(random);
        }
        // A check in whose place something harmless stands.
        (1..=3, instruction) if instruction.is_check() => {
            program.code[at] = Set { d: 5, n: 0 };
        }
        // A check for another color, or of another width.
        (4, Check8 { a, .. }) => program.code[at] = check_32(random, a),
        (4, Check32 { a, .. }) => program.code[at] = check_8(random, a),
        (5, instruction) if instruction.target().is_some() => {
            program.code[at] = instruction.with_target(target);
        }
        (2, _) => unguarded_store(random, program, at),
        _ => {}
    }
}

fn check_8(random: &mut Random, a: u8) -> Instruction {
    let c = soup::color(random) as u8;
    Check8 { a, c }
}

fn check_32(random: &mut Random, a: u8) -> Instruction {
    let c = soup::color(random) as u8;
    Check32 { a, c }
}

/// Puts a store to some edge in place of two instructions.
fn unguarded_store(random: &mut Random, program: &mut Instrumented, at: usize) {
    if at + 1 < program.code.len() {
        program.code[at] = Set { d: 0, n: random.edgy() };
        program.code[at + 1] = store(random, 0, 1);
    }
}

fn store(random: &mut Random, a: u8, b: u8) -> Instruction {
    match random.chance(25) {
        true => Write8 { a, b, s: 0 },
        false => Write32 { a, b, s: 0 },
    }
}

/// A program that writes over headers and then asks the heap for something.
fn forged(random: &mut Random) -> Instrumented {
    let mut objects = soup::objects(random, 4);
    objects.push(Object::Site);
    let colors = objects.iter().map(|_| object_color(random)).collect();
    let mut code = Vec::new();
    for _ in 0..random.between(1, 5) {
        let site = soup::any_of(random, &objects, false).unwrap_or(0) as u16;
        match random.below(9) {
            0..=1 => ask(random, &mut code, site),
            2..=4 => write_one_header(random, &mut code),
            5 => write_sound_headers(random, &mut code),
            6..=7 => give_back(random, &mut code),
            _ => store_outside(random, &mut code),
        }
    }
    let site = objects.len() as u16 - 1;
    if random.chance(50) {
        ask(random, &mut code, site);
    }
    give_back(random, &mut code);
    if random.chance(80) {
        code.push(End);
    }
    Instrumented { objects, colors, code }
}

/// ALLOC into a temporary from 8 to 11. Now and then of a size that asks for no
/// walk.
fn ask(random: &mut Random, code: &mut Vec<Instruction>, g: u16) {
    let n = match random.below(6) {
        0 => random.pick(&[0, 4_097, 0xFFFF_FFFF]),
        1 => random.between(1_000, 4_096),
        _ => random.between(1, 40),
    };
    let d = random.between(8, 11) as u8;
    code.push(Set { d: 0, n });
    code.push(Alloc { d, g, a: 0 });
    if random.chance(30) {
        code.push(Out { a: d });
    }
}

fn give_back(random: &mut Random, code: &mut Vec<Instruction>) {
    if random.chance(50) {
        let a = random.between(8, 11) as u8;
        return code.push(Free { a });
    }
    let n = match random.below(10) {
        0..=3 => HEAP + 8,
        4..=6 => HEAP + 8 * random.below(9),
        7 => HEAP + random.below(40),
        _ => random.edgy(),
    };
    code.push(Set { d: 0, n });
    code.push(Free { a: 0 });
}

fn write_word(code: &mut Vec<Instruction>, address: u32, word: u32) {
    code.push(Set { d: 0, n: address });
    code.push(Set { d: 1, n: word });
    code.push(Write32 { a: 0, b: 1, s: 0 });
}

/// A mark: free, a site's, or one that names none.
fn mark(random: &mut Random) -> u32 {
    random.pick(&[0, 0, 1, 2, 5, 400, 401, 65_535, 0x0100_0000, 0xFFFF_FFFF])
}

/// One header, mostly the first, gets a size that is sound or is not.
fn write_one_header(random: &mut Random, code: &mut Vec<Instruction>) {
    let header = HEAP + 8 * random.pick(&[0, 0, 0, 2, 3]);
    let to_the_end = END_SLOT - header - 8;
    let size = match random.below(4) {
        0 => to_the_end,
        1 => random.pick(&[to_the_end + 8, to_the_end - 8, to_the_end + 4, to_the_end - 1]),
        2 => random.pick(&[0, 4, 7, 8, 9, 16, 0xFFFF_FFF8, 0xFFFF_FFF0, 0xFFFF_FFFF]),
        _ => random.edgy(),
    };
    if random.chance(80) {
        write_word(code, header, size);
    }
    if random.chance(50) {
        write_word(code, header + 4, mark(random));
    }
}

/// A whole chain of headers that is sound, in slots that keep other colors, with
/// free blocks side by side as ours would never leave them.
fn write_sound_headers(random: &mut Random, code: &mut Vec<Instruction>) {
    let mut header = HEAP;
    for _ in 0..random.between(1, 5) {
        let size = 8 * random.between(1, 6);
        write_word(code, header, size);
        write_word(code, header + 4, mark(random));
        header += 8 + size;
    }
    let slip = match random.chance(15) {
        true => random.pick(&[4, 8, 0xFFFF_FFF8]),
        false => 0,
    };
    write_word(code, header, (END_SLOT - header - 8).wrapping_add(slip));
    write_word(code, header + 4, mark(random));
    if random.chance(30) {
        // The end slot's bytes are no header and are not looked at.
        write_word(code, END_SLOT, random.edgy());
    }
}

fn store_outside(random: &mut Random, code: &mut Vec<Instruction>) {
    let n = match random.chance(50) {
        true => 57_338 + random.below(8),
        false => 0_u32.wrapping_sub(random.between(1, 9)),
    };
    if random.chance(30) {
        code.push(Set { d: 0, n });
        code.push(store(random, 0, 1));
    }
}
