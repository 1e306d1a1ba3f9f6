//! What lies far out and is seldom met by chance: long runs, rows of inputs and
//! full rooms, the highest sites, all colors, globals up to the heap, long chains
//! of sets, far jumps, rows of forged free blocks.

use crate::file::{Instrumented, Object, Routine, MOST_OBJECTS};
use crate::gen::random::Random;
use crate::gen::worst;
use crate::instruction::Instruction::{self, *};
use crate::instrument::instrument_routine;
use crate::layout::{END_SLOT, HEAP, MEMORY};

/// The most instructions of a version 2 file.
const MOST_CODE: usize = 2_000;

/// A routine that goes far in some way; its run is short.
pub fn routine(random: &mut Random) -> Routine {
    match random.below(9) {
        0 => {
            let length = random.pick(&[8, 30, 399, 399]);
            chain(random, length)
        }
        1 => {
            let length = random.between(2, 398) as usize;
            chain(random, length)
        }
        2 => every_color(random),
        3 => high_sites(random),
        4 => full_globals(random),
        5 => far_jumps(random),
        6 => wide_set(random),
        7 => high_globals(random),
        _ => half_outside(random),
    }
}

/// Code by somebody else that does so.
pub fn program(random: &mut Random) -> Instrumented {
    match random.below(10) {
        0..=2 => forged_rows(random),
        3..=4 => long_code(random),
        5 => unchecked_half_outside(random),
        _ => by_somebody(random),
    }
}

/// A far routine's version 2 under other colors: each color for another one.
fn by_somebody(random: &mut Random) -> Instrumented {
    let mut program = loop {
        if let Ok(program) = instrument_routine(&routine(random)) {
            break program;
        }
    };
    let mut others: Vec<u8> = (2..=255).collect();
    shuffle(random, &mut others);
    let other = |color: u8| others[usize::from(color) - 2];
    for color in program.colors.iter_mut().filter(|color| **color != 0) {
        *color = other(*color);
    }
    for instruction in &mut program.code {
        match instruction {
            Check8 { c, .. } | Check32 { c, .. } => *c = other(*c),
            CheckPut8 { c, .. } | CheckPut32 { c, .. } => *c = other(*c),
            _ => {}
        }
    }
    program
}

fn shuffle<T>(random: &mut Random, row: &mut [T]) {
    for at in (1..row.len()).rev() {
        row.swap(at, random.index(at + 1));
    }
}

/// A store of some width through temporary a.
fn write(random: &mut Random, a: u8, b: u8, s: u16) -> Instruction {
    match random.chance(50) {
        true => Write8 { a, b, s },
        false => Write32 { a, b, s },
    }
}

/// A row of so many sets, each sharing an object with the next. Under the first
/// a store goes to the last object, which the whole chain alone allows. Now and
/// then one set in the row is named by no instruction.
pub fn chain(random: &mut Random, length: usize) -> Routine {
    let mut order: Vec<usize> = (0..=length).collect();
    match random.below(3) {
        0 => {}
        1 => order.reverse(),
        _ => shuffle(random, &mut order),
    }
    let mut routine = Routine {
        objects: vec![Object::Global { size: 8 }; length + 1],
        sets: order
            .windows(2)
            .map(|pair| vec![pair[0].min(pair[1]), pair[0].max(pair[1])])
            .collect(),
        code: Vec::new(),
    };
    let mut numbers: Vec<usize> = (0..length).collect();
    if random.chance(50) {
        shuffle(random, &mut numbers);
        let sets = routine.sets.clone();
        for (&number, set) in numbers.iter().zip(sets) {
            routine.sets[number] = set;
        }
    }
    let left_out = match random.chance(25) {
        true => Some(random.index(length)),
        false => None,
    };
    let first = numbers[0] as u16;
    let last = order[length] as u16;
    routine.code.push(Place { d: 3, g: last });
    routine.code.push(Set { d: 1, n: random.edgy() });
    routine.code.push(write(random, 3, 1, first));
    routine.code.push(Load32 { d: 2, a: 3 });
    routine.code.push(Out { a: 2 });
    routine.code.push(End);
    for number in (0..length).filter(|&number| Some(number) != left_out) {
        routine.code.push(write(random, 0, 0, numbers[number] as u16));
    }
    routine
}

/// One set of all objects, mostly of as many as there can be.
pub fn wide_set(random: &mut Random) -> Routine {
    let count = random.pick(&[128, 255, 256, 399, MOST_OBJECTS, MOST_OBJECTS]);
    let to = random.index(count) as u16;
    Routine {
        objects: vec![Object::Global { size: random.between(1, 40) }; count],
        sets: vec![(0..count).collect()],
        code: vec![Place { d: 0, g: to }, write(random, 0, 0, 0), Out { a: 0 }, End],
    }
}

/// As many classes as there are colors, with a store into each.
pub fn every_color(random: &mut Random) -> Routine {
    let mut routine = Routine::default();
    // ALLOC takes one instruction more, and there is room for a thousand.
    let sites = random.below(40) as usize;
    let mut numbers: Vec<usize> = (0..254).collect();
    for number in 0..254 {
        routine.objects.push(match number < sites {
            true => Object::Site,
            false => Object::Global { size: random.between(1, 16) },
        });
        routine.sets.push(vec![number]);
    }
    shuffle(random, &mut numbers);
    routine.code.push(Set { d: 2, n: random.between(4, 20) });
    for number in numbers {
        let g = number as u16;
        routine.code.push(match number < sites {
            true => Alloc { d: 0, g, a: 2 },
            false => Place { d: 0, g },
        });
        let store = write(random, 0, 2, g);
        routine.code.push(store);
    }
    // A store into a class whose color differs in one bit alone.
    let color = random.between(2, 255);
    let other = color ^ 1 << random.below(8);
    if other >= 2 && other - 2 >= sites as u32 {
        routine.code.push(Place { d: 0, g: other as u16 - 2 });
        routine.code.push(write(random, 0, 2, color as u16 - 2));
    }
    routine.code.push(End);
    routine
}

/// Many objects and ALLOCs for the last of them, whose headers are put out.
pub fn high_sites(random: &mut Random) -> Routine {
    let count = random.pick(&[257, 300, MOST_OBJECTS]);
    let mut objects = vec![Object::Global { size: 8 }; count];
    for object in objects.iter_mut().skip(255).step_by(1 + random.index(2)) {
        *object = Object::Site;
    }
    objects[count - 1] = Object::Site;
    let sites: Vec<usize> = (250..count).filter(|&n| objects[n] == Object::Site).collect();
    let mut routine = Routine { objects, sets: Vec::new(), code: vec![Set { d: 7, n: 8 }] };
    for turn in 0..random.between(2, 9) {
        let site = match turn {
            0 => count - 1,
            _ => random.pick(&sites),
        };
        let (d, s) = (8 + (turn % 6) as u8, routine.sets.len() as u16);
        routine.sets.push(vec![site]);
        routine.code.push(Set { d: 0, n: random.between(1, 40) });
        routine.code.push(Alloc { d, g: site as u16, a: 0 });
        routine.code.push(write(random, d, 0, s));
        routine.code.push(Sub { d: 1, a: d, b: 7 });
        routine.code.push(Set { d: 0, n: 4 });
        routine.code.push(Add { d: 1, a: 1, b: 0 });
        routine.code.push(Load32 { d: 2, a: 1 });
        routine.code.push(Out { a: 2 });
        if random.chance(30) {
            routine.code.push(Free { a: d });
        }
    }
    if random.chance(20) {
        // The first block's address, but for a high bit; or one inside its body.
        let n = match random.chance(50) {
            true => 1 << random.between(16, 31),
            false => random.pick(&[1, 4, 8]),
        };
        routine.code.push(Set { d: 0, n });
        routine.code.push(Add { d: 0, a: 0, b: 8 });
        routine.code.push(Free { a: 0 });
    }
    routine.code.push(End);
    routine
}

/// Many globals, and PUTs of both widths into the last of them: some safe, some
/// past the end and into the next one of the class.
pub fn high_globals(random: &mut Random) -> Routine {
    let count = random.pick(&[257, 300, MOST_OBJECTS]);
    let objects = vec![Object::Global { size: 8 }; count];
    let mut code = vec![Set { d: 1, n: random.word() }];
    for _ in 0..random.between(2, 9) {
        let g = random.between(250, count as u32 - 1) as u16;
        let k = match random.chance(70) {
            true => random.below(5) as u16,
            false => 16 + random.below(5) as u16,
        };
        code.push(match random.chance(50) {
            true => Put8 { g, k, a: 1 },
            false => Put32 { g, k, a: 1 },
        });
        code.push(Place { d: 2, g });
        code.push(Out { a: 2 });
        code.push(Add { d: 1, a: 1, b: 2 });
    }
    code.push(End);
    // Never reached, and yet it joins the last ones.
    code.push(Write8 { a: 0, b: 0, s: 0 });
    Routine { objects, sets: vec![(250..count).collect()], code }
}

/// Globals that reach up to the heap, with stores into the first and the last.
pub fn full_globals(random: &mut Random) -> Routine {
    match random.chance(40) {
        true => full_safe_globals(random),
        false => full_unsafe_globals(random),
    }
}

pub fn full_safe_globals(random: &mut Random) -> Routine {
    let mut routine = worst::full_of_globals(4_080);
    let k = 4_072 + random.below(5) as u16;
    routine.code.insert(0, Set { d: 1, n: random.edgy() });
    routine.code.insert(1, Put32 { g: 6, k, a: 1 });
    routine.code.insert(2, Put8 { g: 6, k: k + 3, a: 1 });
    routine
}

pub fn full_unsafe_globals(random: &mut Random) -> Routine {
    let mut routine = worst::full_of_unsafe_globals(random, false);
    let last = routine.objects.len() - 1;
    let mut code = Vec::new();
    for global in [last, 0, random.index(last)] {
        if let Object::Global { size } = routine.objects[global] {
            let extent = (size + 7) / 8 * 8;
            let n = extent - random.pick(&[4, 5, 8]);
            code.push(Place { d: 0, g: global as u16 });
            code.push(Set { d: 1, n });
            code.push(Add { d: 0, a: 0, b: 1 });
            code.push(write(random, 0, 1, global as u16));
        }
    }
    code.append(&mut routine.code);
    routine.code = code;
    routine
}

/// Nearly a thousand instructions, most of them unsafe, so that in version 2 the
/// jumps go twice as far.
pub fn far_jumps(random: &mut Random) -> Routine {
    let stores = random.between(530, 980);
    let first = 4;
    let far = (first + stores) as u16;
    let s = 0;
    let mut code = vec![
        Place { d: 0, g: 0 },
        Set { d: 1, n: random.between(1, 3) },
        Set { d: 2, n: 1 },
        match random.chance(50) {
            true => Jump { p: far },
            false => JumpIf { a: 1, p: far },
        },
    ];
    for _ in 0..stores {
        code.push(write(random, 0, 1, s));
    }
    // Out and back to somewhere among the last stores, as often as is counted.
    code.push(Out { a: 1 });
    code.push(Sub { d: 1, a: 1, b: 2 });
    let back = far - random.between(0, 9) as u16;
    code.push(JumpIf { a: 1, p: back });
    code.push(Jump { p: far + 5 });
    code.push(Out { a: 0 });
    code.push(End);
    Routine { objects: vec![Object::Global { size: 8 }], sets: vec![vec![0]], code }
}

/// A store of four bytes that lies half outside memory: through a temporary, or
/// by a global's offset.
pub fn half_outside(random: &mut Random) -> Routine {
    let to = MEMORY as u32 - random.between(1, 3);
    let objects = vec![Object::Global { size: 8 }];
    let value = Set { d: 1, n: u32::MAX };
    // An unsafe global alone stands at 16: behind slot 0 and the first guard.
    let code = match random.chance(50) {
        true => vec![value, Put32 { g: 0, k: (to - 16) as u16, a: 1 }, End],
        false => vec![value, Set { d: 0, n: to }, Write32 { a: 0, b: 1, s: 0 }, End],
    };
    Routine { objects, sets: vec![vec![0]], code }
}

/// The same by somebody who leaves out the check.
pub fn unchecked_half_outside(random: &mut Random) -> Instrumented {
    let Routine { objects, code, .. } = half_outside(random);
    Instrumented { objects, colors: vec![2], code }
}

/// Code that runs through two thousand instructions by leaps.
pub fn long_code(random: &mut Random) -> Instrumented {
    let mut code = vec![Set { d: 5, n: 1 }; MOST_CODE];
    let mut at = 1_u32;
    code[0] = Set { d: 5, n: 7 };
    while at < 1_990 {
        let p = (at + random.between(1, 120)).min(1_998) as u16;
        code[at as usize] = match random.chance(50) {
            true => Jump { p },
            false => JumpIf { a: 5, p },
        };
        if random.chance(40) {
            code[usize::from(p)] = Out { a: 5 };
        }
        at = u32::from(p) + 1;
    }
    if random.chance(50) {
        code[MOST_CODE - 1] = End;
    }
    Instrumented { objects: Vec::new(), colors: Vec::new(), code }
}

fn write_word(code: &mut Vec<Instruction>, address: u32, word: u32) {
    code.push(Set { d: 0, n: address });
    code.push(Set { d: 1, n: word });
    code.push(Write32 { a: 0, b: 1, s: 0 });
}

/// Sound headers by somebody: free blocks side by side, a live one, and free ones
/// again. The live one is given back, and a block is asked for.
pub fn forged_rows(random: &mut Random) -> Instrumented {
    let before = random.below(5);
    let behind = random.below(5);
    let mut sizes: Vec<u32> = (0..before + 1 + behind).map(|_| 8 * random.between(1, 5)).collect();
    if sizes.len() > 1 && random.chance(25) {
        // Two that are no whole slots, though their headers lead to the end.
        let (at, slip) = (random.index(sizes.len() - 1), random.pick(&[1, 2, 4, 4]));
        sizes[at] += slip;
        sizes[at + 1] += 8 - slip;
    }
    let mut code = Vec::new();
    let mut header = HEAP;
    let mut live = 0;
    for (number, size) in sizes.into_iter().enumerate() {
        let is_live = number == before as usize;
        write_word(&mut code, header, size);
        write_word(&mut code, header + 4, if is_live { random.pick(&[1, 2, 300]) } else { 0 });
        if is_live {
            live = header + 8;
        }
        header += 8 + size;
    }
    if random.chance(15) {
        // Another address, with the same low bits.
        live ^= 1 << random.between(16, 31);
    }
    write_word(&mut code, header, END_SLOT - header - 8);
    write_word(&mut code, header + 4, random.pick(&[0, 1]));
    code.push(Set { d: 3, n: live });
    code.push(Free { a: 3 });
    code.push(Set { d: 2, n: random.between(1, 60) });
    code.push(Alloc { d: 4, g: 0, a: 2 });
    code.push(Out { a: 4 });
    code.push(End);
    Instrumented { objects: vec![Object::Site], colors: vec![7], code }
}

/// A loop that goes round until so many steps are done, with checked stores in
/// it, safe PUTs, and calls of the heap that give nothing.
pub fn long_run(random: &mut Random, steps: u32) -> Routine {
    let mut body = Vec::new();
    for _ in 0..random.between(1, 4) {
        match random.below(6) {
            0 => body.push(Add { d: 2, a: 2, b: 7 }),
            1 => body.push(Put8 { g: 1, k: 3, a: 6 }),
            2 => body.push(Less { d: 3, a: 6, b: 2 }),
            // Of 0 bytes, and of 0: a body that comes and goes would be painted
            // each time.
            3 => body.extend([Alloc { d: 8, g: 2, a: 5 }, Free { a: 8 }]),
            _ => body.push(write(random, 0, 6, 0)),
        }
    }
    let turn = body.len() as u32 + 2;
    let mut code =
        vec![Place { d: 0, g: 0 }, Set { d: 6, n: steps / turn + 1 }, Set { d: 7, n: 1 }];
    let p = code.len() as u16;
    code.extend(body);
    code.push(Sub { d: 6, a: 6, b: 7 });
    code.push(JumpIf { a: 6, p });
    code.push(End);
    let global = |size| Object::Global { size };
    Routine { objects: vec![global(8), global(5), Object::Site], sets: vec![vec![0]], code }
}

/// Takes inputs and puts numbers out as long as there are any and there is room,
/// or only one of both.
pub fn stream(random: &mut Random) -> Routine {
    let form = random.below(4);
    stream_of(form)
}

/// One of the four forms of it.
pub fn stream_of(form: u32) -> Routine {
    let code = match form {
        0 => vec![In { d: 0 }, Out { a: 0 }, Jump { p: 0 }],
        1 => vec![In { d: 0 }, Add { d: 1, a: 1, b: 0 }, Jump { p: 0 }],
        2 => vec![Set { d: 2, n: 1 }, Add { d: 1, a: 1, b: 2 }, Out { a: 1 }, Jump { p: 1 }],
        _ => vec![In { d: 0 }, Out { a: 0 }, In { d: 1 }, Add { d: 1, a: 1, b: 0 }, Jump { p: 0 }],
    };
    Routine { objects: Vec::new(), sets: Vec::new(), code }
}
