//! The checked examples of the description as cases, which open every trial.

use crate::file::{Object, Routine};
use crate::gen::random::Random;
use crate::gen::worst;
use crate::instruction::Instruction::{self, *};
use crate::layout::{MEMORY, TABLE};
use crate::wire::{Case, Kind};

/// Routine A.
pub const ROUTINE_A: [u8; 29] = [
    0x01, 0x03, 0x00, 0x05, 0x00, 0x08, 0x01, 0x01, 0x02, 0x00, 0x02, 0x05, 0x01, 0x01, 0x07, 0x02,
    0x00, 0x00, 0x0A, 0x00, 0x01, 0x00, 0x03, 0x00, 0x00, 0x01, 0x0D, 0x01, 0x02,
];

/// Version 2 of routine A.
pub const ROUTINE_A_INSTRUMENTED: [u8; 30] = [
    0x02, 0x03, 0x00, 0x05, 0x02, 0x00, 0x08, 0x00, 0x01, 0x02, 0x06, 0x01, 0x01, 0x07, 0x02, 0x00,
    0x00, 0x12, 0x00, 0x02, 0x0A, 0x00, 0x01, 0x03, 0x00, 0x00, 0x01, 0x0D, 0x01, 0x02,
];

/// Example 5: A's objects and set, and one WRITE32 under set 0.
pub fn write_at(address: u32) -> Routine {
    let global = |size| Object::Global { size };
    Routine {
        objects: vec![global(5), global(8), Object::Site],
        sets: vec![vec![0, 2]],
        code: vec![
            Set { d: 0, n: address },
            Set { d: 1, n: 0xDDCC_BBAA },
            Write32 { a: 0, b: 1, s: 0 },
            End,
        ],
    }
}

/// Example 6: WRITEs with sets {0,1}, {1,2}, {3,4}.
pub fn three_sets() -> Routine {
    Routine {
        objects: vec![Object::Global { size: 8 }; 5],
        sets: vec![vec![0, 1], vec![1, 2], vec![3, 4]],
        code: (0..3).map(|s| Write8 { a: 0, b: 0, s }).collect(),
    }
}

/// ALLOC of a size into a temporary, which is then put out.
fn allocate(code: &mut Vec<Instruction>, d: u8, size: u32) {
    code.push(Set { d: 0, n: size });
    code.push(Alloc { d, g: 0, a: 0 });
    code.push(Out { a: d });
}

fn of_one_site(mut code: Vec<Instruction>) -> Routine {
    code.push(End);
    Routine { objects: vec![Object::Site], sets: Vec::new(), code }
}

/// Example 9: ALLOC 5, 9, FREE of the first, ALLOC 16, 8.
pub fn heap_order() -> Routine {
    let mut code = Vec::new();
    allocate(&mut code, 1, 5);
    allocate(&mut code, 2, 9);
    code.push(Free { a: 1 });
    allocate(&mut code, 3, 16);
    allocate(&mut code, 4, 8);
    of_one_site(code)
}

/// Example 10: ALLOC 5, ALLOC 9, both freed; then the first header is put out.
pub fn heap_joins(first_freed: u8, then_freed: u8) -> Routine {
    let mut code = Vec::new();
    allocate(&mut code, 1, 5);
    allocate(&mut code, 2, 9);
    code.push(Free { a: first_freed });
    code.push(Free { a: then_freed });
    for address in [28_672, 28_676] {
        code.push(Set { d: 0, n: address });
        code.push(Load32 { d: 0, a: 0 });
        code.push(Out { a: 0 });
    }
    of_one_site(code)
}

/// Example 11: PUT32 at a byte of a global of size 5.
pub fn put_at(k: u16) -> Routine {
    Routine {
        objects: vec![Object::Global { size: 5 }],
        sets: Vec::new(),
        code: vec![Put32 { g: 0, k, a: 0 }, End],
    }
}

/// Example 12: LOAD32 at an address.
pub fn load_at(address: u32) -> Routine {
    let code = vec![Set { d: 0, n: address }, Load32 { d: 1, a: 0 }];
    of_one_site(code)
}

/// A run as the program makes it: no input, output room 1,000, limit 1,000,000.
pub fn as_the_program_runs(file: Vec<u8>) -> Case {
    Case {
        fill: 0x5A,
        room: 1_000,
        limit: 1_000_000,
        memory: MEMORY as u32,
        table: TABLE as u32,
        file,
        ..Case::new(Kind::Control)
    }
}

/// A case of any kind that reads a file, with room and limit to spare.
pub fn on_file(kind: Kind, file: Vec<u8>) -> Case {
    let whole = as_the_program_runs(file);
    match kind {
        Kind::Run | Kind::Control => Case { kind, ..whole },
        Kind::Instrument | Kind::WriteInstrumented => {
            Case { fill: 0x5A, room: 32_768, file: whole.file, ..Case::new(kind) }
        }
        _ => Case { file: whole.file, ..Case::new(kind) },
    }
}

fn reading(bytes: &[u8]) -> Case {
    Case { file: bytes.to_vec(), ..Case::new(Kind::ReadNumber) }
}

/// The examples, as cases of every kind that they speak of.
pub fn cases() -> Vec<Case> {
    let mut cases = vec![
        reading(&[0xAC, 0x02]),
        reading(&[0x80, 0x00]),
        reading(&[0x80]),
        reading(&[0xFF, 0xFF, 0xFF, 0xFF, 0x0F]),
        reading(&[0xFF, 0xFF, 0xFF, 0xFF, 0x10]),
        on_file(Kind::ReadInstrumented, ROUTINE_A_INSTRUMENTED.to_vec()),
        on_file(Kind::WriteInstrumented, ROUTINE_A_INSTRUMENTED.to_vec()),
        on_file(Kind::Run, ROUTINE_A_INSTRUMENTED.to_vec()),
        Case { limit: 8, ..as_the_program_runs(ROUTINE_A.to_vec()) },
    ];
    let mut random = Random::new(0);
    let routines = [
        write_at(28),
        write_at(30),
        three_sets(),
        heap_order(),
        heap_joins(1, 2),
        heap_joins(2, 1),
        put_at(4),
        put_at(5),
        load_at(57_340),
        load_at(57_341),
        worst::full_of_globals(4_080),
        worst::full_of_globals(4_081),
        worst::classes(&mut random, 254),
        worst::classes(&mut random, 255),
    ];
    let files = routines.iter().map(Routine::write);
    for file in files.chain([ROUTINE_A.to_vec()]) {
        for kind in [Kind::ReadRoutine, Kind::Color, Kind::Instrument, Kind::Control] {
            cases.push(on_file(kind, file.clone()));
        }
    }
    cases
}
