//! The machine on files by anybody: every stop, the order in which they are
//! tested, refusals that change nothing, and a heap that may be forged.

use independent::file::{Instrumented, Object};
use independent::gen::others;
use independent::gen::random::Random;
use independent::instruction::Instruction::{self, *};
use independent::layout::{END_SLOT, HEAP, MEMORY, TABLE};
use independent::machine;
use independent::record::Record;

struct Ran {
    record: Record,
    memory: Vec<u8>,
    table: Vec<u8>,
    output: Vec<u32>,
}

impl Ran {
    fn line(&self) -> String {
        self.record.to_string()
    }

    fn word(&self, address: usize) -> u32 {
        let bytes = &self.memory[address..address + 4];
        u32::from_le_bytes([bytes[0], bytes[1], bytes[2], bytes[3]])
    }

    fn color(&self, address: u32) -> u8 {
        self.table[address as usize / 8]
    }
}

fn run_with(program: &Instrumented, inputs: &[u32], room: usize, limit: u32) -> Ran {
    let mut memory = vec![0x99; MEMORY];
    let mut table = vec![0x99; TABLE];
    let mut output = vec![0x99; room];
    let file = program.write();
    let record = machine::run(&file, inputs, limit, &mut memory, &mut table, &mut output);
    Ran { record, memory, table, output }
}

/// A global of 8 bytes and color 2 at 16, a site of color 3 (object 1), a safe
/// site (object 2).
fn program(code: Vec<Instruction>) -> Instrumented {
    Instrumented {
        objects: vec![Object::Global { size: 8 }, Object::Site, Object::Site],
        colors: vec![2, 3, 0],
        code,
    }
}

fn run(code: Vec<Instruction>) -> Ran {
    run_with(&program(code), &[], 4, 1_000)
}

/// SETs of temporaries 0 and 1, then the rest.
fn with(zero: u32, one: u32, rest: &[Instruction]) -> Vec<Instruction> {
    let mut code = vec![Set { d: 0, n: zero }, Set { d: 1, n: one }];
    code.extend(rest);
    code
}

const WRITE: Instruction = Write32 { a: 0, b: 1, s: 0 };

#[test]
fn end_past_the_end_and_limit() {
    assert_eq!(run(vec![End]).line(), "0 0 0 0 0");
    let free = Free { a: 0 };
    assert_eq!(run(vec![free, free]).line(), "30 2 2 0 0");
    // 30 is tested before 31, and 31 before anything else, END and checks too.
    let two = program(vec![free, free]);
    assert_eq!(run_with(&two, &[], 0, 2).line(), "30 2 2 0 0");
    assert_eq!(run_with(&two, &[], 0, 1).line(), "31 1 1 0 0");
    assert_eq!(run_with(&program(vec![End]), &[], 0, 0).line(), "31 0 0 0 0");
    let failing = program(vec![free, Check8 { a: 0, c: 2 }]);
    assert_eq!(run_with(&failing, &[], 0, 1).line(), "31 1 1 0 0");
    assert_eq!(run_with(&failing, &[], 0, 2).line(), "36 1 1 0 0");
}

#[test]
fn checks_cost_no_step_and_no_place() {
    let check = CheckPut8 { g: 0, k: 0, c: 2 };
    let code = vec![check, check, Set { d: 0, n: 16 }, check, Check8 { a: 0, c: 2 }];
    assert_eq!(run(code).line(), "30 1 1 0 0");
    // A place is counted in the file and not along the run.
    let around = vec![Jump { p: 3 }, check, End, check, Jump { p: 1 }];
    assert_eq!(run(around).line(), "0 1 2 0 0");
}

#[test]
fn input_and_output() {
    let code = vec![In { d: 0 }, Out { a: 0 }, Jump { p: 0 }];
    let ran = run_with(&program(code.clone()), &[7, u32::MAX], 3, 100);
    assert_eq!(ran.line(), "32 0 6 2 2");
    assert_eq!(ran.output, [7, u32::MAX, 0x99]);
    let ran = run_with(&program(code), &[7, 8], 1, 100);
    assert_eq!(ran.line(), "33 1 4 1 2");
    assert_eq!(ran.output, [7]);
}

#[test]
fn reads_and_stores_outside_memory() {
    let load_8 = |address| with(address, 0, &[Load8 { d: 2, a: 0 }, End]);
    let load_32 = |address| with(address, 0, &[Load32 { d: 2, a: 0 }, End]);
    assert_eq!(run(load_8(57_343)).line(), "0 3 3 0 0");
    assert_eq!(run(load_8(57_344)).line(), "34 2 2 0 0");
    assert_eq!(run(load_32(57_340)).line(), "0 3 3 0 0");
    for address in [57_341, 57_343, 57_344, 0x8000_0000, u32::MAX - 3, u32::MAX - 2, u32::MAX] {
        assert_eq!(run(load_32(address)).line(), "34 2 2 0 0");
        let ran = run(with(address, 9, &[WRITE, End]));
        assert_eq!(ran.line(), "35 2 2 0 0");
        assert!(ran.memory[..8].iter().all(|&byte| byte == 0));
        // A check stops there with 36, whatever its color.
        let checked = with(address, 9, &[Check32 { a: 0, c: 2 }, WRITE]);
        assert_eq!(run(checked).line(), "36 2 2 0 0");
    }
    let byte = |address| with(address, 9, &[Write8 { a: 0, b: 1, s: 0 }, End]);
    assert_eq!(run(byte(57_343)).line(), "0 3 3 0 0");
    assert_eq!(run(byte(57_344)).line(), "35 2 2 0 0");
    // A PUT reaches past the end too: the global stands at 16.
    let put = |k| vec![Put32 { g: 0, k, a: 0 }, End];
    assert_eq!(run(put(57_324)).line(), "0 1 1 0 0");
    assert_eq!(run(put(57_325)).line(), "35 0 0 0 0");
    assert_eq!(run(put(65_535)).line(), "35 0 0 0 0");
    let check = |k| vec![CheckPut32 { g: 0, k, c: 2 }, End];
    assert_eq!(run(check(65_535)).line(), "36 0 0 0 0");
    assert_eq!(run(check(4)).line(), "0 0 0 0 0");
    assert_eq!(run(check(5)).line(), "36 0 0 0 0");
}

#[test]
fn a_check_looks_at_every_slot_it_covers() {
    for address in 0..64 {
        let inside = |first: u32, last: u32| (16..24).contains(&first) && (16..24).contains(&last);
        let narrow = run(with(address, 0, &[Check8 { a: 0, c: 2 }, End]));
        assert_eq!(narrow.record.reason == 0, inside(address, address));
        let wide = run(with(address, 0, &[Check32 { a: 0, c: 2 }, End]));
        assert_eq!(wide.record.reason == 0, inside(address, address + 3));
        let other = run(with(address, 0, &[Check8 { a: 0, c: 3 }, End]));
        assert_eq!(other.record.reason, 36);
    }
}

#[test]
fn calculations_wrap() {
    let code = vec![
        Set { d: 0, n: u32::MAX },
        Set { d: 1, n: 2 },
        Add { d: 2, a: 0, b: 1 },
        Out { a: 2 },
        Sub { d: 2, a: 1, b: 0 },
        Out { a: 2 },
        Less { d: 2, a: 1, b: 0 },
        Out { a: 2 },
        Less { d: 2, a: 0, b: 0 },
        Out { a: 2 },
    ];
    assert_eq!(run(code).output, [1, 3, 1, 0]);
}

#[test]
fn alloc_without_a_walk_and_free_of_zero() {
    // The first header is broken; what asks for no walk completes all the same.
    let broken = with(HEAP, 4, &[WRITE]);
    for size in [0, 4_097, u32::MAX] {
        let mut code = broken.clone();
        code.extend(with(size, 5, &[Alloc { d: 1, g: 1, a: 0 }, Out { a: 1 }, Free { a: 1 }]));
        let ran = run(code);
        assert_eq!((ran.record.reason, ran.output[0]), (30, 0));
    }
    for size in [1, 4_096] {
        let mut code = broken.clone();
        code.extend(with(size, 5, &[Alloc { d: 1, g: 1, a: 0 }]));
        assert_eq!(run(code).line(), "38 5 5 0 0");
    }
    // FREE of anything else is 38 there, never 37.
    let mut code = broken;
    code.extend(with(3, 3, &[Free { a: 0 }]));
    assert_eq!(run(code).line(), "38 5 5 0 0");
}

#[test]
fn soundness_of_a_header() {
    let whole = END_SLOT - HEAP - 8;
    let sound = |size: u32| {
        let ran = run(with(HEAP, size, &[WRITE, Free { a: 0 }]));
        // On a sound heap the FREE is a bad one.
        ran.record.reason == 37
    };
    assert!(sound(whole));
    for size in [0, 4, 12, whole - 1, whole - 4, whole + 1, whole + 4, whole + 8] {
        assert!(!sound(size), "a size of {}", size);
    }
    for size in [0xFFFF_FFF8, 0xFFFF_FFF0, u32::MAX, 0x8000_0000, 1 << 16] {
        assert!(!sound(size), "a size of {}", size);
    }
    // Sound itself, but the next header is all zero.
    assert!(!sound(8));
    assert!(!sound(whole - 8));
}

/// Writes of words at addresses.
fn words(pairs: &[(u32, u32)]) -> Vec<Instruction> {
    pairs.iter().flat_map(|&(address, word)| with(address, word, &[WRITE])).collect()
}

#[test]
fn marks_that_name_no_site_are_live() {
    for mark in [1, 3, 400, 401, u32::MAX] {
        let mut code = words(&[(HEAP + 4, mark)]);
        code.extend(with(HEAP + 8, 5, &[Alloc { d: 3, g: 1, a: 1 }, Out { a: 3 }, Free { a: 0 }]));
        code.push(Alloc { d: 3, g: 1, a: 1 });
        code.push(Out { a: 3 });
        let ran = run(code);
        // Nothing is free until it is given back.
        assert_eq!((ran.record.reason, ran.output[0], ran.output[1]), (30, 0, HEAP + 8));
    }
}

#[test]
fn the_end_slot_is_no_header() {
    let mut code = words(&[(END_SLOT, 12), (END_SLOT + 4, 77)]);
    code.extend(with(0, 5, &[Alloc { d: 3, g: 1, a: 1 }, Out { a: 3 }]));
    let ran = run(code);
    assert_eq!((ran.record.reason, ran.output[0]), (30, HEAP + 8));
    assert_eq!(ran.word(END_SLOT as usize), 12);
}

/// Blocks of the sizes and marks given, up to the end slot.
fn forged(blocks: &[(u32, u32)]) -> Vec<Instruction> {
    let mut pairs = Vec::new();
    let mut header = HEAP;
    for &(size, mark) in blocks {
        pairs.extend([(header, size), (header + 4, mark)]);
        header += 8 + size;
    }
    pairs.extend([(header, END_SLOT - header - 8), (header + 4, 9)]);
    words(&pairs)
}

#[test]
fn free_joins_one_block_on_either_side() {
    // Free, free, live, free, free: only the direct neighbours join.
    let mut code = forged(&[(8, 0), (16, 0), (24, 5), (32, 0), (40, 0)]);
    let body = HEAP + 8 + 8 + 8 + 16 + 8;
    code.extend(with(body, 0, &[Free { a: 0 }]));
    let ran = run(code);
    let joined = HEAP + 8 + 8;
    assert_eq!(ran.word(joined as usize), 16 + 8 + 24 + 8 + 32);
    assert_eq!(ran.word(joined as usize + 4), 0);
    assert_eq!(ran.word(HEAP as usize), 8);
    // Only the joined block's header changes.
    assert_eq!(ran.word(body as usize - 8), 24);
    assert_eq!(ran.word(body as usize - 4), 5);
    assert_eq!(ran.word((body + 24) as usize), 32);
}

#[test]
fn alloc_takes_the_lowest_body_that_holds_it_and_cuts_from_16_on() {
    for (wish, given) in [(8, 8), (9, 16), (16, 16), (17, 32), (24, 32), (32, 32)] {
        // A free body of 32: 16 left over is cut, 8 is not.
        let mut code = forged(&[(8, 0), (8, 1), (32, 0), (64, 0)]);
        let first = HEAP + 8;
        let second = first + 8 + 8 + 8 + 8;
        code.extend(with(0, wish, &[Alloc { d: 2, g: 1, a: 1 }, Out { a: 2 }]));
        let ran = run(code);
        let body = if wish <= 8 { first } else { second };
        assert_eq!(ran.output[0], body, "for {}", wish);
        assert_eq!(ran.word(body as usize - 8), given, "for {}", wish);
        assert_eq!(ran.word(body as usize - 4), 2);
        for slot in 0..given / 8 {
            assert_eq!(ran.color(body + 8 * slot), 3);
        }
        if (wish, given) == (16, 16) || (wish, given) == (9, 16) {
            assert_eq!(ran.word(body as usize + 16), 8);
            assert_eq!(ran.color(body + 16), 1);
        } else {
            assert_eq!(ran.color(body + given), 0);
        }
    }
}

#[test]
fn a_body_is_cleared_and_colored_and_its_color_goes_with_free() {
    let mut code = with(0, 12, &[Alloc { d: 2, g: 1, a: 1 }]);
    code.extend([
        Write32 { a: 2, b: 1, s: 0 },
        Alloc { d: 3, g: 2, a: 1 },
        Free { a: 2 },
        Alloc { d: 2, g: 2, a: 1 },
        Load32 { d: 4, a: 2 },
        Out { a: 4 },
        Free { a: 2 },
    ]);
    let ran = run(code);
    assert_eq!(ran.output[0], 0);
    assert_eq!(ran.color(HEAP), 1);
    assert_eq!((ran.color(HEAP + 8), ran.color(HEAP + 16)), (0, 0));
    assert_eq!(ran.color(HEAP + 24), 1);
}

#[test]
fn a_swallowed_header_loses_its_color() {
    let mut code = with(0, 8, &[Alloc { d: 2, g: 1, a: 1 }, Alloc { d: 3, g: 1, a: 1 }]);
    code.extend([Free { a: 3 }, Free { a: 2 }]);
    let ran = run(code);
    assert_eq!((ran.color(HEAP), ran.color(END_SLOT)), (1, 1));
    let others = (0..TABLE as u32).filter(|slot| 8 * slot != HEAP && 8 * slot != END_SLOT);
    // The global's slot is the only other one.
    assert!(others.into_iter().all(|slot| ran.color(8 * slot) == 2 * u8::from(slot == 2)));
}

#[test]
fn bad_frees() {
    for address in [1, 16, HEAP, HEAP + 8, HEAP + 9, END_SLOT, END_SLOT + 8, u32::MAX] {
        assert_eq!(run(with(address, 0, &[Free { a: 0 }])).line(), "37 2 2 0 0");
    }
    // Twice, and inside.
    let alloc = Alloc { d: 2, g: 1, a: 1 };
    let twice = with(0, 8, &[alloc, Free { a: 2 }, Free { a: 2 }]);
    assert_eq!(run(twice).line(), "37 4 4 0 0");
    let inside = with(8, 24, &[alloc, Add { d: 2, a: 2, b: 0 }, Free { a: 2 }]);
    assert_eq!(run(inside).line(), "37 4 4 0 0");
}

#[test]
fn a_stop_changes_nothing() {
    let code = with(HEAP + 1, 0x0101_0101, &[Check32 { a: 0, c: 2 }, WRITE]);
    let ran = run(code);
    assert_eq!(ran.line(), "36 2 2 0 0");
    let fresh = run(vec![End]);
    assert_eq!(ran.memory, fresh.memory);
    assert_eq!(ran.table, fresh.table);
}

#[test]
fn refusals_come_in_order_and_change_nothing() {
    let good = program(vec![End]).write();
    let too_many = Instrumented {
        objects: vec![Object::Global { size: 4_096 }; 8],
        colors: vec![0; 8],
        code: vec![End],
    };
    let long = vec![2; 32_769];
    let too_many = too_many.write();
    let files: [(&[u8], &str); 5] = [
        (&good, "0 0 0 0 0"),
        (&long, "1 0"),
        (&[2, 0, 1], "2 3"),
        (&[1, 0, 0, 1, 0], "4 0"),
        (&too_many, "9 0"),
    ];
    for (file, line) in files {
        for (memory, table) in [(MEMORY, TABLE), (MEMORY - 1, TABLE), (MEMORY, TABLE + 1), (0, 0)] {
            let exact = (memory, table) == (MEMORY, TABLE);
            let mut memory = vec![0x31; memory];
            let mut table = vec![0x32; table];
            let mut output = vec![0x33; 3];
            let record = machine::run(file, &[1], 9, &mut memory, &mut table, &mut output);
            assert_eq!(record.to_string(), if exact { line } else { "11 0" });
            if record.is_refusal() {
                assert!(memory.iter().all(|&byte| byte == 0x31));
                assert!(table.iter().all(|&byte| byte == 0x32));
            }
            assert_eq!(output, [0x33; 3]);
        }
    }
}

/// Nothing that a file can say makes the machine do anything but stop with a
/// number, and every stop is met.
#[test]
fn any_file_stops_with_a_number() {
    let mut random = Random::new(31);
    let mut met = std::collections::BTreeSet::new();
    for _ in 0..4_000 {
        let program = others::program(&mut random);
        let ran = run_with(&program, &[1, 28_680, 57_340], 3, 2_000);
        assert!(ran.record.steps <= 2_000);
        if !ran.record.is_refusal() {
            met.insert(ran.record.reason);
        }
    }
    let all: Vec<u32> = met.into_iter().collect();
    let stops: Vec<u32> = [0].into_iter().chain(30..=38).collect();
    assert_eq!(all, stops);
}
