//! The fourteen checked examples of the description, in its order.

use independent::coloring::{colors, unsafe_set};
use independent::file::{read_routine, Instrumented, Object, Routine};
use independent::gen::known;
use independent::gen::random::Random;
use independent::gen::worst;
use independent::instruction::Instruction::*;
use independent::instrument::{instrument, instrument_routine};
use independent::layout::{layout, MEMORY, TABLE};
use independent::machine;
use independent::number;
use independent::plain;
use independent::record::Record;
use independent::refusal::Refusal;

/// A run with what it leaves.
struct Ran {
    record: Record,
    memory: Vec<u8>,
    table: Vec<u8>,
    output: Vec<u32>,
}

fn run_file(file: &[u8], limit: u32) -> Ran {
    let mut memory = vec![0x5A; MEMORY];
    let mut table = vec![0x5A; TABLE];
    let mut output = vec![0; 1_000];
    let record = machine::run(file, &[], limit, &mut memory, &mut table, &mut output);
    Ran { record, memory, table, output }
}

/// Instruments and runs with the program's room and limit.
fn run(routine: &Routine) -> Ran {
    let program = instrument_routine(routine).expect("a good routine");
    run_file(&program.write(), 1_000_000)
}

fn numbers_out(ran: &Ran) -> &[u32] {
    &ran.output[..ran.record.out as usize]
}

fn routine_a() -> Routine {
    read_routine(&known::ROUTINE_A).expect("routine A is good")
}

#[test]
fn example_1_a_instruments() {
    let mut room = vec![0x33; 40];
    let length = instrument(&known::ROUTINE_A, &mut room);
    assert_eq!(length, Ok(30));
    assert_eq!(room[..30], known::ROUTINE_A_INSTRUMENTED);
    assert_eq!(room[30..], [0x33; 10]);
}

#[test]
fn example_2_a_is_laid_out() {
    let routine = routine_a();
    let colors = colors(&routine).expect("few classes");
    let layout = layout(&routine.objects, |object| colors[object] == 0).expect("few globals");
    assert_eq!((layout.starts[1], layout.starts[0]), (8, 24));
    assert_eq!(layout.guards, [16, 32]);
}

#[test]
fn example_3_a_runs() {
    let ran = run(&routine_a());
    assert_eq!(ran.record.to_string(), "36 2 8 0 0");
    assert_eq!((ran.memory[24], ran.memory[31]), (7, 7));
    assert_eq!(ran.memory[32], 0);
}

#[test]
fn example_4_a_with_limit_8() {
    let ran = run_file(&known::ROUTINE_A_INSTRUMENTED, 8);
    let Record { reason, place, steps, .. } = ran.record;
    assert_eq!((reason, place, steps), (31, 2, 8));
}

#[test]
fn example_5_four_bytes_across_the_end() {
    let inside = run(&known::write_at(28));
    assert_eq!(inside.record.to_string(), "0 3 3 0 0");
    assert_eq!(inside.memory[28..33], [0xAA, 0xBB, 0xCC, 0xDD, 0]);
    let across = run(&known::write_at(30));
    assert_eq!(across.record.to_string(), "36 2 2 0 0");
    assert_eq!(across.memory[..28_672], [0; 28_672]);
}

#[test]
fn example_6_three_sets() {
    assert_eq!(colors(&known::three_sets()), Ok(vec![2, 2, 2, 3, 3]));
}

#[test]
fn example_7_and_8_numbers() {
    let refused = |number, place| Err(Refusal { number, place });
    assert_eq!(number::read(&[0xAC, 0x02], 0), Ok((300, 2)));
    assert_eq!(number::read(&[0x80, 0x00], 0), refused(3, 0));
    assert_eq!(number::read(&[0x80], 0), refused(2, 1));
    let largest = [0xFF, 0xFF, 0xFF, 0xFF, 0x0F];
    assert_eq!(number::read(&largest, 0), Ok((u32::MAX, 5)));
    let above = [0xFF, 0xFF, 0xFF, 0xFF, 0x10];
    assert_eq!(number::read(&above, 0), refused(3, 0));
}

#[test]
fn example_9_the_order_of_the_heap() {
    let ran = run(&known::heap_order());
    assert_eq!(numbers_out(&ran), [28_680, 28_696, 28_720, 28_680]);
}

#[test]
fn example_10_freed_in_either_order() {
    for (first, then) in [(1, 2), (2, 1)] {
        let ran = run(&known::heap_joins(first, then));
        assert_eq!(numbers_out(&ran), [28_680, 28_696, 28_656, 0]);
        let colored: Vec<usize> = (0..TABLE).filter(|&slot| ran.table[slot] != 0).collect();
        assert_eq!(colored, [28_672 / 8, 57_336 / 8]);
    }
}

#[test]
fn example_11_a_put_inside_the_rounded_size() {
    for (k, safe) in [(4, true), (5, false)] {
        let routine = known::put_at(k);
        let set = unsafe_set(&routine, routine.code[0]);
        let expected: Option<&[usize]> = if safe { None } else { Some(&[0]) };
        assert_eq!(set.as_deref(), expected);
    }
}

#[test]
fn example_12_reads_at_the_end_of_memory() {
    assert_eq!(run(&known::load_at(57_340)).record.to_string(), "0 2 2 0 0");
    assert_eq!(run(&known::load_at(57_341)).record.to_string(), "34 1 1 0 0");
}

#[test]
fn example_13_globals_up_to_the_heap() {
    let fits = worst::full_of_globals(4_080);
    let ran = run(&fits);
    assert_eq!(ran.record.to_string(), "0 2 2 1 0");
    assert_eq!(numbers_out(&ran), [8 + 6 * 4_096]);
    let above = worst::full_of_globals(4_081);
    let refused = Refusal { number: 9, place: 0 };
    assert_eq!(instrument_routine(&above).map(|_| ()), Err(refused));
    // Running refuses it too, by the colors that stand in the file.
    let by_somebody = Instrumented { colors: vec![0; 7], objects: above.objects, code: above.code };
    let ran = run_file(&by_somebody.write(), 10);
    assert_eq!(ran.record, Record::refused(refused));
    assert_eq!(ran.memory, vec![0x5A; MEMORY]);
}

#[test]
fn example_14_as_many_classes_as_there_are_colors() {
    let single = |count: usize| Routine {
        objects: vec![Object::Site; count],
        sets: (0..count).map(|object| vec![object]).collect(),
        code: (0..count as u16).map(|s| Write8 { a: 0, b: 0, s }).collect(),
    };
    let passes = colors(&single(254)).expect("254 classes pass");
    assert_eq!((passes[0], passes[253]), (2, 255));
    let refused = Refusal { number: 8, place: 0 };
    assert_eq!(colors(&single(255)), Err(refused));
    // With PUTs past their object among the WRITEs.
    for seed in 0..20 {
        let random = &mut Random::new(seed);
        assert!(instrument_routine(&worst::classes(random, 254)).is_ok());
        let taken = instrument_routine(&worst::classes(random, 255));
        assert_eq!(taken.map(|_| ()), Err(refused));
    }
}

/// The plain rule gives the same records as the examples.
#[test]
fn the_plain_rule_on_the_examples() {
    let plain = |file: &[u8]| {
        let mut memory = vec![0; MEMORY];
        let mut output = vec![0; 1_000];
        plain::run(file, &[], 1_000_000, &mut memory, &mut output).to_string()
    };
    assert_eq!(plain(&known::ROUTINE_A), "36 2 8 0 0");
    assert_eq!(plain(&known::write_at(28).write()), "0 3 3 0 0");
    assert_eq!(plain(&known::write_at(30).write()), "36 2 2 0 0");
    assert_eq!(plain(&known::load_at(57_341).write()), "34 1 1 0 0");
    assert_eq!(plain(&worst::full_of_globals(4_081).write()), "9 0");
}
