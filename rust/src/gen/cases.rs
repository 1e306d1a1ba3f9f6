//! Cases for the wire, of every kind, from a seed and a number.

use crate::file::{read_instrumented, read_routine, Routine, Version};
use crate::gen::random::Random;
use crate::gen::{damaged, far, others, routines, worst};
use crate::instrument::{instrument, instrument_routine};
use crate::layout::{MEMORY, TABLE};
use crate::number;
use crate::record::{Record, Stop};
use crate::wire::{Case, Kind, LARGEST_ROOM, MOST_INPUTS, MOST_OUTPUTS};

/// How often each kind is asked, in the order of [`Kind::ALL`].
const WEIGHTS: [u32; 9] = [6, 3, 14, 12, 6, 12, 14, 18, 15];

/// A run that is to end by its limit ends here at the latest; but for a few long
/// ones, which end here.
const PROBE: u32 = 20_000;
const LONG_PROBE: u32 = 1 << 21;
/// The largest limit for code that a wrong machine might never leave.
const BEARABLE: u32 = 1 << 21;
/// Of so many runs one is longer than 65,536 steps, or than 1,048,576.
const LONG_ONE_IN: u32 = 200;
const LONGEST_ONE_IN: u32 = 2_500;

/// Case so-and-so of a seed, of one of the kinds asked for.
pub fn case(seed: u64, number: u64, kinds: &[Kind]) -> Case {
    let mut random = Random::for_case(seed, number);
    let weights: Vec<u32> = kinds.iter().map(|kind| WEIGHTS[*kind as usize - 1]).collect();
    let kind = kinds[random.weighted(&weights)];
    let mut case = Case::new(kind);
    case.fill = random.byte();
    match kind {
        Kind::ReadNumber => read_number(&mut random, &mut case),
        Kind::WriteNumber => write_number(&mut random, &mut case),
        Kind::ReadRoutine | Kind::Color => case.file = routine_file(&mut random),
        Kind::ReadInstrumented => case.file = instrumented_file(&mut random),
        Kind::WriteInstrumented => {
            case.file = instrumented_file(&mut random);
            // A file that is read is as long as what is written for it.
            case.room = room_for(&mut random, case.file.len());
        }
        Kind::Instrument => {
            case.file = routine_file(&mut random);
            let mut room = vec![0; Version::Instrumented.longest()];
            let length = instrument(&case.file, &mut room).unwrap_or(case.file.len());
            case.room = room_for(&mut random, length);
        }
        Kind::Run | Kind::Control => run(&mut random, &mut case),
    }
    case
}

/// A run: of any file; or a long one, or one that takes and gives many numbers.
fn run(random: &mut Random, case: &mut Case) {
    if random.below(LONGEST_ONE_IN) == 0 {
        return long_run(random, case, 1_048_577);
    }
    if random.below(LONG_ONE_IN) == 0 {
        return long_run(random, case, 65_537);
    }
    if random.below(40) == 0 {
        let routine = far::stream(random);
        case.file = file_of(&routine, case.kind);
        lend(random, case);
        many_numbers(random, case);
        return choose_limit(random, case);
    }
    case.file = match case.kind {
        Kind::Run => instrumented_file(random),
        _ => routine_file(random),
    };
    lend(random, case);
    if random.chance(4) {
        many_numbers(random, case);
    }
    choose_limit(random, case);
}

/// A routine's file for a kind of run: the routine, or its version 2.
pub fn file_of(routine: &Routine, kind: Kind) -> Vec<u8> {
    match (kind, instrument_routine(routine)) {
        (Kind::Run, Ok(program)) => program.write(),
        _ => routine.write(),
    }
}

fn long_run(random: &mut Random, case: &mut Case, least: u32) {
    let steps = least + random.below(least / 8);
    let routine = far::long_run(random, steps);
    case.file = file_of(&routine, case.kind);
    lend(random, case);
    let steps = case.probe(LONG_PROBE).steps;
    case.limit = match random.below(6) {
        0 => steps,
        1 => steps.saturating_sub(1),
        2 => random.between(steps / 2, steps),
        3 => BEARABLE,
        _ => steps + 1,
    };
}

/// Inputs and room up to the most that a case can have.
fn many_numbers(random: &mut Random, case: &mut Case) {
    let count = |random: &mut Random, most: usize| match random.below(4) {
        0 => random.between(9, 300),
        1 => random.pick(&[255, 256, 257, 1_000]),
        2 => most as u32 - random.below(25),
        _ => random.below(most as u32 + 1),
    };
    let inputs = count(random, MOST_INPUTS);
    case.inputs = (0..inputs).map(|_| random.edgy()).collect();
    case.room = count(random, MOST_OUTPUTS);
}

/// A version 1 file: mostly good, else damaged, at a limit, far out, or of
/// version 2.
pub fn routine_file(random: &mut Random) -> Vec<u8> {
    match random.below(100) {
        0..=54 => routines::routine(random).write(),
        55..=87 => {
            let numbers = routines::routine(random).numbers();
            damaged::damage(random, &numbers, Version::Routine)
        }
        88..=92 => worst::routine_file(random),
        93..=97 => far::routine(random).write(),
        _ => others::program(random).write(),
    }
}

/// A version 2 file: ours, somebody else's, damaged, at a limit, far out, or of
/// version 1.
pub fn instrumented_file(random: &mut Random) -> Vec<u8> {
    match random.below(100) {
        0..=18 => ours(random),
        19..=61 => others::program(random).write(),
        62..=87 => {
            let numbers = others::program(random).numbers();
            damaged::damage(random, &numbers, Version::Instrumented)
        }
        88..=92 => worst::instrumented_file(random),
        93..=97 => far::program(random).write(),
        _ => routines::routine(random).write(),
    }
}

fn ours(random: &mut Random) -> Vec<u8> {
    let routine = routines::routine(random);
    match instrument_routine(&routine) {
        Ok(program) => program.write(),
        Err(_) => others::program(random).write(),
    }
}

fn read_number(random: &mut Random, case: &mut Case) {
    for _ in 0..random.below(4) {
        match random.below(3) {
            0 => number::write(random.edgy(), &mut case.file),
            1 => {
                let group = random.pick(&[0x80, 0xFF, 0x8F, 0x90]);
                let count = random.index(6);
                case.file.extend(vec![group; count]);
                let last = random.pick(&[0, 1, 15, 16, 0x7F]);
                case.file.push(last);
            }
            _ => case.file.push(random.byte()),
        }
    }
    // Cut off, perhaps inside a number.
    if random.chance(25) {
        case.file.pop();
    }
    case.cursor = match random.chance(90) {
        true => random.below(case.file.len() as u32 + 1),
        // Any cursor, also one past the end.
        false => random.edgy(),
    };
}

fn write_number(random: &mut Random, case: &mut Case) {
    case.limit = random.edgy();
    case.room = match random.below(10) {
        0 => random.below(LARGEST_ROOM as u32 + 1),
        1 => random.pick(&[255, 256, 260, 8_192, 16_384, 32_768, 32_773, LARGEST_ROOM as u32]),
        _ => random.below(12),
    };
    // Anywhere, or around the end.
    case.cursor = match random.chance(50) {
        true => random.below(case.room + 3),
        false => (case.room + 2).saturating_sub(random.below(8)),
    };
}

/// A room around the length that is needed.
fn room_for(random: &mut Random, length: usize) -> u32 {
    let length = length as u32;
    match random.below(8) {
        0 => 0,
        1 => random.below(length + 1),
        2 => length.saturating_sub(1),
        3 => length,
        4 => length + 1,
        5 => length + random.below(64),
        6 if random.chance(25) => random.between(length, LARGEST_ROOM as u32),
        _ => Version::Instrumented.longest() as u32,
    }
}

/// Inputs, room, memory, table and limit for a run.
fn lend(random: &mut Random, case: &mut Case) {
    case.memory = MEMORY as u32;
    case.table = TABLE as u32;
    if random.chance(3) {
        let slip = |random: &mut Random, exact: u32| {
            random.pick(&[exact, exact, exact - 1, exact + 1, exact + 8, 0, 8_192])
        };
        case.memory = slip(random, case.memory);
        case.table = slip(random, case.table).min(TABLE as u32 + 64);
        if random.chance(30) {
            // 8 and 9 too, which 11 comes before.
            case.file = match random.chance(50) {
                true => worst::classes(random, 255).write(),
                false => worst::full_of_globals(4_081).write(),
            };
        }
    }
    case.inputs = (0..random.below(9)).map(|_| random.edgy()).collect();
    case.room = match random.chance(95) {
        true => random.below(12),
        false => 1_000,
    };
}

/// Looks how far the run goes by itself, and puts the limit there, around it,
/// or out of its way.
fn choose_limit(random: &mut Random, case: &mut Case) {
    let Record { reason, steps, .. } = case.probe(PROBE);
    let ends_by_itself = reason != Stop::Limit.number();
    case.limit = match random.below(12) {
        0 => 0,
        1 => random.below(steps + 1),
        2 => steps.saturating_sub(1),
        3 => steps,
        4 => steps + 1,
        _ if ends_by_itself => any_limit(random, case, steps),
        _ => random.below(PROBE),
    };
}

/// A limit of any size; one, too, whose low bits by themselves would be used up.
/// The largest only go where even a wrong machine would soon be through.
fn any_limit(random: &mut Random, case: &Case, steps: u32) -> u32 {
    let bits = random.below(33);
    let most = ((1_u64 << bits) - 1) as u32;
    let mut limit = most - (random.word() & (most >> 1));
    if bits > 8 && random.chance(30) {
        let low = random.pick(&[8, 16, 20, 24]).min(bits - 1);
        limit = limit >> low << low | (random.below(steps + 1) & ((1 << low) - 1));
    }
    if limit > BEARABLE && !never_jumps_back(&case.file) {
        limit = BEARABLE;
    }
    limit
}

/// Whether each jump of a file goes forward; so if it is no good file.
fn never_jumps_back(file: &[u8]) -> bool {
    let routine = read_routine(file).map(|routine| routine.code);
    let program = read_instrumented(file).map(|program| program.code);
    let code = routine.or(program).unwrap_or_default();
    let mut numbered = code.iter().enumerate();
    numbered.all(|(number, instruction)| instruction.target().map_or(true, |to| to > number))
}
