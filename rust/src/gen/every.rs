//! One small case for every refusal and every stop of every kind, and cases for
//! every state, so that no trial depends on luck to reach them all.

use crate::file::{write_numbers, Instrumented, Object, Routine, Version};
use crate::gen::cases::file_of;
use crate::gen::random::Random;
use crate::gen::{far, known, worst};
use crate::instruction::Instruction::{self, *};
use crate::instrument::instrument_routine;
use crate::wire::{Case, Kind};

/// The kinds that read a file of the version.
fn kinds_reading(version: Version) -> &'static [Kind] {
    match version {
        Version::Routine => &[Kind::ReadRoutine, Kind::Color, Kind::Instrument, Kind::Control],
        Version::Instrumented => &[Kind::ReadInstrumented, Kind::WriteInstrumented, Kind::Run],
    }
}

/// A file for each of the refusals 1 to 7.
fn refused_files(version: Version) -> Vec<Vec<u8>> {
    let number = version.number();
    let mut surplus = good_file(version);
    surplus.push(0);
    vec![
        vec![number as u8; version.longest() + 1],
        write_numbers(&[number]),
        vec![number as u8 | 0x80, 0],
        write_numbers(&[3]),
        write_numbers(&[number, 401]),
        write_numbers(&[number, 1, 2]),
        surplus,
    ]
}

/// END alone.
fn good_file(version: Version) -> Vec<u8> {
    match version {
        Version::Routine => write_numbers(&[1, 0, 0, 1, 0]),
        Version::Instrumented => write_numbers(&[2, 0, 1, 0]),
    }
}

/// Code, with the limit, for each stop that instrumented code can meet. The
/// objects are a global and a site; there is no input and no room.
fn stopped_codes() -> Vec<(u32, Vec<Instruction>)> {
    let outside = Set { d: 0, n: 57_341 };
    vec![
        (9, vec![End]),
        (9, vec![Set { d: 0, n: 0 }]),
        (5, vec![Jump { p: 0 }]),
        (9, vec![In { d: 0 }]),
        (9, vec![Out { a: 0 }]),
        (9, vec![outside, Load32 { d: 0, a: 0 }]),
        (9, vec![outside, Write32 { a: 0, b: 0, s: 0 }]),
        (9, vec![outside, Free { a: 0 }]),
    ]
}

/// Code for the stops that only code by somebody else can meet.
fn codes_by_somebody() -> Vec<Vec<Instruction>> {
    let forge = [Set { d: 0, n: 28_672 }, Write32 { a: 0, b: 1, s: 0 }, Free { a: 0 }];
    vec![vec![Set { d: 0, n: 57_341 }, Write32 { a: 0, b: 0, s: 0 }], forge.to_vec()]
}

fn of_code(code: Vec<Instruction>) -> Routine {
    Routine {
        objects: vec![Object::Global { size: 8 }, Object::Site],
        sets: vec![vec![0, 1]],
        code,
    }
}

fn stops() -> Vec<Case> {
    let mut cases = Vec::new();
    let mut push = |kind, limit, file| {
        cases.push(Case { limit, room: 0, ..known::on_file(kind, file) });
    };
    for (limit, code) in stopped_codes() {
        let routine = of_code(code);
        if let Ok(program) = instrument_routine(&routine) {
            push(Kind::Run, limit, program.write());
        }
        push(Kind::Control, limit, routine.write());
    }
    for code in codes_by_somebody() {
        let Routine { objects, code, .. } = of_code(code);
        let program = Instrumented { objects, colors: vec![2, 2], code };
        push(Kind::Run, 9, program.write());
    }
    cases
}

/// Refusals 8 to 11, for each kind that has them.
fn late_refusals() -> Vec<Case> {
    let many = worst::classes(&mut Random::new(0), 255).write();
    let full = worst::full_of_globals(4_081);
    let colors = vec![0; full.objects.len()];
    let full_2 = Instrumented { objects: full.objects.clone(), colors, code: full.code.clone() };
    let full = full.write();
    let good_1 = good_file(Version::Routine);
    let good_2 = good_file(Version::Instrumented);
    let no_room = |case: Case| Case { room: 3, ..case };
    let short = |case: Case| Case { memory: case.memory - 1, ..case };
    vec![
        known::on_file(Kind::Color, many.clone()),
        known::on_file(Kind::Instrument, many.clone()),
        known::on_file(Kind::Control, many),
        known::on_file(Kind::Instrument, full.clone()),
        known::on_file(Kind::Control, full),
        known::on_file(Kind::Run, full_2.write()),
        no_room(known::on_file(Kind::Instrument, good_1.clone())),
        no_room(known::on_file(Kind::WriteInstrumented, good_2.clone())),
        Case { limit: 300, room: 1, ..Case::new(Kind::WriteNumber) },
        Case { limit: 300, room: 4, cursor: 1, ..Case::new(Kind::WriteNumber) },
        short(known::on_file(Kind::Control, good_1)),
        short(known::on_file(Kind::Run, good_2)),
    ]
}

const RUNS: [Kind; 2] = [Kind::Run, Kind::Control];

/// A limit of every size, from 0 to 32 bits.
fn limits() -> Vec<Case> {
    let routine = of_code(vec![Set { d: 0, n: 5 }, Set { d: 1, n: 6 }, Out { a: 0 }, End]);
    let mut cases = Vec::new();
    for kind in RUNS {
        for bits in 0..=32 {
            let limit = ((1_u64 << bits) >> 1) as u32;
            let case = known::on_file(kind, file_of(&routine, kind));
            cases.push(Case { limit, ..case });
        }
    }
    cases
}

/// Runs by the routine and its version 2.
fn both_ways(routine: &Routine) -> Vec<Case> {
    RUNS.iter().map(|&kind| known::on_file(kind, file_of(routine, kind))).collect()
}

/// Long runs that end by themselves and by their limit, and rows of numbers.
fn long_runs(random: &mut Random) -> Vec<Case> {
    let mut cases = Vec::new();
    for (steps, limit) in [(70_000, 100_000), (70_000, 65_537), (1_060_000, 1_048_577)] {
        let runs = both_ways(&far::long_run(random, steps));
        cases.extend(runs.into_iter().map(|case| Case { limit, ..case }));
    }
    for form in 0..4 {
        for (inputs, room) in [(1_024, 1_024), (1_000, 1_024), (1_024, 1_000)] {
            let inputs: Vec<u32> = (0..inputs).map(|_| random.edgy()).collect();
            let runs = both_ways(&far::stream_of(form)).into_iter();
            cases.extend(runs.map(|case| Case { inputs: inputs.clone(), room, ..case }));
        }
    }
    cases
}

/// Far routines, colored, instrumented and run.
fn far_routines(random: &mut Random) -> Vec<Case> {
    let mut routines = Vec::new();
    for length in [8, 30, 399] {
        routines.extend([far::chain(random, length), far::chain(random, length)]);
    }
    routines.extend([far::every_color(random), far::every_color(random)]);
    routines.extend((0..2).map(|_| far::full_safe_globals(random)));
    routines.extend((0..4).map(|_| far::full_unsafe_globals(random)));
    routines.extend((0..6).map(|_| far::far_jumps(random)));
    routines.extend((0..12).map(|_| far::half_outside(random)));
    routines.extend((0..12).map(|_| far::high_sites(random)));
    routines.extend((0..4).map(|_| far::wide_set(random)));
    routines.extend((0..6).map(|_| far::high_globals(random)));
    routines.extend((0..6).map(|_| worst::at_a_count(random)));
    let mut cases = Vec::new();
    for routine in &routines {
        cases.extend(both_ways(routine));
        let file = routine.write();
        cases.push(known::on_file(Kind::Color, file.clone()));
        cases.push(Case { room: 40_960, ..known::on_file(Kind::Instrument, file) });
    }
    cases
}

/// Far code by somebody else, written again and run.
fn far_programs(random: &mut Random) -> Vec<Case> {
    let mut programs: Vec<Instrumented> = (0..16).map(|_| far::forged_rows(random)).collect();
    programs.extend((0..4).map(|_| far::long_code(random)));
    programs.extend((0..12).map(|_| far::unchecked_half_outside(random)));
    let mut cases = Vec::new();
    for program in programs {
        let file = program.write();
        cases.push(known::on_file(Kind::Run, file.clone()));
        let again = known::on_file(Kind::WriteInstrumented, file);
        cases.push(Case { room: 40_000, ..again });
    }
    cases
}

/// Numbers of every length, cut off before every byte, too long and too large in
/// every way.
fn numbers_read() -> Vec<Case> {
    let mut files = Vec::new();
    for length in 1..=5 {
        let followed = vec![0x81; length - 1];
        files.extend([
            followed.clone(),
            [&followed[..], &[1]].concat(),
            [&followed[..], &[0]].concat(),
        ]);
    }
    for fifth in [15, 16, 127, 128, 143, 144, 255] {
        files.push(vec![0xFF, 0xFF, 0xFF, 0xFF, fifth, 1]);
    }
    files.into_iter().map(|file| Case { file, ..Case::new(Kind::ReadNumber) }).collect()
}

/// Numbers at far places of large rooms.
fn far_numbers() -> Vec<Case> {
    let places =
        [(40_960, 256), (40_960, 8_192), (40_960, 32_768), (40_960, 40_955), (9_000, 8_995)];
    let one =
        |(room, cursor)| Case { limit: u32::MAX, room, cursor, ..Case::new(Kind::WriteNumber) };
    places.into_iter().map(one).collect()
}

/// 11 before each of the refusals that the file would get.
fn eleven_first() -> Vec<Case> {
    let many = worst::classes(&mut Random::new(0), 255).write();
    let full = worst::full_of_globals(4_081);
    let colors = vec![0; full.objects.len()];
    let full_2 = Instrumented { objects: full.objects.clone(), colors, code: full.code.clone() };
    let mut routines = refused_files(Version::Routine);
    routines.extend([many, full.write()]);
    let mut programs = refused_files(Version::Instrumented);
    programs.push(full_2.write());
    let mut cases = Vec::new();
    for (kind, files) in [(Kind::Control, routines), (Kind::Run, programs)] {
        for file in files {
            let whole = known::on_file(kind, file);
            cases.push(Case { memory: whole.memory + 1, ..whole.clone() });
            cases.push(Case { table: whole.table - 1, ..whole });
        }
    }
    cases
}

/// A case or more for every state.
pub fn far_cases() -> Vec<Case> {
    let mut random = Random::new(1);
    let mut cases = limits();
    cases.extend(long_runs(&mut random));
    cases.extend(far_routines(&mut random));
    cases.extend(far_programs(&mut random));
    cases.extend(numbers_read());
    cases.extend(far_numbers());
    cases.extend(eleven_first());
    cases
}

/// All of them.
pub fn cases() -> Vec<Case> {
    let mut cases = Vec::new();
    for version in [Version::Routine, Version::Instrumented] {
        let files = refused_files(version);
        for file in files.into_iter().chain([good_file(version)]) {
            let kinds = kinds_reading(version).iter();
            cases.extend(kinds.map(|&kind| known::on_file(kind, file.clone())));
        }
    }
    cases.extend(late_refusals());
    cases.extend(stops());
    cases.extend(far_cases());
    cases
}
