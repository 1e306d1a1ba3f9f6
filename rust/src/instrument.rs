//! Version 2 of a routine: the same instructions in order, each unsafe one
//! directly preceded by its check with its class's color.

use crate::coloring::{unsafe_set, Classes};
use crate::file::{read_routine, Instrumented, Routine};
use crate::instruction::Instruction;
use crate::layout::layout;
use crate::refusal::{Refusal, ROOM};

/// Reads a version 1 file and writes its version 2 into the room: the length.
/// Refused in this order: 1, the file from left to right, 8, 9, and last 10.
/// A refusal changes no byte of the room; bytes past the length stay.
pub fn instrument(file: &[u8], room: &mut [u8]) -> Result<usize, Refusal> {
    let routine = read_routine(file)?;
    let written = instrument_routine(&routine)?.write();
    match room.get_mut(..written.len()) {
        Some(part) => part.copy_from_slice(&written),
        None => return Err(Refusal::whole(ROOM)),
    }
    Ok(written.len())
}

/// Version 2 of a routine that was read, or refusal 8 or 9.
pub fn instrument_routine(routine: &Routine) -> Result<Instrumented, Refusal> {
    let colors = Classes::of(routine).colors()?;
    layout(&routine.objects, |object| colors[object] == 0)?;
    Ok(Instrumented { objects: routine.objects.clone(), code: guarded(routine, &colors), colors })
}

fn guarded(routine: &Routine, colors: &[u8]) -> Vec<Instruction> {
    let mut checks = Vec::with_capacity(routine.code.len());
    for &instruction in &routine.code {
        let set = unsafe_set(routine, instruction);
        checks.push(set.and_then(|set| check_of(instruction, colors[set[0]])));
    }
    let moved = moved_targets(&checks);
    let mut code = Vec::with_capacity(2 * checks.len());
    for (&instruction, check) in routine.code.iter().zip(&checks) {
        code.extend(*check);
        code.push(match instruction.target() {
            Some(target) => instruction.with_target(moved[target]),
            None => without_set(instruction),
        });
    }
    code
}

/// For each instruction the place to which a jump to it goes: its own, or that
/// of its check where it has one. Both are its number plus the checks before.
fn moved_targets(checks: &[Option<Instruction>]) -> Vec<usize> {
    let mut before = 0;
    let mut moved = Vec::with_capacity(checks.len());
    for (number, check) in checks.iter().enumerate() {
        moved.push(number + before);
        before += usize::from(check.is_some());
    }
    moved
}

/// The check that covers the bytes of a store.
fn check_of(store: Instruction, c: u8) -> Option<Instruction> {
    match store {
        Instruction::Put8 { g, k, .. } => Some(Instruction::CheckPut8 { g, k, c }),
        Instruction::Put32 { g, k, .. } => Some(Instruction::CheckPut32 { g, k, c }),
        Instruction::Write8 { a, .. } => Some(Instruction::Check8 { a, c }),
        Instruction::Write32 { a, .. } => Some(Instruction::Check32 { a, c }),
        _ => None,
    }
}

fn without_set(instruction: Instruction) -> Instruction {
    match instruction {
        Instruction::Write8 { a, b, .. } => Instruction::Write8 { a, b, s: 0 },
        Instruction::Write32 { a, b, .. } => Instruction::Write32 { a, b, s: 0 },
        other => other,
    }
}
