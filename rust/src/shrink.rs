//! Makes a case that differs small, so that a person can look at it.

use crate::file::{read_instrumented, read_routine};
use crate::instruction::Instruction;
use crate::wire::{Case, Kind};

/// Code is left out only below this limit: a loop that has lost its end runs up
/// to the limit.
const BEARABLE_LIMIT: u32 = 100_000;

/// Keeps making the case smaller as long as it still differs. Each question to
/// `differs` may be dear, so there are only so many.
pub fn shrink(case: Case, mut differs: impl FnMut(&Case) -> bool, mut questions: usize) -> Case {
    let mut smallest = case;
    if let Some(lower) = with_lower_limit(&smallest).into_iter().find(|case| differs(case)) {
        smallest = lower;
    }
    loop {
        let mut smaller = None;
        for candidate in candidates(&smallest) {
            if questions == 0 {
                return smallest;
            }
            questions -= 1;
            if differs(&candidate) {
                smaller = Some(candidate);
                break;
            }
        }
        match smaller {
            Some(candidate) => smallest = candidate,
            None => return smallest,
        }
    }
}

fn is_run(case: &Case) -> bool {
    matches!(case.kind, Kind::Run | Kind::Control)
}

fn with_lower_limit(case: &Case) -> Vec<Case> {
    if !is_run(case) {
        return Vec::new();
    }
    let lower = [100, 2_000, BEARABLE_LIMIT];
    let lower = lower.iter().filter(|&&limit| limit < case.limit);
    let with = |&limit: &u32| Case { limit, ..case.clone() };
    lower.map(with).collect()
}

/// Cases that are smaller in one way each, the boldest first.
fn candidates(case: &Case) -> Vec<Case> {
    let mut all = Vec::new();
    if is_run(case) && case.limit > BEARABLE_LIMIT {
        return all;
    }
    let with_file = |file: Vec<u8>| Case { file, ..case.clone() };
    if let Ok(routine) = read_routine(&case.file) {
        for code in shorter_codes(&routine.code) {
            let mut shorter = routine.clone();
            shorter.code = code;
            all.push(with_file(shorter.write()));
        }
    } else if let Ok(program) = read_instrumented(&case.file) {
        for code in shorter_codes(&program.code) {
            let mut shorter = program.clone();
            shorter.code = code;
            all.push(with_file(shorter.write()));
        }
    } else {
        all.extend(shorter_rows(&case.file).into_iter().map(with_file));
    }
    for inputs in shorter_rows(&case.inputs) {
        all.push(Case { inputs, ..case.clone() });
    }
    all
}

/// The row without its second half, a quarter, .. or one element.
fn shorter_rows<T: Clone>(row: &[T]) -> Vec<Vec<T>> {
    let mut all = Vec::new();
    for (from, to) in parts(row.len()) {
        let mut shorter = row[..from].to_vec();
        shorter.extend_from_slice(&row[to..]);
        all.push(shorter);
    }
    all
}

/// The code without some part of it, its jumps still going to what they went
/// to, or to what followed that.
fn shorter_codes(code: &[Instruction]) -> Vec<Vec<Instruction>> {
    let mut all = Vec::new();
    for (from, to) in parts(code.len()) {
        let left = code.len() - (to - from);
        if left == 0 {
            continue;
        }
        let moved = |target: usize| match target {
            early if early < from => early,
            inside if inside < to => from.min(left - 1),
            late => late - (to - from),
        };
        let kept = code[..from].iter().chain(&code[to..]);
        let shorter = kept.map(|&instruction| match instruction.target() {
            Some(target) => instruction.with_target(moved(target)),
            None => instruction,
        });
        all.push(shorter.collect());
    }
    all
}

/// The parts of a row to leave out: halves from the end, quarters, .. ones.
fn parts(length: usize) -> Vec<(usize, usize)> {
    let mut all = Vec::new();
    let mut size = (length + 1) / 2;
    while size > 0 && length > 0 {
        let mut to = length;
        while to > 0 {
            let from = to.saturating_sub(size);
            all.push((from, to));
            to = from;
        }
        size /= 2;
    }
    all
}
