//! The generator reaches what it is for: trials over dull routines would say
//! little, so what happens in the runs is counted here.

use std::collections::BTreeMap;
use independent::coverage::Coverage;
use independent::file::{read_routine, Object};
use independent::gen::random::Random;
use independent::gen::{cases, every, known, routines};
use independent::instruction::Instruction::{self, *};
use independent::layout::{extent, MEMORY};
use independent::plain::{Plain, Rule};
use independent::states::{Seen, State};
use independent::wire::Kind;

/// The address and width of a store that is under way.
fn aim(plain: &Plain, rule: &Rule) -> Option<(u64, u64)> {
    let t = plain.temporaries();
    let at = |a: u8| u64::from(t[usize::from(a)]);
    let byte = |g: u16, k: u16| u64::from(rule.starts[usize::from(g)]) + u64::from(k);
    match plain.next_instruction()? {
        Write8 { a, .. } => Some((at(a), 1)),
        Write32 { a, .. } => Some((at(a), 4)),
        Put8 { g, k, .. } => Some((byte(g, k), 1)),
        Put32 { g, k, .. } => Some((byte(g, k), 4)),
        _ => None,
    }
}

/// What is worth a name about a store.
fn about_store(instruction: Instruction, rule: &Rule, to: (u64, u64), done: bool) -> Vec<String> {
    let (address, width) = to;
    let last = address + width - 1;
    let past = match instruction {
        Put8 { g, .. } | Put32 { g, .. } => match rule.routine.objects[usize::from(g)] {
            Object::Global { size } => {
                last >= u64::from(rule.starts[usize::from(g)] + extent(size))
            }
            Object::Site => false,
        },
        _ => false,
    };
    let all = [
        (past && done, "a PUT past its object completes in another"),
        (past && !done, "a PUT past its object is forbidden"),
        (address / 8 != last / 8 && done, "a store across slots completes"),
        (address / 8 != last / 8 && !done, "a store across slots is forbidden"),
        (last > u64::from(u32::MAX), "a store across 2^32"),
        (last >= MEMORY as u64 && address < MEMORY as u64, "a store across the end of memory"),
        (address >= 28_680 && done, "a store into a heap object completes"),
        (address >= 28_672 && !done, "a store into the heap is forbidden"),
        (address < 28_672 && done, "a store into a global completes"),
    ];
    let met = all.iter().filter(|(happened, _)| *happened);
    met.map(|(_, name)| name.to_string()).collect()
}

/// What is worth a name about an ALLOC or a FREE that completed.
fn about_heap(before: usize, after: usize, gaps_before: usize, gaps_after: usize) -> Vec<String> {
    let name = match (after.cmp(&before), gaps_after as i64 - gaps_before as i64) {
        (std::cmp::Ordering::Greater, 0) => "ALLOC cuts a body",
        (std::cmp::Ordering::Greater, _) => "ALLOC hands out a whole body",
        (std::cmp::Ordering::Less, 1) => "FREE joins nothing",
        (std::cmp::Ordering::Less, 0) => "FREE joins one neighbour",
        (std::cmp::Ordering::Less, _) => "FREE joins both neighbours",
        _ => "ALLOC gives 0, or FREE of 0",
    };
    vec![name.to_string()]
}

fn about_load(address: u32) -> Vec<String> {
    let name = match address {
        0..=7 => "a LOAD of slot 0",
        28_672..=28_679 => "a LOAD of the first header",
        57_336..=57_343 => "a LOAD of the end slot",
        57_344..=u32::MAX => "a LOAD outside memory",
        _ => return Vec::new(),
    };
    vec![name.to_string()]
}

/// What stands before a step and is asked about after it.
struct Before {
    instruction: Instruction,
    to: Option<(u64, u64)>,
    live: usize,
    given: u64,
    gaps: usize,
    temporaries: [u32; 16],
}

fn given(plain: &Plain) -> u64 {
    plain.live().iter().map(|live| live.size).sum()
}

impl Before {
    fn new(plain: &Plain, rule: &Rule, instruction: Instruction) -> Before {
        Before {
            instruction,
            to: aim(plain, rule),
            live: plain.live().len(),
            given: given(plain),
            gaps: plain.gaps().len(),
            temporaries: *plain.temporaries(),
        }
    }

    fn after(&self, plain: &Plain, rule: &Rule, stop: Option<u32>) -> Vec<String> {
        let of = |a: u8| self.temporaries[usize::from(a)];
        let heap = || about_heap(self.live, plain.live().len(), self.gaps, plain.gaps().len());
        match (self.instruction, self.to, stop) {
            (Load8 { a, .. } | Load32 { a, .. }, _, _) => about_load(of(a)),
            (store, Some(to), None) => about_store(store, rule, to, true),
            (store, Some(to), Some(36)) => about_store(store, rule, to, false),
            (Free { .. }, _, None) => heap(),
            (Alloc { a, .. }, _, None) => {
                let mut names = heap();
                let more = given(plain) - self.given;
                if of(a) <= 4_096 && more == u64::from(extent(of(a))) + 8 {
                    names.push("ALLOC hands out 8 more than asked".to_string());
                }
                names
            }
            _ => Vec::new(),
        }
    }
}

/// Runs a routine under the plain rule and names what happens.
fn happenings(rule: &Rule) -> Vec<String> {
    let mut memory = vec![0; MEMORY];
    let mut output = vec![0; 4];
    let inputs = [5, 28_680, 9];
    let mut plain = Plain::start(rule, &inputs, 2_000, &mut memory, &mut output);
    let mut names = Vec::new();
    while let Some(instruction) = plain.next_instruction() {
        let before = Before::new(&plain, rule, instruction);
        let stop = plain.step().err().map(|record| record.reason);
        names.extend(before.after(&plain, rule, stop));
        if stop.is_some() {
            break;
        }
    }
    names
}

#[test]
fn the_runs_are_interesting() {
    let mut random = Random::new(51);
    let mut counts: BTreeMap<String, u32> = BTreeMap::new();
    for _ in 0..4_000 {
        if let Ok(rule) = Rule::new(routines::routine(&mut random)) {
            let mut names = happenings(&rule);
            names.sort();
            names.dedup();
            for name in names {
                *counts.entry(name).or_insert(0) += 1;
            }
        }
    }
    for (name, count) in &counts {
        println!("{:>6} runs: {}", count, name);
    }
    let dull: Vec<_> = counts.iter().filter(|(_, count)| **count < 5).collect();
    assert!(dull.is_empty(), "hardly ever: {:?}", dull);
    assert_eq!(counts.len(), 20, "{:?}", counts);
}

/// The cases that open a trial reach every refusal and stop of every kind.
#[test]
fn every_number_is_reached_without_luck() {
    let mut coverage = Coverage::default();
    for case in known::cases().into_iter().chain(every::cases()) {
        coverage.note(case.kind, case.answer().reason());
    }
    assert_eq!(coverage.missing(&Kind::ALL), []);
}

/// They reach every state too, for every kind that can.
#[test]
fn every_state_is_reached_without_luck() {
    let mut coverage = Coverage::default();
    for case in known::cases().into_iter().chain(every::cases()) {
        let mut seen = Seen::default();
        assert_eq!(seen.answer(&case), case.answer());
        coverage.note_states(case.kind, &seen);
    }
    assert_eq!(coverage.missing_states(&Kind::ALL), []);
}

/// Cases from a seed reach the states as well, and so in many ways; but for the
/// longest runs, of which there are few.
#[test]
fn cases_from_a_seed_reach_every_state() {
    let mut coverage = Coverage::default();
    for number in 0..30_000 {
        let case = cases::case(54, number, &Kind::ALL);
        let mut seen = Seen::default();
        seen.answer(&case);
        coverage.note_states(case.kind, &seen);
    }
    let mut missing = coverage.missing_states(&Kind::ALL);
    missing.retain(|(state, _, _)| !matches!(state, State::Steps20 | State::LimitUsed20));
    assert_eq!(missing, []);
}

/// Cases from a seed reach them all too, and not only by the opening ones.
#[test]
fn cases_from_a_seed_reach_every_number() {
    let mut coverage = Coverage::default();
    for number in 0..9_000 {
        let case = cases::case(53, number, &Kind::ALL);
        coverage.note(case.kind, case.answer().reason());
    }
    assert_eq!(coverage.missing(&Kind::ALL), []);
}

#[test]
fn equal_seeds_give_equal_cases() {
    for number in 0..300 {
        let one = cases::case(5, number, &Kind::ALL);
        let other = cases::case(5, number, &Kind::ALL);
        assert_eq!(one, other);
        assert_ne!(one, cases::case(6, number, &Kind::ALL));
    }
}

#[test]
fn most_routines_are_taken_and_run_for_a_while() {
    let mut random = Random::new(52);
    let (mut taken, mut instructions) = (0, 0);
    for _ in 0..2_000 {
        let routine = routines::routine(&mut random);
        assert!(read_routine(&routine.write()).is_ok());
        instructions += routine.code.len();
        taken += u32::from(Rule::new(routine).is_ok());
    }
    assert!(taken > 1_900, "{} taken", taken);
    assert!(instructions / 2_000 > 30, "{} instructions", instructions / 2_000);
}
