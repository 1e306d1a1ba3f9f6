//! Classes and colors against the definition taken at its word, and version 2
//! against the routine it was made from.

use independent::coloring::{colors, unsafe_set, Classes};
use independent::file::{Object, Routine};
use independent::gen::random::Random;
use independent::gen::{routines, worst};
use independent::instruction::Instruction::{self, *};
use independent::instrument::instrument_routine;
use independent::layout::{extent, layout};

/// The sets of the unsafe instructions, said once more: by opcode numbers.
fn sets_by_hand(routine: &Routine) -> Vec<Vec<usize>> {
    let mut sets = Vec::new();
    for instruction in &routine.code {
        let (opcode, [g, k, s]) = instruction.to_numbers();
        let width = if opcode % 2 == 0 { 1 } else { 4 };
        match opcode {
            8 | 9 => {
                let size = match routine.objects[g as usize] {
                    Object::Global { size } => size,
                    Object::Site => panic!("a PUT to a site"),
                };
                let rounded = (size + 7) / 8 * 8;
                if k + width > rounded {
                    sets.push(vec![g as usize]);
                }
            }
            10 | 11 => sets.push(routine.sets[s as usize].clone()),
            _ => {}
        }
    }
    sets
}

/// Which objects a chain joins, by closing the relation over all triples.
fn joined_by_hand(routine: &Routine) -> Vec<Vec<bool>> {
    let count = routine.objects.len();
    let mut joined = vec![vec![false; count]; count];
    for set in sets_by_hand(routine) {
        for &one in &set {
            for &other in &set {
                joined[one][other] = true;
            }
        }
    }
    for middle in 0..count {
        for one in 0..count {
            for other in 0..count {
                if joined[one][middle] && joined[middle][other] {
                    joined[one][other] = true;
                }
            }
        }
    }
    joined
}

#[test]
fn equal_colors_exactly_where_a_chain_joins() {
    let mut random = Random::new(21);
    for _ in 0..3_000 {
        let routine = routines::routine(&mut random);
        let colors = colors(&routine).expect("few classes");
        let joined = joined_by_hand(&routine);
        let mut next = 2;
        for one in 0..colors.len() {
            // An unsafe object is one that is joined with itself.
            assert_eq!(colors[one] != 0, joined[one][one]);
            for other in 0..one {
                let same = colors[one] == colors[other] && colors[one] != 0;
                assert_eq!(same, joined[one][other]);
            }
            // A new color is the next one, met at its lowest object.
            if colors[one] >= next {
                assert_eq!(colors[one], next);
                next += 1;
            }
        }
    }
}

#[test]
fn unsafe_instructions_are_those_said_by_hand() {
    let mut random = Random::new(22);
    for _ in 0..3_000 {
        let routine = routines::routine(&mut random);
        let found = routine.code.iter();
        let found = found.filter_map(|&instruction| unsafe_set(&routine, instruction));
        let found = found.map(|set| set.into_owned());
        assert_eq!(found.collect::<Vec<_>>(), sets_by_hand(&routine));
    }
}

#[test]
fn unused_sets_join_nothing_and_long_chains_join() {
    let mut routine = Routine {
        objects: vec![Object::Site; 5],
        sets: vec![vec![3, 4], vec![0, 1], vec![2, 3], vec![1, 2], vec![0, 4]],
        code: vec![Write8 { a: 0, b: 0, s: 0 }, End, Write8 { a: 0, b: 0, s: 1 }],
    };
    assert_eq!(colors(&routine), Ok(vec![2, 2, 0, 3, 3]));
    // Unreached, and still it joins.
    routine.code.push(Write32 { a: 0, b: 0, s: 2 });
    assert_eq!(colors(&routine), Ok(vec![2, 2, 3, 3, 3]));
    routine.code.push(Write32 { a: 0, b: 0, s: 3 });
    assert_eq!(colors(&routine), Ok(vec![2, 2, 2, 2, 2]));
    assert_eq!(Classes::of(&routine).count(), 1);
}

#[test]
fn the_largest_routine_is_colored_by_the_definition_too() {
    let mut random = Random::new(23);
    for _ in 0..4 {
        let routine = worst::largest(&mut random, 16_384);
        let joined = joined_by_hand(&routine);
        let classes = Classes::of(&routine);
        for (one, joined) in joined.iter().enumerate() {
            let lowest = joined.iter().position(|&with| with);
            assert_eq!(classes.of_object[one], lowest);
        }
    }
}

/// Where each version 1 instruction has gone: its check if it has one, and
/// itself.
#[test]
fn version_2_is_the_same_code_with_a_check_before_each_unsafe_store() {
    let mut random = Random::new(24);
    for _ in 0..3_000 {
        let routine = routines::routine(&mut random);
        let colors = colors(&routine).expect("few classes");
        let program = match instrument_routine(&routine) {
            Ok(program) => program,
            Err(refusal) => {
                assert_eq!(refusal.number, 9);
                continue;
            }
        };
        assert_eq!(program.objects, routine.objects);
        assert_eq!(program.colors, colors);
        let mut gone_to = Vec::new();
        let mut code = program.code.iter().copied().enumerate();
        for &instruction in &routine.code {
            let (mut at, mut found) = code.next().expect("as long as the routine");
            gone_to.push(at);
            if let Some(set) = unsafe_set(&routine, instruction) {
                assert_eq!(found, right_check(instruction, colors[set[0]]));
                (at, found) = code.next().expect("a check stands before a store");
                assert_eq!(at, gone_to[gone_to.len() - 1] + 1);
            }
            same_but_for_set_and_target(instruction, found);
        }
        assert_eq!(code.next(), None);
        let stores = program.code.iter().filter(|found| !found.is_check());
        for (&old, &new) in routine.code.iter().zip(stores) {
            let moved = old.target().map(|target| gone_to[target]);
            assert_eq!(new.target(), moved);
        }
    }
}

fn right_check(store: Instruction, c: u8) -> Instruction {
    match store {
        Put8 { g, k, .. } => CheckPut8 { g, k, c },
        Put32 { g, k, .. } => CheckPut32 { g, k, c },
        Write8 { a, .. } => Check8 { a, c },
        Write32 { a, .. } => Check32 { a, c },
        other => panic!("{:?} is no store", other),
    }
}

fn same_but_for_set_and_target(old: Instruction, new: Instruction) {
    let (old_code, mut old_operands) = old.to_numbers();
    let (new_code, mut new_operands) = new.to_numbers();
    let changing = match old_code {
        10 | 11 => Some(2),
        12 => Some(0),
        13 => Some(1),
        _ => None,
    };
    if let Some(at) = changing {
        (old_operands[at], new_operands[at]) = (0, 0);
    }
    assert_eq!((old_code, old_operands), (new_code, new_operands));
}

#[test]
fn extents_and_guards_follow_each_other_without_gap() {
    let mut random = Random::new(25);
    for _ in 0..3_000 {
        let routine = routines::routine(&mut random);
        let classes = Classes::of(&routine);
        let safe = |object: usize| classes.of_object[object].is_none();
        let layout = match layout(&routine.objects, safe) {
            Ok(layout) => layout,
            Err(_) => continue,
        };
        let mut pieces: Vec<(u32, u32)> = layout.guards.iter().map(|&guard| (guard, 8)).collect();
        for (number, object) in routine.objects.iter().enumerate() {
            if let Object::Global { size } = *object {
                let start = layout.starts[number];
                pieces.push((start, extent(size)));
                let guarded = layout.guards.contains(&(start + extent(size)));
                assert!(guarded || safe(number));
            }
        }
        pieces.sort_unstable();
        let mut behind = 8;
        for (start, length) in pieces {
            assert_eq!(start, behind);
            behind += length;
        }
        assert_eq!(behind, layout.end);
        assert!(layout.end <= 28_672);
    }
}

#[test]
fn unsafe_globals_that_end_exactly_at_the_heap() {
    let mut random = Random::new(26);
    for _ in 0..200 {
        let fits = worst::full_of_unsafe_globals(&mut random, false);
        let classes = Classes::of(&fits);
        let safe = |object: usize| classes.of_object[object].is_none();
        assert_eq!(layout(&fits.objects, safe).map(|layout| layout.end), Ok(28_672));
        let above = worst::full_of_unsafe_globals(&mut random, true);
        let refusal = instrument_routine(&above).map(|_| ()).unwrap_err();
        assert_eq!((refusal.number, refusal.place), (9, 0));
    }
}
