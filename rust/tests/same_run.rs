//! Plain against instrumented: the same reason, place, steps, numbers out,
//! numbers taken and memory, on many routines, compared after every step.

use std::collections::BTreeMap;
use independent::file::{Object, Routine};
use independent::gen::random::Random;
use independent::gen::{cases, known, routines, soup};
use independent::instruction::Instruction::*;
use independent::instrument::instrument;
use independent::layout::{MEMORY, TABLE};
use independent::lockstep::same_run;
use independent::machine;
use independent::plain;

#[test]
fn the_examples_run_the_same() {
    for case in known::cases() {
        let room = case.room as usize;
        let record = same_run(&case.file, &case.inputs, room, 3_000);
        assert!(record.is_ok(), "{:?}", record);
    }
}

/// After every step: temporaries, output, memory, the account of 28,664 and the
/// whole table; never 35 or 38.
#[test]
fn many_routines_step_by_step() {
    let mut met: BTreeMap<u32, u32> = BTreeMap::new();
    for number in 0..6_000 {
        let mut random = Random::for_case(41, number);
        let file = cases::routine_file(&mut random);
        let inputs: Vec<u32> = (0..random.below(6)).map(|_| random.edgy()).collect();
        let (room, limit) = (random.index(8), random.pick(&[7, 300, 1_500]));
        match same_run(&file, &inputs, room, limit) {
            Ok(record) => *met.entry(record.reason).or_insert(0) += 1,
            Err(words) => panic!("routine {}: {}\n{:02x?}", number, words, file),
        }
    }
    for reason in (0..=9).chain(30..=34).chain([36, 37]) {
        assert!(met.contains_key(&reason), "{} was never met: {:?}", reason, met);
    }
    assert!(!met.contains_key(&35) && !met.contains_key(&38));
}

/// The two `run` functions, at any limit, on longer runs.
#[test]
fn whole_runs_at_any_limit() {
    for number in 0..1_500 {
        let mut random = Random::for_case(42, number);
        let file = routines::routine(&mut random).write();
        let mut version_2 = vec![0; 32_768];
        let length = match instrument(&file, &mut version_2) {
            Ok(length) => length,
            Err(_) => continue,
        };
        let inputs = [3, 28_680, 57_343];
        let limit = random.below(20_000);
        let mut memories = [vec![1; MEMORY], vec![2; MEMORY]];
        let mut outputs = [vec![5; 6], vec![5; 6]];
        let mut table = vec![3; TABLE];
        let [memory, plain_memory] = &mut memories;
        let [output, plain_output] = &mut outputs;
        let file_2 = &version_2[..length];
        let guarded = machine::run(file_2, &inputs, limit, memory, &mut table, output);
        let plain = plain::run(&file, &inputs, limit, plain_memory, plain_output);
        assert_eq!(guarded, plain, "routine {}", number);
        assert!(memories[0] == memories[1] && outputs[0] == outputs[1]);
    }
}

/// Code of stores alone at every address around every edge, under every set.
#[test]
fn every_store_around_every_edge() {
    let objects = vec![
        Object::Global { size: 5 },
        Object::Site,
        Object::Global { size: 9 },
        Object::Global { size: 1 },
        Object::Site,
    ];
    let sets = vec![vec![0, 1], vec![2], vec![1, 3], vec![4]];
    let edges: Vec<u32> = [0, 8, 16, 24, 32, 48, 28_672, 28_680, 28_696, 57_336, 57_344]
        .iter()
        .flat_map(|&edge: &u32| (0..10).map(move |near| (edge + near).wrapping_sub(5)))
        .chain([u32::MAX, u32::MAX - 2, u32::MAX - 3])
        .collect();
    for &address in &edges {
        for s in 0..4 {
            for wide in [false, true] {
                let store = match wide {
                    true => Write32 { a: 0, b: 1, s },
                    false => Write8 { a: 0, b: 1, s },
                };
                let code = vec![
                    Set { d: 2, n: 12 },
                    Alloc { d: 3, g: 1, a: 2 },
                    Alloc { d: 4, g: 4, a: 2 },
                    Set { d: 0, n: address },
                    Set { d: 1, n: 0x0403_0201 },
                    store,
                    Free { a: 3 },
                    store,
                    End,
                    // All four sets count, reached or not.
                    Write8 { a: 0, b: 0, s: 0 },
                    Write8 { a: 0, b: 0, s: 1 },
                    Write8 { a: 0, b: 0, s: 2 },
                    Write8 { a: 0, b: 0, s: 3 },
                ];
                let (objects, sets) = (objects.clone(), sets.clone());
                let routine = Routine { objects, sets, code };
                let record = same_run(&routine.write(), &[], 0, 100);
                assert!(record.is_ok(), "{} {}: {:?}", address, s, record);
            }
        }
    }
}

/// A PUT past its object into every byte behind it.
#[test]
fn every_put_behind_a_global() {
    for k in (0..96).chain([28_640, 28_656, 57_316, 57_320, 57_328, 65_532, 65_535]) {
        for joined in [false, true] {
            let routine = Routine {
                objects: vec![Object::Global { size: 8 }, Object::Global { size: 20 }],
                sets: vec![vec![0, 1]],
                code: vec![
                    Set { d: 1, n: u32::MAX },
                    Put32 { g: 0, k, a: 1 },
                    Put8 { g: 0, k, a: 2 },
                    Put8 { g: 1, k: 24, a: 2 },
                    if joined { Write8 { a: 2, b: 2, s: 0 } } else { End },
                ],
            };
            let record = same_run(&routine.write(), &[], 0, 100);
            assert!(record.is_ok(), "{}: {:?}", k, record);
        }
    }
}

/// Long random orders of ALLOC and FREE on a heap that is nearly full.
#[test]
fn the_heap_in_any_order() {
    for number in 0..60 {
        let mut random = Random::for_case(43, number);
        let mut code = Vec::new();
        let large = random.chance(50);
        while code.len() < 900 {
            let held = random.between(2, 15) as u8;
            let n = match large {
                true => random.between(1, 4_096),
                false => random.between(1, 60),
            };
            code.push(Set { d: 0, n });
            code.push(Free { a: held });
            let g = random.below(2) as u16;
            code.push(Alloc { d: held, g, a: 0 });
        }
        let routine = Routine {
            objects: vec![Object::Site; 2],
            sets: vec![soup::set(&mut random, 2, 2)],
            code,
        };
        let record = same_run(&routine.write(), &[], 0, 2_000).expect("the same run");
        assert_eq!(record.reason, 30);
    }
}
