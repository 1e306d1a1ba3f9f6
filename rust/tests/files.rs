//! Reading and writing: the edge of every field with its refusal and place, the
//! order of refusals, and the round trips.

use independent::file::{
    read_instrumented, read_routine, write_numbers, Instrumented, Routine, Version,
};
use independent::gen::random::Random;
use independent::gen::{cases, damaged, others, routines, worst};
use independent::instrument::instrument;
use independent::number;
use independent::refusal::Refusal;

type Refused = Result<(), Refusal>;

fn refused(number: u32, place: u32) -> Refused {
    Err(Refusal { number, place })
}

fn read_1(numbers: &[u32]) -> Refused {
    read_routine(&write_numbers(numbers)).map(|_| ())
}

fn read_2(numbers: &[u32]) -> Refused {
    read_instrumented(&write_numbers(numbers)).map(|_| ())
}

#[test]
fn every_number_is_read_back() {
    let mut random = Random::new(1);
    for turn in 0..100_000 {
        let value = match turn {
            0..=70_000 => turn,
            _ => random.edgy(),
        };
        let mut file = vec![0xFF];
        number::write(value, &mut file);
        assert_eq!(number::read(&file, 1), Ok((value, file.len())));
        assert_eq!(number::length(value), file.len() - 1);
        let cut = number::read(&file[..file.len() - 1], 1).map(|_| ());
        assert_eq!(cut, refused(2, file.len() as u32 - 1));
    }
}

#[test]
fn every_short_file_is_one_number_or_refused_as_it_should_be() {
    for first in 0..=255_u8 {
        for second in 0..=255_u8 {
            let answer = number::read(&[first, second], 0);
            let expected = match (first, second) {
                (0..=127, _) => Ok((u32::from(first), 1)),
                (_, 128..=255) => Err(Refusal { number: 2, place: 2 }),
                (_, 0) => Err(Refusal { number: 3, place: 0 }),
                _ => Ok((u32::from(first & 127) + 128 * u32::from(second), 2)),
            };
            assert_eq!(answer, expected);
        }
    }
}

#[test]
fn a_fifth_byte_is_refused_at_once() {
    for fifth in 16..=255 {
        let alone = [0x80, 0x80, 0x80, 0x80, fifth];
        assert_eq!(number::read(&alone, 0).map(|_| ()), refused(3, 0));
    }
    // A fifth byte of 0 is not the shortest form.
    let empty = [0x80, 0x80, 0x80, 0x80, 0];
    assert_eq!(number::read(&empty, 0).map(|_| ()), refused(3, 0));
    assert_eq!(number::read(&[1], 1).map(|_| ()), refused(2, 1));
    assert_eq!(number::read(&[1], 900).map(|_| ()), refused(2, 1));
}

#[test]
fn the_edges_of_a_version_1_file() {
    // Version, objects, sets.
    assert_eq!(read_1(&[]), refused(2, 0));
    assert_eq!(read_1(&[2]), refused(4, 0));
    assert_eq!(read_1(&[1]), refused(2, 1));
    assert_eq!(read_1(&[1, 401]), refused(5, 1));
    assert_eq!(read_1(&[1, 400]), refused(2, 3));
    assert_eq!(read_1(&[1, 1, 2]), refused(6, 2));
    assert_eq!(read_1(&[1, 1, 0, 0]), refused(6, 3));
    assert_eq!(read_1(&[1, 1, 0, 4_097]), refused(6, 3));
    assert_eq!(read_1(&[1, 1, 0, 4_096]), refused(2, 5));
    assert_eq!(read_1(&[1, 1, 1, 401]), refused(5, 3));
    assert_eq!(read_1(&[1, 1, 1, 1, 0]), refused(5, 4));
    assert_eq!(read_1(&[1, 1, 1, 1, 2]), refused(5, 4));
    assert_eq!(read_1(&[1, 0, 1, 0]), refused(5, 3));
    assert_eq!(read_1(&[1, 0, 1, 1]), refused(5, 3));
    assert_eq!(read_1(&[1, 1, 1, 1, 1, 1]), refused(6, 5));
    assert_eq!(read_1(&[1, 2, 1, 1, 1, 2, 1, 1]), refused(6, 7));
    assert_eq!(read_1(&[1, 2, 1, 1, 1, 2, 1, 0]), refused(6, 7));
    // Instructions.
    assert_eq!(read_1(&[1, 0, 0, 0]), refused(5, 3));
    assert_eq!(read_1(&[1, 0, 0, 1_001]), refused(5, 3));
    assert_eq!(read_1(&[1, 0, 0, 1_000]), refused(2, 5));
    assert_eq!(read_1(&[1, 0, 0, 1, 0]), Ok(()));
    assert_eq!(read_1(&[1, 0, 0, 1, 0, 0]), refused(7, 5));
    assert_eq!(read_1(&[1, 0, 0, 1, 18]), refused(6, 4));
    assert_eq!(read_1(&[1, 0, 0, 1, 22]), refused(6, 4));
    assert_eq!(read_1(&[1, 0, 0, 1, u32::MAX]), refused(6, 4));
}

/// A file with a global (object 0), a site (1), one set and one instruction.
fn one_instruction(numbers: &[u32]) -> Refused {
    let mut file = vec![1, 2, 0, 8, 1, 1, 1, 0, 1];
    file.extend(numbers);
    read_1(&file)
}

#[test]
fn the_edges_of_operands() {
    let good: [&[u32]; 18] = [
        &[0],
        &[1, 15, u32::MAX],
        &[2, 15, 0],
        &[3, 15, 15, 15],
        &[4, 15, 15, 15],
        &[5, 15, 15, 15],
        &[6, 15, 15],
        &[7, 15, 15],
        &[8, 0, 65_535, 15],
        &[9, 0, 65_535, 15],
        &[10, 15, 15, 0],
        &[11, 15, 15, 0],
        &[12, 0],
        &[13, 15, 0],
        &[14, 15, 1, 15],
        &[15, 15],
        &[16, 15],
        &[17, 15],
    ];
    for numbers in good {
        assert_eq!(one_instruction(numbers), Ok(()), "{:?}", numbers);
        // One more in any operand is refused there, but n takes any number; a
        // larger g is of the other kind or does not exist.
        for at in 1..numbers.len() {
            let mut above = numbers.to_vec();
            above[at] = above[at].wrapping_add(1);
            let place = 9 + write_numbers(&numbers[..at]).len() as u32;
            let any_number = numbers[0] == 1 && at == 2;
            let expected = if any_number { Ok(()) } else { refused(6, place) };
            assert_eq!(one_instruction(&above), expected, "{:?}", above);
        }
    }
    // A site where a global is asked for, and the other way round.
    assert_eq!(one_instruction(&[2, 0, 1]), refused(6, 11));
    assert_eq!(one_instruction(&[14, 0, 0, 0]), refused(6, 11));
}

#[test]
fn the_edges_of_a_version_2_file() {
    assert_eq!(read_2(&[1]), refused(4, 0));
    for color in [0, 2, 255] {
        assert_eq!(read_2(&[2, 1, 1, color, 1, 0]), Ok(()));
    }
    for color in [1, 256, u32::MAX] {
        assert_eq!(read_2(&[2, 1, 1, color, 1, 0]), refused(6, 3));
    }
    assert_eq!(read_2(&[2, 1, 0, 8, 1]), refused(6, 4));
    assert_eq!(read_2(&[2, 0, 2_001]), refused(5, 2));
    assert_eq!(read_2(&[2, 0, 0]), refused(5, 2));
    assert_eq!(read_2(&[2, 0, 2_000]), refused(2, 4));
    // WRITEs have no set here.
    assert_eq!(read_2(&[2, 0, 1, 10, 15, 15]), Ok(()));
    assert_eq!(read_2(&[2, 0, 1, 11, 15, 15, 0]), refused(7, 6));
    // Colors of checks.
    for check in [18, 19] {
        assert_eq!(read_2(&[2, 0, 1, check, 0, 2]), Ok(()));
        assert_eq!(read_2(&[2, 0, 1, check, 0, 255]), Ok(()));
        assert_eq!(read_2(&[2, 0, 1, check, 0, 0]), refused(6, 5));
        assert_eq!(read_2(&[2, 0, 1, check, 0, 1]), refused(6, 5));
        assert_eq!(read_2(&[2, 0, 1, check, 0, 256]), refused(6, 5));
        assert_eq!(read_2(&[2, 0, 1, check, 16, 2]), refused(6, 4));
    }
    for check in [20, 21] {
        assert_eq!(read_2(&[2, 1, 0, 8, 0, 1, check, 0, 0, 255]), Ok(()));
        assert_eq!(read_2(&[2, 1, 1, 0, 1, check, 0, 0, 2]), refused(6, 6));
    }
}

#[test]
fn too_long_comes_before_all_else() {
    let long_1 = vec![0xFF; 16_385];
    assert_eq!(read_routine(&long_1).map(|_| ()), refused(1, 0));
    assert_eq!(read_routine(&long_1[1..]).map(|_| ()), refused(3, 0));
    let long_2 = vec![0xFF; 32_769];
    assert_eq!(read_instrumented(&long_2).map(|_| ()), refused(1, 0));
    assert_eq!(read_instrumented(&long_2[1..]).map(|_| ()), refused(3, 0));
}

#[test]
fn what_is_written_is_read_back() {
    let mut random = Random::new(7);
    for _ in 0..3_000 {
        let routine = routines::routine(&mut random);
        assert_eq!(read_routine(&routine.write()), Ok(routine));
        let file = others::program(&mut random).write();
        let program = read_instrumented(&file).expect("written from ranged fields");
        assert_eq!(program.write(), file);
    }
}

/// One spelling for each file: what is accepted is what is written for it.
#[test]
fn what_is_accepted_is_written_the_same() {
    let mut random = Random::new(8);
    let mut accepted = 0;
    for _ in 0..20_000 {
        let numbers = routines::routine(&mut random).numbers();
        let file = damaged::damage(&mut random, &numbers, Version::Routine);
        if let Ok(routine) = read_routine(&file) {
            accepted += 1;
            assert_eq!(routine.write(), file);
        }
        let numbers = others::program(&mut random).numbers();
        let file = damaged::damage(&mut random, &numbers, Version::Instrumented);
        if let Ok(program) = read_instrumented(&file) {
            assert_eq!(program.write(), file);
        }
    }
    assert!(accepted > 500, "only {} damaged files were accepted", accepted);
}

/// A truncated good file ends early at its length, or inside a number that was
/// cut to a shorter one.
#[test]
fn every_truncation_of_a_good_file_ends_early() {
    let mut random = Random::new(9);
    for _ in 0..200 {
        let file = routines::routine(&mut random).write();
        for length in 0..file.len() {
            let answer = read_routine(&file[..length]).map(|_| ());
            assert_eq!(answer, refused(2, length as u32));
        }
    }
}

#[test]
fn the_largest_files() {
    let mut random = Random::new(10);
    for _ in 0..5 {
        let routine = worst::largest(&mut random, 16_384);
        let file = routine.write();
        assert_eq!(file.len(), 16_384);
        let counts = |routine: &Routine| {
            let Routine { objects, sets, code } = routine;
            (objects.len(), sets.len(), code.len())
        };
        assert_eq!(counts(&routine), (400, 400, 1_000));
        assert_eq!(read_routine(&file), Ok(routine));
        let longer = worst::largest(&mut random, 16_385).write();
        assert_eq!(read_routine(&longer).map(|_| ()), refused(1, 0));
        let mut room = vec![0; 32_768];
        if let Ok(length) = instrument(&file, &mut room) {
            assert!(read_instrumented(&room[..length]).is_ok());
        }
        let program: Instrumented = worst::largest_instrumented(&mut random);
        assert_eq!((program.objects.len(), program.code.len()), (400, 2_000));
        assert_eq!(read_instrumented(&program.write()), Ok(program));
    }
}

#[test]
fn instrumenting_refuses_in_its_order_and_changes_nothing() {
    let mut random = Random::new(11);
    let mut refusals = [0; 12];
    for _ in 0..6_000 {
        let file = cases::routine_file(&mut random);
        let mut whole = vec![0x77; 32_768];
        let length = match instrument(&file, &mut whole) {
            Ok(length) => length,
            Err(refusal) => {
                assert!(whole.iter().all(|&byte| byte == 0x77));
                refusals[refusal.number as usize] += 1;
                // The same with no room at all: 10 comes last.
                assert_eq!(instrument(&file, &mut []), Err(refusal));
                continue;
            }
        };
        assert!(whole[length..].iter().all(|&byte| byte == 0x77));
        let mut short = vec![0x77; length - 1];
        let answer = instrument(&file, &mut short).map(|_| ());
        assert_eq!(answer, refused(10, 0));
        assert!(short.iter().all(|&byte| byte == 0x77));
        let mut exact = vec![0; length];
        assert_eq!(instrument(&file, &mut exact), Ok(length));
        assert_eq!(exact, whole[..length]);
    }
    assert!(refusals[1..=9].iter().all(|&count| count > 0), "{:?}", refusals);
}
