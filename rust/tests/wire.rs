//! The wire: cases and answers as bytes, digests, a whole trial over pipes, and
//! a wrong program that is found out.

use std::process::{Command, Output};
use independent::gen::cases;
use independent::gen::known::{as_the_program_runs, ROUTINE_A};
use independent::shrink::shrink;
use independent::wire::{
    digest, digest_bytes, from_hex, to_hex, Answer, Case, Kind, LARGEST_MEMORY, LARGEST_ROOM,
    LARGEST_TABLE, LONGEST_FILE, MOST_INPUTS, MOST_OUTPUTS,
};

const TRIALS: &str = env!("CARGO_BIN_EXE_trials");

fn trials(words: &[&str]) -> Output {
    let output = Command::new(TRIALS).args(words).output();
    output.expect("the trials can be started")
}

fn text(bytes: &[u8]) -> String {
    String::from_utf8_lossy(bytes).into_owned()
}

#[test]
fn digests_as_the_protocol_states_them() {
    assert_eq!(digest_bytes(&[]), 1);
    assert_eq!(digest_bytes(&[0]), 16_777_619);
    assert_eq!(digest_bytes(&[1, 2, 3]), 2_123_067_159);
    assert_eq!(digest([u32::MAX]), 16_777_623);
    assert_eq!(digest([u32::MAX, 300]), 705_135_088);
    assert_eq!(digest_bytes(&[0; 57_344]), 1_018_002_149);
}

#[test]
fn a_case_byte_by_byte() {
    let case = Case { inputs: vec![0x0102_0304], ..as_the_program_runs(vec![0xAB, 0xCD]) };
    let expected = concat!(
        "095a0000", "02000000", "01000000", "00000000", "e8030000", "40420f00", "00e00000",
        "001c0000", "abcd", "04030201"
    );
    assert_eq!(to_hex(&case.to_bytes()), expected);
    assert_eq!(Case::from_bytes(&from_hex(expected).expect("hex")), Ok(case));
}

#[test]
fn routine_a_as_a_case() {
    let answer = as_the_program_runs(ROUTINE_A.to_vec()).answer();
    // The digests are the protocol's own example.
    let digests = [25_916_328, 2_994_121_076, 3_722_569_982];
    assert_eq!(answer.0[..5], [36, 2, 8, 0, 0]);
    assert_eq!(answer.0[5..], digests);
    let bytes = answer.to_bytes();
    assert_eq!(bytes[..12], [36, 0, 0, 0, 2, 0, 0, 0, 8, 0, 0, 0]);
    let mut array = [0; 32];
    array.copy_from_slice(&bytes);
    assert_eq!(Answer::from_bytes(&array), answer);
}

#[test]
fn cases_are_read_back_and_keep_to_the_maximums() {
    for number in 0..3_000 {
        let case = cases::case(61, number, &Kind::ALL);
        assert!(case.file.len() <= LONGEST_FILE);
        assert!(case.inputs.len() <= MOST_INPUTS);
        assert!(case.memory as usize <= LARGEST_MEMORY);
        assert!(case.table as usize <= LARGEST_TABLE);
        let most = match case.kind {
            Kind::Run | Kind::Control => MOST_OUTPUTS,
            _ => LARGEST_ROOM,
        };
        assert!(case.room as usize <= most);
        assert_eq!(Case::from_bytes(&case.to_bytes()), Ok(case));
    }
}

#[test]
fn a_case_that_differs_is_made_small() {
    // As if only a file with a JUMP were answered wrongly.
    let has_jump = |case: &Case| case.file.windows(2).any(|pair| pair == [12, 0]);
    let code = [vec![1, 0, 0, 41], [17, 0].repeat(20), vec![12, 0]];
    let mut file: Vec<u8> = code.concat();
    file.extend([16, 3].repeat(20));
    let small = shrink(as_the_program_runs(file), has_jump, 500);
    assert_eq!(small.file, [1, 0, 0, 1, 12, 0]);
}

#[test]
fn a_right_program_passes() {
    let serve = format!("{} --serve", TRIALS);
    let output = trials(&["--program", &serve, "--cases", "6000", "--seed", "3"]);
    let (out, err) = (text(&output.stdout), text(&output.stderr));
    assert!(output.status.success(), "{}{}", out, err);
    assert!(
        out.contains("6000 cases, 0 different, 0 numbers not reached, 0 states not reached"),
        "{}",
        out
    );
}

#[test]
fn a_wrong_program_is_found_out_and_the_case_replays() {
    let wrong = format!("{} --serve --spoil 36", TRIALS);
    let output = trials(&["--program", &wrong, "--cases", "300"]);
    let out = text(&output.stdout);
    assert_eq!(output.status.code(), Some(1), "{}", out);
    assert!(out.contains("differs"), "{}", out);
    let replay = out.lines().find_map(|line| line.strip_prefix("replay: --replay "));
    let hex = replay.expect("a case to replay");
    let again = trials(&["--program", &wrong, "--replay", hex]);
    assert_eq!(again.status.code(), Some(1));
    let right = format!("{} --serve", TRIALS);
    assert!(trials(&["--program", &right, "--replay", hex]).status.success());
}

/// The number of a case that a report tells is the one that replay takes, for an
/// opening case and for one from the seed, and with some kinds alone.
#[test]
fn the_number_of_a_case_replays() {
    let wrong = format!("{} --serve --spoil 8", TRIALS);
    for more in [&["--seed", "9"][..], &["--seed", "7", "--kinds", "6"]] {
        let mut words = vec!["--program", &wrong, "--cases", "3000"];
        words.extend(more);
        let out = text(&trials(&words).stdout);
        let told: Vec<&str> = out.lines().filter_map(|line| line.strip_prefix("again: ")).collect();
        assert_eq!(told.len(), 5, "{}", out);
        for again in told {
            let mut words = vec!["--program", &wrong];
            words.extend(again.split(' '));
            let shown = text(&trials(&words).stdout);
            assert!(shown.contains("differs"), "{}", shown);
        }
    }
}

/// Bytes are digested many at once, to the same number as one by one.
#[test]
fn digests_of_bytes_at_once_and_one_by_one() {
    for length in 0..200_u32 {
        let bytes: Vec<u8> = (0..length).map(|n| (n * 91 + length) as u8).collect();
        assert_eq!(digest_bytes(&bytes), digest(bytes.iter().map(|&byte| u32::from(byte))));
    }
    let most = vec![255; 57_408];
    assert_eq!(digest_bytes(&most), digest(most.iter().map(|&byte| u32::from(byte))));
}

#[test]
fn a_program_that_ends_early_is_found_out() {
    let output = trials(&["--program", "head -c 1 > /dev/null", "--cases", "50"]);
    assert_eq!(output.status.code(), Some(1));
    let err = text(&output.stderr);
    assert!(err.contains("ended without an answer"), "{}", err);
}

#[test]
fn too_few_cases_to_reach_everything_fail() {
    let serve = format!("{} --serve", TRIALS);
    let output = trials(&["--program", &serve, "--cases", "20"]);
    assert_eq!(output.status.code(), Some(1));
    assert!(text(&output.stdout).contains("not reached: 38 (unsound heap)"));
}

#[test]
fn mistakes_in_use_get_a_clear_line() {
    for words in [&["--program"][..], &["--cases", "x", "--self"], &["--kinds", "12"], &[], &["-v"]]
    {
        let output = trials(words);
        assert_eq!(output.status.code(), Some(2));
        assert!(text(&output.stderr).starts_with("trials: "));
    }
    let output = trials(&["--self", "--replay", "zz"]);
    assert_eq!(output.status.code(), Some(1));
}
