//! Times of this implementation, for another to be held to: the loop of the
//! speed request (fill a 4,096-byte global a thousand times through checked
//! stores), and instrumenting a largest file. `--emit` writes out the files, so
//! that both sides are timed on the same ones.

use std::io::{self, Write};
use std::process::ExitCode;
use std::time::Instant;
use independent::file::{Object, Routine};
use independent::gen::random::Random;
use independent::gen::worst;
use independent::instruction::Instruction::*;
use independent::instrument::instrument;
use independent::layout::{MEMORY, TABLE};
use independent::machine;

const USAGE: &str = "\
use: bench [--runs N] [--turns N]
     bench [--turns N] --emit loop-1 | loop-2 | largest
  times N runs of the loop, each filling the global so many turns (1,000), and N
  times instrumenting a largest file; --emit writes the loop's version 1 or
  version 2 file or the largest file to standard output";

const SIZE: u32 = 4_096;

/// What the command line asks for.
struct Options {
    runs: u32,
    turns: u32,
    emit: Option<String>,
}

fn main() -> ExitCode {
    let options = match options(std::env::args().skip(1).collect()) {
        Ok(options) => options,
        Err(words) => {
            eprintln!("bench: {}\n{}", words, USAGE);
            return ExitCode::from(2);
        }
    };
    match carry_out(&options) {
        Ok(()) => ExitCode::SUCCESS,
        Err(words) => {
            eprintln!("bench: {}", words);
            ExitCode::FAILURE
        }
    }
}

fn options(words: Vec<String>) -> Result<Options, String> {
    let mut options = Options { runs: 10, turns: 1_000, emit: None };
    let mut words = words.into_iter();
    while let Some(word) = words.next() {
        let value = words.next().ok_or(format!("{} wants a value", word))?;
        let number = || {
            let number = value.parse::<u32>().ok().filter(|&number| number > 0);
            number.ok_or(format!("{:?} is no number above 0", value))
        };
        match word.as_str() {
            "--runs" => options.runs = number()?,
            "--turns" => options.turns = number()?,
            "--emit" => options.emit = Some(value),
            _ => return Err(format!("{:?} is no option", word)),
        }
    }
    Ok(options)
}

fn carry_out(options: &Options) -> Result<(), String> {
    let routine = fill(options.turns).write();
    let guarded = version_2(&routine)?;
    let largest = worst::largest(&mut Random::new(1), 16_384).write();
    match options.emit.as_deref() {
        None => {
            time_loop(&guarded, options)?;
            time_instrumenting(&largest, options)
        }
        Some("loop-1") => write_out(&routine),
        Some("loop-2") => write_out(&guarded),
        Some("largest") => write_out(&largest),
        Some(other) => Err(format!("there is no file {:?}\n{}", other, USAGE)),
    }
}

fn write_out(file: &[u8]) -> Result<(), String> {
    let written = io::stdout().write_all(file);
    written.map_err(|error| format!("the file cannot be written: {}", error))
}

fn version_2(file: &[u8]) -> Result<Vec<u8>, String> {
    let mut room = vec![0; 32_768];
    let length = instrument(file, &mut room).map_err(|refusal| refusal.to_string())?;
    room.truncate(length);
    Ok(room)
}

/// Byte by byte up to the global's end, with another byte each turn.
fn fill(turns: u32) -> Routine {
    let (to, one, left, turns_left, value) = (0, 1, 2, 3, 4);
    let code = vec![
        Set { d: one, n: 1 },
        Set { d: turns_left, n: turns },
        Place { d: to, g: 0 },
        Set { d: left, n: SIZE },
        Add { d: value, a: value, b: one },
        Write8 { a: to, b: value, s: 0 },
        Add { d: to, a: to, b: one },
        Sub { d: left, a: left, b: one },
        JumpIf { a: left, p: 5 },
        Sub { d: turns_left, a: turns_left, b: one },
        JumpIf { a: turns_left, p: 2 },
        End,
    ];
    Routine { objects: vec![Object::Global { size: SIZE }], sets: vec![vec![0]], code }
}

/// Times whole runs: reading the file, clearing and laying out memory and table
/// are among what is timed, and small beside the loop.
fn time_loop(file: &[u8], options: &Options) -> Result<(), String> {
    let mut memory = vec![0xFF; MEMORY];
    let mut table = vec![0xFF; TABLE];
    let mut times = Vec::new();
    let mut steps = 0;
    for run in 1..=options.runs {
        let before = Instant::now();
        let record = machine::run(file, &[], u32::MAX, &mut memory, &mut table, &mut []);
        times.push(before.elapsed().as_secs_f64());
        println!("loop, run {}: {:.3} ms ({})", run, times[times.len() - 1] * 1e3, record);
        if record.reason != 0 {
            return Err(format!("the loop stopped with {}", record));
        }
        steps = record.steps;
    }
    println!("loop: {} turns, {} steps: {}", options.turns, steps, spread(times));
    Ok(())
}

fn time_instrumenting(file: &[u8], options: &Options) -> Result<(), String> {
    let mut room = vec![0xFF; 32_768];
    let mut times = Vec::new();
    let mut written = 0;
    for _ in 0..options.runs {
        let before = Instant::now();
        let length = instrument(file, &mut room).map_err(|refusal| refusal.to_string());
        times.push(before.elapsed().as_secs_f64());
        written = length?;
    }
    println!("instrumenting: {} bytes to {}: {}", file.len(), written, spread(times));
    Ok(())
}

fn spread(mut times: Vec<f64>) -> String {
    times.sort_by(f64::total_cmp);
    format!(
        "least {:.3} ms, middle {:.3} ms, most {:.3} ms",
        times[0] * 1e3,
        times[times.len() / 2] * 1e3,
        times[times.len() - 1] * 1e3
    )
}
