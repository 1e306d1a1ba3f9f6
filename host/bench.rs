//! The proved controller and the independent one on the same files, in one process: the loop of request
//! R-14 (a 4,096-byte global filled a thousand times through checked stores), and a largest file with
//! limit 0, where all the time goes into reading, coloring, instrumenting, reading back and laying out.
//! Each pair is timed in turn, buffers cleared first; the best, the middle and the ratios are printed.
use independent::{instrument, machine};
use std::time::Instant;
use toltjebrim::{control, MEMORY, TABLE};

/// The independent implementation's controller, as a record's reason and steps.
fn other(file: &[u8], memory: &mut [u8], table: &mut [u8], room: &mut [u32], limit: u32) -> (u64, u64) {
    let mut code = vec![0u8; 32_768];
    match instrument::instrument(file, &mut code) {
        Ok(length) => {
            let run = machine::run(&code[..length], &[], limit, memory, table, room);
            (u64::from(run.reason), u64::from(run.steps))
        }
        Err(refusal) => (u64::from(refusal.number), 0),
    }
}

fn main() {
    let arguments: Vec<String> = std::env::args().skip(1).collect();
    let (name, limit, rounds) = (&arguments[0], arguments[1].parse().unwrap(), 15);
    let file = std::fs::read(name).expect("the file to time");
    let mut times = [Vec::new(), Vec::new()];
    for _ in 0..rounds {
        for side in 0..2 {
            let mut memory = vec![0u8; MEMORY];
            let mut table = vec![0u8; TABLE];
            let mut room = vec![0u32; 1000];
            let began = Instant::now();
            let answer = if side == 0 {
                let run = control(&file, &[], &mut memory, &mut table, &mut room, limit);
                (run.reason.number(), run.steps)
            } else {
                other(&file, &mut memory, &mut table, &mut room, limit)
            };
            times[side].push(began.elapsed().as_secs_f64() * 1e3);
            assert!(answer.0 == 0 || answer.0 == 31, "the run stopped with {:?}", answer);
        }
    }
    for side in &mut times {
        side.sort_by(f64::total_cmp);
    }
    let middle = rounds / 2;
    println!(
        "{}: proved {:.2} ms best, {:.2} middle; Rust {:.2} best, {:.2} middle; ratio {:.2} best, {:.2} middle",
        name, times[0][0], times[0][middle], times[1][0], times[1][middle],
        times[0][0] / times[1][0], times[0][middle] / times[1][middle]
    );
}
