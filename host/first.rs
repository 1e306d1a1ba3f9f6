//! A first program: runs the routine in a file and says in words how it went.
use std::process::exit;
use toltjebrim::{control, MEMORY, TABLE};

fn main() {
    let name = std::env::args().nth(1).unwrap_or_else(|| {
        eprintln!("usage: first FILE");
        exit(2)
    });
    let file = std::fs::read(&name).unwrap_or_else(|why| {
        eprintln!("{name}: {why}");
        exit(1)
    });
    let mut memory = vec![0u8; MEMORY];
    let mut table = vec![0u8; TABLE];
    let mut room = [0u32; 100];
    let run = control(&file, &[], &mut memory, &mut table, &mut room, 1_000_000);
    if run.reason.is_refusal() {
        println!("{name} was not run: {} ({}, byte {})", run.reason, run.reason.number(), run.place);
        return;
    }
    println!("{} at instruction {} after {} steps", run.reason, run.place, run.steps);
    println!("numbers out: {:?}", &room[..run.out as usize]);
}
