//! Tries the safe wrapper: routine A of the scope, a damaged file, a table of the wrong length, a routine that
//! takes numbers and puts numbers out, and threads side by side.
use toltjebrim::{control, Reason, Record, MEMORY, TABLE};

const A: [u8; 29] = [
    0x01, 0x03, 0x00, 0x05, 0x00, 0x08, 0x01, 0x01, 0x02, 0x00, 0x02, 0x05, 0x01, 0x01, 0x07, 0x02,
    0x00, 0x00, 0x0A, 0x00, 0x01, 0x00, 0x03, 0x00, 0x00, 0x01, 0x0D, 0x01, 0x02,
];

/// IN 0, IN 1, ADD 2 0 1, OUT 2, OUT 0, JUMP 0
const SUMS: [u8; 18] = [
    0x01, 0x00, 0x00, 0x06, 0x10, 0x00, 0x10, 0x01, 0x03, 0x02, 0x00, 0x01, 0x11, 0x02, 0x11, 0x00,
    0x0C, 0x00,
];

/// All that a run gives: the record, memory, table, and room.
type Given = (Record, Vec<u8>, Vec<u8>, Vec<u32>);

/// One of many runs, told apart by a number: A at some limit, or sums of its own.
fn run_of(number: u32) -> Given {
    let mut memory = vec![number as u8; MEMORY];
    let mut table = vec![number as u8; TABLE];
    let mut room = vec![number; 40];
    let input: Vec<u32> = (0..number % 50).map(|n| n * number).collect();
    let (file, limit) = if number % 2 == 0 { (&A[..], number / 2 % 9) } else { (&SUMS[..], 1_000) };
    let run = control(file, &input, &mut memory, &mut table, &mut room, limit);
    (run, memory, table, room)
}

/// Runs in four threads give what the same runs give one after the other.
fn side_by_side_is_the_same() -> bool {
    let alone: Vec<Given> = (0..64).map(run_of).collect();
    let of_thread = |thread: u32| -> bool {
        // Each thread begins elsewhere, so that different runs meet.
        (0..256).all(|turn| {
            let number = (turn * 7 + thread * 16) % 64;
            run_of(number) == alone[number as usize]
        })
    };
    let of_thread = &of_thread;
    std::thread::scope(|scope| {
        let threads: Vec<_> = (0..4).map(|n| scope.spawn(move || of_thread(n))).collect();
        threads.into_iter().all(|thread| thread.join().unwrap_or(false))
    })
}

fn record(reason: Reason, place: u64, steps: u64) -> Record {
    Record {
        reason,
        place,
        steps,
        out: 0,
        taken: 0,
    }
}

/// Each number is one reason's, which has words; 12 to 29 and from 39 on are none.
fn reasons_are_numbers() -> bool {
    (0..50).all(|number| match Reason::of(number) {
        Some(reason) => reason.number() == number && !reason.to_string().is_empty(),
        None => (12..30).contains(&number) || number > 38,
    })
}

fn main() {
    let (mut passed, mut failed) = (0, 0);
    let mut check = |what: &str, holds: bool| {
        println!("{}: {}", if holds { "ok" } else { "FAILED" }, what);
        if holds {
            passed += 1
        } else {
            failed += 1
        }
    };
    let mut memory = vec![9u8; MEMORY];
    let mut table = vec![9u8; TABLE];
    let mut room = vec![9u32; 1000];

    let run = control(&A[..28], &[], &mut memory, &mut table, &mut room, 1_000_000);
    check("a file that ends early is refused with 2 at its length", run == record(Reason::EndsEarly, 28, 0));
    let kept = memory.iter().chain(&table).all(|&byte| byte == 9) && room.iter().all(|&n| n == 9);
    check("a refusal changes nothing that was lent", kept);

    let run = control(&A, &[], &mut memory, &mut table, &mut room, 1_000_000);
    check("routine A gives 36 2 8 0 0", run == record(Reason::Forbidden, 2, 8));
    check("bytes 24 and 31 hold 7", memory[24] == 7 && memory[31] == 7);
    check("numbers past those put out stay", room.iter().all(|&n| n == 9));

    let run = control(&A, &[], &mut memory, &mut table[1..], &mut room, 1_000_000);
    check("a table of another length is refused with 11", run == record(Reason::Lengths, 0, 0));

    let numbers = |reason, place, steps, out, taken| Record { reason, place, steps, out, taken };
    room.fill(9);
    let run = control(&SUMS, &[35, 7, 57_000], &mut memory, &mut table, &mut room, 1_000);
    check("three inputs: 32 1 7 2 3", run == numbers(Reason::NoInput, 1, 7, 2, 3));
    check("42 and 35 were put out", room[..2] == [42, 35]);
    check("what is behind them stays", room[2..].iter().all(|&n| n == 9));
    let run = control(&SUMS, &[35, 7, 57_000], &mut memory, &mut table, &mut room[..1], 1_000);
    check("room for one number: 33 4 4 1 2", run == numbers(Reason::NoRoom, 4, 4, 1, 2));

    check("threads side by side give what runs alone give", side_by_side_is_the_same());
    check("each reason has its number and words", reasons_are_numbers());
    println!("{} passed, {} failed", passed, failed);
    if failed != 0 {
        std::process::exit(1);
    }
}
