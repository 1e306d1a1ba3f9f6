//! Runs routines that nobody has read, each store held to its list: the proved controller's one entry point, as a
//! safe function over the static library. docs/HOSTS.md has it at length, docs/NUMBERS.md every number.
//!
//! The library has no data of its own, so any number of threads may call it at once. A call takes at most [`STACK`]
//! bytes of stack. Nothing compares the declaration below with the Rattle source; host/test.rs tries it.

use std::fmt;

/// The exact lengths, in bytes, of lent memory and of the lent table.
pub const MEMORY: usize = 57_344;
pub const TABLE: usize = 7_168;

/// The longest routine, in bytes; a longer one is refused unread.
pub const ROUTINE: usize = 16_384;

/// No call takes more bytes of stack than this; a thread of a smaller stack dies.
pub const STACK: usize = 491_520;

/// How a run stopped (0, and from 30 on), or why there was none (1 to 11).
#[derive(Clone, Copy, Debug, PartialEq, Eq)]
#[repr(u8)]
pub enum Reason {
    /// The run reached END.
    End = 0,
    TooLong = 1,
    EndsEarly = 2,
    /// A number is not in its shortest form, or does not fit 32 bits.
    BadNumber = 3,
    Version = 4,
    Count = 5,
    Field = 6,
    LeftOver = 7,
    /// More than 254 classes.
    Classes = 8,
    /// The globals do not fit.
    Globals = 9,
    /// Never given by [`control`], whose own room holds every instrumented file.
    CodeRoom = 10,
    /// Memory or table is not of its exact length.
    Lengths = 11,
    PastEnd = 30,
    Limit = 31,
    NoInput = 32,
    NoRoom = 33,
    ReadOutside = 34,
    /// Never given by [`control`]: its checks stop such a store as forbidden.
    StoreOutside = 35,
    /// A store aimed outside the objects on its list, and changed nothing.
    Forbidden = 36,
    BadFree = 37,
    /// Never given by [`control`]: no checked store writes a header.
    Unsound = 38,
}

/// The reasons in the order of their numbers, with their words.
const WORDS: [(Reason, &str); 21] = [
    (Reason::End, "finished"),
    (Reason::TooLong, "the file is too long"),
    (Reason::EndsEarly, "the file ends early"),
    (Reason::BadNumber, "a number is not in its shortest form, or does not fit 32 bits"),
    (Reason::Version, "the version is another one"),
    (Reason::Count, "a count is out of its range"),
    (Reason::Field, "a number is out of its range or order"),
    (Reason::LeftOver, "bytes after the last instruction"),
    (Reason::Classes, "more than 254 classes"),
    (Reason::Globals, "the globals do not fit"),
    (Reason::CodeRoom, "no room for the instrumented code"),
    (Reason::Lengths, "memory or table of another length"),
    (Reason::PastEnd, "past the last instruction"),
    (Reason::Limit, "the limit was used up"),
    (Reason::NoInput, "no more input"),
    (Reason::NoRoom, "no room for output"),
    (Reason::ReadOutside, "a read outside memory"),
    (Reason::StoreOutside, "a store outside memory"),
    (Reason::Forbidden, "a forbidden store"),
    (Reason::BadFree, "a bad FREE"),
    (Reason::Unsound, "an unsound heap"),
];

impl Reason {
    /// The reason of a number, if it is one.
    pub fn of(number: u64) -> Option<Reason> {
        WORDS.iter().map(|row| row.0).find(|reason| reason.number() == number)
    }

    pub fn number(self) -> u64 {
        self as u64
    }

    /// Whether the routine was not run.
    pub fn is_refusal(self) -> bool {
        (1..30).contains(&self.number())
    }
}

impl fmt::Display for Reason {
    fn fmt(&self, f: &mut fmt::Formatter<'_>) -> fmt::Result {
        f.write_str(WORDS.iter().find(|row| row.0 == *self).map_or("", |row| row.1))
    }
}

/// What comes back. Of a refusal the place is a byte of the file (0 for 1, 8, 9 and 11), and steps, out and taken are
/// 0; of a stop it is the instruction, counted from 0.
#[derive(Clone, Copy, Debug, PartialEq, Eq)]
pub struct Record {
    pub reason: Reason,
    pub place: u64,
    /// Instructions that were completed; checks are not among them.
    pub steps: u64,
    /// How many numbers stand in the room.
    pub out: u64,
    /// How many numbers of the input were taken.
    pub taken: u64,
}

extern "C" {
    fn toltjebrim_control(
        file: *const u8,
        file_length: usize,
        input: *const u32,
        input_length: usize,
        memory: *mut u8,
        memory_length: usize,
        table: *mut u8,
        table_length: usize,
        room: *mut u32,
        room_length: usize,
        limit: u32,
        numbers: *mut [u64; 5],
    );
}

/// Instruments a routine (a version 1 file) and runs it for at most `limit` completed instructions.
///
/// Memory and table are cleared first, so nothing of an earlier run is left. What came before a stop stays, in memory
/// and in room; the instruction that stops changes nothing; numbers of `room` behind the last one put out stay as
/// they were. Any lengths may be lent: memory or table of another length is refused with 11. A refusal changes
/// nothing that was lent.
pub fn control(
    file: &[u8],
    input: &[u32],
    memory: &mut [u8],
    table: &mut [u8],
    room: &mut [u32],
    limit: u32,
) -> Record {
    let mut numbers = [0u64; 5];
    // The slices are live and apart for the whole call, by Rust's own rules; the function asks for
    // nothing else.
    unsafe {
        toltjebrim_control(
            file.as_ptr(),
            file.len(),
            input.as_ptr(),
            input.len(),
            memory.as_mut_ptr(),
            memory.len(),
            table.as_mut_ptr(),
            table.len(),
            room.as_mut_ptr(),
            room.len(),
            limit,
            &mut numbers,
        );
    }
    let [reason, place, steps, out, taken] = numbers;
    Record {
        // The library gives no other number: that is proved of it.
        reason: Reason::of(reason).expect("a number of the library"),
        place,
        steps,
        out,
        taken,
    }
}
