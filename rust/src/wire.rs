//! Cases and answers as bytes on a pipe, and what this implementation answers.
//! PROTOCOL.md says the same in words; both change together.

use crate::coloring;
use crate::file::{read_instrumented, read_routine};
use crate::instrument::instrument;
use crate::layout::{MEMORY, TABLE};
use crate::machine::{self, Machine};
use crate::number;
use crate::plain;
use crate::record::Record;
use crate::refusal::{Refusal, ROOM};

/// What a case asks for.
#[derive(Clone, Copy, Debug, PartialEq, Eq, PartialOrd, Ord)]
pub enum Kind {
    ReadNumber = 1,
    WriteNumber = 2,
    ReadRoutine = 3,
    ReadInstrumented = 4,
    WriteInstrumented = 5,
    Color = 6,
    Instrument = 7,
    Run = 8,
    Control = 9,
}

/// In the place of a kind: no more cases.
pub const NO_MORE: u8 = 0;

impl Kind {
    pub const ALL: [Kind; 9] = [
        Kind::ReadNumber,
        Kind::WriteNumber,
        Kind::ReadRoutine,
        Kind::ReadInstrumented,
        Kind::WriteInstrumented,
        Kind::Color,
        Kind::Instrument,
        Kind::Run,
        Kind::Control,
    ];

    pub fn from_byte(byte: u8) -> Option<Kind> {
        Kind::ALL.iter().copied().find(|kind| *kind as u8 == byte)
    }

    pub fn name(self) -> &'static str {
        match self {
            Kind::ReadNumber => "reading a number",
            Kind::WriteNumber => "writing a number",
            Kind::ReadRoutine => "reading version 1",
            Kind::ReadInstrumented => "reading version 2",
            Kind::WriteInstrumented => "writing version 2",
            Kind::Color => "coloring",
            Kind::Instrument => "instrumenting",
            Kind::Run => "running version 2",
            Kind::Control => "the controller",
        }
    }

    /// The names of the answer's words; an empty one is always 0.
    pub fn fields(self) -> [&'static str; WORDS] {
        match self {
            Kind::ReadNumber => ["refusal", "place", "value", "next", "", "", "", ""],
            Kind::WriteNumber => ["refusal", "place", "length", "next", "", "room", "", ""],
            Kind::ReadRoutine | Kind::ReadInstrumented => {
                let counts = ["objects", "sets", "instructions"];
                let [objects, sets, instructions] = counts;
                let numbers = "numbers";
                ["refusal", "place", objects, sets, instructions, numbers, "", ""]
            }
            Kind::WriteInstrumented | Kind::Instrument => {
                ["refusal", "place", "length", "", "", "room", "", ""]
            }
            Kind::Color => ["refusal", "place", "objects", "", "", "colors", "", ""],
            Kind::Run | Kind::Control => {
                ["reason", "place", "steps", "out", "taken", "memory", "table", "output"]
            }
        }
    }
}

/// One case. A field that its kind has no use for is 0 or empty.
#[derive(Clone, Debug, PartialEq, Eq)]
pub struct Case {
    pub kind: Kind,
    /// What lent memory, table and rooms hold in every byte before the call.
    pub fill: u8,
    pub file: Vec<u8>,
    pub inputs: Vec<u32>,
    /// Where a number is read or written.
    pub cursor: u32,
    /// Bytes for the version 2 file or the number; numbers for the output.
    pub room: u32,
    /// The limit of a run; the number to be written.
    pub limit: u32,
    /// The lengths of lent memory and table.
    pub memory: u32,
    pub table: u32,
}

/// A case's bytes before its file.
pub const HEADER: usize = 32;
/// What a program that answers must be able to hold.
pub const LONGEST_FILE: usize = 40_960;
pub const MOST_INPUTS: usize = 1_024;
pub const MOST_OUTPUTS: usize = 1_024;
pub const LARGEST_ROOM: usize = 40_960;
pub const LARGEST_MEMORY: usize = MEMORY + 64;
pub const LARGEST_TABLE: usize = TABLE + 64;
/// The room that the controller brings for a version 2 file.
const LONGEST_VERSION_2: usize = 32_768;

impl Case {
    pub fn new(kind: Kind) -> Case {
        Case {
            kind,
            fill: 0,
            file: Vec::new(),
            inputs: Vec::new(),
            cursor: 0,
            room: 0,
            limit: 0,
            memory: 0,
            table: 0,
        }
    }

    pub fn to_bytes(&self) -> Vec<u8> {
        let mut bytes = vec![self.kind as u8, self.fill, 0, 0];
        let words = [
            self.file.len() as u32,
            self.inputs.len() as u32,
            self.cursor,
            self.room,
            self.limit,
            self.memory,
            self.table,
        ];
        bytes.extend(words.iter().flat_map(|word| word.to_le_bytes()));
        bytes.extend(&self.file);
        bytes.extend(self.inputs.iter().flat_map(|word| word.to_le_bytes()));
        bytes
    }

    /// The case of a header, with how many bytes of file and how many inputs
    /// follow it.
    pub fn from_header(header: &[u8; HEADER]) -> Result<(Case, usize, usize), String> {
        let kind = Kind::from_byte(header[0])
            .ok_or_else(|| format!("no case has the kind {}", header[0]))?;
        let words = words(&header[4..]);
        let case = Case {
            kind,
            fill: header[1],
            file: Vec::new(),
            inputs: Vec::new(),
            cursor: words[2],
            room: words[3],
            limit: words[4],
            memory: words[5],
            table: words[6],
        };
        let (file, inputs) = (words[0] as usize, words[1] as usize);
        if file > LONGEST_FILE || inputs > MOST_INPUTS {
            return Err(format!("a file of {} bytes, {} inputs", file, inputs));
        }
        Ok((case, file, inputs))
    }

    pub fn from_bytes(bytes: &[u8]) -> Result<Case, String> {
        let header = bytes.get(..HEADER).and_then(|part| part.try_into().ok());
        let header = header.ok_or("a case has at least 32 bytes")?;
        let (mut case, file, inputs) = Case::from_header(&header)?;
        let rest = &bytes[HEADER..];
        if rest.len() != file + 4 * inputs {
            return Err(format!(
                "the header speaks of {} bytes behind it, and {} are there",
                file + 4 * inputs,
                rest.len()
            ));
        }
        case.file = rest[..file].to_vec();
        case.inputs = words(&rest[file..]);
        Ok(case)
    }

    /// What this implementation answers.
    pub fn answer(&self) -> Answer {
        self.answer_by(|machine| machine.run())
    }

    /// The same, with a word in how a machine gets to its stop.
    pub fn answer_by(&self, go: impl FnOnce(Machine) -> Record) -> Answer {
        match self.kind {
            Kind::ReadNumber => self.read_number(),
            Kind::WriteNumber => self.write_number(),
            Kind::ReadRoutine => self.read_routine(),
            Kind::ReadInstrumented => self.read_instrumented(),
            Kind::WriteInstrumented => self.write_instrumented(),
            Kind::Color => self.color(),
            Kind::Instrument => self.instrument(),
            Kind::Run => self.run(go),
            Kind::Control => self.control(go),
        }
    }

    /// How far a run goes by itself below a limit: its record alone. What is lent
    /// is of the right length.
    pub fn probe(&self, limit: u32) -> Record {
        let mut memory = vec![0; MEMORY];
        let mut table = vec![0; TABLE];
        let mut output = vec![0; self.room as usize];
        let mut version_2 = Vec::new();
        let file = match self.kind {
            Kind::Control => {
                version_2.resize(LONGEST_VERSION_2, 0);
                match instrument(&self.file, &mut version_2) {
                    Ok(length) => &version_2[..length],
                    Err(refusal) => return Record::refused(refusal),
                }
            }
            _ => &self.file,
        };
        machine::run(file, &self.inputs, limit, &mut memory, &mut table, &mut output)
    }

    fn read_number(&self) -> Answer {
        match number::read(&self.file, self.cursor as usize) {
            Ok((value, next)) => Answer([0, 0, value, next as u32, 0, 0, 0, 0]),
            Err(refusal) => Answer::refused(refusal, 0),
        }
    }

    fn write_number(&self) -> Answer {
        let mut spelling = Vec::new();
        number::write(self.limit, &mut spelling);
        self.written(&spelling, self.cursor as usize, true)
    }

    /// What is written into a filled room at a place, or 10 and the room as it
    /// was.
    fn written(&self, bytes: &[u8], at: usize, tell_next: bool) -> Answer {
        let mut room = vec![self.fill; self.room as usize];
        let next = at + bytes.len();
        if next > room.len() {
            return Answer::refused(Refusal::whole(ROOM), digest_bytes(&room));
        }
        room[at..next].copy_from_slice(bytes);
        let next = if tell_next { next as u32 } else { 0 };
        let length = bytes.len() as u32;
        Answer([0, 0, length, next, 0, digest_bytes(&room), 0, 0])
    }

    fn read_routine(&self) -> Answer {
        match read_routine(&self.file) {
            Ok(routine) => {
                let numbers = digest(routine.numbers());
                let objects = routine.objects.len() as u32;
                let sets = routine.sets.len() as u32;
                let instructions = routine.code.len() as u32;
                Answer([0, 0, objects, sets, instructions, numbers, 0, 0])
            }
            Err(refusal) => Answer::refused(refusal, 0),
        }
    }

    fn read_instrumented(&self) -> Answer {
        match read_instrumented(&self.file) {
            Ok(program) => {
                let numbers = digest(program.numbers());
                let objects = program.objects.len() as u32;
                let instructions = program.code.len() as u32;
                Answer([0, 0, objects, 0, instructions, numbers, 0, 0])
            }
            Err(refusal) => Answer::refused(refusal, 0),
        }
    }

    fn write_instrumented(&self) -> Answer {
        match read_instrumented(&self.file) {
            Ok(program) => self.written(&program.write(), 0, false),
            Err(refusal) => {
                let room = vec![self.fill; self.room as usize];
                Answer::refused(refusal, digest_bytes(&room))
            }
        }
    }

    fn color(&self) -> Answer {
        let colors = read_routine(&self.file).and_then(|routine| coloring::colors(&routine));
        match colors {
            Ok(colors) => {
                let digest = digest_bytes(&colors);
                Answer([0, 0, colors.len() as u32, 0, 0, digest, 0, 0])
            }
            Err(refusal) => Answer::refused(refusal, 0),
        }
    }

    fn instrument(&self) -> Answer {
        let mut room = vec![self.fill; self.room as usize];
        let length = instrument(&self.file, &mut room);
        match length {
            Ok(length) => Answer([0, 0, length as u32, 0, 0, digest_bytes(&room), 0, 0]),
            Err(refusal) => Answer::refused(refusal, digest_bytes(&room)),
        }
    }

    fn run(&self, go: impl FnOnce(Machine) -> Record) -> Answer {
        let Lent { mut memory, mut table, mut output } = self.lent();
        let lent = machine::lent(&mut memory, &mut table);
        let record = machine::run_by(&self.file, &self.inputs, self.limit, lent, &mut output, go);
        Answer::of_run(record, &memory, &table, &output)
    }

    /// The plain rule says what record, memory and numbers out are. It has no
    /// table: that is the machine's, which runs what the instrumenter makes.
    fn control(&self, go: impl FnOnce(Machine) -> Record) -> Answer {
        let Lent { mut memory, mut table, mut output } = self.lent();
        // 11 comes before all that the file may be refused for, and the plain
        // rule knows nothing of a table's length.
        let record = match machine::lent(&mut memory, &mut table) {
            Ok(_) => plain::run(&self.file, &self.inputs, self.limit, &mut memory, &mut output),
            Err(refusal) => Record::refused(refusal),
        };
        if !record.is_refusal() {
            self.run_instrumented(&mut table, go);
        }
        Answer::of_run(record, &memory, &table, &output)
    }

    /// Instruments into a room of its own and runs, for the sake of the table.
    fn run_instrumented(&self, table: &mut [u8], go: impl FnOnce(Machine) -> Record) {
        let mut version_2 = vec![0; LONGEST_VERSION_2];
        if let Ok(length) = instrument(&self.file, &mut version_2) {
            let Lent { mut memory, mut output, .. } = self.lent();
            let lent = machine::lent(&mut memory, table);
            let file = &version_2[..length];
            machine::run_by(file, &self.inputs, self.limit, lent, &mut output, go);
        }
    }

    /// Filled memory, table and output room.
    fn lent(&self) -> Lent {
        Lent {
            memory: vec![self.fill; self.memory as usize],
            table: vec![self.fill; self.table as usize],
            output: vec![u32::from_le_bytes([self.fill; 4]); self.room as usize],
        }
    }
}

/// What a run is lent.
struct Lent {
    memory: Vec<u8>,
    table: Vec<u8>,
    output: Vec<u32>,
}

fn words(bytes: &[u8]) -> Vec<u32> {
    let word = |part: &[u8]| u32::from_le_bytes([part[0], part[1], part[2], part[3]]);
    bytes.chunks_exact(4).map(word).collect()
}

/// An answer: eight words, whatever the kind.
#[derive(Clone, Copy, Debug, PartialEq, Eq)]
pub struct Answer(pub [u32; WORDS]);

pub const WORDS: usize = 8;
pub const ANSWER: usize = 4 * WORDS;

impl Answer {
    fn refused(refusal: Refusal, room: u32) -> Answer {
        Answer([refusal.number, refusal.place, 0, 0, 0, room, 0, 0])
    }

    /// A record, with the digests of what was lent as it is afterwards.
    fn of_run(record: Record, memory: &[u8], table: &[u8], output: &[u32]) -> Answer {
        Answer([
            record.reason,
            record.place,
            record.steps,
            record.out,
            record.taken,
            digest_bytes(memory),
            digest_bytes(table),
            digest(output.iter().copied()),
        ])
    }

    /// The first word: 0, a refusal's number, or a stop's.
    pub fn reason(&self) -> u32 {
        self.0[0]
    }

    pub fn to_bytes(&self) -> Vec<u8> {
        self.0.iter().flat_map(|word| word.to_le_bytes()).collect()
    }

    pub fn from_bytes(bytes: &[u8; ANSWER]) -> Answer {
        let mut answer = [0; WORDS];
        answer.copy_from_slice(&words(bytes));
        Answer(answer)
    }
}

const MODULUS: u64 = 4_294_967_291;
const FACTOR: u64 = 16_777_619;

fn turn(held: u64, number: u32) -> u64 {
    (held * FACTOR + u64::from(number)) % MODULUS
}

/// The digest of a row of numbers below 2^32: from 1, for each number times the
/// factor plus the number, modulo the largest prime below 2^32. Nothing in it
/// passes 2^57.
pub fn digest(numbers: impl IntoIterator<Item = u32>) -> u32 {
    numbers.into_iter().fold(1, turn) as u32
}

/// So many bytes are taken at once: the digest is a number written in powers of
/// the factor, so a row of bytes is worth their sum, each times its power.
const AT_ONCE: usize = 16;
/// The factor to the powers 0, 1, .. `AT_ONCE`.
const POWERS: [u64; AT_ONCE + 1] = powers();

const fn powers() -> [u64; AT_ONCE + 1] {
    let mut powers = [1; AT_ONCE + 1];
    let mut at = 1;
    while at <= AT_ONCE {
        powers[at] = powers[at - 1] * FACTOR % MODULUS;
        at += 1;
    }
    powers
}

/// The digest of bytes, each one number. Two numbers below the modulus times each
/// other, and a third added, stay below 2^64.
pub fn digest_bytes(bytes: &[u8]) -> u32 {
    let rows = bytes.chunks_exact(AT_ONCE);
    let rest = rows.remainder();
    let mut held = 1;
    for row in rows {
        let mut worth = 0;
        for (&byte, power) in row.iter().rev().zip(POWERS) {
            worth += u64::from(byte) * power;
        }
        held = (held * POWERS[AT_ONCE] + worth % MODULUS) % MODULUS;
    }
    rest.iter().fold(held, |held, &byte| turn(held, u32::from(byte))) as u32
}

/// Bytes in hexadecimal, for a case to be replayed.
pub fn to_hex(bytes: &[u8]) -> String {
    bytes.iter().map(|byte| format!("{:02x}", byte)).collect()
}

/// Bytes from hexadecimal; blanks and line ends between them are skipped.
pub fn from_hex(text: &str) -> Result<Vec<u8>, String> {
    let digits: Vec<u32> = text
        .chars()
        .filter(|character| !character.is_whitespace())
        .map(|character| {
            let digit = character.to_digit(16);
            digit.ok_or_else(|| format!("{:?} is no hexadecimal digit", character))
        })
        .collect::<Result<_, _>>()?;
    if digits.len() % 2 != 0 {
        return Err("an odd number of hexadecimal digits".to_string());
    }
    let byte = |pair: &[u32]| (pair[0] * 16 + pair[1]) as u8;
    Ok(digits.chunks_exact(2).map(byte).collect())
}
