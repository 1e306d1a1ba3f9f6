//! The machine: runs any version 2 file, also one made by somebody else.
//!
//! It trusts nothing that a file can say beyond what the reader has held to its
//! range: a store without a check may go anywhere, and headers may be forged.

use crate::file::{read_instrumented, Instrumented, Object};
use crate::heap;
use crate::instruction::Instruction;
use crate::layout::{extent, layout, Layout, MEMORY, SLOT_SHIFT, TABLE};
use crate::record::{Record, Stop};
use crate::refusal::{Refusal, LENT};

/// Runs a version 2 file. Refused in this order: 11, 1, the file from left to
/// right, 9; a refusal changes no lent byte. Otherwise memory and table are
/// cleared and laid out, and numbers past the reported output stay.
pub fn run(
    file: &[u8],
    inputs: &[u32],
    limit: u32,
    memory: &mut [u8],
    table: &mut [u8],
    output: &mut [u32],
) -> Record {
    run_by(file, inputs, limit, lent(memory, table), output, |machine| machine.run())
}

/// The same, with memory and table that were taken or refused, and told how a
/// machine gets to its stop.
pub fn run_by(
    file: &[u8],
    inputs: &[u32],
    limit: u32,
    lent: Result<Lent, Refusal>,
    output: &mut [u32],
    go: impl FnOnce(Machine) -> Record,
) -> Record {
    let loaded = lent.and_then(|lent| Ok((lent, Loaded::new(read_instrumented(file)?)?)));
    match loaded {
        Ok((lent, loaded)) => go(loaded.start(inputs, limit, lent, output)),
        Err(refusal) => Record::refused(refusal),
    }
}

/// Memory and table of their exact lengths.
pub struct Lent<'a> {
    pub memory: &'a mut [u8; MEMORY],
    pub table: &'a mut [u8; TABLE],
}

/// Takes lent memory and table if both are of their exact length, else 11.
pub fn lent<'a>(memory: &'a mut [u8], table: &'a mut [u8]) -> Result<Lent<'a>, Refusal> {
    let memory = <&mut [u8; MEMORY]>::try_from(memory);
    let table = <&mut [u8; TABLE]>::try_from(table);
    match (memory, table) {
        (Ok(memory), Ok(table)) => Ok(Lent { memory, table }),
        _ => Err(Refusal::whole(LENT)),
    }
}

/// Code that has been read, with the places of its globals.
pub struct Loaded {
    program: Instrumented,
    layout: Layout,
}

impl Loaded {
    /// In version 2 the safe globals are those of color 0.
    pub fn new(program: Instrumented) -> Result<Loaded, Refusal> {
        let layout = layout(&program.objects, |object| program.colors[object] == 0)?;
        Ok(Loaded { program, layout })
    }

    /// Clears and lays out memory and table, and stands before the first
    /// instruction.
    pub fn start<'a>(
        &'a self,
        inputs: &'a [u32],
        limit: u32,
        lent: Lent<'a>,
        output: &'a mut [u32],
    ) -> Machine<'a> {
        let Lent { memory, table } = lent;
        memory.fill(0);
        table.fill(0);
        for (number, object) in self.program.objects.iter().enumerate() {
            if let Object::Global { size } = *object {
                let start = self.layout.starts[number];
                heap::paint(table, start, extent(size), self.program.colors[number]);
            }
        }
        heap::fresh(memory, table);
        Machine {
            code: &self.program.code,
            starts: &self.layout.starts,
            colors: &self.program.colors,
            inputs,
            limit,
            memory,
            table,
            output,
            temporaries: [0; 16],
            now: Moment { at: 0, steps: 0 },
            out: 0,
            taken: 0,
        }
    }
}

/// A run under way.
pub struct Machine<'a> {
    code: &'a [Instruction],
    starts: &'a [u32],
    colors: &'a [u8],
    inputs: &'a [u32],
    limit: u32,
    memory: &'a mut [u8; MEMORY],
    table: &'a mut [u8; TABLE],
    output: &'a mut [u32],
    temporaries: [u32; 16],
    now: Moment,
    out: usize,
    taken: usize,
}

/// The instruction before which a run stands, and the steps completed. It goes
/// in and out by value, so that a run keeps it in registers.
#[derive(Clone, Copy)]
struct Moment {
    at: usize,
    steps: u32,
}

impl Moment {
    /// After a step.
    fn then(self, at: usize) -> Moment {
        let steps = self.steps + 1;
        Moment { at, steps }
    }

    /// After a check, which costs no step.
    fn checked(self) -> Moment {
        let at = self.at + 1;
        Moment { at, ..self }
    }
}

impl Machine<'_> {
    /// Runs to the stop.
    pub fn run(mut self) -> Record {
        let mut now = self.now;
        loop {
            match self.turn(now) {
                Ok(next) => now = next,
                Err(stop) => return self.record(now, stop),
            }
        }
    }

    /// Completes one instruction that is no check, with the checks before it;
    /// or the record, if that stops the run.
    pub fn step(&mut self) -> Result<(), Record> {
        let steps = self.now.steps;
        while self.now.steps == steps {
            self.advance()?;
        }
        Ok(())
    }

    /// Completes one instruction or check; or the record, if that stops the run.
    pub fn advance(&mut self) -> Result<(), Record> {
        match self.turn(self.now) {
            Ok(next) => self.now = next,
            Err(stop) => return Err(self.record(self.now, stop)),
        }
        Ok(())
    }

    /// The instruction or check before which the run stands.
    pub fn next_instruction(&self) -> Option<Instruction> {
        self.code.get(self.now.at).copied()
    }

    pub fn memory(&self) -> &[u8] {
        self.memory
    }

    pub fn table(&self) -> &[u8] {
        self.table
    }

    pub fn temporaries(&self) -> &[u32; 16] {
        &self.temporaries
    }

    /// The numbers out so far.
    pub fn written(&self) -> &[u32] {
        &self.output[..self.out]
    }

    /// A place counts the instructions before it that are not checks.
    fn record(&self, now: Moment, stop: Stop) -> Record {
        let before = &self.code[..now.at];
        let place = before.iter().filter(|before| !before.is_check()).count();
        Record {
            reason: stop.number(),
            place: place as u32,
            steps: now.steps,
            out: self.out as u32,
            taken: self.taken as u32,
        }
    }

    /// One instruction or check. A stop leaves all as it was before it.
    #[inline(always)]
    fn turn(&mut self, now: Moment) -> Result<Moment, Stop> {
        let instruction = match self.code.get(now.at) {
            Some(&instruction) => instruction,
            None => return Err(Stop::PastTheEnd),
        };
        if now.steps == self.limit {
            return Err(Stop::Limit);
        }
        match instruction {
            Instruction::End => return Err(Stop::End),
            Instruction::Set { d, n } => self.set(d, n),
            Instruction::Place { d, g } => self.set(d, self.starts[usize::from(g)]),
            Instruction::Add { d, a, b } => self.set(d, self.get(a).wrapping_add(self.get(b))),
            Instruction::Sub { d, a, b } => self.set(d, self.get(a).wrapping_sub(self.get(b))),
            Instruction::Less { d, a, b } => self.set(d, u32::from(self.get(a) < self.get(b))),
            Instruction::Load8 { d, a } => self.load::<1>(d, a)?,
            Instruction::Load32 { d, a } => self.load::<4>(d, a)?,
            Instruction::Put8 { g, k, a } => self.store::<1>(self.byte_of(g, k), a)?,
            Instruction::Put32 { g, k, a } => self.store::<4>(self.byte_of(g, k), a)?,
            Instruction::Write8 { a, b, .. } => self.store::<1>(self.get(a), b)?,
            Instruction::Write32 { a, b, .. } => self.store::<4>(self.get(a), b)?,
            Instruction::Jump { p } => return Ok(now.then(usize::from(p))),
            Instruction::JumpIf { a, p } => {
                if self.get(a) != 0 {
                    return Ok(now.then(usize::from(p)));
                }
            }
            Instruction::Alloc { d, g, a } => self.alloc(d, g, a)?,
            Instruction::Free { a } => heap::free(self.memory, self.table, self.get(a))?,
            Instruction::In { d } => self.input(d)?,
            Instruction::Out { a } => self.output(a)?,
            Instruction::Check8 { a, c } => return self.check::<1>(now, self.get(a), c),
            Instruction::Check32 { a, c } => return self.check::<4>(now, self.get(a), c),
            Instruction::CheckPut8 { g, k, c } => {
                return self.check::<1>(now, self.byte_of(g, k), c)
            }
            Instruction::CheckPut32 { g, k, c } => {
                return self.check::<4>(now, self.byte_of(g, k), c)
            }
        }
        Ok(now.then(now.at + 1))
    }

    /// The reader has held a temporary's number below 16; the mask says so to
    /// the compiler.
    fn get(&self, temporary: u8) -> u32 {
        self.temporaries[usize::from(temporary & 15)]
    }

    fn set(&mut self, temporary: u8, value: u32) {
        self.temporaries[usize::from(temporary & 15)] = value;
    }

    /// The address of byte k of a global. At most 28,672 + 65,535.
    pub fn byte_of(&self, g: u16, k: u16) -> u32 {
        self.starts[usize::from(g)] + u32::from(k)
    }

    fn load<const WIDTH: usize>(&mut self, d: u8, a: u8) -> Result<(), Stop> {
        let bytes = match span::<WIDTH>(self.get(a)) {
            Some(from) => &self.memory[from..from + WIDTH],
            None => return Err(Stop::ReadOutside),
        };
        let mut word = [0; 4];
        word[..WIDTH].copy_from_slice(bytes);
        self.set(d, u32::from_le_bytes(word));
        Ok(())
    }

    fn store<const WIDTH: usize>(&mut self, address: u32, a: u8) -> Result<(), Stop> {
        let word = self.get(a).to_le_bytes();
        match span::<WIDTH>(address) {
            Some(from) => self.memory[from..from + WIDTH].copy_from_slice(&word[..WIDTH]),
            None => return Err(Stop::StoreOutside),
        }
        Ok(())
    }

    /// A check passes if every byte it covers lies in a slot of its color. At
    /// most four bytes lie in the slots of the first and the last of them.
    fn check<const WIDTH: usize>(&self, now: Moment, to: u32, c: u8) -> Result<Moment, Stop> {
        if let Some(from) = span::<WIDTH>(to) {
            let first = self.table[from >> SLOT_SHIFT];
            let last = self.table[(from + WIDTH - 1) >> SLOT_SHIFT];
            if first == c && last == c {
                return Ok(now.checked());
            }
        }
        Err(Stop::ForbiddenStore)
    }

    fn alloc(&mut self, d: u8, g: u16, a: u8) -> Result<(), Stop> {
        let color = self.colors[usize::from(g)];
        let wish = self.get(a);
        let body = heap::alloc(self.memory, self.table, u32::from(g), color, wish)?;
        self.set(d, body);
        Ok(())
    }

    fn input(&mut self, d: u8) -> Result<(), Stop> {
        let number = *self.inputs.get(self.taken).ok_or(Stop::NoMoreInput)?;
        self.taken += 1;
        self.set(d, number);
        Ok(())
    }

    fn output(&mut self, a: u8) -> Result<(), Stop> {
        let number = self.get(a);
        *self.output.get_mut(self.out).ok_or(Stop::NoRoomForOutput)? = number;
        self.out += 1;
        Ok(())
    }
}

/// The first byte of a span, if all of it lies in memory. An address near 2^32
/// does not wrap: the test adds nothing to it.
fn span<const WIDTH: usize>(address: u32) -> Option<usize> {
    let from = address as usize;
    if from <= MEMORY - WIDTH {
        Some(from)
    } else {
        None
    }
}
