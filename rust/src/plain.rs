//! The plain rule: a second machine, on version 1 code, with no table and no
//! colors.
//!
//! A store completes exactly when it is safe, or when every byte of it lies in
//! a live object of its class; otherwise it stops with 36. Which objects are
//! live is kept by the history of calls and never read out of memory. Memory
//! itself is to be the same bytes as in the instrumented run, so the headers are
//! written there too, and LOADs find them.

use crate::coloring::{unsafe_set, Classes, MOST_CLASSES};
use crate::file::{read_routine, Object, Routine};
use crate::instruction::Instruction;
use crate::layout::{extent, layout, END_SLOT, HEAP, MEMORY};
use crate::record::{Record, Stop};
use crate::refusal::{Refusal, CLASSES, LENT};

/// Runs a version 1 file under the plain rule.
pub fn run(
    file: &[u8],
    inputs: &[u32],
    limit: u32,
    memory: &mut [u8],
    output: &mut [u32],
) -> Record {
    if memory.len() != MEMORY {
        return Record::refused(Refusal::whole(LENT));
    }
    let rule = match read_routine(file).and_then(Rule::new) {
        Ok(rule) => rule,
        Err(refusal) => return Record::refused(refusal),
    };
    let mut plain = Plain::start(&rule, inputs, limit, memory, output);
    loop {
        if let Err(record) = plain.step() {
            return record;
        }
    }
}

/// A routine with all that the rule asks of it.
pub struct Rule {
    pub routine: Routine,
    pub classes: Classes,
    pub starts: Vec<u32>,
    /// For each instruction its class, if it is unsafe.
    class_at: Vec<Option<usize>>,
}

impl Rule {
    /// Refusals 8 and 9: the rule itself could do with any number of classes,
    /// but it speaks of the routines that are taken.
    pub fn new(routine: Routine) -> Result<Rule, Refusal> {
        let classes = Classes::of(&routine);
        if classes.count() > MOST_CLASSES {
            return Err(Refusal::whole(CLASSES));
        }
        let safe = |object: usize| classes.of_object[object].is_none();
        let starts = layout(&routine.objects, safe)?.starts;
        let class_of = |&instruction: &Instruction| {
            unsafe_set(&routine, instruction).and_then(|set| classes.of_set(&set))
        };
        let class_at = routine.code.iter().map(class_of).collect();
        Ok(Rule { routine, classes, starts, class_at })
    }
}

/// A live heap object: the body handed out for a site and not yet given back.
#[derive(Clone, Copy, Debug, PartialEq, Eq)]
pub struct Live {
    pub site: usize,
    pub body: u64,
    pub size: u64,
}

/// A free body: what stands between two live blocks, but for its own header.
#[derive(Clone, Copy, Debug, PartialEq, Eq)]
pub struct Gap {
    pub body: u64,
    pub size: u64,
}

/// A run under way.
pub struct Plain<'a> {
    rule: &'a Rule,
    inputs: &'a [u32],
    limit: u32,
    memory: &'a mut [u8],
    output: &'a mut [u32],
    live: Vec<Live>,
    temporaries: [u32; 16],
    at: usize,
    record: Record,
}

impl<'a> Plain<'a> {
    pub fn start(
        rule: &'a Rule,
        inputs: &'a [u32],
        limit: u32,
        memory: &'a mut [u8],
        output: &'a mut [u32],
    ) -> Plain<'a> {
        memory.fill(0);
        let record = Record { reason: 0, place: 0, steps: 0, out: 0, taken: 0 };
        let mut plain = Plain {
            rule,
            inputs,
            limit,
            memory,
            output,
            live: Vec::new(),
            temporaries: [0; 16],
            at: 0,
            record,
        };
        for gap in plain.gaps() {
            plain.write_header(gap.body, gap.size, 0);
        }
        plain
    }

    pub fn memory(&self) -> &[u8] {
        self.memory
    }

    pub fn temporaries(&self) -> &[u32; 16] {
        &self.temporaries
    }

    /// The heap objects that the history of calls has made and not given back,
    /// by rising address.
    pub fn live(&self) -> &[Live] {
        &self.live
    }

    pub fn written(&self) -> &[u32] {
        &self.output[..self.record.out as usize]
    }

    /// The instruction before which the run stands.
    pub fn next_instruction(&self) -> Option<Instruction> {
        self.rule.routine.code.get(self.at).copied()
    }

    /// Completes one instruction, or gives the record of the stop.
    pub fn step(&mut self) -> Result<(), Record> {
        let outcome = match self.rule.routine.code.get(self.at) {
            None => Err(Stop::PastTheEnd),
            Some(_) if self.record.steps >= self.limit => Err(Stop::Limit),
            Some(&instruction) => self.perform(instruction),
        };
        match outcome {
            Ok(next) => {
                self.at = next;
                self.record.steps += 1;
                Ok(())
            }
            Err(stop) => {
                Err(Record { reason: stop.number(), place: self.at as u32, ..self.record })
            }
        }
    }

    /// Does what an instruction says and tells which one is next; or stops and
    /// has changed nothing.
    fn perform(&mut self, instruction: Instruction) -> Result<usize, Stop> {
        let t = self.temporaries;
        let of = |temporary: u8| t[temporary as usize];
        let result = match instruction {
            Instruction::End => return Err(Stop::End),
            Instruction::Jump { p } => return Ok(p.into()),
            Instruction::JumpIf { a, p } if of(a) != 0 => return Ok(p.into()),
            Instruction::JumpIf { .. } => None,
            Instruction::Set { d, n } => Some((d, n)),
            Instruction::Place { d, g } => Some((d, self.rule.starts[g as usize])),
            Instruction::Add { d, a, b } => Some((d, modulo(i64::from(of(a)) + i64::from(of(b))))),
            Instruction::Sub { d, a, b } => Some((d, modulo(i64::from(of(a)) - i64::from(of(b))))),
            Instruction::Less { d, a, b } => Some((d, if of(a) < of(b) { 1 } else { 0 })),
            Instruction::Load8 { d, a } => Some((d, self.load(of(a), 1)?)),
            Instruction::Load32 { d, a } => Some((d, self.load(of(a), 4)?)),
            Instruction::Put8 { g, k, a } => self.put(g, k, 1, of(a))?,
            Instruction::Put32 { g, k, a } => self.put(g, k, 4, of(a))?,
            Instruction::Write8 { a, b, .. } => self.store(of(a).into(), 1, of(b))?,
            Instruction::Write32 { a, b, .. } => self.store(of(a).into(), 4, of(b))?,
            Instruction::Alloc { d, g, a } => Some((d, self.alloc(g.into(), of(a)))),
            Instruction::Free { a } => self.free(of(a))?,
            Instruction::In { d } => Some((d, self.take()?)),
            Instruction::Out { a } => self.give(of(a))?,
            Instruction::Check8 { .. }
            | Instruction::Check32 { .. }
            | Instruction::CheckPut8 { .. }
            | Instruction::CheckPut32 { .. } => unreachable!("version 1 has no checks"),
        };
        if let Some((d, value)) = result {
            self.temporaries[d as usize] = value;
        }
        Ok(self.at + 1)
    }

    fn load(&self, address: u32, width: u64) -> Result<u32, Stop> {
        let mut value = 0;
        for byte in (0..width).rev() {
            let at = u64::from(address) + byte;
            if at >= MEMORY as u64 {
                return Err(Stop::ReadOutside);
            }
            value = value * 256 + u32::from(self.memory[at as usize]);
        }
        Ok(value)
    }

    fn put(&mut self, g: u16, k: u16, width: u64, value: u32) -> Result<Option<(u8, u32)>, Stop> {
        let start = u64::from(self.rule.starts[g as usize]);
        self.store(start + u64::from(k), width, value)
    }

    /// The plain rule. A store leaves no temporary changed.
    fn store(&mut self, address: u64, width: u64, value: u32) -> Result<Option<(u8, u32)>, Stop> {
        if let Some(class) = self.rule.class_at[self.at] {
            let every_byte = (address..address + width).all(|byte| self.is_live(byte, class));
            if !every_byte {
                return Err(Stop::ForbiddenStore);
            }
        }
        for byte in 0..width {
            self.memory[(address + byte) as usize] = (value >> (8 * byte)) as u8;
        }
        Ok(None)
    }

    /// Whether a byte lies in a live object of the class: in the extent of a
    /// global, or in a body that the history of calls has made.
    fn is_live(&self, byte: u64, class: usize) -> bool {
        let of_class = |object: usize| self.rule.classes.of_object[object] == Some(class);
        let in_body = self
            .live
            .iter()
            .any(|live| of_class(live.site) && (live.body..live.body + live.size).contains(&byte));
        in_body || self.in_global(byte, of_class)
    }

    fn in_global(&self, byte: u64, of_class: impl Fn(usize) -> bool) -> bool {
        let objects = self.rule.routine.objects.iter().enumerate();
        let mut globals = objects.filter(|(number, _)| of_class(*number));
        globals.any(|(number, object)| match object {
            Object::Global { size } => {
                let start = u64::from(self.rule.starts[number]);
                (start..start + u64::from(extent(*size))).contains(&byte)
            }
            Object::Site => false,
        })
    }

    /// The free bodies: the gaps that the live blocks leave. No two free bodies
    /// ever stand side by side, since FREE joins them, so each gap is one.
    pub fn gaps(&self) -> Vec<Gap> {
        let mut gaps = Vec::new();
        let mut behind = u64::from(HEAP);
        let ends = [u64::from(END_SLOT)];
        let headers = self.live.iter().map(|live| live.body - 8).chain(ends);
        let nexts = self.live.iter().map(|live| live.body + live.size).chain(ends);
        for (header, next) in headers.zip(nexts) {
            if behind < header {
                gaps.push(Gap { body: behind + 8, size: header - behind - 8 });
            }
            behind = next;
        }
        gaps
    }

    fn alloc(&mut self, site: usize, wish: u32) -> u32 {
        if wish == 0 || wish > 4_096 {
            return 0;
        }
        let needed = u64::from(extent(wish));
        let gap = match self.gaps().into_iter().find(|gap| gap.size >= needed) {
            Some(gap) => gap,
            None => return 0,
        };
        let cut = gap.size >= needed + 16;
        let size = if cut { needed } else { gap.size };
        let body = gap.body;
        self.write_header(body, size, site as u32 + 1);
        self.memory[body as usize..(body + size) as usize].fill(0);
        let at = self.live.partition_point(|live| live.body < body);
        self.live.insert(at, Live { site, body, size });
        if cut {
            self.write_header(body + size + 8, gap.size - size - 8, 0);
        }
        body as u32
    }

    fn free(&mut self, address: u32) -> Result<Option<(u8, u32)>, Stop> {
        if address == 0 {
            return Ok(None);
        }
        let address = u64::from(address);
        let found = self.live.iter().position(|live| live.body == address);
        self.live.remove(found.ok_or(Stop::BadFree)?);
        // The gap that now holds the address is the joined body.
        for gap in self.gaps() {
            if (gap.body..gap.body + gap.size).contains(&address) {
                self.write_header(gap.body, gap.size, 0);
            }
        }
        Ok(None)
    }

    fn write_header(&mut self, body: u64, size: u64, mark: u32) {
        let header = size | u64::from(mark) << 32;
        for byte in 0..8 {
            self.memory[(body - 8 + byte) as usize] = (header >> (8 * byte)) as u8;
        }
    }

    fn take(&mut self) -> Result<u32, Stop> {
        let number = self.inputs.get(self.record.taken as usize);
        let number = *number.ok_or(Stop::NoMoreInput)?;
        self.record.taken += 1;
        Ok(number)
    }

    fn give(&mut self, number: u32) -> Result<Option<(u8, u32)>, Stop> {
        let out = self.record.out as usize;
        if out == self.output.len() {
            return Err(Stop::NoRoomForOutput);
        }
        self.output[out] = number;
        self.record.out += 1;
        Ok(None)
    }
}

fn modulo(value: i64) -> u32 {
    value.rem_euclid(1 << 32) as u32
}
