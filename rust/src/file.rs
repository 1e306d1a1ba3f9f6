//! Files of version 1 (routines) and version 2 (instrumented code): what one
//! holds, how it is read with its refusals, and how it is written.
//!
//! A file is numbers and nothing else. Each is judged as soon as it is read,
//! and nothing to the right of the first fault is looked at.

use crate::instruction::{Instruction, Operand, MOST_OPERANDS, OPCODES};
use crate::number;
use crate::refusal::{Refusal, COUNT, FIELD, SURPLUS, TOO_LONG, VERSION};

pub const MOST_OBJECTS: usize = 400;
pub const MOST_SETS: usize = 400;
pub const LARGEST_SIZE: u32 = 4_096;
pub const LARGEST_OFFSET: u32 = 65_535;
pub const TEMPORARIES: usize = 16;

/// Which of the two forms a file has.
#[derive(Clone, Copy, Debug, PartialEq, Eq)]
pub enum Version {
    /// Version 1: sets, no colors, no checks.
    Routine,
    /// Version 2: colors and checks, no sets.
    Instrumented,
}

impl Version {
    pub fn number(self) -> u32 {
        match self {
            Version::Routine => 1,
            Version::Instrumented => 2,
        }
    }

    /// The longest file, in bytes.
    pub fn longest(self) -> usize {
        match self {
            Version::Routine => 16_384,
            Version::Instrumented => 32_768,
        }
    }

    pub fn most_instructions(self) -> usize {
        match self {
            Version::Routine => 1_000,
            Version::Instrumented => 2_000,
        }
    }
}

/// An object: kind 0 with a size, or kind 1.
#[derive(Clone, Copy, Debug, PartialEq, Eq)]
pub enum Object {
    Global { size: u32 },
    Site,
}

/// What a version 1 file says.
#[derive(Clone, Debug, PartialEq, Eq, Default)]
pub struct Routine {
    pub objects: Vec<Object>,
    pub sets: Vec<Vec<usize>>,
    pub code: Vec<Instruction>,
}

/// What a version 2 file says. Each object has its color.
#[derive(Clone, Debug, PartialEq, Eq, Default)]
pub struct Instrumented {
    pub objects: Vec<Object>,
    pub colors: Vec<u8>,
    pub code: Vec<Instruction>,
}

/// Reads a version 1 file.
pub fn read_routine(file: &[u8]) -> Result<Routine, Refusal> {
    let mut reader = Reader::start(file, Version::Routine)?;
    let (objects, _) = reader.objects()?;
    let sets = reader.sets(objects.len())?;
    let code = reader.code(&objects, sets.len())?;
    reader.end()?;
    Ok(Routine { objects, sets, code })
}

/// Reads a version 2 file.
pub fn read_instrumented(file: &[u8]) -> Result<Instrumented, Refusal> {
    let mut reader = Reader::start(file, Version::Instrumented)?;
    let (objects, colors) = reader.objects()?;
    let code = reader.code(&objects, 0)?;
    reader.end()?;
    Ok(Instrumented { objects, colors, code })
}

/// A number of the file with the place of its first byte.
struct Field {
    value: u32,
    place: usize,
}

impl Field {
    /// The value, or the refusal that its place gets.
    fn held_to(self, good: bool, number: u32) -> Result<u32, Refusal> {
        if good {
            Ok(self.value)
        } else {
            Err(Refusal::at(number, self.place))
        }
    }
}

/// The ranges that an operand's value is held to: what came before it.
struct Ranges<'a> {
    objects: &'a [Object],
    sets: usize,
    instructions: usize,
}

impl Ranges<'_> {
    fn hold(&self, operand: Operand, value: u32) -> bool {
        let index = value as usize;
        let object = self.objects.get(index);
        match operand {
            Operand::Temporary => index < TEMPORARIES,
            Operand::Number => true,
            Operand::Global => matches!(object, Some(Object::Global { .. })),
            Operand::Site => matches!(object, Some(Object::Site)),
            Operand::Offset => value <= LARGEST_OFFSET,
            Operand::Set => index < self.sets,
            Operand::Target => index < self.instructions,
            Operand::Color => (2..=255).contains(&value),
        }
    }
}

/// The file and the place up to which it has been read.
struct Reader<'a> {
    file: &'a [u8],
    at: usize,
    version: Version,
}

impl<'a> Reader<'a> {
    /// The file's length by the version asked for, then its own version.
    fn start(file: &'a [u8], version: Version) -> Result<Reader<'a>, Refusal> {
        if file.len() > version.longest() {
            return Err(Refusal::whole(TOO_LONG));
        }
        let at = 0;
        let mut reader = Reader { file, at, version };
        let field = reader.field()?;
        let good = field.value == version.number();
        field.held_to(good, VERSION)?;
        Ok(reader)
    }

    fn field(&mut self) -> Result<Field, Refusal> {
        let place = self.at;
        let (value, next) = number::read(self.file, place)?;
        self.at = next;
        Ok(Field { value, place })
    }

    fn count(&mut self, least: usize, most: usize) -> Result<usize, Refusal> {
        let field = self.field()?;
        let good = (least..=most).contains(&(field.value as usize));
        Ok(field.held_to(good, COUNT)? as usize)
    }

    fn objects(&mut self) -> Result<(Vec<Object>, Vec<u8>), Refusal> {
        let count = self.count(0, MOST_OBJECTS)?;
        let mut objects = Vec::with_capacity(count);
        let mut colors = Vec::with_capacity(count);
        for _ in 0..count {
            objects.push(self.object()?);
            if self.version == Version::Instrumented {
                colors.push(self.color()?);
            }
        }
        Ok((objects, colors))
    }

    fn object(&mut self) -> Result<Object, Refusal> {
        let kind = self.field()?;
        let good = kind.value <= 1;
        if kind.held_to(good, FIELD)? == 1 {
            return Ok(Object::Site);
        }
        let size = self.field()?;
        let good = (1..=LARGEST_SIZE).contains(&size.value);
        let size = size.held_to(good, FIELD)?;
        Ok(Object::Global { size })
    }

    fn color(&mut self) -> Result<u8, Refusal> {
        let color = self.field()?;
        let good = color.value <= 255 && color.value != 1;
        Ok(color.held_to(good, FIELD)? as u8)
    }

    fn sets(&mut self, objects: usize) -> Result<Vec<Vec<usize>>, Refusal> {
        let count = self.count(0, MOST_SETS)?;
        (0..count).map(|_| self.set(objects)).collect()
    }

    /// One set: object numbers, strictly rising. With no objects there is no
    /// good count.
    fn set(&mut self, objects: usize) -> Result<Vec<usize>, Refusal> {
        let count = self.count(1, objects)?;
        let mut set: Vec<usize> = Vec::with_capacity(count);
        for _ in 0..count {
            let member = self.field()?;
            let object = member.value as usize;
            let rises = set.last().map_or(true, |&last| last < object);
            member.held_to(rises && object < objects, FIELD)?;
            set.push(object);
        }
        Ok(set)
    }

    fn code(&mut self, objects: &[Object], sets: usize) -> Result<Vec<Instruction>, Refusal> {
        let instructions = self.count(1, self.version.most_instructions())?;
        let ranges = Ranges { objects, sets, instructions };
        (0..instructions).map(|_| self.instruction(&ranges)).collect()
    }

    fn instruction(&mut self, ranges: &Ranges) -> Result<Instruction, Refusal> {
        let opcode = self.field()?;
        let place = opcode.place;
        let good = match OPCODES.get(opcode.value as usize) {
            Some(row) => !row.checks || self.version == Version::Instrumented,
            None => false,
        };
        let opcode = opcode.held_to(good, FIELD)?;
        let mut operands = [0; MOST_OPERANDS];
        for (index, &kind) in OPCODES[opcode as usize].operands.iter().enumerate() {
            if kind == Operand::Set && self.version == Version::Instrumented {
                continue;
            }
            let operand = self.field()?;
            let good = ranges.hold(kind, operand.value);
            operands[index] = operand.held_to(good, FIELD)?;
        }
        Instruction::from_numbers(opcode, operands).ok_or_else(|| Refusal::at(FIELD, place))
    }

    fn end(&self) -> Result<(), Refusal> {
        if self.at < self.file.len() {
            Err(Refusal::at(SURPLUS, self.at))
        } else {
            Ok(())
        }
    }
}

impl Routine {
    /// The numbers of the version 1 file, in order. Nothing is held to its
    /// range here: a generator may want the file of a bad routine.
    pub fn numbers(&self) -> Vec<u32> {
        let mut numbers = vec![Version::Routine.number(), self.objects.len() as u32];
        for object in &self.objects {
            object_numbers(*object, &mut numbers);
        }
        numbers.push(self.sets.len() as u32);
        for set in &self.sets {
            numbers.push(set.len() as u32);
            numbers.extend(set.iter().map(|&object| object as u32));
        }
        code_numbers(&self.code, Version::Routine, &mut numbers);
        numbers
    }

    /// The version 1 file.
    pub fn write(&self) -> Vec<u8> {
        write_numbers(&self.numbers())
    }
}

impl Instrumented {
    /// The numbers of the version 2 file, in order.
    pub fn numbers(&self) -> Vec<u32> {
        let mut numbers = vec![Version::Instrumented.number(), self.objects.len() as u32];
        for (object, color) in self.objects.iter().zip(&self.colors) {
            object_numbers(*object, &mut numbers);
            numbers.push(u32::from(*color));
        }
        code_numbers(&self.code, Version::Instrumented, &mut numbers);
        numbers
    }

    /// The version 2 file.
    pub fn write(&self) -> Vec<u8> {
        write_numbers(&self.numbers())
    }
}

/// The bytes of a file that holds these numbers.
pub fn write_numbers(numbers: &[u32]) -> Vec<u8> {
    let mut file = Vec::with_capacity(numbers.len() + 16);
    for &value in numbers {
        number::write(value, &mut file);
    }
    file
}

fn object_numbers(object: Object, numbers: &mut Vec<u32>) {
    match object {
        Object::Global { size } => numbers.extend([0, size]),
        Object::Site => numbers.push(1),
    }
}

fn code_numbers(code: &[Instruction], version: Version, numbers: &mut Vec<u32>) {
    numbers.push(code.len() as u32);
    for instruction in code {
        let (opcode, operands) = instruction.to_numbers();
        numbers.push(opcode);
        let kinds = OPCODES[opcode as usize].operands;
        for (&kind, operand) in kinds.iter().zip(operands) {
            if kind != Operand::Set || version == Version::Routine {
                numbers.push(operand);
            }
        }
    }
}
