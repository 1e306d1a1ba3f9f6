//! The opcodes: one table that gives for each its operands, and an instruction
//! as an enum that holds them. Reader, writer and generator go by the table.

/// What an operand names; its range follows from this and from the file.
#[derive(Clone, Copy, Debug, PartialEq, Eq)]
pub enum Operand {
    /// d, a or b: one of 16 temporaries.
    Temporary,
    /// n: any number.
    Number,
    /// g, of kind 0.
    Global,
    /// g, of kind 1.
    Site,
    /// k: a byte's place in a global, at most 65,535.
    Offset,
    /// s: below the count of sets. Version 2 has no such operand.
    Set,
    /// p: below the count of instructions.
    Target,
    /// c: 2 to 255.
    Color,
}

/// One row of the table of opcodes.
pub struct Row {
    pub name: &'static str,
    pub operands: &'static [Operand],
    /// CHECKs stand in version 2 alone.
    pub checks: bool,
}

const fn row(name: &'static str, operands: &'static [Operand]) -> Row {
    Row { name, operands, checks: false }
}

const fn check_row(name: &'static str, operands: &'static [Operand]) -> Row {
    Row { name, operands, checks: true }
}

use Operand::{Color, Global, Number, Offset, Set, Site, Target, Temporary};

/// The table, by opcode.
pub const OPCODES: [Row; 22] = [
    row("END", &[]),
    row("SET", &[Temporary, Number]),
    row("PLACE", &[Temporary, Global]),
    row("ADD", &[Temporary, Temporary, Temporary]),
    row("SUB", &[Temporary, Temporary, Temporary]),
    row("LESS", &[Temporary, Temporary, Temporary]),
    row("LOAD8", &[Temporary, Temporary]),
    row("LOAD32", &[Temporary, Temporary]),
    row("PUT8", &[Global, Offset, Temporary]),
    row("PUT32", &[Global, Offset, Temporary]),
    row("WRITE8", &[Temporary, Temporary, Set]),
    row("WRITE32", &[Temporary, Temporary, Set]),
    row("JUMP", &[Target]),
    row("JUMPIF", &[Temporary, Target]),
    row("ALLOC", &[Temporary, Site, Temporary]),
    row("FREE", &[Temporary]),
    row("IN", &[Temporary]),
    row("OUT", &[Temporary]),
    check_row("CHECK8", &[Temporary, Color]),
    check_row("CHECK32", &[Temporary, Color]),
    check_row("CHECKPUT8", &[Global, Offset, Color]),
    check_row("CHECKPUT32", &[Global, Offset, Color]),
];

/// No opcode has more operands than this.
pub const MOST_OPERANDS: usize = 3;

/// An instruction with its operands. The set of a WRITE is 0 in version 2,
/// where nothing looks at it. Eight bytes each, so that a run keeps many at hand.
#[derive(Clone, Copy, Debug, PartialEq, Eq)]
pub enum Instruction {
    End,
    Set { d: u8, n: u32 },
    Place { d: u8, g: u16 },
    Add { d: u8, a: u8, b: u8 },
    Sub { d: u8, a: u8, b: u8 },
    Less { d: u8, a: u8, b: u8 },
    Load8 { d: u8, a: u8 },
    Load32 { d: u8, a: u8 },
    Put8 { g: u16, k: u16, a: u8 },
    Put32 { g: u16, k: u16, a: u8 },
    Write8 { a: u8, b: u8, s: u16 },
    Write32 { a: u8, b: u8, s: u16 },
    Jump { p: u16 },
    JumpIf { a: u8, p: u16 },
    Alloc { d: u8, g: u16, a: u8 },
    Free { a: u8 },
    In { d: u8 },
    Out { a: u8 },
    Check8 { a: u8, c: u8 },
    Check32 { a: u8, c: u8 },
    CheckPut8 { g: u16, k: u16, c: u8 },
    CheckPut32 { g: u16, k: u16, c: u8 },
}

impl Instruction {
    /// The instruction of an opcode and its operands in the table's order.
    /// They must be in their ranges; an opcode above the table's gives nothing.
    pub fn from_numbers(opcode: u32, operands: [u32; MOST_OPERANDS]) -> Option<Instruction> {
        use Instruction::*;
        let [x, y, z] = operands;
        let byte = |number: u32| number as u8;
        let short = |number: u32| number as u16;
        let three = (byte(x), byte(y), byte(z));
        Some(match opcode {
            0 => End,
            1 => Set { d: byte(x), n: y },
            2 => Place { d: byte(x), g: short(y) },
            3 => Add { d: three.0, a: three.1, b: three.2 },
            4 => Sub { d: three.0, a: three.1, b: three.2 },
            5 => Less { d: three.0, a: three.1, b: three.2 },
            6 => Load8 { d: byte(x), a: byte(y) },
            7 => Load32 { d: byte(x), a: byte(y) },
            8 => Put8 { g: short(x), k: short(y), a: byte(z) },
            9 => Put32 { g: short(x), k: short(y), a: byte(z) },
            10 => Write8 { a: byte(x), b: byte(y), s: short(z) },
            11 => Write32 { a: byte(x), b: byte(y), s: short(z) },
            12 => Jump { p: short(x) },
            13 => JumpIf { a: byte(x), p: short(y) },
            14 => Alloc { d: byte(x), g: short(y), a: byte(z) },
            15 => Free { a: byte(x) },
            16 => In { d: byte(x) },
            17 => Out { a: byte(x) },
            18 => Check8 { a: byte(x), c: byte(y) },
            19 => Check32 { a: byte(x), c: byte(y) },
            20 => CheckPut8 { g: short(x), k: short(y), c: byte(z) },
            21 => CheckPut32 { g: short(x), k: short(y), c: byte(z) },
            _ => return None,
        })
    }

    /// The opcode, and the operands in the table's order.
    pub fn to_numbers(self) -> (u32, [u32; MOST_OPERANDS]) {
        use Instruction::*;
        let small = |x: u8, y: u8, z: u8| [u32::from(x), u32::from(y), u32::from(z)];
        let named = |g: u16, k: u16, x: u8| [u32::from(g), u32::from(k), u32::from(x)];
        match self {
            End => (0, [0, 0, 0]),
            Set { d, n } => (1, [u32::from(d), n, 0]),
            Place { d, g } => (2, [u32::from(d), u32::from(g), 0]),
            Add { d, a, b } => (3, small(d, a, b)),
            Sub { d, a, b } => (4, small(d, a, b)),
            Less { d, a, b } => (5, small(d, a, b)),
            Load8 { d, a } => (6, small(d, a, 0)),
            Load32 { d, a } => (7, small(d, a, 0)),
            Put8 { g, k, a } => (8, named(g, k, a)),
            Put32 { g, k, a } => (9, named(g, k, a)),
            Write8 { a, b, s } => (10, [u32::from(a), u32::from(b), u32::from(s)]),
            Write32 { a, b, s } => (11, [u32::from(a), u32::from(b), u32::from(s)]),
            Jump { p } => (12, [u32::from(p), 0, 0]),
            JumpIf { a, p } => (13, [u32::from(a), u32::from(p), 0]),
            Alloc { d, g, a } => (14, [u32::from(d), u32::from(g), u32::from(a)]),
            Free { a } => (15, small(a, 0, 0)),
            In { d } => (16, small(d, 0, 0)),
            Out { a } => (17, small(a, 0, 0)),
            Check8 { a, c } => (18, small(a, c, 0)),
            Check32 { a, c } => (19, small(a, c, 0)),
            CheckPut8 { g, k, c } => (20, named(g, k, c)),
            CheckPut32 { g, k, c } => (21, named(g, k, c)),
        }
    }

    /// Whether this is a check: it costs no step and no place counts it.
    pub fn is_check(self) -> bool {
        OPCODES[self.to_numbers().0 as usize].checks
    }

    /// Where this jumps to, if it is a jump.
    pub fn target(self) -> Option<usize> {
        match self {
            Instruction::Jump { p } | Instruction::JumpIf { p, .. } => Some(usize::from(p)),
            _ => None,
        }
    }

    /// The same instruction with its jump, if it is one, going elsewhere.
    pub fn with_target(self, target: usize) -> Instruction {
        let p = target as u16;
        match self {
            Instruction::Jump { .. } => Instruction::Jump { p },
            Instruction::JumpIf { a, .. } => Instruction::JumpIf { a, p },
            other => other,
        }
    }

    /// The instruction in words and decimals, as `WRITE8 0 1 0`.
    pub fn listing(self, with_sets: bool) -> String {
        let (opcode, operands) = self.to_numbers();
        let row = &OPCODES[opcode as usize];
        let mut line = row.name.to_string();
        for (kind, number) in row.operands.iter().zip(operands) {
            if *kind != Operand::Set || with_sets {
                line.push_str(&format!(" {}", number));
            }
        }
        line
    }
}
