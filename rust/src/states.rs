//! States that a trial has to reach besides the numbers that come back: long
//! runs, limits of every size, full rooms, high sites, every color, long chains,
//! far jumps, forged rows of free blocks. A machine may be right everywhere else
//! and wrong only there.

use crate::coloring::unsafe_set;
use crate::file::{read_routine, Routine};
use crate::heap;
use crate::instruction::Instruction;
use crate::layout::{HEAP, MEMORY};
use crate::machine::Machine;
use crate::record::{Record, Stop};
use crate::refusal::{ENDS_EARLY, LENT};
use crate::wire::{Answer, Case, Kind};
use std::collections::{BTreeSet, VecDeque};
use std::ops::RangeInclusive;

/// A state. Some have parts, as many as it takes to tell them apart: each is to
/// be reached.
#[derive(Clone, Copy, Debug, PartialEq, Eq, PartialOrd, Ord)]
pub enum State {
    Steps16,
    Steps20,
    LimitOfSize,
    LimitUsed16,
    LimitUsed20,
    TakenAbove8,
    TakenAll,
    OutAbove12,
    RoomFull,
    HighSite,
    ColorPasses,
    LastGlobal,
    Chain8,
    Chain30,
    Chain399,
    FarJump,
    FreeByRow,
    HalfOutside,
    PlaceInRoom,
    LargeRoom,
    ElevenFirst,
    NumberOfLength,
    NumberCutOff,
    NumberTooLong,
    NumberTooLarge,
}

use State::*;

impl State {
    pub const ALL: [State; 25] = [
        Steps16,
        Steps20,
        LimitOfSize,
        LimitUsed16,
        LimitUsed20,
        TakenAbove8,
        TakenAll,
        OutAbove12,
        RoomFull,
        HighSite,
        ColorPasses,
        LastGlobal,
        Chain8,
        Chain30,
        Chain399,
        FarJump,
        FreeByRow,
        HalfOutside,
        PlaceInRoom,
        LargeRoom,
        ElevenFirst,
        NumberOfLength,
        NumberCutOff,
        NumberTooLong,
        NumberTooLarge,
    ];

    pub fn name(self) -> &'static str {
        match self {
            Steps16 => "more than 65,536 steps",
            Steps20 => "more than 1,048,576 steps",
            LimitOfSize => "a limit of 0, 1, .. 32 bits",
            LimitUsed16 => "31 at a limit above 65,536",
            LimitUsed20 => "31 at a limit above 1,048,576",
            TakenAbove8 => "more than 8 numbers taken",
            TakenAll => "1,000 inputs or more, all taken",
            OutAbove12 => "more than 12 numbers put out",
            RoomFull => "a room of 1,000 or more, full",
            HighSite => "ALLOC for a site from 256 on",
            ColorPasses => "a check passes, color 2, 3, .. 255",
            LastGlobal => "PUT, WRITE into the last global slot",
            Chain8 => "a chain of 8 sets or more",
            Chain30 => "a chain of 30 sets or more",
            Chain399 => "a chain of 399 sets",
            FarJump => "JUMP, JUMPIF to 1,024 or beyond",
            FreeByRow => "FREE behind, before a row of free ones",
            HalfOutside => "a store with 1, 2, 3 bytes in memory",
            PlaceInRoom => "written from 256, 8,192, 32,768 on",
            LargeRoom => "a room above 32,768, with a file",
            ElevenFirst => "11 and 1, 2, .. 9 in the file",
            NumberOfLength => "a number of 1, 2, .. 5 bytes",
            NumberCutOff => "2 behind 0, 1, .. 4 bytes of a number",
            NumberTooLong => "a last group of 0 as byte 2, 3, 4, 5",
            NumberTooLarge => "fifth byte: group above 15, top bit, both",
        }
    }

    /// The kinds of cases that can reach it.
    pub fn kinds(self) -> &'static [Kind] {
        match self {
            Chain8 | Chain30 | Chain399 => &[Kind::Color, Kind::Instrument, Kind::Control],
            // Only code by somebody else can forge headers.
            FreeByRow => &[Kind::Run],
            PlaceInRoom => &[Kind::WriteNumber],
            NumberOfLength | NumberCutOff | NumberTooLong | NumberTooLarge => &[Kind::ReadNumber],
            LargeRoom => &[Kind::WriteInstrumented, Kind::Instrument],
            _ => &[Kind::Run, Kind::Control],
        }
    }

    /// Its parts, by the kind of case.
    pub fn parts(self, kind: Kind) -> Vec<u32> {
        let all: RangeInclusive<u32> = match self {
            LimitOfSize => 0..=32,
            ColorPasses => 2..=255,
            LastGlobal | FarJump | FreeByRow => 0..=1,
            HalfOutside => 1..=3,
            PlaceInRoom => 0..=2,
            ElevenFirst => 1..=9,
            NumberOfLength => 1..=5,
            NumberCutOff => 0..=4,
            NumberTooLong => 2..=5,
            NumberTooLarge => 0..=2,
            _ => 0..=0,
        };
        // No version 2 file has too many classes.
        let without_8 = self == ElevenFirst && kind == Kind::Run;
        all.filter(|&part| !(without_8 && part == 8)).collect()
    }
}

/// The first slot of an extent whose guard ends at the heap.
const LAST_GLOBAL_SLOT: RangeInclusive<u32> = HEAP - 16..=HEAP - 9;
const FIRST_HIGH_SITE: u16 = 256;
const FIRST_FAR: u16 = 1_024;

/// What one case has reached.
pub struct Seen {
    states: BTreeSet<(State, u32)>,
    colors: [bool; 256],
}

impl Default for Seen {
    fn default() -> Seen {
        Seen { states: BTreeSet::new(), colors: [false; 256] }
    }
}

/// What an instruction reaches if it is completed; or, a store, if it stops.
enum About {
    Color(u8),
    State(State, u32),
    Stopped(State, u32),
}

impl Seen {
    /// Answers a case, and sees what is reached on the way.
    pub fn answer(&mut self, case: &Case) -> Answer {
        let answer = case.answer_by(|machine| self.watch(machine));
        self.note_answer(case, &answer);
        answer
    }

    /// The states, each once.
    pub fn states(&self) -> Vec<(State, u32)> {
        let colors = (2..=255).filter(|&color| self.colors[color as usize]);
        let colors = colors.map(|color| (ColorPasses, color));
        self.states.iter().copied().chain(colors).collect()
    }

    fn note(&mut self, reached: bool, state: State, part: u32) {
        if reached {
            self.states.insert((state, part));
        }
    }

    /// Runs a machine to its stop and looks at each instruction.
    fn watch(&mut self, mut machine: Machine) -> Record {
        loop {
            let about = machine.next_instruction().and_then(|next| about(&machine, next));
            match (machine.advance(), about) {
                (Ok(()), Some(About::Color(color))) => self.colors[usize::from(color)] = true,
                (Ok(()), Some(About::State(state, part))) => self.note(true, state, part),
                (Ok(()), _) => {}
                (Err(record), about) => {
                    if let Some(About::Stopped(state, part)) = about {
                        let stores = [Stop::StoreOutside, Stop::ForbiddenStore];
                        let store = stores.iter().any(|stop| stop.number() == record.reason);
                        self.note(store, state, part);
                    }
                    return record;
                }
            }
        }
    }

    fn note_answer(&mut self, case: &Case, answer: &Answer) {
        let [reason, _, steps, out, taken, ..] = answer.0;
        match case.kind {
            Kind::ReadNumber => self.note_number(case, answer),
            Kind::WriteNumber if reason == 0 => {
                for (part, least) in [256, 8_192, 32_768].into_iter().enumerate() {
                    self.note(case.cursor >= least, PlaceInRoom, part as u32);
                }
            }
            Kind::WriteInstrumented if reason == 0 => self.note_large_room(case),
            Kind::Instrument if reason == 0 => {
                self.note_large_room(case);
                self.note_chains(case);
            }
            Kind::Color if reason == 0 => self.note_chains(case),
            Kind::Run | Kind::Control if reason == LENT => self.note_eleven(case),
            Kind::Run | Kind::Control if reason == 0 || reason > LENT => {
                self.note_run(case, reason == Stop::Limit.number(), [steps, out, taken]);
                if case.kind == Kind::Control {
                    self.note_chains(case);
                }
            }
            _ => {}
        }
    }

    /// How long a number was, or which of its bytes decided.
    fn note_number(&mut self, case: &Case, answer: &Answer) {
        let bytes = case.file.get(case.cursor as usize..).unwrap_or(&[]);
        match answer.reason() {
            0 => self.note(true, NumberOfLength, answer.0[3] - case.cursor),
            ENDS_EARLY => self.note(true, NumberCutOff, bytes.len() as u32),
            _ => {
                let last = bytes.iter().take(5).position(|&byte| byte < 128);
                let zero = last.filter(|&at| bytes[at] == 0);
                self.note(zero.is_some(), NumberTooLong, zero.map_or(0, |at| at as u32 + 1));
                let fifth = bytes.get(4).copied().filter(|_| last.unwrap_or(4) == 4).unwrap_or(0);
                match (fifth & 127 > 15, fifth >= 128) {
                    (true, false) => self.note(true, NumberTooLarge, 0),
                    (false, true) => self.note(true, NumberTooLarge, 1),
                    (true, true) => self.note(true, NumberTooLarge, 2),
                    (false, false) => {}
                }
            }
        }
    }

    fn note_run(&mut self, case: &Case, limit_used: bool, [steps, out, taken]: [u32; 3]) {
        self.note(steps > 65_536, Steps16, 0);
        self.note(steps > 1_048_576, Steps20, 0);
        self.note(true, LimitOfSize, 32 - case.limit.leading_zeros());
        self.note(limit_used && case.limit > 65_536, LimitUsed16, 0);
        self.note(limit_used && case.limit > 1_048_576, LimitUsed20, 0);
        self.note(taken > 8, TakenAbove8, 0);
        self.note(taken >= 1_000 && taken as usize == case.inputs.len(), TakenAll, 0);
        self.note(out > 12, OutAbove12, 0);
        self.note(out >= 1_000 && out == case.room, RoomFull, 0);
    }

    fn note_large_room(&mut self, case: &Case) {
        self.note(case.room > 32_768, LargeRoom, 0);
    }

    /// What the file would have been refused with, had all been lent rightly.
    fn note_eleven(&mut self, case: &Case) {
        let rightly = case.probe(0);
        self.note(rightly.is_refusal(), ElevenFirst, rightly.reason);
    }

    fn note_chains(&mut self, case: &Case) {
        // A chain of eight sets takes that many sets and instructions.
        if case.file.len() < 64 {
            return;
        }
        if let Ok(routine) = read_routine(&case.file) {
            let longest = longest_chain(&routine);
            self.note(longest >= 8, Chain8, 0);
            self.note(longest >= 30, Chain30, 0);
            self.note(longest >= 399, Chain399, 0);
        }
    }
}

fn about(machine: &Machine, instruction: Instruction) -> Option<About> {
    use Instruction::*;
    let of = |temporary: u8| machine.temporaries()[usize::from(temporary)];
    match instruction {
        Check8 { c, .. } | CheckPut8 { c, .. } => Some(About::Color(c)),
        Check32 { a, c } => half_outside(of(a)).or(Some(About::Color(c))),
        CheckPut32 { g, k, c } => half_outside(machine.byte_of(g, k)).or(Some(About::Color(c))),
        Put8 { g, k, .. } => into_last_global(machine.byte_of(g, k), 0),
        Put32 { g, k, .. } => {
            let to = machine.byte_of(g, k);
            half_outside(to).or_else(|| into_last_global(to, 0))
        }
        Write8 { a, .. } => into_last_global(of(a), 1),
        Write32 { a, .. } => half_outside(of(a)).or_else(|| into_last_global(of(a), 1)),
        Jump { p } if p >= FIRST_FAR => Some(About::State(FarJump, 0)),
        JumpIf { a, p } if p >= FIRST_FAR && of(a) != 0 => Some(About::State(FarJump, 1)),
        Alloc { g, a, .. } if g >= FIRST_HIGH_SITE && (1..=4_096).contains(&of(a)) => {
            Some(About::State(HighSite, 0))
        }
        Free { a } => by_row(machine, of(a)),
        _ => None,
    }
}

/// A store of four bytes of which only the first ones lie in memory.
fn half_outside(to: u32) -> Option<About> {
    match (MEMORY as u32).checked_sub(to) {
        Some(inside @ 1..=3) => Some(About::Stopped(HalfOutside, inside)),
        _ => None,
    }
}

fn into_last_global(to: u32, part: u32) -> Option<About> {
    match LAST_GLOBAL_SLOT.contains(&to) {
        true => Some(About::State(LastGlobal, part)),
        false => None,
    }
}

/// A FREE that has two free blocks or more directly on one side.
fn by_row(machine: &Machine, address: u32) -> Option<About> {
    let blocks = heap::walk(machine.memory().try_into().ok()?).ok()?;
    let at = blocks.iter().position(|block| block.body == address)?;
    let is_free = |place: Option<usize>| match place.and_then(|place| blocks.get(place)) {
        Some(block) => block.mark == 0,
        None => false,
    };
    if is_free(at.checked_sub(1)) && is_free(at.checked_sub(2)) {
        return Some(About::State(FreeByRow, 0));
    }
    match is_free(Some(at + 1)) && is_free(Some(at + 2)) {
        true => Some(About::State(FreeByRow, 1)),
        false => None,
    }
}

/// How many sets the longest chain of a routine has that no shorter one
/// replaces, as far as two floods of each class tell: from its lowest object, and
/// from one of those furthest away. For a mere row of sets that is exact.
fn longest_chain(routine: &Routine) -> usize {
    let mut sets: Vec<Vec<usize>> = Vec::new();
    for &instruction in &routine.code {
        if let Some(set) = unsafe_set(routine, instruction) {
            sets.push(set.into_owned());
        }
    }
    sets.sort_unstable();
    sets.dedup();
    let mut holding = vec![Vec::new(); routine.objects.len()];
    for (number, set) in sets.iter().enumerate() {
        for &object in set {
            holding[object].push(number);
        }
    }
    let mut done = vec![false; routine.objects.len()];
    let mut longest = 0;
    for lowest in 0..routine.objects.len() {
        if !done[lowest] && !holding[lowest].is_empty() {
            let (furthest, _) = flood(&sets, &holding, lowest, &mut done);
            let (_, length) = flood(&sets, &holding, furthest, &mut done);
            longest = longest.max(length);
        }
    }
    longest
}

/// The object furthest from one, and how many sets a chain to it takes.
fn flood(
    sets: &[Vec<usize>],
    holding: &[Vec<usize>],
    from: usize,
    done: &mut [bool],
) -> (usize, usize) {
    let mut away = vec![None; holding.len()];
    let mut crossed = vec![false; sets.len()];
    away[from] = Some(0);
    let mut reached = VecDeque::from([(from, 0)]);
    let mut last = (from, 0);
    while let Some((object, length)) = reached.pop_front() {
        done[object] = true;
        last = (object, length);
        for &number in &holding[object] {
            if std::mem::replace(&mut crossed[number], true) {
                continue;
            }
            for &member in &sets[number] {
                if away[member].is_none() {
                    away[member] = Some(length + 1);
                    reached.push_back((member, length + 1));
                }
            }
        }
    }
    last
}
