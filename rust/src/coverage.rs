//! What the trials have reached: every refusal and every stop, and every state of
//! [`crate::states`], kind by kind. A trial in which one is missing has failed,
//! since it says nothing about it.

use crate::record::Stop;
use crate::refusal;
use crate::states::{Seen, State};
use crate::wire::Kind;
use std::collections::BTreeMap;

/// How often each kind of case was answered with each number, and how many cases
/// reached each part of a state.
#[derive(Default)]
pub struct Coverage {
    counts: BTreeMap<(Kind, u32), u64>,
    states: BTreeMap<(State, Kind, u32), u64>,
}

/// Every number that a kind of case can be answered with.
pub fn expected(kind: Kind) -> Vec<u32> {
    let stops = |never: &[Stop]| -> Vec<u32> {
        let met = Stop::ALL.iter().filter(|stop| !never.contains(stop));
        met.map(|stop| stop.number()).collect()
    };
    match kind {
        Kind::ReadNumber => vec![0, 2, 3],
        Kind::WriteNumber => vec![0, 10],
        Kind::ReadRoutine | Kind::ReadInstrumented => (0..=7).collect(),
        Kind::WriteInstrumented => (0..=7).chain([10]).collect(),
        Kind::Color => (0..=8).collect(),
        Kind::Instrument => (0..=10).collect(),
        // Running never gives 8 or 10.
        Kind::Run => (1..=7).chain([9, 11]).chain(stops(&[])).collect(),
        // Instrumented code never meets 35 or 38.
        Kind::Control => {
            let never = [Stop::StoreOutside, Stop::UnsoundHeap];
            (1..=9).chain([11]).chain(stops(&never)).collect()
        }
    }
}

impl Coverage {
    pub fn note(&mut self, kind: Kind, number: u32) {
        *self.counts.entry((kind, number)).or_insert(0) += 1;
    }

    pub fn note_states(&mut self, kind: Kind, seen: &Seen) {
        for (state, part) in seen.states() {
            *self.states.entry((state, kind, part)).or_insert(0) += 1;
        }
    }

    fn reached(&self, state: State, kind: Kind, part: u32) -> u64 {
        self.states.get(&(state, kind, part)).copied().unwrap_or(0)
    }

    /// What was never reached, of what some of these kinds can reach.
    pub fn missing_states(&self, kinds: &[Kind]) -> Vec<(State, Kind, u32)> {
        let mut missing = Vec::new();
        for state in State::ALL {
            for &kind in state.kinds().iter().filter(|kind| kinds.contains(kind)) {
                let parts = state.parts(kind).into_iter();
                let parts = parts.filter(|&part| self.reached(state, kind, part) == 0);
                missing.extend(parts.map(|part| (state, kind, part)));
            }
        }
        missing
    }

    /// The table of states. A state of several parts has the count of the part
    /// that was reached least.
    pub fn state_table(&self, kinds: &[Kind]) -> String {
        let mut text = format!("{:<45}", "state (of its parts the least reached)");
        for kind in kinds {
            text.push_str(&format!("{:>9}", heading(*kind)));
        }
        text.push('\n');
        for state in State::ALL {
            text.push_str(&format!("{:<45}", state.name()));
            for kind in kinds {
                let parts = state.parts(*kind).into_iter();
                let least = parts.map(|part| self.reached(state, *kind, part)).min();
                let cell = match least {
                    Some(least) if state.kinds().contains(kind) => least.to_string(),
                    _ => ".".to_string(),
                };
                text.push_str(&format!("{:>9}", cell));
            }
            text.push('\n');
        }
        text
    }

    fn count(&self, kind: Kind, number: u32) -> u64 {
        self.counts.get(&(kind, number)).copied().unwrap_or(0)
    }

    /// What was never answered, of what can be.
    pub fn missing(&self, kinds: &[Kind]) -> Vec<(Kind, u32)> {
        let mut missing = Vec::new();
        for &kind in kinds {
            for number in expected(kind) {
                if self.count(kind, number) == 0 {
                    missing.push((kind, number));
                }
            }
        }
        missing
    }

    /// The table: a row for each number, a column for each kind. A dot stands
    /// where the kind cannot give the number.
    pub fn table(&self, kinds: &[Kind]) -> String {
        let mut text = format!("{:>4} {:<40}", "no.", "meaning");
        for kind in kinds {
            text.push_str(&format!("{:>9}", heading(*kind)));
        }
        text.push('\n');
        for number in (0..=11).chain(30..=38) {
            text.push_str(&format!("{:>4} {:<40}", number, meaning(number)));
            for &kind in kinds {
                let count = self.count(kind, number);
                let cell = match count == 0 && !expected(kind).contains(&number) {
                    true => ".".to_string(),
                    false => count.to_string(),
                };
                text.push_str(&format!("{:>9}", cell));
            }
            text.push('\n');
        }
        text
    }
}

fn heading(kind: Kind) -> &'static str {
    match kind {
        Kind::ReadNumber => "read n",
        Kind::WriteNumber => "write n",
        Kind::ReadRoutine => "read 1",
        Kind::ReadInstrumented => "read 2",
        Kind::WriteInstrumented => "write 2",
        Kind::Color => "color",
        Kind::Instrument => "instr",
        Kind::Run => "run 2",
        Kind::Control => "control",
    }
}

/// What a number that came back means.
pub fn meaning(number: u32) -> &'static str {
    let stop = Stop::ALL.iter().find(|stop| stop.number() == number);
    match stop {
        Some(Stop::End) => "taken; for a run: END",
        Some(stop) => stop.meaning(),
        None => refusal::meaning(number),
    }
}
