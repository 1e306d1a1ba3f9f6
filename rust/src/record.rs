//! What a run gives: reason, place, steps, numbers out, numbers taken.

use crate::refusal::{self, Refusal};
use std::fmt;

/// Why a run stopped.
#[derive(Clone, Copy, Debug, PartialEq, Eq)]
pub enum Stop {
    End = 0,
    PastTheEnd = 30,
    Limit = 31,
    NoMoreInput = 32,
    NoRoomForOutput = 33,
    ReadOutside = 34,
    StoreOutside = 35,
    ForbiddenStore = 36,
    BadFree = 37,
    UnsoundHeap = 38,
}

impl Stop {
    pub const ALL: [Stop; 10] = [
        Stop::End,
        Stop::PastTheEnd,
        Stop::Limit,
        Stop::NoMoreInput,
        Stop::NoRoomForOutput,
        Stop::ReadOutside,
        Stop::StoreOutside,
        Stop::ForbiddenStore,
        Stop::BadFree,
        Stop::UnsoundHeap,
    ];

    pub fn number(self) -> u32 {
        self as u32
    }

    pub fn meaning(self) -> &'static str {
        match self {
            Stop::End => "END",
            Stop::PastTheEnd => "past the end",
            Stop::Limit => "limit",
            Stop::NoMoreInput => "no more input",
            Stop::NoRoomForOutput => "no room for output",
            Stop::ReadOutside => "read outside memory",
            Stop::StoreOutside => "store outside memory",
            Stop::ForbiddenStore => "forbidden store",
            Stop::BadFree => "bad FREE",
            Stop::UnsoundHeap => "unsound heap",
        }
    }
}

/// The record of a run. A refusal has its number as the reason, and zeros in
/// the fields after the place; its numbers, 1 to 11, are no stop's.
#[derive(Clone, Copy, Debug, PartialEq, Eq)]
pub struct Record {
    pub reason: u32,
    pub place: u32,
    pub steps: u32,
    pub out: u32,
    pub taken: u32,
}

impl Record {
    pub fn refused(refusal: Refusal) -> Record {
        Record { reason: refusal.number, place: refusal.place, steps: 0, out: 0, taken: 0 }
    }

    pub fn is_refusal(&self) -> bool {
        (refusal::TOO_LONG..=refusal::LENT).contains(&self.reason)
    }
}

impl fmt::Display for Record {
    /// The program's line: five numbers, or a refusal's two.
    fn fmt(&self, f: &mut fmt::Formatter<'_>) -> fmt::Result {
        write!(f, "{} {}", self.reason, self.place)?;
        if self.is_refusal() {
            return Ok(());
        }
        write!(f, " {} {} {}", self.steps, self.out, self.taken)
    }
}
