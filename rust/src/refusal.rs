//! A refusal: the number that says why something was not taken, and the place.

use std::fmt;

/// Why, by number, and where.
#[derive(Clone, Copy, Debug, PartialEq, Eq)]
pub struct Refusal {
    pub number: u32,
    pub place: u32,
}

pub const TOO_LONG: u32 = 1;
pub const ENDS_EARLY: u32 = 2;
pub const BAD_NUMBER: u32 = 3;
pub const VERSION: u32 = 4;
pub const COUNT: u32 = 5;
pub const FIELD: u32 = 6;
pub const SURPLUS: u32 = 7;
pub const CLASSES: u32 = 8;
pub const GLOBALS: u32 = 9;
pub const ROOM: u32 = 10;
pub const LENT: u32 = 11;

impl Refusal {
    /// A refusal at a byte of a file. A file of four gigabytes is refused for
    /// its length before any place in it is named, so the place fits.
    pub fn at(number: u32, place: usize) -> Refusal {
        Refusal { number, place: place as u32 }
    }

    /// A refusal that has no place of its own.
    pub fn whole(number: u32) -> Refusal {
        Refusal { number, place: 0 }
    }
}

/// What a refusal's number means.
pub fn meaning(number: u32) -> &'static str {
    match number {
        TOO_LONG => "file too long",
        ENDS_EARLY => "file ends early",
        BAD_NUMBER => "number not shortest or above 32 bits",
        VERSION => "version out of its range",
        COUNT => "count out of its range",
        FIELD => "field out of its range or order",
        SURPLUS => "bytes after the last instruction",
        CLASSES => "more than 254 classes",
        GLOBALS => "globals end above 28,672",
        ROOM => "room for the version 2 file too small",
        LENT => "memory or table not of its exact length",
        _ => "no refusal has this number",
    }
}

impl fmt::Display for Refusal {
    fn fmt(&self, f: &mut fmt::Formatter<'_>) -> fmt::Result {
        write!(f, "refused with {} at {}: {}", self.number, self.place, meaning(self.number))
    }
}
