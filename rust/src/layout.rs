//! Where things stand in memory: the globals with their extents and guards
//! from address 8 up to the heap.

use crate::file::Object;
use crate::refusal::{Refusal, GLOBALS};

pub const MEMORY: usize = 57_344;
pub const TABLE: usize = 7_168;
/// A slot is eight bytes; its color stands at the address shifted right by three.
pub const SLOT: u32 = 8;
pub const SLOT_SHIFT: u32 = 3;
pub const GUARD: u32 = 8;
/// Slot 0 belongs to nothing.
pub const FIRST_GLOBAL: u32 = 8;
pub const HEAP: u32 = 28_672;
pub const END_SLOT: u32 = 57_336;

/// A size rounded up to eight.
pub fn extent(size: u32) -> u32 {
    (size + (SLOT - 1)) / SLOT * SLOT
}

/// The start of each global (0 for a heap site), the guards, and the end.
#[derive(Clone, Debug, PartialEq, Eq)]
pub struct Layout {
    pub starts: Vec<u32>,
    pub guards: Vec<u32>,
    pub end: u32,
}

/// From address 8 the safe globals in order; then a guard, there even if no
/// safe global is; then each unsafe global, each followed by a guard.
pub fn layout(objects: &[Object], safe: impl Fn(usize) -> bool) -> Result<Layout, Refusal> {
    let mut starts = vec![0; objects.len()];
    let mut guards = Vec::new();
    let mut end = FIRST_GLOBAL;
    for (number, object) in objects.iter().enumerate() {
        if let (Object::Global { size }, true) = (object, safe(number)) {
            starts[number] = end;
            end += extent(*size);
        }
    }
    guards.push(end);
    end += GUARD;
    for (number, object) in objects.iter().enumerate() {
        if let (Object::Global { size }, false) = (object, safe(number)) {
            starts[number] = end;
            end += extent(*size);
            guards.push(end);
            end += GUARD;
        }
    }
    if end > HEAP {
        return Err(Refusal::whole(GLOBALS));
    }
    Ok(Layout { starts, guards, end })
}
