//! The heap as it stands in memory and table: headers, the walk over them,
//! ALLOC and FREE. Memory may hold anything, since a file by somebody else may
//! have written over the headers.

use crate::layout::{extent, END_SLOT, HEAP, MEMORY, SLOT_SHIFT, TABLE};
use crate::record::Stop;

pub const HEADER: u32 = 8;
pub const HEADER_COLOR: u8 = 1;
pub const LARGEST_WISH: u32 = 4_096;
/// A body is cut if at least this remains: a header and the smallest body.
pub const LEAST_REST: u32 = 16;
const SMALLEST_BODY: u32 = 8;

/// A block as the walk finds it.
#[derive(Clone, Copy, Debug, PartialEq, Eq)]
pub struct Block {
    /// The address of its body.
    pub body: u32,
    pub size: u32,
    /// 0 free; anything else is live, also a mark that names no site.
    pub mark: u32,
}

/// Sets up the heap in cleared memory and table: one free body, and the end
/// slot, which is all zero.
pub fn fresh(memory: &mut [u8; MEMORY], table: &mut [u8; TABLE]) {
    write_header(memory, HEAP + HEADER, END_SLOT - HEAP - HEADER, 0);
    paint(table, HEAP, HEADER, HEADER_COLOR);
    paint(table, END_SLOT, HEADER, HEADER_COLOR);
}

/// All blocks from the heap's start up to the end slot, or stop 38 at the first
/// header that is not sound. A header's mark plays no part in that.
pub fn walk(memory: &[u8; MEMORY]) -> Result<Vec<Block>, Stop> {
    let mut blocks = Vec::new();
    let mut header = HEAP;
    while header < END_SLOT {
        let block = Block {
            body: header + HEADER,
            size: read_word(memory, header),
            mark: read_word(memory, header + 4),
        };
        // A forged size may be near 2^32, and addresses do not wrap.
        let next = u64::from(block.body) + u64::from(block.size);
        let whole_slots = block.size % 8 == 0 && block.size >= SMALLEST_BODY;
        if !whole_slots || next > u64::from(END_SLOT) {
            return Err(Stop::UnsoundHeap);
        }
        blocks.push(block);
        header = block.body + block.size;
    }
    Ok(blocks)
}

/// ALLOC of a wish for a heap site with its color: the body's address, or 0.
pub fn alloc(
    memory: &mut [u8; MEMORY],
    table: &mut [u8; TABLE],
    site: u32,
    color: u8,
    wish: u32,
) -> Result<u32, Stop> {
    if wish == 0 || wish > LARGEST_WISH {
        return Ok(0);
    }
    let needed = extent(wish);
    let blocks = walk(memory)?;
    let mut free = blocks.iter().filter(|block| block.mark == 0);
    let found = match free.find(|block| block.size >= needed) {
        Some(block) => *block,
        None => return Ok(0),
    };
    let rest = found.size - needed;
    let size = if rest >= LEAST_REST {
        let rest_header = found.body + needed;
        write_header(memory, rest_header + HEADER, rest - HEADER, 0);
        paint(table, rest_header, HEADER, HEADER_COLOR);
        needed
    } else {
        found.size
    };
    write_header(memory, found.body, size, site + 1);
    memory[found.body as usize..(found.body + size) as usize].fill(0);
    paint(table, found.body, size, color);
    Ok(found.body)
}

/// FREE of an address. The walk comes first, then the address is judged.
pub fn free(memory: &mut [u8; MEMORY], table: &mut [u8; TABLE], address: u32) -> Result<(), Stop> {
    if address == 0 {
        return Ok(());
    }
    let blocks = walk(memory)?;
    let live = |block: &Block| block.body == address && block.mark != 0;
    let at = blocks.iter().position(live).ok_or(Stop::BadFree)?;
    let mut joined = blocks[at];
    if let Some(next) = blocks.get(at + 1).filter(|block| block.mark == 0) {
        joined.size += HEADER + next.size;
    }
    if at > 0 && blocks[at - 1].mark == 0 {
        joined.body = blocks[at - 1].body;
        joined.size += HEADER + blocks[at - 1].size;
    }
    write_header(memory, joined.body, joined.size, 0);
    paint(table, joined.body, joined.size, 0);
    Ok(())
}

fn read_word(memory: &[u8; MEMORY], address: u32) -> u32 {
    let at = address as usize;
    u32::from_le_bytes([memory[at], memory[at + 1], memory[at + 2], memory[at + 3]])
}

/// Writes the header that stands before a body.
fn write_header(memory: &mut [u8; MEMORY], body: u32, size: u32, mark: u32) {
    let header = (body - HEADER) as usize;
    memory[header..header + 4].copy_from_slice(&size.to_le_bytes());
    memory[header + 4..header + 8].copy_from_slice(&mark.to_le_bytes());
}

/// Gives every slot of a span that begins and ends at slot edges one color.
pub fn paint(table: &mut [u8; TABLE], start: u32, length: u32, color: u8) {
    let first = (start >> SLOT_SHIFT) as usize;
    let behind = ((start + length) >> SLOT_SHIFT) as usize;
    table[first..behind].fill(color);
}
