//! The same run: a routine under the plain rule and its version 2 under the
//! table, side by side, compared after every step.
//!
//! After each step both have the same temporaries, numbers out and memory; the
//! headers in memory are those of the bodies that the history of calls gives;
//! live bodies, free bodies and eight for each header make 28,664; and the table
//! has each object's color, 1 on headers and 0 elsewhere.

use crate::file::{read_instrumented, read_routine, Object};
use crate::heap::{walk, Block};
use crate::instruction::Instruction;
use crate::instrument::instrument;
use crate::layout::{extent, END_SLOT, MEMORY, TABLE};
use crate::machine::{lent, Loaded, Machine};
use crate::plain::{Plain, Rule};
use crate::record::{Record, Stop};

/// What live bodies, free bodies and headers make together.
pub const ACCOUNT: u64 = 28_664;

/// What stands in lent memory, table and room before a run, so that bytes which
/// should have been cleared, or should have stayed, are seen.
const LITTER: u8 = 0xA7;

/// Runs a version 1 file both ways: the one record of both runs, or in words
/// what differs and after which step.
pub fn same_run(file: &[u8], inputs: &[u32], room: usize, limit: u32) -> Result<Record, String> {
    let mut version_2 = vec![0; 32_768];
    let instrumented = instrument(file, &mut version_2);
    let rule = read_routine(file).and_then(Rule::new);
    let (length, rule) = match (instrumented, rule) {
        (Ok(length), Ok(rule)) => (length, rule),
        (Err(ours), Err(plain)) if ours == plain => return Ok(Record::refused(ours)),
        (ours, plain) => {
            let plain = plain.map(|_| "taken");
            return Err(format!("instrumenter {:?}, plain rule {:?}", ours, plain));
        }
    };
    let program = read_instrumented(&version_2[..length])
        .map_err(|refusal| format!("version 2 of the routine is {}", refusal))?;
    let loaded = Loaded::new(program)
        .map_err(|refusal| format!("version 2 of the routine is {}", refusal))?;
    let mut memories = [vec![LITTER; MEMORY], vec![LITTER; MEMORY]];
    let mut outputs = [vec![0; room], vec![0; room]];
    let mut table = vec![LITTER; TABLE];
    let [memory, plain_memory] = &mut memories;
    let [output, plain_output] = &mut outputs;
    let lent = lent(memory, &mut table).map_err(|refusal| refusal.to_string())?;
    let machine = loaded.start(inputs, limit, lent, output);
    let plain = Plain::start(&rule, inputs, limit, plain_memory, plain_output);
    let record = side_by_side(machine, plain, &rule)?;
    if outputs[0] != outputs[1] {
        return Err("the output rooms differ".to_string());
    }
    Ok(record)
}

fn side_by_side(mut machine: Machine, mut plain: Plain, rule: &Rule) -> Result<Record, String> {
    let colors = rule.classes.colors().map_err(|refusal| refusal.to_string())?;
    tied(&machine, &plain).map_err(|words| format!("at the start: {}", words))?;
    table_is_right(&machine, &plain, rule, &colors)?;
    for step in 1_u64.. {
        let moves_blocks = matches!(
            plain.next_instruction(),
            Some(Instruction::Alloc { .. } | Instruction::Free { .. })
        );
        let stopped = match (machine.step(), plain.step()) {
            (Ok(()), Ok(())) => None,
            (Err(ours), Err(theirs)) if ours == theirs => Some(ours),
            (ours, theirs) => {
                return Err(format!("step {}: instrumented {:?}, plain {:?}", step, ours, theirs))
            }
        };
        tied(&machine, &plain).map_err(|words| format!("step {}: {}", step, words))?;
        if moves_blocks || stopped.is_some() {
            table_is_right(&machine, &plain, rule, &colors)
                .map_err(|words| format!("step {}: {}", step, words))?;
        }
        if let Some(record) = stopped {
            return met_by_instrumented_code(record);
        }
    }
    unreachable!("the limit is below 2^32")
}

/// Instrumented code never meets 35 or 38.
fn met_by_instrumented_code(record: Record) -> Result<Record, String> {
    let never = [Stop::StoreOutside.number(), Stop::UnsoundHeap.number()];
    if never.contains(&record.reason) {
        return Err(format!("instrumented code stopped with {}", record.reason));
    }
    Ok(record)
}

fn tied(machine: &Machine, plain: &Plain) -> Result<(), String> {
    if machine.temporaries() != plain.temporaries() {
        let (ours, theirs) = (machine.temporaries(), plain.temporaries());
        return Err(format!("temporaries {:?} and {:?}", ours, theirs));
    }
    if machine.written() != plain.written() {
        return Err("the numbers out differ".to_string());
    }
    if machine.memory() != plain.memory() {
        let mut bytes = machine.memory().iter().zip(plain.memory());
        let address = bytes.position(|(ours, theirs)| ours != theirs);
        return Err(format!("memory differs first at {:?}", address));
    }
    accounts(machine.memory(), plain)
}

/// The headers in memory are those of the history's blocks, and the account
/// comes out at 28,664.
fn accounts(memory: &[u8], plain: &Plain) -> Result<(), String> {
    let memory = <&[u8; MEMORY]>::try_from(memory).map_err(|error| error.to_string())?;
    let found = walk(memory).map_err(|stop| format!("the walk stops with {:?}", stop))?;
    let mut expected: Vec<Block> = Vec::with_capacity(found.len());
    expected.extend(plain.live().iter().map(|live| Block {
        body: live.body as u32,
        size: live.size as u32,
        mark: live.site as u32 + 1,
    }));
    expected.extend(plain.gaps().iter().map(|gap| Block {
        body: gap.body as u32,
        size: gap.size as u32,
        mark: 0,
    }));
    expected.sort_by_key(|block| block.body);
    if found != expected {
        return Err(format!("headers {:?}, history {:?}", found, expected));
    }
    let bodies: u64 = expected.iter().map(|block| u64::from(block.size)).sum();
    let account = bodies + 8 * expected.len() as u64;
    if account != ACCOUNT {
        return Err(format!("the account is {}", account));
    }
    Ok(())
}

fn table_is_right(
    machine: &Machine,
    plain: &Plain,
    rule: &Rule,
    colors: &[u8],
) -> Result<(), String> {
    let mut expected = vec![0; TABLE];
    let mut paint = |start: u64, length: u64, color: u8| {
        for address in start..start + length {
            expected[(address / 8) as usize] = color;
        }
    };
    for (number, object) in rule.routine.objects.iter().enumerate() {
        if let Object::Global { size } = object {
            let start = u64::from(rule.starts[number]);
            paint(start, u64::from(extent(*size)), colors[number]);
        }
    }
    for live in plain.live() {
        paint(live.body - 8, 8, 1);
        paint(live.body, live.size, colors[live.site]);
    }
    for gap in plain.gaps() {
        paint(gap.body - 8, 8, 1);
    }
    paint(u64::from(END_SLOT), 8, 1);
    let mut slots = expected.iter().zip(machine.table());
    match slots.position(|(expected, found)| expected != found) {
        None => Ok(()),
        Some(slot) => Err(format!(
            "slot {} has color {}, not {}",
            slot,
            machine.table()[slot],
            expected[slot]
        )),
    }
}
