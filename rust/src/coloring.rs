//! Safe stores, unsafe objects, classes and their colors.

use crate::file::{Object, Routine};
use crate::instruction::Instruction;
use crate::layout::extent;
use crate::refusal::{Refusal, CLASSES};
use std::borrow::Cow;

/// Colors go up to 255, and the classes' begin at 2.
pub const MOST_CLASSES: usize = 254;
pub const FIRST_COLOR: usize = 2;

/// The set of an unsafe instruction; nothing for one that is safe or no store.
pub fn unsafe_set(routine: &Routine, instruction: Instruction) -> Option<Cow<'_, [usize]>> {
    match instruction {
        Instruction::Put8 { g, k, .. } => unsafe_put(routine, g, k, 1).map(Cow::Owned),
        Instruction::Put32 { g, k, .. } => unsafe_put(routine, g, k, 4).map(Cow::Owned),
        Instruction::Write8 { s, .. } | Instruction::Write32 { s, .. } => {
            Some(Cow::Borrowed(&routine.sets[usize::from(s)]))
        }
        _ => None,
    }
}

/// A PUT is safe when its last byte lies inside the size rounded up to eight;
/// otherwise its set is the global alone.
fn unsafe_put(routine: &Routine, g: u16, k: u16, width: u32) -> Option<Vec<usize>> {
    let global = usize::from(g);
    let last = u32::from(k) + width - 1;
    match routine.objects[global] {
        Object::Global { size } if last < extent(size) => None,
        _ => Some(vec![global]),
    }
}

/// For each object its class, named by the class's lowest object; nothing for
/// a safe object.
#[derive(Clone, Debug, PartialEq, Eq)]
pub struct Classes {
    pub of_object: Vec<Option<usize>>,
}

impl Classes {
    /// Floods from each unsafe object that no class has yet, in rising order:
    /// from an object to every unsafe instruction's set that holds it, and from
    /// such a set to all of its objects. What is reached is what a chain joins.
    pub fn of(routine: &Routine) -> Classes {
        let sets = unsafe_sets(routine);
        let mut holding = vec![Vec::new(); routine.objects.len()];
        for (number, set) in sets.iter().enumerate() {
            for &object in set.iter() {
                holding[object].push(number);
            }
        }
        let mut of_object = vec![None; routine.objects.len()];
        let mut crossed = vec![false; sets.len()];
        for lowest in 0..routine.objects.len() {
            if of_object[lowest].is_some() || holding[lowest].is_empty() {
                continue;
            }
            of_object[lowest] = Some(lowest);
            let mut reached = vec![lowest];
            while let Some(object) = reached.pop() {
                for &number in &holding[object] {
                    if std::mem::replace(&mut crossed[number], true) {
                        continue;
                    }
                    for &member in sets[number].iter() {
                        if of_object[member].is_none() {
                            of_object[member] = Some(lowest);
                            reached.push(member);
                        }
                    }
                }
            }
        }
        Classes { of_object }
    }

    /// The class of an unsafe instruction's set. All of its objects share it.
    pub fn of_set(&self, set: &[usize]) -> Option<usize> {
        set.first().and_then(|&object| self.of_object[object])
    }

    /// How many classes there are.
    pub fn count(&self) -> usize {
        let named_by_itself = |(object, class): (usize, &Option<usize>)| *class == Some(object);
        let classes = self.of_object.iter().enumerate();
        classes.filter(|&each| named_by_itself(each)).count()
    }

    /// Safe objects have color 0; classes get 2, 3, .. in the order of their
    /// lowest object number.
    pub fn colors(&self) -> Result<Vec<u8>, Refusal> {
        if self.count() > MOST_CLASSES {
            return Err(Refusal::whole(CLASSES));
        }
        let mut colors = vec![0; self.of_object.len()];
        let mut next = FIRST_COLOR;
        for object in 0..colors.len() {
            colors[object] = match self.of_object[object] {
                None => 0,
                Some(lowest) if lowest == object => {
                    next += 1;
                    (next - 1) as u8
                }
                Some(lowest) => colors[lowest],
            };
        }
        Ok(colors)
    }
}

/// The sets of all unsafe instructions, each once. A set that no instruction
/// names is not among them; an unreached instruction counts like any other.
fn unsafe_sets(routine: &Routine) -> Vec<Cow<'_, [usize]>> {
    let mut named = vec![false; routine.sets.len()];
    let mut put_past = vec![false; routine.objects.len()];
    for &instruction in &routine.code {
        match instruction {
            Instruction::Write8 { s, .. } | Instruction::Write32 { s, .. } => {
                named[usize::from(s)] = true;
            }
            _ => {
                if let Some(set) = unsafe_set(routine, instruction) {
                    put_past[set[0]] = true;
                }
            }
        }
    }
    let by_number = routine.sets.iter().zip(named);
    let by_number = by_number.filter(|(_, named)| *named);
    let past = (0..put_past.len()).filter(|&global| put_past[global]);
    by_number
        .map(|(set, _)| Cow::Borrowed(set.as_slice()))
        .chain(past.map(|global| Cow::Owned(vec![global])))
        .collect()
}

/// The colors of a routine's objects.
pub fn colors(routine: &Routine) -> Result<Vec<u8>, Refusal> {
    Classes::of(routine).colors()
}
