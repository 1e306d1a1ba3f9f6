//! The reader made of the page against the program's: on files as they are, and
//! damaged in every number.

use crate::refusal::Refusal;
use crate::sheet::form::Opcode;
use crate::sheet::hold::{bytes_of, Holding};
use crate::sheet::text::{front_of, other_front_of, spell};
use crate::wire::{digest, to_hex, Case, Kind};
use std::fs;
use std::path::PathBuf;

impl Holding {
    /// Files as they are, cut off, longer, and with each number at the ends of its
    /// range, one beyond them, and spelled too long.
    pub(super) fn damaged(&mut self) -> Result<(), String> {
        for version in self.form.versions() {
            for file in self.files(version)? {
                let failed = self.failed.len();
                self.damage(version, &file)?;
                self.passed += usize::from(self.failed.len() == failed);
            }
            for file in [self.single(version), self.largest(version)].concat() {
                let failed = self.failed.len();
                self.read(version, &file)?;
                self.passed += usize::from(self.failed.len() == failed);
            }
        }
        Ok(())
    }

    fn damage(&mut self, version: u32, file: &[u8]) -> Result<(), String> {
        let judged = self.form.judge(version, file)?;
        if judged.refusal.is_some() {
            self.failed.push(format!("a file of version {} is refused by the page", version));
        }
        self.read(version, file)?;
        self.read(version, &[file, &[0]].concat())?;
        for place in 0..file.len() {
            self.read(version, &file[..place])?;
        }
        for number in &judged.numbers {
            let (front, behind) = file.split_at(number.place);
            let behind = &behind[number.length..];
            for spelled in spellings_of(number.value, number.range) {
                self.read(version, &[front, &spelled[..], behind].concat())?;
            }
        }
        Ok(())
    }

    /// The program's reader and the page's on one file.
    fn read(&mut self, version: u32, file: &[u8]) -> Result<(), String> {
        let mut case =
            Case::new(if version == 1 { Kind::ReadRoutine } else { Kind::ReadInstrumented });
        case.file = file.to_vec();
        let judged = self.form.judge(version, file)?;
        let count = |name: &str| judged.counts.get(name).copied().unwrap_or(0);
        let page = match judged.refusal {
            Some(Refusal { number, place }) => [number, place, 0, 0, 0, 0, 0, 0],
            None => {
                let numbers = digest(judged.numbers.iter().map(|number| number.value));
                let (objects, sets) = (count("count of objects"), count("count of sets"));
                [0, 0, objects, sets, count("count of instructions"), numbers, 0, 0]
            }
        };
        let answer = self.ask(&case)?;
        let what = match file.len() {
            0..=200 => format!("version {}, {}", version, to_hex(file)),
            length => format!("version {}, {} bytes", version, length),
        };
        self.files += 1;
        if page != answer.0 {
            self.failed.push(format!("{}: the page has {:?}, it is {:?}", what, page, answer.0));
        }
        Ok(())
    }

    /// Good files: every opcode once, behind either front, and the small ones of
    /// examples/.
    fn files(&self, version: u32) -> Result<Vec<Vec<u8>>, String> {
        let has = self.form.opcodes.iter().filter(|opcode| opcode.versions.contains(&version));
        let opcodes: Vec<&Opcode> = has.collect();
        let mut files = Vec::new();
        for &(is_other, global, site) in &[(false, 0, 1), (true, 1, 0)] {
            let mut numbers = if is_other { other_front_of(version) } else { front_of(version) };
            numbers.push(opcodes.len() as u32);
            for opcode in &opcodes {
                numbers.extend(self.instance(opcode, version, global, site));
            }
            files.push(spell(&numbers));
        }
        let folder = self.root.join("examples");
        let names =
            fs::read_dir(&folder).map_err(|error| format!("{}: {}", folder.display(), error))?;
        let mut paths: Vec<PathBuf> =
            names.filter_map(Result::ok).map(|entry| entry.path()).collect();
        paths.sort();
        for path in paths {
            let file = bytes_of(&path)?;
            let is_good = self.form.judge(version, &file)?.refusal.is_none();
            if is_good && file.len() <= 200 {
                files.push(file);
            }
        }
        Ok(files)
    }

    /// An instruction with the lowest operands, over the objects given.
    fn instance(&self, opcode: &Opcode, version: u32, global: u32, site: u32) -> Vec<u32> {
        let letters = self.form.operands(opcode, version);
        let values = letters.iter().map(|letter| match &letter[..] {
            "g" => global,
            "h" => site,
            "c" => 2,
            _ => 0,
        });
        [opcode.number].into_iter().chain(values).collect()
    }

    /// Each opcode by itself, also those that a version does not have, and numbers
    /// that are none.
    fn single(&self, version: u32) -> Vec<Vec<u8>> {
        let known = self.form.opcodes.iter().map(|opcode| self.instance(opcode, version, 0, 1));
        let last = self.form.opcodes.len() as u32;
        let none = [last, last + 1, 127, 128, u32::MAX];
        let instructions = known.chain(none.iter().map(|&number| vec![number, 0, 0, 0]));
        instructions
            .map(|instruction| spell(&[front_of(version), vec![1], instruction].concat()))
            .collect()
    }

    /// Files with as many objects, sets and instructions as there may be, and one
    /// more of each; as long as a file may be, and one byte longer.
    fn largest(&self, version: u32) -> Vec<Vec<u8>> {
        let most = |name: &str| self.form.ends(version, name).map_or(0, |(_, to)| to);
        let (objects, sets) = (most("count of objects"), most("count of sets"));
        let instructions = most("count of instructions");
        let counts = [
            (objects, sets, instructions),
            (objects + 1, sets, instructions),
            (objects, sets + 1, instructions),
            (objects, sets, instructions + 1),
        ];
        let mut files: Vec<Vec<u8>> = Vec::new();
        for &(objects, sets, instructions) in &counts {
            let object: &[u32] = if version == 1 { &[1] } else { &[1, 255] };
            let mut numbers = vec![version, objects];
            numbers.extend(object.repeat(objects as usize));
            if version == 1 {
                numbers.push(sets);
                numbers.extend([1, 0].repeat(sets as usize));
            }
            numbers.push(instructions);
            numbers.extend(vec![0; instructions as usize]);
            files.push(spell(&numbers));
        }
        let mut longest = files[0].clone();
        longest.resize(self.form.longest(version), 0);
        files.push(longest.clone());
        longest.push(0);
        files.push(longest);
        files
    }
}

/// The numbers at and around the ends of a range, and a number in one byte too many.
fn spellings_of(value: u32, range: Option<(u32, u32)>) -> Vec<Vec<u8>> {
    let mut values = vec![0, 1, 127, 128, u32::MAX];
    if let Some((from, to)) = range {
        values.extend([from.saturating_sub(1), from, to, to.saturating_add(1)]);
    }
    values.sort_unstable();
    values.dedup();
    let mut spellings: Vec<Vec<u8>> = values.iter().map(|&value| spell(&[value])).collect();
    let mut longer = spell(&[value]);
    if let Some(last) = longer.last_mut() {
        *last |= 0x80;
    }
    longer.push(0);
    spellings.push(longer);
    spellings
}
