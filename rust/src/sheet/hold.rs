//! The page held to a program, each row as a case.

use crate::partner::Partner;
use crate::sheet::form::{Form, Judged, REFUSALS};
use crate::sheet::page::{number, Page, Row};
use crate::sheet::text::{file_of, listing, numbers_of, spell};
use crate::wire::{digest, digest_bytes, from_hex, Answer, Case, Kind};
use std::fs;
use std::path::{Path, PathBuf};

const SPELLED: [&str; 2] = ["number", "spelled"];
const REFUSED: [&str; 4] = ["bytes", "refusal", "place", "why"];
const RULES: [&str; 2] = ["rule", "line"];
const AT_WORK: [&str; 5] = ["instruction", "instructions", "with", "answer", "numbers out"];
const BY_BYTE: [&str; 5] = ["place", "bytes", "number", "of", "is"];
const BOTH: [&str; 4] = ["in the routine", "instruction", "in the code", "instruction"];
const FIRST: [&str; 2] = ["more than one reason", "answer"];
const LENT: [&str; 2] = ["lent to a run", "bytes"];
const STOPS: [&str; 5] = ["number", "reason", "instructions", "with", "answer"];

/// What the program `./wit run` gives: output room and limit.
const ROOM: u32 = 1_000;
const LIMIT: u32 = 1_000_000;
/// What lent bytes hold before a call.
const FILL: u8 = 0xEE;

/// A page, the program that it is held to, and how it went so far.
pub struct Holding {
    pub(super) root: PathBuf,
    page: Page,
    pub(super) form: Form,
    program: Partner,
    /// The lengths of memory and table.
    lent: (u32, u32),
    /// Files that both readers were given.
    pub files: usize,
    pub passed: usize,
    pub failed: Vec<String>,
}

impl Holding {
    pub fn new(root: &Path, page: &Path, command: &str) -> Result<Holding, String> {
        let page = Page::new(&text_of(page)?)?;
        let form = Form::new(&page)?;
        let program = Partner::start(command).map_err(|silence| silence.to_string())?;
        let lent = match &page.table(&LENT)?.rows[..] {
            [memory, table] => (memory.number(1)?, table.number(1)?),
            _ => return Err("not two things are lent to a run".to_string()),
        };
        let root = root.to_path_buf();
        Ok(Holding { root, page, form, program, lent, files: 0, passed: 0, failed: Vec::new() })
    }

    /// All of it. `Err` is a page that cannot be read, or a program that is silent.
    pub fn hold(&mut self) -> Result<(), String> {
        self.spellings()?;
        self.refused_spellings()?;
        self.reader_lines()?;
        self.names()?;
        self.opcode_ends();
        self.at_work()?;
        self.by_byte()?;
        self.refusals()?;
        self.first_reasons()?;
        self.limits()?;
        self.stops()?;
        self.explained()?;
        self.damaged()?;
        for line in self.page.unused() {
            self.failed.push(format!("line {}: nothing looks at this table", line));
        }
        Ok(())
    }

    pub(super) fn ask(&mut self, case: &Case) -> Result<Answer, String> {
        self.program.ask(case).map_err(|silence| silence.to_string())
    }

    fn same<T: PartialEq + std::fmt::Debug>(&mut self, what: &str, page: T, program: T) {
        if page == program {
            self.passed += 1;
        } else {
            self.failed.push(format!("{}: the page has {:?}, it is {:?}", what, page, program));
        }
    }

    /// A run with what `./wit run` gives it.
    fn run_case(&self, kind: Kind) -> Case {
        let mut case = Case::new(kind);
        case.fill = FILL;
        case.room = ROOM;
        case.limit = LIMIT;
        case.memory = self.lent.0;
        case.table = self.lent.1;
        case
    }

    fn rows(&self, columns: &[&str]) -> Result<Vec<Row>, String> {
        Ok(self.page.table(columns)?.rows.clone())
    }

    /// Each spelling is read as its number, to its end, and is what is written.
    fn spellings(&mut self) -> Result<(), String> {
        for row in self.rows(&SPELLED)? {
            let (value, bytes) = (row.number(0)?, row.bytes(1)?);
            let length = bytes.len() as u32;
            let mut case = Case::new(Kind::ReadNumber);
            case.file = bytes.clone();
            let answer = self.ask(&case)?;
            self.same(&row.about("read"), [0, 0, value, length, 0, 0, 0, 0], answer.0);
            let mut case = Case::new(Kind::WriteNumber);
            case.limit = value;
            case.room = length;
            let answer = self.ask(&case)?;
            let room = digest_bytes(&bytes);
            self.same(&row.about("written"), [0, 0, length, length, 0, room, 0, 0], answer.0);
        }
        Ok(())
    }

    /// As the whole file, and behind three other bytes.
    fn refused_spellings(&mut self) -> Result<(), String> {
        for row in self.rows(&REFUSED)? {
            let (bytes, refusal, place) = (row.bytes(0)?, row.number(1)?, row.number(2)?);
            for &front in &[&[][..], &[7, 8, 9][..]] {
                let mut case = Case::new(Kind::ReadNumber);
                case.file = [front, &bytes[..]].concat();
                case.cursor = front.len() as u32;
                let answer = self.ask(&case)?;
                let page = [refusal, place + case.cursor, 0, 0, 0, 0, 0, 0];
                self.same(&row.about("refused"), page, answer.0);
            }
        }
        Ok(())
    }

    /// The lines of the number reader that decide or compute are those of the page.
    fn reader_lines(&mut self) -> Result<(), String> {
        let source = text_of(&self.root.join("crates/numbers/src/lib.rt"))?;
        let body = between(&source, "pub fn read_number", "\n}\n")?;
        let told = ["for ", "if ", "return ", "refused(", "let bits", "value "];
        let is_told = |line: &&str| told.iter().any(|start| line.starts_with(start));
        let lines: Vec<String> =
            body.lines().map(str::trim).filter(is_told).map(str::to_string).collect();
        let rows = self.rows(&RULES)?;
        let page: Vec<String> =
            rows.iter().map(|row| row.quoted(1).map(str::to_string)).collect::<Result<_, _>>()?;
        self.same("the lines of read_number", page, lines);
        Ok(())
    }

    /// The names in their order, as the crate `opcodes` and `./wit show` have them.
    fn names(&mut self) -> Result<(), String> {
        let numbers: Vec<u32> = self.form.opcodes.iter().map(|opcode| opcode.number).collect();
        self.same("opcodes in their order", numbers, (0..self.form.opcodes.len() as u32).collect());
        let names: Vec<String> =
            self.form.opcodes.iter().map(|opcode| opcode.name.clone()).collect();
        let source = text_of(&self.root.join("crates/opcodes/src/lib.rt"))?;
        let list = between(&source, "pub enum Instr {", "\n}")?;
        let name = |line: &str| {
            let line = line.trim();
            line.split(['(', ',']).next().unwrap_or("").to_uppercase()
        };
        let variants: Vec<String> =
            list.lines().map(name).filter(|name| !name.is_empty()).collect();
        self.same("the names in crates/opcodes", names.clone(), variants);
        let source = text_of(&self.root.join("show/numbers.awk"))?;
        let list = between(&source, "split(\"", ", name,")?;
        let shown = |part: &str| part.chars().filter(|c| c.is_ascii_alphanumeric()).collect();
        let shown: Vec<String> =
            list.split_whitespace().map(shown).filter(|name: &String| !name.is_empty()).collect();
        self.same("the names in show/numbers.awk", names, shown);
        Ok(())
    }

    /// The ends of a version's opcodes are those of the table of opcodes.
    fn opcode_ends(&mut self) {
        for version in self.form.versions() {
            let has = self.form.opcodes.iter().filter(|opcode| opcode.versions.contains(&version));
            let numbers: Vec<u32> = has.map(|opcode| opcode.number).collect();
            let ends = numbers.iter().min().copied().zip(numbers.iter().max().copied());
            let page = self.form.ends(version, "opcode");
            self.same(&format!("the opcodes of version {}", version), page, ends);
        }
    }

    fn at_work(&mut self) -> Result<(), String> {
        let rows = self.rows(&AT_WORK)?;
        for opcode in self.form.opcodes.clone() {
            let is_there = rows.iter().any(|row| row.cells[0] == opcode.name);
            self.same(&format!("{} at work", opcode.name), is_there, true);
        }
        for row in rows {
            let uses = row
                .quoted(1)?
                .split("; ")
                .any(|part| part.split(' ').next() == Some(&row.cells[0]));
            self.same(&row.about("its instruction is among them"), true, uses);
            let case = self.run_of(&row, 1, 2)?;
            self.run(&row, &case, row.numbers(3)?, Some(row.numbers(4)?))?;
        }
        Ok(())
    }

    fn stops(&mut self) -> Result<(), String> {
        for row in self.rows(&STOPS)? {
            let case = self.run_of(&row, 2, 3)?;
            let answer = row.numbers(4)?;
            self.same(&row.about("the number of its answer"), row.number(0)?, answer[0]);
            self.run(&row, &case, answer, None)?;
        }
        Ok(())
    }

    /// A run of instructions in words, with what the row gives it.
    fn run_of(&self, row: &Row, instructions: usize, with: usize) -> Result<Case, String> {
        let words = &row.cells[with];
        let version = if words == "version 2" { 2 } else { 1 };
        let mut case = self.run_case(if version == 2 { Kind::Run } else { Kind::Control });
        let file = file_of(&self.form, version, row.quoted(instructions)?);
        case.file = file.map_err(|words| row.about(&words))?;
        if let Some(limit) = words.strip_prefix("limit ") {
            case.limit = number(limit)?;
        } else if let Some(room) = words.strip_prefix("room ") {
            case.room = number(room)?;
        } else if let Some(inputs) = words.strip_prefix("input ") {
            case.inputs = inputs.split(' ').map(number).collect::<Result<_, _>>()?;
        } else if version == 1 && !words.is_empty() {
            return Err(row.about(&format!("{:?} is nothing to run with", words)));
        }
        Ok(case)
    }

    fn run(
        &mut self,
        row: &Row,
        case: &Case,
        page: Vec<u32>,
        out: Option<Vec<u32>>,
    ) -> Result<(), String> {
        let answer = self.ask(case)?;
        self.same(&row.about("run"), page, answer.0[..5].to_vec());
        if let Some(mut out) = out {
            out.resize(case.room as usize, u32::from_le_bytes([FILL; 4]));
            self.same(&row.about("numbers out"), digest(out), answer.0[7]);
        }
        Ok(())
    }

    /// Routine A, number by number, its code, and both as instructions.
    fn by_byte(&mut self) -> Result<(), String> {
        let routine = bytes_of(&self.root.join("examples/a.routine"))?;
        let judged = self.form.judge(1, &routine)?;
        let rows = self.rows(&BY_BYTE)?;
        let mut bytes = Vec::new();
        self.same("the numbers of a.routine", rows.len(), judged.numbers.len());
        for (row, number) in rows.iter().zip(&judged.numbers) {
            bytes.extend(row.bytes(1)?);
            let page = (row.number(0)? as usize, row.bytes(1)?.len(), row.number(2)?);
            self.same(
                &row.about("place, length, number"),
                page,
                (number.place, number.length, number.value),
            );
            let page = (&row.cells[3][..], &row.cells[4][..]);
            self.same(&row.about("what it is"), page, (&number.of[..], &number.is[..]));
        }
        self.same("the bytes of a.routine", bytes, routine.clone());
        let code = self.page.quoted_after("What the instrumenter makes of it: ")?;
        let code = from_hex(code)?;
        let mut case = Case::new(Kind::Instrument);
        case.file = routine;
        case.room = code.len() as u32;
        let answer = self.ask(&case)?;
        let page = [0, 0, case.room, 0, 0, digest_bytes(&code), 0, 0];
        self.same("the code of a.routine", page, answer.0);
        let other = self.form.judge(2, &code)?;
        self.side_by_side(1, &judged, 0)?;
        self.side_by_side(2, &other, 2)
    }

    fn side_by_side(&mut self, version: u32, judged: &Judged, column: usize) -> Result<(), String> {
        let mut page = Vec::new();
        for row in self.rows(&BOTH)? {
            if row.cells[column].is_empty() {
                continue;
            }
            self.same(&row.about("counted"), row.number(column)? as usize, page.len());
            numbers_of(&self.form, version, row.quoted(column + 1)?)
                .map_err(|words| row.about(&words))?;
            page.push(row.quoted(column + 1)?.to_string());
        }
        self.same("the instructions side by side", page, listing(judged));
        Ok(())
    }

    fn refusals(&mut self) -> Result<(), String> {
        for row in self.rows(&REFUSALS)? {
            let case = self.refused_file(&row, 3)?;
            let answer = self.ask(&case)?;
            let page = row.numbers(4)?;
            self.same(&row.about("refused"), page.clone(), answer.0[..2].to_vec());
            self.same(&row.about("the number of its answer"), row.number(0)?, page[0]);
            self.same(&row.about("nothing else is told"), vec![0; 3], answer.0[2..5].to_vec());
            let judged = self.form.judge(1, &case.file)?;
            let first = judged.refusal.map(|refusal| refusal.place).unwrap_or(0);
            let place = match &row.cells[2][..] {
                "0" => 0,
                "its length" => case.file.len() as u32,
                "its first byte" | "the first of them" => first,
                other => return Err(row.about(&format!("{:?} is no place", other))),
            };
            self.same(&row.about("place"), place, page[1]);
        }
        Ok(())
    }

    /// The numbers in the reasons of 8, 9 and 11: at them a file is taken, and one
    /// beyond them it is refused.
    fn limits(&mut self) -> Result<(), String> {
        let rows = self.rows(&REFUSALS)?;
        let told = |front: &str, behind: &str| {
            let told = rows.iter().find_map(|row| {
                let text = row.cells[1].strip_prefix(front)?.strip_suffix(behind)?;
                Some((row.number(0), number(text)))
            });
            match told {
                Some((refusal, limit)) => Ok((refusal?, limit?)),
                None => Err(format!("no refusal is {:?} .. {:?}", front, behind)),
            }
        };
        let (classes, most) = told("more than ", " classes")?;
        let (globals, end) = told("globals end above ", "")?;
        let lent = self.form.reason("memory or table not of its exact length")?;
        let (memory, table) = self.lent;
        let small = spell(&[1, 0, 0, 1, 0]);
        let cases = [
            (classes, classes_file(most), classes_file(most + 1), self.lent),
            (globals, globals_file(end), globals_file(end + 8), self.lent),
            (lent, small.clone(), small.clone(), (memory + 1, table)),
            (lent, small.clone(), small.clone(), (memory - 1, table)),
            (lent, small.clone(), small.clone(), (memory, table + 1)),
            (lent, small.clone(), small, (memory, table - 1)),
        ];
        for (refusal, good, bad, lengths) in cases {
            let mut case = self.run_case(Kind::Control);
            case.file = good;
            let answer = self.ask(&case)?;
            self.same(&format!("just not refused with {}", refusal), 0, answer.reason());
            case.file = bad;
            case.memory = lengths.0;
            case.table = lengths.1;
            let answer = self.ask(&case)?;
            self.same(&format!("just refused with {}", refusal), refusal, answer.reason());
        }
        Ok(())
    }

    /// Where there is more than one reason.
    fn first_reasons(&mut self) -> Result<(), String> {
        for row in self.rows(&FIRST)? {
            let case = self.refused_file(&row, 0)?;
            let answer = self.ask(&case)?;
            self.same(&row.about("refused"), row.numbers(1)?, answer.0[..2].to_vec());
        }
        Ok(())
    }

    /// Bytes, so many times a byte, or a file of examples/; and behind a comma
    /// what is lent.
    fn refused_file(&self, row: &Row, column: usize) -> Result<Case, String> {
        let mut case = self.run_case(Kind::Control);
        let words = &row.cells[column];
        let lent = [", room ", ", memory ", ", table "].into_iter().find_map(|lent| {
            let (file, length) = words.split_once(lent)?;
            Some((file, lent.trim_matches(|c| c == ',' || c == ' '), number(length)))
        });
        let (file, what, length) = lent.unwrap_or((words, "", Ok(0)));
        let length = length.map_err(|words| row.about(&words))?;
        match what {
            "room" => {
                case.kind = Kind::Instrument;
                case.room = length;
            }
            "memory" => case.memory = length,
            "table" => case.table = length,
            _ => {}
        }
        case.file = if let Some((times, byte)) = file.split_once(" times ") {
            from_hex(byte.trim_matches('`'))?.repeat(number(times)? as usize)
        } else if file.starts_with("examples/") {
            bytes_of(&self.root.join(file))?
        } else {
            from_hex(file.trim_matches('`')).map_err(|words| row.about(&words))?
        };
        Ok(case)
    }

    /// Each number that comes back is one that `./wit explain` knows, and no other.
    fn explained(&mut self) -> Result<(), String> {
        let mut page = Vec::new();
        for row in [self.rows(&REFUSALS)?, self.rows(&STOPS)?].concat() {
            page.push(row.number(0)?);
        }
        page.sort_unstable();
        page.dedup();
        let text = text_of(&self.root.join("docs/NUMBERS.md"))?;
        let heads = text.lines().filter_map(|line| line.strip_prefix("## "));
        let heads = heads.filter_map(|head| head.split_once(':')).map(|(head, _)| number(head));
        let explained: Vec<u32> = heads.collect::<Result<_, _>>()?;
        self.same("the numbers of docs/NUMBERS.md", page, explained);
        Ok(())
    }
}

/// So many classes: END, and behind it for each global a WRITE8 under a set of it
/// alone.
fn classes_file(count: u32) -> Vec<u8> {
    let mut numbers = vec![1, count];
    numbers.extend([0, 8].repeat(count as usize));
    numbers.push(count);
    numbers.extend((0..count).flat_map(|object| [1, object]));
    numbers.extend([count + 1, 0]);
    numbers.extend((0..count).flat_map(|set| [10, 0, 0, set]));
    spell(&numbers)
}

/// Safe globals from 8 on that end, with the guard of 8 behind them, at an address.
fn globals_file(end: u32) -> Vec<u8> {
    let mut sizes = vec![4_096; ((end - 16) / 4_096) as usize];
    sizes.extend(Some((end - 16) % 4_096).filter(|&rest| rest > 0));
    let mut numbers = vec![1, sizes.len() as u32];
    numbers.extend(sizes.iter().flat_map(|&size| [0, size]));
    numbers.extend([0, 1, 0]);
    spell(&numbers)
}

fn between<'a>(text: &'a str, left: &str, right: &str) -> Result<&'a str, String> {
    let behind = text.split_once(left).map(|(_, behind)| behind);
    let inside = behind.and_then(|behind| behind.split_once(right)).map(|(inside, _)| inside);
    inside.ok_or(format!("nothing stands between {:?} and {:?}", left, right))
}

pub(super) fn bytes_of(path: &Path) -> Result<Vec<u8>, String> {
    fs::read(path).map_err(|error| format!("{}: {}", path.display(), error))
}

fn text_of(path: &Path) -> Result<String, String> {
    fs::read_to_string(path).map_err(|error| format!("{}: {}", path.display(), error))
}
