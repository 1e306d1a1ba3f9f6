//! A reader of files made from the page: which numbers there are, in which order,
//! from where to where, and what is refused is what the tables say.

use crate::number;
use crate::refusal::{Refusal, ENDS_EARLY};
use crate::sheet::page::{self, Page, Row};
use std::collections::HashMap;

const FIELDS: [&str; 5] = ["for each", "number", "from", "to", "else"];
const OPCODES: [&str; 5] = ["opcode", "name", "operands", "versions", "what it does"];
const OPERANDS: [&str; 5] = ["operand", "is", "from", "to", "versions"];
const VERSIONS: [&str; 3] = ["version", "is", "bytes at most"];
pub(super) const REFUSALS: [&str; 5] =
    ["number", "reason", "place", "a file that gets it", "answer"];

/// An end of a range: a number, or a count of the file, perhaps less 1.
#[derive(Clone, Debug)]
enum Bound {
    Number(u32),
    Count(String, u32),
}

#[derive(Clone, Debug)]
struct Range {
    /// 0 is in the range too.
    or_zero: bool,
    from: Bound,
    to: Bound,
}

/// One row of a version's numbers.
#[derive(Clone)]
struct Field {
    scope: String,
    name: String,
    /// Whether it is above the member before.
    rises: bool,
    /// The kind that has this number, where not every object has it.
    only: Option<u32>,
    range: Option<Range>,
    otherwise: u32,
}

struct Operand {
    range: Range,
    /// What it names; where that is a kind of object, only such an object.
    named: String,
    versions: Vec<u32>,
}

#[derive(Clone)]
pub struct Opcode {
    pub number: u32,
    pub name: String,
    pub operands: Vec<String>,
    pub versions: Vec<u32>,
}

struct Version {
    fields: Vec<Field>,
    /// The numbers of the kinds of objects, by name.
    kinds: HashMap<String, u32>,
    longest: usize,
}

/// What the page says of files.
pub struct Form {
    versions: HashMap<u32, Version>,
    pub opcodes: Vec<Opcode>,
    operands: HashMap<String, Operand>,
    /// The refusals' numbers by their reasons.
    reasons: HashMap<String, u32>,
}

/// A number of a file as it was read.
#[derive(Clone, Debug, PartialEq, Eq)]
pub struct Number {
    pub place: usize,
    pub length: usize,
    pub value: u32,
    /// Which thing it belongs to, and what it is of it.
    pub of: String,
    pub is: String,
    /// The ends of its range, where it has one.
    pub range: Option<(u32, u32)>,
}

/// What reading a file comes to: the numbers that were taken, and the refusal.
pub struct Judged {
    pub numbers: Vec<Number>,
    pub counts: HashMap<String, u32>,
    pub refusal: Option<Refusal>,
}

impl Form {
    pub fn new(page: &Page) -> Result<Form, String> {
        let mut form = Form {
            versions: HashMap::new(),
            opcodes: rows(page, &OPCODES, opcode)?,
            operands: rows(page, &OPERANDS, operand)?.into_iter().collect(),
            reasons: rows(page, &REFUSALS, |row| Ok((row.cells[1].clone(), row.number(0)?)))?
                .into_iter()
                .collect(),
        };
        let longest: HashMap<u32, usize> =
            rows(page, &VERSIONS, |row| Ok((row.number(0)?, row.number(2)? as usize)))?
                .into_iter()
                .collect();
        for table in page.tables(&FIELDS)? {
            let kinds = kinds(&table.rows)?;
            let of_kind = |row: &Row| field(row, kinds.get(&row.cells[0]).copied());
            let fields = table.rows.iter().map(of_kind).collect::<Result<_, _>>()?;
            let version = table.rows[0].number(2)?;
            let longest = longest.get(&version).copied();
            let longest = longest.ok_or_else(|| table.rows[0].about("a version of no length"))?;
            form.versions.insert(version, Version { fields, kinds, longest });
        }
        if form.versions.len() != longest.len() {
            return Err("not every version has a table of its numbers".to_string());
        }
        let letters = form.opcodes.iter().flat_map(|opcode| &opcode.operands);
        match letters.into_iter().find(|&letter| !form.operands.contains_key(letter)) {
            Some(letter) => Err(format!("no row says what the operand {} is", letter)),
            None => Ok(form),
        }
    }

    pub fn opcode(&self, name: &str) -> Option<&Opcode> {
        self.opcodes.iter().find(|opcode| opcode.name == name)
    }

    /// The operands of an opcode that a version has.
    pub fn operands(&self, opcode: &Opcode, version: u32) -> Vec<String> {
        let has = |letter: &&String| {
            self.operands.get(*letter).map_or(false, |operand| operand.versions.contains(&version))
        };
        opcode.operands.iter().filter(has).cloned().collect()
    }

    pub fn versions(&self) -> Vec<u32> {
        let mut versions: Vec<u32> = self.versions.keys().copied().collect();
        versions.sort_unstable();
        versions
    }

    pub fn longest(&self, version: u32) -> usize {
        self.versions[&version].longest
    }

    /// The ends of the range of a version's number, where both are numbers.
    pub fn ends(&self, version: u32, name: &str) -> Option<(u32, u32)> {
        let field = self.versions[&version].fields.iter().find(|field| field.name == name)?;
        match field.range.as_ref().map(|range| (&range.from, &range.to)) {
            Some((&Bound::Number(from), &Bound::Number(to))) => Some((from, to)),
            _ => None,
        }
    }

    pub fn reason(&self, words: &str) -> Result<u32, String> {
        self.reasons.get(words).copied().ok_or(format!("no refusal is {:?}", words))
    }

    /// What the page says of a file that is asked for as a version.
    pub fn judge(&self, version: u32, file: &[u8]) -> Result<Judged, String> {
        let mut reading = Reading {
            form: self,
            version,
            file,
            at: 0,
            kinds: Vec::new(),
            member: None,
            opcode: None,
            judged: Judged { numbers: Vec::new(), counts: HashMap::new(), refusal: None },
        };
        let end = if file.len() > self.longest(version) {
            End::Refused(Refusal::whole(self.reason("file too long")?))
        } else {
            match reading.walk(&self.versions[&version].fields, "file") {
                Ok(()) if reading.at == file.len() => End::Read,
                Ok(()) => {
                    let number = self.reason("bytes after the last instruction")?;
                    End::Refused(Refusal::at(number, reading.at))
                }
                Err(end) => end,
            }
        };
        match end {
            End::Read => reading.judged.refusal = None,
            End::Refused(refusal) => reading.judged.refusal = Some(refusal),
            End::Unclear(words) => return Err(words),
        }
        Ok(reading.judged)
    }
}

/// How reading ends; what the page leaves unclear is a mistake of the page.
enum End {
    Read,
    Refused(Refusal),
    Unclear(String),
}

struct Reading<'a> {
    form: &'a Form,
    version: u32,
    file: &'a [u8],
    at: usize,
    kinds: Vec<u32>,
    /// The member before, in the set at hand.
    member: Option<u32>,
    opcode: Option<&'a Opcode>,
    judged: Judged,
}

impl<'a> Reading<'a> {
    /// Rows in their order; those behind a count, up to the next of its own
    /// scope, come as often as it says.
    fn walk(&mut self, fields: &'a [Field], of: &str) -> Result<(), End> {
        let mut at = 0;
        while at < fields.len() {
            let field = &fields[at];
            at += 1;
            if field.only.is_some() && field.only != self.kinds.last().copied() {
                continue;
            }
            if field.name == "operand" {
                self.operands(field, of)?;
                continue;
            }
            let value = self.field(field, of)?;
            if let Some(counted) = field.name.strip_prefix("count of ") {
                self.judged.counts.insert(field.name.clone(), value);
                self.member = None;
                let rest = &fields[at..];
                let own = rest.iter().position(|next| next.scope == field.scope);
                let block = &rest[..own.unwrap_or(rest.len())];
                for number in 0..value {
                    let thing = format!("{} {}", counted.trim_end_matches('s'), number);
                    let within = if of == "file" { thing } else { format!("{}, {}", of, thing) };
                    self.walk(block, &within)?;
                }
                at += block.len();
            }
        }
        Ok(())
    }

    fn field(&mut self, field: &'a Field, of: &str) -> Result<u32, End> {
        let range = field.range.as_ref().map(|range| self.range(range)).transpose()?;
        let (value, place) = self.number(of, &field.name, range)?;
        let mut good = self.within(field.range.as_ref(), value)?;
        if field.name == "opcode" {
            let form = self.form;
            let opcode = form.opcodes.iter().find(|opcode| opcode.number == value);
            self.opcode = opcode.filter(|opcode| opcode.versions.contains(&self.version));
            good &= self.opcode.is_some();
            if let (Some(opcode), Some(number)) = (self.opcode, self.judged.numbers.last_mut()) {
                number.is = opcode.name.clone();
            }
        }
        if field.rises {
            good &= self.member.map_or(true, |before| before < value);
            self.member = Some(value);
        }
        if field.name == "kind" {
            self.kinds.push(value);
        }
        self.settle(good, field.otherwise, place)?;
        Ok(value)
    }

    fn operands(&mut self, field: &'a Field, of: &str) -> Result<(), End> {
        let form = self.form;
        let opcode = self.opcode.ok_or_else(|| unclear("an operand before an opcode"))?;
        for letter in form.operands(opcode, self.version) {
            let operand = &form.operands[&letter];
            let range = self.range(&operand.range)?;
            let (value, place) = self.number(of, &letter, Some(range))?;
            let mut good = self.within(Some(&operand.range), value)?;
            if let Some(kind) = form.versions[&self.version].kinds.get(&operand.named) {
                good &= self.kinds.get(value as usize) == Some(kind);
            }
            self.settle(good, field.otherwise, place)?;
        }
        Ok(())
    }

    fn settle(&self, good: bool, otherwise: u32, place: usize) -> Result<(), End> {
        if good {
            Ok(())
        } else {
            Err(End::Refused(Refusal::at(otherwise, place)))
        }
    }

    /// The next number, by its spelling alone, with its place.
    fn number(
        &mut self,
        of: &str,
        is: &str,
        range: Option<(u32, u32)>,
    ) -> Result<(u32, usize), End> {
        let place = self.at;
        let (value, next) = number::read(self.file, place).map_err(|refusal| {
            let reason = if refusal.number == ENDS_EARLY {
                "file ends early"
            } else {
                "number not shortest or above 32 bits"
            };
            match self.form.reason(reason) {
                Ok(number) => End::Refused(Refusal { number, place: refusal.place }),
                Err(words) => End::Unclear(words),
            }
        })?;
        self.at = next;
        let (of, is) = (of.to_string(), is.to_string());
        self.judged.numbers.push(Number { place, length: next - place, value, of, is, range });
        Ok((value, place))
    }

    fn within(&self, range: Option<&Range>, value: u32) -> Result<bool, End> {
        let range = match range {
            Some(range) => range,
            None => return Ok(true),
        };
        let (from, to) = self.range(range)?;
        Ok((range.or_zero && value == 0) || (from <= value && value <= to))
    }

    /// A range's ends in this file. One that ends below 0 is empty.
    fn range(&self, range: &Range) -> Result<(u32, u32), End> {
        match (self.bound(&range.from)?, self.bound(&range.to)?) {
            (Some(from), Some(to)) => Ok((from, to)),
            _ => Ok((1, 0)),
        }
    }

    fn bound(&self, bound: &Bound) -> Result<Option<u32>, End> {
        match bound {
            Bound::Number(number) => Ok(Some(*number)),
            Bound::Count(name, less) => {
                let count = self.judged.counts.get(name);
                let count = count.ok_or_else(|| unclear(&format!("{} is not read yet", name)))?;
                Ok(count.checked_sub(*less))
            }
        }
    }
}

fn unclear(words: &str) -> End {
    End::Unclear(words.to_string())
}

/// The rows of the one table with these columns, each taken for what it says.
fn rows<T>(
    page: &Page,
    columns: &[&str],
    take: impl Fn(&Row) -> Result<T, String>,
) -> Result<Vec<T>, String> {
    page.table(columns)?.rows.iter().map(take).collect()
}

/// The kinds of objects that the row `kind` names.
fn kinds(rows: &[Row]) -> Result<HashMap<String, u32>, String> {
    let row = rows.iter().find(|row| row.cells[1].starts_with("kind: "));
    let row = row.ok_or("no row names the kinds of objects")?;
    let parts = row.cells[1]["kind: ".len()..].split(", ").filter_map(|part| part.split_once(' '));
    parts
        .map(|(kind, name)| Ok((name.to_string(), page::number(kind)?)))
        .collect::<Result<_, String>>()
        .map_err(|words| row.about(&words))
}

fn field(row: &Row, only: Option<u32>) -> Result<Field, String> {
    let (name, remark) = row.cells[1].split_once(": ").unwrap_or((&row.cells[1], ""));
    let range =
        if row.cells[2].is_empty() && row.cells[3].is_empty() { None } else { Some(range(row)?) };
    Ok(Field {
        scope: row.cells[0].clone(),
        name: name.to_string(),
        rises: remark == "above the member before",
        only,
        range,
        otherwise: row.number(4)?,
    })
}

/// The range of a row whose columns 2 and 3 are `from` and `to`.
fn range(row: &Row) -> Result<Range, String> {
    let (or_zero, from) = match row.cells[2].strip_prefix("0 or ") {
        Some(from) => (true, from),
        None => (false, &row.cells[2][..]),
    };
    let bound = |text: &str| bound(text).map_err(|words| row.about(&words));
    Ok(Range { or_zero, from: bound(from)?, to: bound(&row.cells[3])? })
}

fn bound(text: &str) -> Result<Bound, String> {
    if !text.starts_with("count of ") {
        return page::number(text).map(Bound::Number);
    }
    match text.split_once(" - ") {
        Some((name, less)) => Ok(Bound::Count(name.to_string(), page::number(less)?)),
        None => Ok(Bound::Count(text.to_string(), 0)),
    }
}

fn operand(row: &Row) -> Result<(String, Operand), String> {
    let named = row.cells[1].strip_prefix("a ").unwrap_or(&row.cells[1]).to_string();
    Ok((row.cells[0].clone(), Operand { range: range(row)?, named, versions: versions(row, 4)? }))
}

fn opcode(row: &Row) -> Result<Opcode, String> {
    Ok(Opcode {
        number: row.number(0)?,
        name: row.cells[1].clone(),
        operands: row.cells[2].split_whitespace().map(str::to_string).collect(),
        versions: versions(row, 3)?,
    })
}

fn versions(row: &Row, column: usize) -> Result<Vec<u32>, String> {
    let parts = row.cells[column].split(", ");
    parts.map(page::number).collect::<Result<_, _>>().map_err(|words| row.about(&words))
}
