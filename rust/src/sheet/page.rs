//! The tables of a page, and what a cell of one says.

use crate::wire::from_hex;
use std::cell::Cell;

/// A table: the names of its columns and its rows. It knows whether it was
/// looked at, so that none is forgotten.
pub struct Table {
    pub columns: Vec<String>,
    pub rows: Vec<Row>,
    line: usize,
    used: Cell<bool>,
}

/// A row: its cells, and the line of the page it stands in, from 1.
#[derive(Clone)]
pub struct Row {
    pub line: usize,
    pub cells: Vec<String>,
}

pub struct Page {
    pub text: String,
    tables: Vec<Table>,
}

impl Page {
    /// A table is lines that begin and end with a bar: the columns, a line of
    /// dashes, and the rows.
    pub fn new(text: &str) -> Result<Page, String> {
        let mut tables: Vec<Table> = Vec::new();
        let mut inside = false;
        for (at, line) in text.lines().enumerate() {
            let line_number = at + 1;
            let cells = match cells(line) {
                Some(cells) => cells,
                None => {
                    inside = false;
                    continue;
                }
            };
            if !inside {
                inside = true;
                let (rows, used) = (Vec::new(), Cell::new(false));
                tables.push(Table { columns: cells, rows, line: line_number, used });
            } else if cells.iter().all(|cell| cell.chars().all(|c| c == '-'))
                && !cells[0].is_empty()
            {
                continue;
            } else if let Some(table) = tables.last_mut() {
                if cells.len() != table.columns.len() {
                    return Err(format!("line {}: {} cells", line_number, cells.len()));
                }
                table.rows.push(Row { line: line_number, cells });
            }
        }
        Ok(Page { text: text.to_string(), tables })
    }

    /// All tables with these columns, at least one.
    pub fn tables(&self, columns: &[&str]) -> Result<Vec<&Table>, String> {
        let found: Vec<&Table> =
            self.tables.iter().filter(|table| table.columns == columns).collect();
        for table in &found {
            table.used.set(true);
            if table.rows.is_empty() {
                return Err(format!("line {}: a table without rows", table.line));
            }
        }
        if found.is_empty() {
            return Err(format!("no table has the columns {}", columns.join(", ")));
        }
        Ok(found)
    }

    /// The one table with these columns.
    pub fn table(&self, columns: &[&str]) -> Result<&Table, String> {
        match self.tables(columns)?[..] {
            [table] => Ok(table),
            _ => Err(format!("more than one table has the columns {}", columns.join(", "))),
        }
    }

    /// The first line of each table that nobody has looked at.
    pub fn unused(&self) -> Vec<usize> {
        self.tables.iter().filter(|table| !table.used.get()).map(|table| table.line).collect()
    }

    /// What stands in backquotes behind some words, over line ends too.
    pub fn quoted_after(&self, words: &str) -> Result<&str, String> {
        let behind = self.text.split_once(words).map(|(_, behind)| behind.trim_start());
        let quoted = behind.and_then(|text| text.strip_prefix('`'));
        let quoted = quoted.and_then(|text| text.split_once('`'));
        quoted.map(|(inside, _)| inside).ok_or(format!("nothing is quoted behind {:?}", words))
    }
}

fn cells(line: &str) -> Option<Vec<String>> {
    let inside = line.strip_prefix('|')?.strip_suffix('|')?;
    Some(inside.split('|').map(|cell| cell.trim().to_string()).collect())
}

impl Row {
    /// Words about this row, with its line.
    pub fn about(&self, words: &str) -> String {
        format!("line {}: {}", self.line, words)
    }

    /// A cell that is a number.
    pub fn number(&self, column: usize) -> Result<u32, String> {
        number(&self.cells[column]).map_err(|words| self.about(&words))
    }

    /// A cell of numbers with blanks between them; none where it is empty.
    pub fn numbers(&self, column: usize) -> Result<Vec<u32>, String> {
        let parts = self.cells[column].split_whitespace();
        parts.map(number).collect::<Result<_, _>>().map_err(|words| self.about(&words))
    }

    /// A cell in backquotes, without them.
    pub fn quoted(&self, column: usize) -> Result<&str, String> {
        let cell = self.cells[column].strip_prefix('`').and_then(|cell| cell.strip_suffix('`'));
        cell.ok_or_else(|| self.about(&format!("{:?} is not in backquotes", self.cells[column])))
    }

    /// A cell of bytes in backquotes; the word `none` is no bytes.
    pub fn bytes(&self, column: usize) -> Result<Vec<u8>, String> {
        if self.cells[column] == "none" {
            return Ok(Vec::new());
        }
        from_hex(self.quoted(column)?).map_err(|words| self.about(&words))
    }
}

/// A decimal number; commas stand only between groups of three.
pub fn number(text: &str) -> Result<u32, String> {
    let not = || format!("{:?} is no number", text);
    let groups: Vec<&str> = text.split(',').collect();
    let full =
        groups[1..].iter().all(|group| group.len() == 3) && (1..=10).contains(&groups[0].len());
    let digits = groups.concat();
    let decimal = digits.chars().all(|digit| digit.is_ascii_digit());
    let leading = digits.len() > 1 && digits.starts_with('0');
    if !full || !decimal || leading || (groups.len() > 1 && groups[0].len() > 3) {
        return Err(not());
    }
    digits.parse().map_err(|_| not())
}
