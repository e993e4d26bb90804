//! An answer, and its three forms: text with headings, JSON, CSV.
use serde::ser::{Serialize, SerializeMap, Serializer};

/// The form in which answers are printed.
#[derive(Clone, Copy, Debug, PartialEq, Eq)]
pub enum Form {
    Text,
    Json,
    Csv,
}

/// One value of an answer.
#[derive(Clone, Debug, PartialEq)]
pub enum Value {
    Whole(i64),
    Real(f64),
    Truth(bool),
    Text(String),
    List(Vec<Value>),
    /// No value: a dart that isn't there, a factor that there is none of.
    Nothing,
}

impl<T: Into<i64>> From<T> for Value {
    fn from(number: T) -> Value {
        Value::Whole(number.into())
    }
}

/// A count, which is small in all answers.
pub fn count(number: usize) -> Value {
    Value::Whole(number as i64)
}

/// A text.
pub fn text(words: impl Into<String>) -> Value {
    Value::Text(words.into())
}

impl Value {
    /// As it stands in text; `nothing` is what stands for no value.
    fn shown(&self, nothing: &str) -> String {
        match self {
            Value::Whole(number) => number.to_string(),
            Value::Real(number) => number.to_string(),
            Value::Truth(yes) => if *yes { "yes" } else { "no" }.into(),
            Value::Text(words) => words.clone(),
            Value::List(values) => {
                let words: Vec<_> = values.iter().map(|value| value.shown("-")).collect();
                words.join(" ")
            }
            Value::Nothing => nothing.into(),
        }
    }
}

impl Serialize for Value {
    fn serialize<S: Serializer>(&self, to: S) -> Result<S::Ok, S::Error> {
        match self {
            Value::Whole(number) => to.serialize_i64(*number),
            Value::Real(number) => to.serialize_f64(*number),
            Value::Truth(yes) => to.serialize_bool(*yes),
            Value::Text(words) => to.serialize_str(words),
            Value::List(values) => to.collect_seq(values),
            Value::Nothing => to.serialize_none(),
        }
    }
}

/// How a table looks in text and in JSON.
#[derive(Clone, Copy, Debug, PartialEq, Eq)]
pub enum Look {
    /// Columns under headings; in JSON an object for each line.
    Columns,
    /// A row of all darts, the last column alone; in JSON an array.
    Row,
}

/// A table of an answer, with the names of its columns.
#[derive(Clone, Debug)]
pub struct Table {
    pub name: &'static str,
    pub columns: Vec<String>,
    pub lines: Vec<Vec<Value>>,
    pub look: Look,
}

/// How many entries of a row stand in one line of text.
const ACROSS: usize = 16;

impl Table {
    pub fn new(name: &'static str, columns: &[&str]) -> Table {
        Table {
            name,
            columns: columns.iter().map(|name| (*name).to_string()).collect(),
            lines: Vec::new(),
            look: Look::Columns,
        }
    }

    /// A row with an entry for each dart.
    pub fn row(name: &'static str, column: &str, entries: impl Iterator<Item = Value>) -> Table {
        let lines = entries.enumerate().map(|(dart, entry)| vec![count(dart), entry]);
        Table {
            lines: lines.collect(),
            look: Look::Row,
            ..Table::new(name, &["dart", column])
        }
    }

    /// A plain list.
    pub fn list(name: &'static str, column: &str, entries: impl Iterator<Item = Value>) -> Table {
        Table {
            lines: entries.map(|entry| vec![entry]).collect(),
            look: Look::Row,
            ..Table::new(name, &[column])
        }
    }

    /// The table alone, in any form.
    pub fn printed(&self, form: Form) -> String {
        let mut to = String::new();
        match form {
            Form::Text => self.text(&mut to),
            Form::Json => to = serde_json::to_string(self).unwrap_or_default() + "\n",
            Form::Csv => self.csv(&mut to),
        }
        to
    }

    fn csv(&self, to: &mut String) {
        let names: Vec<_> = self.columns.iter().map(|name| quoted(name)).collect();
        *to += &format!("{}\n", names.join(","));
        for line in &self.lines {
            let cells: Vec<_> = line.iter().map(|cell| quoted(&cell.shown(""))).collect();
            *to += &format!("{}\n", cells.join(","));
        }
    }

    fn text(&self, to: &mut String) {
        match self.look {
            Look::Columns => self.columns_text(to),
            Look::Row => self.row_text(to),
        }
    }

    /// Numbers stand to the right below their heading, words to the left.
    fn columns_text(&self, to: &mut String) {
        let cells: Vec<Vec<_>> = self
            .lines
            .iter()
            .map(|line| line.iter().map(|cell| cell.shown("-")).collect())
            .collect();
        let width = |column: usize, name: &String| {
            let widest = cells.iter().map(|line| line[column].chars().count()).max();
            widest.unwrap_or(0).max(name.chars().count())
        };
        let widths: Vec<_> = self
            .columns
            .iter()
            .enumerate()
            .map(|(at, name)| width(at, name))
            .collect();
        let words: Vec<_> = (0..widths.len())
            .map(|at| {
                self.lines
                    .iter()
                    .any(|line| matches!(line[at], Value::Text(_) | Value::List(_)))
            })
            .collect();
        for line in std::iter::once(&self.columns).chain(&cells) {
            let padded: Vec<_> = line
                .iter()
                .enumerate()
                .map(|(at, cell)| pad(cell, widths[at], words[at]))
                .collect();
            *to += &format!("{}\n", padded.join("  ").trim_end());
        }
    }

    /// Entries side by side, behind the first dart of each line where the row has all darts.
    fn row_text(&self, to: &mut String) {
        *to += &format!("{}\n", self.name);
        let entries: Vec<_> = self
            .lines
            .iter()
            .filter_map(|line| line.last())
            .map(|cell| cell.shown("-"))
            .collect();
        let width = entries.iter().map(|entry| entry.chars().count()).max().unwrap_or(1);
        for (at, some) in entries.chunks(ACROSS).enumerate() {
            let padded: Vec<_> = some.iter().map(|entry| pad(entry, width, false)).collect();
            let front = if self.columns.len() > 1 {
                format!("{:>6}: ", at * ACROSS)
            } else {
                "  ".into()
            };
            *to += &format!("{front}{}\n", padded.join(" "));
        }
    }
}

/// A line of a table as an object, under the names of its columns.
struct Line<'a>(&'a [String], &'a [Value]);

impl Serialize for Line<'_> {
    fn serialize<S: Serializer>(&self, to: S) -> Result<S::Ok, S::Error> {
        to.collect_map(self.0.iter().zip(self.1))
    }
}

impl Serialize for Table {
    fn serialize<S: Serializer>(&self, to: S) -> Result<S::Ok, S::Error> {
        match self.look {
            Look::Row => to.collect_seq(self.lines.iter().filter_map(|line| line.last())),
            Look::Columns => to.collect_seq(self.lines.iter().map(|line| Line(&self.columns, line))),
        }
    }
}

fn pad(cell: &str, width: usize, left: bool) -> String {
    if left {
        format!("{cell:<width$}")
    } else {
        format!("{cell:>width$}")
    }
}

/// A field of CSV, in quotes where it needs them.
fn quoted(cell: &str) -> String {
    if cell.contains([',', '"', '\n', '\r']) {
        format!("\"{}\"", cell.replace('"', "\"\""))
    } else {
        cell.into()
    }
}

/// What a command answers: fields by name, then tables. In CSV it is the last table, or the fields if there is none.
#[derive(Clone, Debug, Default)]
pub struct Answer {
    pub fields: Vec<(&'static str, Value)>,
    pub tables: Vec<Table>,
}

impl Answer {
    pub fn of(fields: Vec<(&'static str, Value)>) -> Answer {
        Answer {
            fields,
            tables: Vec::new(),
        }
    }

    pub fn with(mut self, table: Table) -> Answer {
        self.tables.push(table);
        self
    }

    pub fn printed(&self, form: Form) -> String {
        match form {
            Form::Text => self.text(),
            Form::Json => self.json() + "\n",
            Form::Csv => self.csv(),
        }
    }

    /// One line of JSON, its names in the order of the text.
    pub fn json(&self) -> String {
        serde_json::to_string(self).unwrap_or_default()
    }

    fn csv(&self) -> String {
        let mut to = String::new();
        match self.tables.last() {
            Some(table) => table.csv(&mut to),
            None => {
                let mut line = Table::new("", &[]);
                line.columns = self.fields.iter().map(|(name, _)| (*name).to_string()).collect();
                line.lines = vec![self.fields.iter().map(|(_, value)| value.clone()).collect()];
                line.csv(&mut to);
            }
        }
        to
    }

    fn text(&self) -> String {
        let mut to = String::new();
        let width = self
            .fields
            .iter()
            .map(|(name, _)| name.chars().count())
            .max()
            .unwrap_or(0);
        for (name, value) in &self.fields {
            to += &format!("{}  {}\n", pad(name, width, true), value.shown("-"));
        }
        for table in &self.tables {
            if !to.is_empty() {
                to.push('\n');
            }
            table.text(&mut to);
        }
        to
    }
}

impl Serialize for Answer {
    fn serialize<S: Serializer>(&self, to: S) -> Result<S::Ok, S::Error> {
        let mut map = to.serialize_map(Some(self.fields.len() + self.tables.len()))?;
        for (name, value) in &self.fields {
            map.serialize_entry(name, value)?;
        }
        for table in &self.tables {
            map.serialize_entry(table.name, table)?;
        }
        map.end()
    }
}
