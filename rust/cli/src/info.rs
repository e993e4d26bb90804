//! What records are, many at a time: a line for each, accepted or refused.
use crate::answer::{count, text, Answer, Form, Table, Value};
use crate::ask::{factor, sizes};
use crate::failure::{tell, Failure};
use crate::records::Loaded;
use std::fs;
use zompelgors::{Level, CONTRACT};

/// From so many files on a bar shows how far it is.
const MANY: usize = 8;
const BAR: usize = 40;

/// Every file with what was found.
type Found = Vec<(String, Result<Loaded, Failure>)>;

/// The columns that say why a file isn't accepted.
const VERDICT: [&str; 5] = ["number", "level", "involution", "dart", "sentence"];

/// Reads and checks all files.
fn look(files: &[String]) -> Found {
    let bar = files.len() >= MANY && at_terminal();
    let mut found = Vec::with_capacity(files.len());
    for (at, file) in files.iter().enumerate() {
        if bar {
            show(at, files.len());
        }
        found.push((file.clone(), Loaded::read(file)));
    }
    if bar {
        // The bar goes when it has served.
        tell(&format!("\r{:width$}\r", "", width = BAR + 24));
    }
    found
}

/// Whether somebody looks at the error stream.
fn at_terminal() -> bool {
    let stream = fs::read_link("/proc/self/fd/2").unwrap_or_default();
    stream.starts_with("/dev/pts") || stream.starts_with("/dev/tty") || stream.starts_with("/dev/console")
}

fn show(done: usize, all: usize) {
    let full = BAR * done / all;
    tell(&format!(
        "\r[{}{}] {done} of {all}",
        "#".repeat(full),
        ".".repeat(BAR - full)
    ));
}

/// The highest status of all files.
fn status(found: &Found) -> u8 {
    let statuses = found
        .iter()
        .map(|(_, outcome)| outcome.as_ref().err().map_or(0, Failure::status));
    statuses.max().unwrap_or(0)
}

/// What a failure says in the five columns.
fn verdict(failure: Option<&Failure>) -> Vec<Value> {
    match failure {
        None => (0..4).map(|_| Value::Whole(0)).chain([text("accepted")]).collect(),
        Some(Failure::Refused(refused)) => {
            let fields = &refused.refusal;
            let numbers = [fields.number, fields.level, fields.involution, fields.dart];
            numbers
                .iter()
                .map(|number| Value::from(*number))
                .chain([text(&*refused.sentence)])
                .collect()
        }
        Some(other) => (0..4)
            .map(|_| Value::Nothing)
            .chain([text(other.line().unwrap_or_default())])
            .collect(),
    }
}

/// A file that isn't accepted, in a line of text.
fn not_accepted(file: &str, failure: &Failure) -> String {
    match failure {
        Failure::Refused(refused) => format!("{file}: {}", refused.line()),
        other => other.line().unwrap_or_default(),
    }
}

fn sizes_or_nothing(outcome: &Result<Loaded, Failure>) -> Vec<Value> {
    match outcome {
        Ok(loaded) => sizes(loaded).into_iter().skip(1).map(|(_, value)| value).collect(),
        Err(_) => vec![Value::Nothing; 3],
    }
}

/// Whether each file is accepted.
pub fn check(files: &[String], form: Form) -> (String, u8) {
    let found = look(files);
    let mut table = Table::new("records", &["file", "n", "N", "h"]);
    table.columns.extend(VERDICT.map(String::from));
    let mut lines = String::new();
    for (file, outcome) in &found {
        let verdict = verdict(outcome.as_ref().err());
        table
            .lines
            .push([vec![text(&**file)], sizes_or_nothing(outcome), verdict].concat());
        lines += &match outcome {
            Ok(one) => format!("{file}: accepted, n {}, N {}, h {}\n", one.n(), one.darts(), one.h()),
            Err(failure) => not_accepted(file, failure) + "\n",
        };
    }
    let printed = if form == Form::Text { lines } else { table.printed(form) };
    (printed, status(&found))
}

/// Sizes, survivors, marks by kind and dimension and factors of each file.
pub fn info(files: &[String], form: Form) -> Result<(String, u8), Failure> {
    let found = look(files);
    if let (Form::Text, [(_, Ok(loaded))]) = (form, &found[..]) {
        return Ok((block(loaded)?.printed(form), 0));
    }
    let facts = ["file", "n", "N", "h", "removed", "contracted", "survivors", "factors"];
    let mut table = Table::new("records", &facts);
    let mut refused = String::new();
    if form != Form::Text {
        table.columns.extend(VERDICT.map(String::from));
    }
    for (file, outcome) in &found {
        let mut line = [vec![text(&**file)], sizes_or_nothing(outcome), lists(outcome, form)?].concat();
        match outcome {
            Err(failure) if form == Form::Text => refused += &(not_accepted(file, failure) + "\n"),
            _ if form == Form::Text => table.lines.push(line),
            _ => {
                line.extend(verdict(outcome.as_ref().err()));
                table.lines.push(line);
            }
        }
    }
    let printed = if table.lines.is_empty() {
        String::new()
    } else {
        table.printed(form)
    };
    Ok((printed + &refused, status(&found)))
}

/// Darts removed by dimension from 0, contracted by dimension from 1, survivors by level, factors by level.
fn lists(outcome: &Result<Loaded, Failure>, form: Form) -> Result<Vec<Value>, Failure> {
    let loaded = match outcome {
        Ok(loaded) => loaded,
        Err(_) => return Ok(vec![Value::Nothing; 4]),
    };
    let removed = (0..loaded.n()).map(|mark| count(marked(loaded, None, mark)));
    let contracted = (1..=loaded.n()).map(|d| count(marked(loaded, None, CONTRACT + d)));
    let survivors = loaded.levels().map(|level| count(loaded.survivors(level).len()));
    let factors: Result<Vec<_>, _> = (0..loaded.h()).map(|level| factor(loaded, Level(level))).collect();
    let shown = factors?
        .into_iter()
        .map(|value| if form == Form::Text { short(value) } else { value });
    Ok(vec![
        Value::List(removed.collect()),
        Value::List(contracted.collect()),
        Value::List(survivors.collect()),
        Value::List(shown.collect()),
    ])
}

/// A factor with three digits behind the point at most.
fn short(value: Value) -> Value {
    match value {
        Value::Real(factor) => Value::Real((factor * 1000.0).round() / 1000.0),
        other => other,
    }
}

/// How many darts have a mark, in one kernel or in all.
fn marked(loaded: &Loaded, kernel: Option<u8>, mark: u8) -> usize {
    let lent = loaded.lend();
    let both = lent.lambda.iter().zip(lent.delta);
    let has = |(lambda, delta): &(&u8, &u8)| {
        **lambda < lent.h.0 && **delta == mark && kernel.map_or(true, |one| **lambda == one)
    };
    both.filter(has).count()
}

/// One record by itself: a line for each level.
fn block(loaded: &Loaded) -> Result<Answer, Failure> {
    let mut table = Table::new("levels", &["level", "survivors", "factor"]);
    let marks: Vec<u8> = (0..loaded.n()).chain(CONTRACT + 1..=CONTRACT + loaded.n()).collect();
    let used: Vec<u8> = marks
        .into_iter()
        .filter(|mark| marked(loaded, None, *mark) > 0)
        .collect();
    let named = |mark: &u8| {
        let (kind, dimension) = crate::ask::kind(*mark);
        format!("{kind} {dimension}")
    };
    table.columns.extend(used.iter().map(named));
    for level in loaded.levels() {
        let shrinks = if level.0 < loaded.h() {
            short(factor(loaded, level)?)
        } else {
            Value::Nothing
        };
        let mut line = vec![level.0.into(), count(loaded.survivors(level).len()), shrinks];
        line.extend(used.iter().map(|mark| count(marked(loaded, Some(level.0), *mark))));
        table.lines.push(line);
    }
    Ok(Answer::of(sizes(loaded)).with(table))
}
