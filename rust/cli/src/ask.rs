//! The commands that ask a pyramid something: each answers what one job of the library answers.
use crate::answer::{count, text, Answer, Table, Value};
use crate::failure::Failure;
use crate::records::Loaded;
use crate::refusals::Asked;
use std::collections::BTreeMap;
use zompelgors::regions::name_regions;
use zompelgors::{Dimension, Factor, Level, ABSENT, CONTRACT, LEVELS, STAY, SUMS, WORDS};

/// What every answer begins with.
pub fn sizes(loaded: &Loaded) -> Vec<(&'static str, Value)> {
    vec![
        ("file", text(&*loaded.file)),
        ("n", loaded.n().into()),
        ("N", count(loaded.darts())),
        ("h", loaded.h().into()),
    ]
}

/// File and level, of an answer about one level.
fn of_level(loaded: &Loaded, level: Level) -> Vec<(&'static str, Value)> {
    vec![("file", text(&*loaded.file)), ("level", level.0.into())]
}

/// An entry of a level: a dart, or nothing where the dart isn't there.
fn entry(neighbour: u16) -> Value {
    match neighbour {
        ABSENT => Value::Nothing,
        dart => dart.into(),
    }
}

/// Survivors, the base entries that reading a level takes, and since which level all its links stand.
pub fn levels(loaded: &Loaded) -> Result<Answer, Failure> {
    let mut table = loaded.table();
    let mut lines = Table::new("levels", &["level", "survivors", "reads", "since"]);
    for level in loaded.levels() {
        lines.lines.push(level_line(loaded, level, &mut table)?);
    }
    Ok(Answer::of(sizes(loaded)).with(lines))
}

/// One level, unfolded into the table.
fn level_line(loaded: &Loaded, level: Level, table: &mut [u16]) -> Result<Vec<Value>, Failure> {
    let unfolding = loaded
        .lend()
        .unfold(level, table)
        .map_err(loaded.refused(&loaded.asked_level()))?;
    Ok(vec![
        level.0.into(),
        count(survivor_count(loaded, level)?),
        unfolding.count.into(),
        unfolding.since.0.into(),
    ])
}

fn survivor_count(loaded: &Loaded, level: Level) -> Result<usize, Failure> {
    let mut words = [0; WORDS];
    let found = loaded.lend().survivors(level, &mut words);
    Ok(found.map_err(loaded.refused(&loaded.asked_level()))? as usize)
}

/// The cells of each dimension of each level, and their alternating sums.
pub fn census(loaded: &Loaded) -> Result<Answer, Failure> {
    let (mut cells, mut sums) = ([[0; 5]; SUMS], [0; SUMS]);
    let taken = loaded.lend().census(&mut loaded.table(), &mut cells, &mut sums);
    taken.map_err(loaded.refused(&loaded.asked_level()))?;
    let mut lines = Table::new("census", &["level"]);
    let dimensions = usize::from(loaded.n()) + 1;
    lines.columns.extend((0..dimensions).map(|i| format!("{i}-cells")));
    lines.columns.push("sum".into());
    for level in loaded.levels() {
        let at = usize::from(level.0);
        let counts = cells[at][..dimensions].iter().map(|number| Value::from(*number));
        lines.lines.push(
            std::iter::once(level.0.into())
                .chain(counts)
                .chain([sums[at].into()])
                .collect(),
        );
    }
    Ok(Answer::of(sizes(loaded)).with(lines))
}

/// By which factor a level shrinks to the next, for one level or for all below the top.
pub fn decimation(loaded: &Loaded, level: Option<u8>) -> Result<Answer, Failure> {
    let mut lines = Table::new("decimation", &["level", "survivors", "next", "factor"]);
    let asked = level.map_or_else(|| (0..loaded.h()).collect(), |one| vec![one]);
    for level in asked.into_iter().map(Level) {
        let factor = factor(loaded, level)?;
        let next = survivor_count(loaded, Level(level.0 + 1))?;
        lines.lines.push(vec![
            level.0.into(),
            count(survivor_count(loaded, level)?),
            count(next),
            factor,
        ]);
    }
    Ok(Answer::of(sizes(loaded)).with(lines))
}

/// The factor of one level; nothing where the next level has no dart.
pub fn factor(loaded: &Loaded, level: Level) -> Result<Value, Failure> {
    let found = loaded.lend().decimation(&mut loaded.table(), level);
    match found.map_err(loaded.refused(&Asked::Decimation { h: loaded.h() }))? {
        Factor::By(factor) => Ok(Value::Real(factor)),
        Factor::Empty => Ok(Value::Nothing),
    }
}

/// The region names of a level.
pub fn region_names(loaded: &Loaded, level: Level) -> Result<Vec<u16>, Failure> {
    let mut names = vec![0; loaded.darts()];
    let named = name_regions(&loaded.lend(), &mut loaded.table(), level, &mut names);
    named.map_err(loaded.refused(&loaded.asked_level()))?;
    Ok(names)
}

/// The regions of a level, each with its base darts and those that are left, and the name of each dart.
pub fn regions(loaded: &Loaded, level: Level) -> Result<Answer, Failure> {
    let names = region_names(loaded, level)?;
    let mut sums: BTreeMap<u16, (usize, usize)> = BTreeMap::new();
    for (dart, name) in names.iter().enumerate() {
        let sum = sums.entry(*name).or_default();
        sum.0 += 1;
        sum.1 += usize::from(loaded.lend().lambda[dart] >= level.0);
    }
    let mut lines = Table::new("regions", &["region", "darts", "survivors"]);
    lines.lines = sums
        .iter()
        .map(|(name, sum)| vec![(*name).into(), count(sum.0), count(sum.1)])
        .collect();
    let mut fields = of_level(loaded, level);
    fields.push(("count", count(sums.len())));
    Ok(Answer::of(fields)
        .with(lines)
        .with(Table::row("names", "region", names.into_iter().map(Value::from))))
}

/// The darts of a level, as the survivor words tell them.
pub fn survivors(loaded: &Loaded, level: Level) -> Result<Answer, Failure> {
    let mut words = [0; WORDS];
    let found = loaded
        .lend()
        .survivors(level, &mut words)
        .map_err(loaded.refused(&loaded.asked_level()))?;
    let darts = (0..loaded.darts()).filter(|dart| words[dart / 64] >> (dart % 64) & 1 == 1);
    let mut fields = of_level(loaded, level);
    fields.push(("count", found.into()));
    Ok(Answer::of(fields).with(Table::list("darts", "dart", darts.map(count))))
}

/// The mark row of a level, read back.
pub fn mark_row(loaded: &Loaded, level: Level) -> Result<Vec<u8>, Failure> {
    let mut marks = vec![STAY; loaded.darts()];
    let read = loaded.lend().marks_of(level, &mut marks);
    read.map_err(loaded.refused(&loaded.asked_level()))?;
    Ok(marks)
}

/// The marks of a level: counts by kind and dimension, and the row.
pub fn marks(loaded: &Loaded, level: Level) -> Result<Answer, Failure> {
    let row = mark_row(loaded, level)?;
    let mut fields = of_level(loaded, level);
    fields.push(("marked", count(row.iter().filter(|mark| **mark != STAY).count())));
    let mut lines = Table::new("kinds", &["mark", "kind", "dimension", "darts"]);
    for mark in (0..=CONTRACT + loaded.n()).filter(|mark| row.contains(mark)) {
        let (kind, dimension) = kind(mark);
        let darts = row.iter().filter(|other| **other == mark).count();
        lines
            .lines
            .push(vec![mark.into(), text(kind), dimension.into(), count(darts)]);
    }
    Ok(Answer::of(fields)
        .with(lines)
        .with(Table::row("marks", "mark", row.into_iter().map(Value::from))))
}

/// What a mark says: removed or contracted, and with which dimension.
pub fn kind(mark: u8) -> (&'static str, u8) {
    if mark > CONTRACT {
        ("contracted", mark - CONTRACT)
    } else {
        ("removed", mark)
    }
}

/// One row of a level.
pub fn row(loaded: &Loaded, level: Level, involution: Dimension) -> Result<Answer, Failure> {
    let mut table = loaded.table();
    let asked = Asked::Reading {
        n: loaded.n(),
        h: loaded.h(),
    };
    let refused = loaded.refused(&asked);
    // The row of a level lies in the level unfolded; one that isn't there is refused by the row job itself.
    if level.0 <= loaded.h() {
        loaded.lend().unfold(level, &mut table).map_err(&refused)?;
    }
    let lent = loaded.lend();
    let row = lent.row(&table, level, involution).map_err(&refused)?;
    let mut fields = of_level(loaded, level);
    fields.push(("involution", involution.0.into()));
    Ok(Answer::of(fields).with(Table::row("row", "neighbour", row.iter().map(|dart| entry(*dart)))))
}

/// A level written out, or all of them: for each the neighbours of its darts.
pub fn unfold(loaded: &Loaded, level: Option<Level>) -> Result<Answer, Failure> {
    let mut lines = Table::new("levels", &["level", "survivors", "reads", "since"]);
    let mut entries = Table::new("entries", &["level", "dart"]);
    entries.columns.extend((0..=loaded.n()).map(|i| format!("a{i}")));
    if let Some(level) = level {
        let mut table = loaded.table();
        lines.lines.push(level_line(loaded, level, &mut table)?);
        entries.lines.extend(written_out(loaded, level, &table));
    } else {
        let mut tables = vec![0; loaded.levels().count() * loaded.pyramid.entries()];
        let (mut counts, mut since) = ([0; LEVELS], [0; LEVELS]);
        let unfolded = loaded.lend().unfold_all(&mut tables, &mut counts, &mut since);
        unfolded.map_err(loaded.refused(&loaded.asked_level()))?;
        for (level, table) in loaded.levels().zip(tables.chunks(loaded.pyramid.entries())) {
            let (at, found) = (usize::from(level.0), survivor_count(loaded, level)?);
            let line = vec![level.0.into(), count(found), counts[at].into(), since[at].into()];
            lines.lines.push(line);
            entries.lines.extend(written_out(loaded, level, table));
        }
    }
    Ok(Answer::of(sizes(loaded)).with(lines).with(entries))
}

/// A line for each dart of a level: the level, the dart and its neighbours.
fn written_out<'a>(loaded: &'a Loaded, level: Level, table: &'a [u16]) -> impl Iterator<Item = Vec<Value>> + 'a {
    loaded.survivors(level).into_iter().map(move |dart| {
        let neighbours = table.chunks(loaded.darts()).map(|row| entry(row[usize::from(dart)]));
        [level.0.into(), dart.into()].into_iter().chain(neighbours).collect()
    })
}
