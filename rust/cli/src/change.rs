//! The commands that make a file: a record, a mark row or a partner's map.
use crate::answer::{count, text, Answer, Value};
use crate::building;
use crate::failure::Failure;
use crate::files::{self, as_text, STANDARD};
use crate::grid::Block;
use crate::labels;
use crate::records::{record, Loaded};
use crate::refusals::Asked;
use std::env;
use std::io::Write;
use std::path::PathBuf;
use std::process::{Command, Stdio};
use zompelgors::{
    export as export_rows, import as import_rows, mark_cells, Dimension, Level, PyramidBuf, Refusal,
    MOST_PARTNER_DARTS, MOST_RECORD, STAY,
};

/// Where a record goes, and what is said of it; nothing where it goes to standard output itself.
fn made(out: &str, pyramid: &PyramidBuf, more: Vec<(&'static str, Value)>) -> Answer {
    let lent = pyramid.lend();
    let mut fields = vec![
        ("written", text(out)),
        ("n", lent.n.0.into()),
        ("N", lent.darts.into()),
        ("h", lent.h.0.into()),
    ];
    fields.extend(more);
    quiet(out, fields)
}

fn quiet(out: &str, fields: Vec<(&'static str, Value)>) -> Answer {
    Answer::of(if out == STANDARD { Vec::new() } else { fields })
}

/// Writes a pyramid's record.
fn put(out: &str, pyramid: &PyramidBuf, more: Vec<(&'static str, Value)>) -> Result<Answer, Failure> {
    files::write_all(&[(out, &record(out, pyramid)?)])?;
    Ok(made(out, pyramid, more))
}

/// The marks that marking chooses on a level.
fn chosen(loaded: &Loaded, level: Level, dimension: Dimension) -> Result<Vec<u8>, Failure> {
    let lent = loaded.lend();
    let mut table = loaded.table();
    let unfolded = lent.unfold(level, &mut table);
    unfolded.map_err(loaded.refused(&loaded.asked_level()))?;
    let mut marks = vec![STAY; loaded.darts()];
    let marked = mark_cells(lent.n, lent.darts, &table, dimension, &mut marks);
    marked.map_err(loaded.refused(&Asked::Marking { n: loaded.n() }))?;
    Ok(marks)
}

fn marked(marks: &[u8]) -> Value {
    count(marks.iter().filter(|mark| **mark != STAY).count())
}

/// Writes a mark row as text.
pub fn put_marks(loaded: &Loaded, marks: &[u8], out: &str) -> Result<Answer, Failure> {
    files::apart(&[out], &[&loaded.file])?;
    files::write_all(&[(out, as_text(marks).as_bytes())])?;
    Ok(quiet(out, vec![("written", text(out)), ("marked", marked(marks))]))
}

/// The mark row of the cells of one dimension, on a level or on the top one.
pub fn mark(loaded: &Loaded, level: Option<u8>, dimension: u8, out: &str) -> Result<Answer, Failure> {
    let level = Level(level.unwrap_or_else(|| loaded.h()));
    put_marks(loaded, &chosen(loaded, level, Dimension(dimension))?, out)
}

/// Adds a level: the marks of a file, or those that marking chooses on the top level.
pub fn add(mut loaded: Loaded, marks: Marks, out: &str) -> Result<Answer, Failure> {
    let entries = match marks {
        Marks::File(file) => {
            files::apart(&[out], &[&loaded.file, file])?;
            let numbers = files::numbers(file, 255)?;
            numbers.into_iter().map(|number| number as u8).collect()
        }
        Marks::Cells(dimension) => {
            files::apart(&[out], &[&loaded.file])?;
            chosen(&loaded, Level(loaded.h()), Dimension(dimension))?
        }
    };
    let mut table = loaded.table();
    let added = loaded.pyramid.add(&entries, &mut table);
    let more = vec![("marked", marked(&entries))];
    let asked = Asked::Marks {
        entries,
        n: loaded.n(),
        lambda: loaded.lend().lambda.to_vec(),
    };
    added.map_err(loaded.refused(&asked))?;
    put(out, &loaded.pyramid, more)
}

/// Where the marks of a new level come from.
#[derive(Clone, Copy, Debug)]
pub enum Marks<'a> {
    File(&'a str),
    Cells(u8),
}

/// Two kernels as one.
pub fn join(mut loaded: Loaded, level: u8, out: &str) -> Result<Answer, Failure> {
    files::apart(&[out], &[&loaded.file])?;
    let mut table = loaded.table();
    let asked = Asked::Joining { h: loaded.h() };
    let joined = loaded.pyramid.join(Level(level), &mut table);
    joined.map_err(loaded.refused(&asked))?;
    put(out, &loaded.pyramid, Vec::new())
}

/// A level as the base; the old numbers of its darts go to a file of their own if one is named.
pub fn rebase(mut loaded: Loaded, level: u8, old: Option<&str>, out: &str) -> Result<Answer, Failure> {
    let both: Vec<&str> = std::iter::once(out).chain(old).collect();
    files::apart(&both, &[&loaded.file])?;
    let mut table = loaded.table();
    let asked = Asked::Rebasing { h: loaded.h(), level };
    let rebased = loaded.pyramid.rebase(Level(level), &mut table);
    let numbers = as_text(&rebased.map_err(loaded.refused(&asked))?);
    let bytes = record(out, &loaded.pyramid)?;
    let more = old.map(|file| (file, numbers.as_bytes()));
    let all: Vec<(&str, &[u8])> = std::iter::once((out, &bytes[..])).chain(more).collect();
    files::write_all(&all)?;
    let mut said = made(out, &loaded.pyramid, Vec::new());
    said.fields
        .extend(old.filter(|_| out != STANDARD).map(|file| ("old", text(file))));
    Ok(if old == Some(STANDARD) { Answer::default() } else { said })
}

/// A partner's map, M and its two rows, as a record of height 0.
pub fn import(map: &str, out: &str) -> Result<Answer, Failure> {
    files::apart(&[out], &[map])?;
    let numbers = files::numbers(map, u16::MAX)?;
    let bad = |what: &str| Failure::Bad(format!("{map}: {what}"));
    let (m, rows) = numbers
        .split_first()
        .ok_or_else(|| bad("it is empty: M and two rows of M numbers are due"))?;
    let asked = Asked::Map { m: usize::from(*m) };
    let refused = |refusal: Refusal| Failure::refused(map, refusal, &asked);
    let most = usize::from(*m).min(MOST_PARTNER_DARTS);
    if rows.len() != 2 * usize::from(*m) && (1..=MOST_PARTNER_DARTS).contains(&usize::from(*m)) {
        return Err(bad(&format!(
            "M is {m}, so {} numbers are due behind it, and there are {}",
            2 * most,
            rows.len()
        )));
    }
    let mut base = vec![0; 6 * most];
    let (edges, vertices) = rows.split_at(most.min(rows.len()));
    import_rows(*m, edges, vertices, &mut base).map_err(refused)?;
    let pyramid = PyramidBuf::from_base(Dimension(2), 2 * m, base).map_err(refused)?;
    put(out, &pyramid, Vec::new())
}

/// The partner's rows of a base.
pub fn export(loaded: &Loaded, out: &str) -> Result<Answer, Failure> {
    files::apart(&[out], &[&loaded.file])?;
    let lent = loaded.lend();
    let m = loaded.darts() / 2;
    let (mut edges, mut vertices) = (vec![0; m], vec![0; m]);
    let exported = export_rows(lent.n, lent.darts, lent.rows, &mut edges, &mut vertices);
    exported.map_err(loaded.refused(&Asked::Export { n: loaded.n() }))?;
    let map = format!("{m}\n{}{}", as_text(&edges), as_text(&vertices));
    files::write_all(&[(out, map.as_bytes())])?;
    Ok(quiet(out, vec![("written", text(out)), ("M", count(m))]))
}

/// The base of a block.
pub fn grid(sizes: &[usize], out: &str) -> Result<Answer, Failure> {
    let block = Block::new(sizes)?;
    let pyramid = building::base(&block).map_err(|refusal| Failure::refused(out, refusal, &Asked::Base))?;
    put(out, &pyramid, vec![("cells", count(block.cells()))])
}

/// The pyramid of a labelled image.
pub fn build(file: &str, sizes: Option<&[usize]>, out: &str) -> Result<Answer, Failure> {
    files::apart(&[out], &[file])?;
    let labels = labels::read(file, sizes)?;
    let pyramid = building::build(&labels).map_err(|refusal| Failure::refused(file, refusal, &Asked::Base))?;
    let mut distinct = labels.labels.clone();
    distinct.sort_unstable();
    distinct.dedup();
    let regions = building::regions(file, &pyramid)?;
    let more = vec![
        ("cells", count(labels.block.cells())),
        ("labels", count(distinct.len())),
        ("regions", regions),
    ];
    put(out, &pyramid, more)
}

/// An old record as a new one, by the proved program.
pub fn convert(old: &str, out: &str) -> Result<Answer, Failure> {
    files::apart(&[out], &[old])?;
    let (bytes, error) = converted(&files::read(old, MOST_RECORD + 1)?)?;
    if let Some(refusal) = refusal_line(&error) {
        return Err(Failure::refused(old, refusal, &Asked::OldRecord));
    }
    let pyramid = PyramidBuf::from_record(&bytes)
        .map_err(|_| Failure::Bad(format!("the program convert wrote no record: {}", error.trim())))?;
    files::write_all(&[(out, &bytes)])?;
    Ok(made(out, &pyramid, Vec::new()))
}

/// What the program writes, and what it says on the error stream.
fn converted(bytes: &[u8]) -> Result<(Vec<u8>, String), Failure> {
    let program = convert_program();
    let failed = |error: std::io::Error| {
        Failure::Bad(format!(
            "the program convert can't be run as {}: {} (ZOMPELGORS_CONVERT can name it)",
            program.display(),
            crate::failure::reason(&error)
        ))
    };
    let mut command = Command::new(&program);
    let piped = command
        .stdin(Stdio::piped())
        .stdout(Stdio::piped())
        .stderr(Stdio::piped());
    let mut child = piped.spawn().map_err(failed)?;
    if let Some(mut input) = child.stdin.take() {
        // A program that ends before it has read all has an answer all the same.
        let _ = input.write_all(bytes);
    }
    let done = child.wait_with_output().map_err(failed)?;
    Ok((done.stdout, String::from_utf8_lossy(&done.stderr).into_owned()))
}

/// The program that `ZOMPELGORS_CONVERT` names, or the one of the release that this command lies in.
fn convert_program() -> PathBuf {
    let named = env::var_os("ZOMPELGORS_CONVERT").map(PathBuf::from);
    let released = || {
        let command = env::current_exe().unwrap_or_default();
        let release = command.ancestors().nth(2).map(PathBuf::from).unwrap_or_default();
        release.join("libexec/zompelgors/convert")
    };
    named.unwrap_or_else(released)
}

/// The fields of a line 'refused 17 0 0 7'.
fn refusal_line(line: &str) -> Option<Refusal> {
    let mut words = line
        .lines()
        .next()?
        .strip_prefix("refused ")?
        .split(' ')
        .map(str::parse);
    let mut next = || words.next()?.ok();
    Some(Refusal {
        number: next()?,
        level: next()?,
        involution: next()?,
        dart: next()?,
    })
}
