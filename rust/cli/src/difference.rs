//! The first place at which two records differ, and how much differs.
use crate::answer::{count, text, Answer, Table, Value};
use crate::failure::Failure;
use crate::records::Loaded;
use zompelgors::{Level, ABSENT};

/// The place of an entry that differs, and what both records have there.
struct Place {
    level: u8,
    row: usize,
    dart: usize,
    one: u16,
    other: u16,
}

/// Compares level by level, row by row, dart by dart; whether they differ is told beside the answer.
pub fn diff(one: &Loaded, other: &Loaded) -> Result<(Answer, bool), Failure> {
    if (one.n(), one.darts()) != (other.n(), other.darts()) {
        let mut answer = sizes(one, other, "n or N differs, so no dart is compared");
        answer.fields.push(("same", Value::Truth(false)));
        return Ok((answer, true));
    }
    let (mut first, mut lines) = (None, Table::new("levels", &["level", "entries", "darts"]));
    for level in 0..=one.h().min(other.h()) {
        let places = level_places(one, other, Level(level))?;
        lines
            .lines
            .push(vec![level.into(), count(places.len()), count(distinct(&places))]);
        first = first.or_else(|| places.into_iter().next());
    }
    let (lambda, delta) = marks(one, other);
    let differ = first.is_some() || lambda + delta > 0 || one.h() != other.h();
    let said = match (&first, differ) {
        (None, false) => "they are the same pyramid".into(),
        (None, true) if one.h() != other.h() => "the levels that both have are the same, and one has more".into(),
        (None, true) => "every level is the same, and the marks differ".into(),
        (Some(place), _) => place.said(),
    };
    let mut answer = sizes(one, other, &said);
    answer.fields.push(("same", Value::Truth(!differ)));
    answer.fields.extend(place_fields(first.as_ref()));
    answer
        .fields
        .extend([("lambda", count(lambda)), ("delta", count(delta))]);
    Ok((answer.with(lines), differ))
}

impl Place {
    fn said(&self) -> String {
        let Place { level, row, dart, .. } = self;
        format!("they differ first on level {level}, row {row}, dart {dart}")
    }
}

fn sizes(one: &Loaded, other: &Loaded, said: &str) -> Answer {
    let both = |name: &dyn Fn(&Loaded) -> Value| Value::List(vec![name(one), name(other)]);
    Answer::of(vec![
        ("files", both(&|loaded| text(&*loaded.file))),
        ("n", both(&|loaded| loaded.n().into())),
        ("N", both(&|loaded| count(loaded.darts()))),
        ("h", both(&|loaded| loaded.h().into())),
        ("difference", text(said)),
    ])
}

/// Level, row and dart of the first entry that differs, and both entries; nothing where none does.
fn place_fields(first: Option<&Place>) -> Vec<(&'static str, Value)> {
    let entry = |dart: u16| if dart == ABSENT { Value::Nothing } else { dart.into() };
    let value = |find: &dyn Fn(&Place) -> Value| first.map_or(Value::Nothing, find);
    vec![
        ("level", value(&|place| place.level.into())),
        ("row", value(&|place| count(place.row))),
        ("dart", value(&|place| count(place.dart))),
        (
            "entries",
            value(&|place| Value::List(vec![entry(place.one), entry(place.other)])),
        ),
    ]
}

/// The entries of a level that differ, by row, then dart.
fn level_places(one: &Loaded, other: &Loaded, level: Level) -> Result<Vec<Place>, Failure> {
    let unfolded = |loaded: &Loaded| {
        let mut table = loaded.table();
        let done = loaded.lend().unfold(level, &mut table);
        done.map_err(loaded.refused(&loaded.asked_level())).map(|_| table)
    };
    let (ones, others) = (unfolded(one)?, unfolded(other)?);
    let pairs = ones.into_iter().zip(others).enumerate();
    let place = |(at, (a, b)): (usize, (u16, u16))| Place {
        level: level.0,
        row: at / one.darts(),
        dart: at % one.darts(),
        one: a,
        other: b,
    };
    Ok(pairs.filter(|(_, (a, b))| a != b).map(place).collect())
}

fn distinct(places: &[Place]) -> usize {
    let mut darts: Vec<_> = places.iter().map(|place| place.dart).collect();
    darts.sort_unstable();
    darts.dedup();
    darts.len()
}

/// How many darts differ in Λ, and how many in Δ.
fn marks(one: &Loaded, other: &Loaded) -> (usize, usize) {
    let unequal = |a: &[u8], b: &[u8]| a.iter().zip(b).filter(|(x, y)| x != y).count();
    let (one, other) = (one.lend(), other.lend());
    (unequal(one.lambda, other.lambda), unequal(one.delta, other.delta))
}
