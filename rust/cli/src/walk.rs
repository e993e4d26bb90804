//! One neighbour, and the way to it.
use crate::answer::{count, text, Answer, Table, Value};
use crate::ask::kind;
use crate::failure::Failure;
use crate::records::Loaded;
use crate::refusals::Asked;
use zompelgors::{Dimension, Level, Link, Pyramid, CONTRACT};

/// Which neighbour is asked for.
#[derive(Clone, Copy, Debug)]
pub struct Question {
    pub level: Level,
    pub involution: Dimension,
    pub dart: u16,
}

/// A dart that a walk passes: by which involution it comes and by which it goes on.
#[derive(Clone, Copy, Debug, PartialEq, Eq)]
pub struct Passed {
    pub dart: u16,
    pub by: u8,
    pub on: u8,
}

/// The other of the two rows between which a dart of this mark is passed.
fn across(mark: u8, by: u8) -> Option<u8> {
    let lower = if mark > CONTRACT { mark - CONTRACT - 1 } else { mark };
    match by {
        row if row == lower => Some(lower + 1),
        row if row == lower + 1 => Some(lower),
        _ => None,
    }
}

/// The walk itself, in base and marks of an accepted pyramid: the darts passed and what it ends with. None if it doesn't
/// end, which it does in every accepted pyramid.
pub fn walk(pyramid: &Pyramid, question: Question) -> Option<(Vec<Passed>, Link)> {
    let darts = usize::from(pyramid.darts);
    let entry = |row: u8, dart: u16| pyramid.rows[usize::from(row) * darts + usize::from(dart)];
    let mut row = question.involution.0;
    let mut met = entry(row, question.dart);
    let (mut passed, mut since) = (Vec::new(), 0);
    while pyramid.lambda[usize::from(met)] < question.level.0 {
        if passed.len() > 2 * darts {
            return None;
        }
        let on = across(pyramid.delta[usize::from(met)], row)?;
        passed.push(Passed { dart: met, by: row, on });
        since = since.max(pyramid.lambda[usize::from(met)] + 1);
        row = on;
        met = entry(row, met);
    }
    let link = Link {
        neighbour: met,
        count: passed.len() as u32 + 1,
        since: Level(since),
    };
    Some((passed, link))
}

/// What the library answers: neighbour, count, and since which level where it is told.
fn asked(loaded: &Loaded, question: Question, by_levels: bool) -> Result<(u16, u32, Option<Level>), Failure> {
    let Question {
        level,
        involution,
        dart,
    } = question;
    let pyramid = loaded.lend();
    let answer = if by_levels {
        let reading = pyramid.read_by_levels(level, involution, dart);
        reading.map(|reading| (reading.neighbour, reading.count, None))
    } else {
        let link = pyramid.read(level, involution, dart);
        link.map(|link| (link.neighbour, link.count, Some(link.since)))
    };
    answer.map_err(loaded.refused(&Asked::Reading {
        n: loaded.n(),
        h: loaded.h(),
    }))
}

/// The neighbour of a dart, and if asked the darts passed. These are the tool's own finding, so they are given only where
/// the library's count, end and level agree.
pub fn read(loaded: &Loaded, question: Question, by_levels: bool, trail: bool) -> Result<Answer, Failure> {
    let (neighbour, reads, since) = asked(loaded, question, by_levels)?;
    let answer = Answer::of(vec![
        ("file", text(&*loaded.file)),
        ("level", question.level.0.into()),
        ("involution", question.involution.0.into()),
        ("dart", question.dart.into()),
        ("neighbour", neighbour.into()),
        ("count", reads.into()),
        ("since", since.map_or(Value::Nothing, |level| level.0.into())),
    ]);
    if !trail {
        return Ok(answer);
    }
    let agrees = |link: &Link| {
        link.neighbour == neighbour && link.count == reads && since.map_or(true, |level| level == link.since)
    };
    match walk(&loaded.lend(), question) {
        Some((passed, link)) if agrees(&link) => Ok(answer.with(trail_of(loaded, &passed))),
        _ => Err(Failure::Bad(format!(
            "{}: the tool's own walk isn't the library's: no trail is given",
            loaded.file
        ))),
    }
}

fn trail_of(loaded: &Loaded, passed: &[Passed]) -> Table {
    let columns = ["step", "dart", "met_by", "left_by", "kernel", "kind", "dimension"];
    let mut lines = Table::new("trail", &columns);
    let pyramid = loaded.lend();
    for (step, one) in passed.iter().enumerate() {
        let at = usize::from(one.dart);
        let (kind, dimension) = kind(pyramid.delta[at]);
        lines.lines.push(vec![
            count(step + 1),
            one.dart.into(),
            one.by.into(),
            one.on.into(),
            pyramid.lambda[at].into(),
            text(kind),
            dimension.into(),
        ]);
    }
    lines
}
