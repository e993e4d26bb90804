//! A sentence for each refusal: all that its fields say, and what to look at.
use zompelgors::{Refusal, CONTRACT, STAY};

/// Where a record's first row begins: behind the header.
const FIRST_ROW: usize = 7;
/// A tag and a length, before the body of each field.
const FIELD: usize = 3;
/// The tag of the first row of an old record.
const OLD_TAG: u8 = 0x20;

/// What was lent or asked when a refusal came, so that its sentence can say what to look at.
#[derive(Clone, Debug)]
pub enum Asked {
    /// A record, by its bytes.
    Record(Vec<u8>),
    /// A record that the program *convert* was given.
    OldRecord,
    /// A level, of a pyramid of this height.
    Level { h: u8 },
    /// How fast a pyramid of this height shrinks.
    Decimation { h: u8 },
    /// A reading, in a pyramid with this n and h.
    Reading { n: u8, h: u8 },
    /// Cells to be marked, in a pyramid with this n.
    Marking { n: u8 },
    /// A mark row, to be added to a pyramid with this n and Λ.
    Marks { entries: Vec<u8>, n: u8, lambda: Vec<u8> },
    /// Two kernels to be joined, in a pyramid of this height.
    Joining { h: u8 },
    /// A level to start again from.
    Rebasing { h: u8, level: u8 },
    /// A partner's map, of M darts.
    Map { m: usize },
    /// A base to be taken back to a partner's rows.
    Export { n: u8 },
    /// A base that the tool made.
    Base,
}

/// The sentence of a refusal.
pub fn sentence(refusal: &Refusal, asked: &Asked) -> String {
    let (level, involution, dart) = (refusal.level, refusal.involution, refusal.dart);
    match refusal.number {
        1..=4 => size(refusal.number, asked),
        5..=7 => base(refusal, asked),
        8 => mark(refusal, asked),
        9 => not_whole(refusal, asked),
        10 => format!(
            "kernel {level} has a cell that doesn't fit: at dart {dart} involution {involution} doesn't commute with the one \
             beyond it (look at the mark of dart {dart}; its cell can't be removed or contracted on level {level})"
        ),
        11 => no_level(level, asked),
        12 => format!("dart {dart} isn't on level {level} (zompelgors survivors --level {level} has those that are)"),
        13 => no_involution(involution, asked),
        14 => format!("the walk on level {level} meets dart {dart} by involution {involution} and can't pass it"),
        15 => format!("the walk from dart {dart} by involution {involution} on level {level} doesn't end"),
        16..=19 => field(refusal, asked),
        20 => "the pyramid has 32 levels above its base and takes no more (look at join and rebase, which make room)".into(),
        21 => format!("the vertex row sends dart {dart} and an earlier one to the same dart (look at its entry {dart})"),
        22 => "no two rows yield the base (look whether N is even, a2 leads from every 2d to 2d+1, a1 from odd darts to even \
               ones and a0 from even to odd)"
            .into(),
        23 => format!("dart {dart} is contracted, and regions have names in pyramids without contraction alone"),
        _ => refusal.text().into(),
    }
}

/// Dimension, number of darts, height, a length.
fn size(number: u16, asked: &Asked) -> String {
    match (number, asked) {
        (1, Asked::Export { n }) => {
            format!("n is {n}, and only a map of dimension 2 has a partner's rows")
        }
        (1, _) => "n is not 1 to 4 (look at byte 3 of the record)".into(),
        (2, Asked::Rebasing { level, .. }) => {
            format!("level {level} has no dart to start again from (look at survivors --level {level})")
        }
        (2, Asked::Map { m }) => {
            format!("M is {m}, and must be 1 to 2,048 (look at the map's first number)")
        }
        (2, _) => "N is not 1 to 4,096 (look at bytes 5 and 6 of the record)".into(),
        (3, _) => "h is above 32 (look at byte 4 of the record)".into(),
        (_, Asked::Marks { entries, lambda, .. }) => {
            format!("the mark row has {} entries, and N is {}", entries.len(), lambda.len())
        }
        _ => "a length isn't the one due".into(),
    }
}

/// A row that strays, doesn't lead back or doesn't commute.
fn base(refusal: &Refusal, asked: &Asked) -> String {
    let (i, dart) = (refusal.involution, refusal.dart);
    let row = match (asked, i) {
        (Asked::Map { .. }, 0) => "the edge row".into(),
        (Asked::Map { .. }, _) => "the vertex row".into(),
        _ => format!("involution {i}"),
    };
    let said = match refusal.number {
        5 => format!("{row} leads from dart {dart} to a number that is no dart"),
        6 => format!("{row}, applied twice, doesn't lead from dart {dart} back to it"),
        _ => format!("{row} doesn't commute at dart {dart} with one that is two or more above it"),
    };
    match asked {
        Asked::Record(bytes) => format!("{said} (look at {})", entry(bytes, i, dart)),
        _ => format!("{said} (look at its entry {dart})"),
    }
}

/// Where an entry of a row stands in a record, and what it is.
fn entry(bytes: &[u8], row: u16, dart: u16) -> String {
    let at = byte_of(darts_of(bytes), row, dart);
    match bytes.get(at..at + 2) {
        Some(two) => format!(
            "its entry {dart}, bytes {at} and {} of the record: {}",
            at + 1,
            u16::from_le_bytes([two[0], two[1]])
        ),
        None => format!("its entry {dart}"),
    }
}

/// N, as the header of a record has it.
fn darts_of(bytes: &[u8]) -> usize {
    usize::from(bytes.get(5).copied().unwrap_or(0)) + 256 * usize::from(bytes.get(6).copied().unwrap_or(0))
}

/// The offset of a dart's entry in a row of a record.
fn byte_of(darts: usize, row: u16, dart: u16) -> usize {
    FIRST_ROW + usize::from(row) * (FIELD + 2 * darts) + FIELD + 2 * usize::from(dart)
}

/// Λ or Δ of a record, or an entry of a mark row.
fn mark(refusal: &Refusal, asked: &Asked) -> String {
    let dart = refusal.dart;
    match asked {
        Asked::Record(bytes) => {
            let (n, h) = (bytes.get(3).copied(), bytes.get(4).copied());
            let (lambda, delta) = marks_of(bytes, dart);
            format!(
                "Λ and Δ of dart {dart} aren't allowed: they are {lambda} and {delta}, with n {} and h {}",
                n.unwrap_or(0),
                h.unwrap_or(0)
            )
        }
        Asked::Marks { entries, n, lambda } => mark_entry(refusal, entries, *n, lambda),
        _ => format!("Λ and Δ of dart {dart} aren't allowed"),
    }
}

/// An entry of a mark row: one of a dart that is gone, or no mark at all.
fn mark_entry(refusal: &Refusal, entries: &[u8], n: u8, lambda: &[u8]) -> String {
    let (level, dart, at) = (refusal.level, refusal.dart, usize::from(refusal.dart));
    let mark = entries.get(at).copied().unwrap_or(STAY);
    if lambda.get(at).map_or(false, |kernel| u16::from(*kernel) < level) {
        return format!("dart {dart} isn't on level {level}, so its mark must be 255, and it is {mark}");
    }
    format!(
        "the mark of dart {dart} is {mark}, which is none: with n {n} a mark is below {n}, or 9 to {}, or 255",
        CONTRACT + n
    )
}

/// Λ and Δ of a dart in a record: they stand behind the rows.
fn marks_of(bytes: &[u8], dart: u16) -> (u8, u8) {
    let darts = darts_of(bytes);
    let rows = u16::from(bytes.get(3).copied().unwrap_or(0)) + 1;
    let lambda = byte_of(darts, rows, 0) + usize::from(dart);
    let delta = lambda + darts + FIELD;
    let byte = |at: usize| bytes.get(at).copied().unwrap_or(0);
    (byte(lambda), byte(delta))
}

/// A kernel that isn't whole cells: one of a record, one that is added, or two that are joined.
fn not_whole(refusal: &Refusal, asked: &Asked) -> String {
    let (level, involution, dart) = (refusal.level, refusal.involution, refusal.dart);
    let leads = format!("involution {involution} leads from dart {dart} to a dart outside it");
    match asked {
        Asked::Joining { .. } => format!(
            "kernels {level} and {} together aren't whole cells of level {level}: {leads}",
            level + 1
        ),
        _ => format!("kernel {level} isn't whole cells: {leads} (look at the marks of both on level {level})"),
    }
}

/// A level that isn't there.
fn no_level(level: u16, asked: &Asked) -> String {
    match asked {
        Asked::Decimation { h } => {
            format!("level {level} has no next one to shrink to: the height is {h}")
        }
        Asked::Joining { h } => format!(
            "kernels {level} and {} can't be joined: the height is {h}, so the last kernel is {}",
            level + 1,
            i32::from(*h) - 1
        ),
        Asked::Level { h } | Asked::Rebasing { h, .. } | Asked::Reading { h, .. } => {
            format!("there is no level {level}: the height is {h}")
        }
        _ => format!("there is no level {level}"),
    }
}

/// An involution that isn't there, or a dimension that can't be marked.
fn no_involution(involution: u16, asked: &Asked) -> String {
    match asked {
        Asked::Marking { n } => {
            format!("cells of dimension {involution} aren't marked: n is {n}, and it must be below n")
        }
        Asked::Reading { n, .. } => format!("there is no involution {involution}: n is {n}"),
        _ => format!("there is no involution {involution}"),
    }
}

/// A field of a record; the dart is the byte offset where it starts.
fn field(refusal: &Refusal, asked: &Asked) -> String {
    let at = refusal.dart;
    let found = match asked {
        Asked::Record(bytes) => bytes.get(usize::from(at)).copied(),
        _ => None,
    };
    match (refusal.number, found) {
        (16, _) => format!("the record ends early: the field at byte {at} isn't all there"),
        (17, Some(OLD_TAG)) if usize::from(at) == FIRST_ROW => format!(
            "at byte {at} stands the tag 0x20, of an old record with rows of one byte an entry (zompelgors convert makes a new one)"
        ),
        (17, Some(tag)) => format!("at byte {at} stands the tag 0x{tag:02x}, which is not the one due there"),
        (17, None) => format!("at byte {at} stands another tag than the one due there"),
        (18, _) => format!("the field at byte {at} has a wrong length (look at bytes {} and {})", at + 1, at + 2),
        _ => format!("the record ends before byte {at}, and more follows"),
    }
}
