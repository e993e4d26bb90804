//! Region names of the square, level by level, and their refusals.
#![cfg(feature = "regions")]
use zompelgors::regions::name_regions;
use zompelgors::{Dimension, Level, Pyramid, Refusal};

const SQUARE: [u16; 16] = [1, 0, 3, 2, 5, 4, 7, 6, 7, 2, 1, 4, 3, 6, 5, 0];

/// The square, {1,2} removed, then {3,4}.
fn corners() -> Pyramid<'static> {
    Pyramid {
        n: Dimension(1),
        darts: 8,
        h: Level(2),
        rows: &SQUARE,
        lambda: &[2, 0, 0, 1, 1, 2, 2, 2],
        delta: &[1, 0, 0, 0, 0, 1, 1, 1],
    }
}

fn names(pyramid: &Pyramid, level: u8) -> Result<[u16; 8], Refusal> {
    let (mut table, mut names) = ([0; 16], [9; 8]);
    let answer = name_regions(pyramid, &mut table, Level(level), &mut names);
    if answer.is_err() {
        assert_eq!(names, [9; 8]);
    }
    answer.map(|()| names)
}

#[test]
fn square() {
    let pyramid = corners();
    assert_eq!(names(&pyramid, 0), Ok([0, 0, 2, 2, 4, 4, 6, 6]));
    assert_eq!(names(&pyramid, 1), Ok([0, 0, 0, 0, 4, 4, 6, 6]));
    assert_eq!(names(&pyramid, 2), Ok([0, 0, 0, 0, 0, 0, 6, 6]));
}

#[test]
fn refusals() {
    let refusal = names(&corners(), 3).unwrap_err();
    assert_eq!(
        refusal.to_string(),
        "refused 11 3 0 0: the level asked is above the height, or too near it for a decimation or a join"
    );
    let contracted = Pyramid {
        h: Level(1),
        lambda: &[1, 1, 0, 0, 1, 1, 1, 1],
        delta: &[1, 1, 9, 9, 1, 1, 1, 1],
        ..corners()
    };
    let refusal = names(&contracted, 0).unwrap_err();
    assert_eq!((refusal.number, refusal.level, refusal.dart), (23, 0, 2));
    let mut short = [9; 7];
    let refusal = name_regions(&corners(), &mut [0; 16], Level(0), &mut short).unwrap_err();
    assert_eq!((refusal.number, short), (4, [9; 7]));
}
