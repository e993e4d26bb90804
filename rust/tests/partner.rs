//! A partner's 2D combinatorial map brought in and taken back through the binding.
#![cfg(feature = "alloc")]
use zompelgors::{check_base, export, import, Dimension, PyramidBuf, Refusal};

const TWO: Dimension = Dimension(2);

/// Three edges that start at one vertex, around which their darts 0, 2 and 4 follow each other.
const EDGES: [u16; 6] = [1, 0, 3, 2, 5, 4];
const VERTICES: [u16; 6] = [2, 1, 4, 3, 0, 5];

fn refusal(number: u16, involution: u16, dart: u16) -> Refusal {
    Refusal {
        number,
        level: 0,
        involution,
        dart,
    }
}

#[test]
fn there_and_back() {
    let mut rows = [9; 36];
    assert_eq!(import(6, &EDGES, &VERTICES, &mut rows), Ok(()));
    assert_eq!(rows[..12], [3, 2, 1, 0, 7, 6, 5, 4, 11, 10, 9, 8]);
    assert_eq!(rows[12..24], [9, 4, 3, 2, 1, 8, 7, 6, 5, 0, 11, 10]);
    assert_eq!(rows[24..], [1, 0, 3, 2, 5, 4, 7, 6, 9, 8, 11, 10]);
    assert_eq!(check_base(TWO, 12, &rows), Ok(()));
    let (mut edges, mut vertices) = ([9; 6], [9; 6]);
    assert_eq!(export(TWO, 12, &rows, &mut edges, &mut vertices), Ok(()));
    assert_eq!((edges, vertices), (EDGES, VERTICES));
    assert!(PyramidBuf::from_base(TWO, 12, rows.to_vec()).is_ok());
}

#[test]
fn two_to_one() {
    let mut rows = [9; 36];
    let answer = import(6, &EDGES, &[2, 1, 4, 3, 0, 4], &mut rows);
    assert_eq!(answer, Err(refusal(21, 1, 5)));
    assert_eq!(rows, [9; 36]);
    assert_eq!(
        answer.unwrap_err().to_string(),
        "refused 21 0 1 5: a vertex row sends two darts to one"
    );
}

#[test]
fn no_rows() {
    // A base of one dart, free in every row.
    let answer = export(TWO, 1, &[0, 0, 0], &mut [], &mut []);
    assert_eq!(answer, Err(refusal(22, 0, 0)));
    assert_eq!(
        export(Dimension(1), 2, &[1, 0, 0, 1], &mut [9], &mut [9]),
        Err(refusal(1, 0, 0))
    );
}
