//! Records taken through the binding: the star's, whole and cut short, and the pipe's.
#![cfg(feature = "alloc")]
#![allow(clippy::cast_possible_truncation)] // small numbers, written out here
use std::{fs, path::Path};
use zompelgors::{
    take, Dimension, Header, Level, Pyramid, PyramidBuf, Refusal, MOST_RECORD, SUMS, WORDS,
};

fn sample() -> Vec<u8> {
    record("star")
}

fn record(name: &str) -> Vec<u8> {
    let path = Path::new(env!("CARGO_MANIFEST_DIR")).join(format!("../samples/{name}.record"));
    fs::read(path).expect(name)
}

#[test]
fn star_taken() {
    let (mut rows, mut lambda, mut delta, mut table) = ([9; 40], [9; 14], [9; 12], [9; 38]);
    let header = take(&sample(), &mut rows, &mut lambda, &mut delta, &mut table).unwrap();
    assert_eq!(
        header,
        Header {
            n: Dimension(2),
            h: Level(2),
            darts: 12
        }
    );
    assert_eq!((&rows[36..], &lambda[12..]), (&[9; 4][..], &[9; 2][..]));
    assert_eq!(table[36..], [9; 2]);
    let pyramid = Pyramid {
        n: header.n,
        darts: header.darts,
        h: header.h,
        rows: &rows[..36],
        lambda: &lambda[..12],
        delta: &delta,
    };
    let mut level = [0; 36];
    assert_eq!(pyramid.check(&mut level), Ok(()));
    assert_eq!(table[..36], level);
    assert_eq!(
        [0, 1, 2].map(|l| pyramid.unfold(Level(l), &mut level).map(|r| r.count)),
        [Ok(36), Ok(28), Ok(24)]
    );
}

#[test]
fn star_cut_short() {
    let whole = sample();
    let field_starts = [0, 7, 34, 61, 88, 103];
    for length in 0..whole.len() {
        let (mut rows, mut lambda, mut delta, mut table) = ([9; 36], [9; 12], [9; 12], [9; 36]);
        let cut = &whole[..length];
        let refusal = take(cut, &mut rows, &mut lambda, &mut delta, &mut table).unwrap_err();
        let field = *field_starts
            .iter()
            .rfind(|&&start| start <= length)
            .unwrap();
        assert_eq!(
            refusal,
            Refusal {
                number: 16,
                level: 0,
                involution: 0,
                dart: field as u16
            }
        );
        assert_eq!((rows, lambda, delta), ([9; 36], [9; 12], [9; 12]));
        assert_eq!(table, [9; 36]);
    }
}

#[test]
fn star_with_a_byte_too_many() {
    let mut bytes = sample();
    bytes.push(0);
    let table = &mut [0; 36];
    let refusal = take(&bytes, &mut [0; 36], &mut [0; 12], &mut [0; 12], table).unwrap_err();
    assert_eq!(
        refusal.to_string(),
        "refused 19 0 0 118: bytes follow the end of the record"
    );
}

#[test]
fn lent_too_little() {
    let (whole, table) = (sample(), &mut [0; 36]);
    let no_marks = take(&whole, &mut [0; 36], &mut [], &mut [0; 12], table).unwrap_err();
    let no_table = take(&whole, &mut [0; 36], &mut [0; 12], &mut [0; 12], &mut []).unwrap_err();
    assert_eq!(
        no_marks.to_string(),
        "refused 4 0 0 0: a length is not the one due"
    );
    assert_eq!(no_table, no_marks);
}

/// The star with dart 0 alone of its vertex in kernel 0: refused, and what the record said is there to look at.
#[test]
fn star_with_a_torn_vertex() {
    let mut bytes = sample();
    bytes[91] = 0;
    let (mut rows, mut lambda, mut delta, mut table) = ([9; 36], [9; 12], [9; 12], [9; 36]);
    let refusal = take(&bytes, &mut rows, &mut lambda, &mut delta, &mut table).unwrap_err();
    assert_eq!((refusal.number, refusal.level), (9, 0));
    assert_eq!((lambda[0], rows[0], table), (0, 6, rows));
}

#[test]
fn star_owned() {
    let star = PyramidBuf::from_record(&sample()).unwrap();
    let mut table = vec![0; star.entries()];
    assert_eq!((star.lend().darts, star.entries()), (12, 36));
    assert_eq!(star.lend().check(&mut table), Ok(()));
    assert_eq!(
        star.lend().unfold(Level(1), &mut table).map(|r| r.count),
        Ok(28)
    );
}

/// Faces removed and edges contracted: survivors, count and since of each level, as the program levels prints them.
#[test]
fn pipe_levels() {
    let pipe = PyramidBuf::from_record(&record("pipe")).unwrap();
    let (mut table, mut words) = (vec![0; pipe.entries()], [0; WORDS]);
    assert_eq!(pipe.lend().check(&mut table), Ok(()));
    let of_level = [
        (576, 2304, 0),
        (396, 1944, 1),
        (268, 1568, 2),
        (184, 1264, 3),
        (132, 984, 4),
    ];
    for (level, (survivors, count, since)) in of_level.into_iter().enumerate() {
        let level = Level(level as u8);
        let unfolding = pipe.lend().unfold(level, &mut table).unwrap();
        assert_eq!((unfolding.count, unfolding.since), (count, Level(since)));
        assert_eq!(pipe.lend().survivors(level, &mut words), Ok(survivors));
    }
}

#[test]
fn the_largest_record_owned() {
    let field = |tag: u8, length: usize| vec![tag, length as u8, (length >> 8) as u8];
    let mut bytes = [field(0x01, 4), vec![4, 0, 0, 16]].concat();
    for row in 0..5 {
        bytes.extend(field(0x10 + row, 8_192));
        bytes.extend((0..4_096u16).flat_map(u16::to_le_bytes));
    }
    bytes.extend([field(0x30, 4_096), vec![0; 4_096]].concat());
    bytes.extend([field(0x31, 4_096), vec![4; 4_096]].concat());
    assert_eq!(bytes.len(), MOST_RECORD);
    let free = PyramidBuf::from_record(&bytes).unwrap();
    let mut table = vec![0; free.entries()];
    assert_eq!(free.lend().check(&mut table), Ok(()));
    assert_eq!(table, free.lend().rows);
}

#[test]
fn a_record_refused() {
    let refusal = PyramidBuf::from_record(&sample()[..50]).unwrap_err();
    assert_eq!(
        refusal.to_string(),
        "refused 16 0 0 34: the record ends early"
    );
}

#[test]
fn star_written() {
    let whole = sample();
    let pyramid = PyramidBuf::from_record(&whole).unwrap();
    let (mut table, mut bytes) = ([0; 36], [9; 130]);
    assert_eq!(pyramid.lend().write(&mut table, &mut bytes), Ok(118));
    assert_eq!((&bytes[..118], &bytes[118..]), (&whole[..], &[9; 12][..]));
    let refusal = pyramid
        .lend()
        .write(&mut table, &mut bytes[..117])
        .unwrap_err();
    assert_eq!(refusal.number, 4);
}

#[test]
fn what_a_pyramid_says_of_itself() {
    let (n, h) = (Dimension(2), Level(2));
    let star = PyramidBuf::from_record(&sample()).unwrap();
    assert_eq!((star.n(), star.darts(), star.height()), (n, 12, h));
    assert_eq!(star.to_record(), Ok(sample()));
    let mut grown = PyramidBuf::from_base(n, 12, star.lend().rows.to_vec()).unwrap();
    let mut table = vec![0; grown.entries()];
    let (mut marks, star) = ([0; 12], star.lend());
    for level in [Level(0), Level(1)] {
        assert_eq!(star.marks_of(level, &mut marks), Ok(()));
        assert_eq!(grown.add(&marks, &mut table), Ok(Level(level.0 + 1)));
    }
    assert_eq!((grown.height(), grown.to_record()), (h, Ok(sample())));
}

/// Cells of each dimension and alternating sum of each level, as the program census prints them.
#[test]
fn pipe_census() {
    let pipe = PyramidBuf::from_record(&record("pipe")).unwrap();
    let (mut table, mut cells, mut sums) = (vec![0; pipe.entries()], [[9; 5]; SUMS], [9; SUMS]);
    assert_eq!(
        pipe.lend()
            .census(&mut table[1..], &mut cells, &mut sums)
            .unwrap_err()
            .number,
        4
    );
    assert_eq!((cells, sums), ([[9; 5]; SUMS], [9; SUMS]));
    assert_eq!(
        pipe.lend().census(&mut table, &mut cells, &mut sums),
        Ok(())
    );
    let of_level = [
        ([32, 72, 52, 12, 0], 0),
        ([25, 65, 41, 6, 0], -5),
        ([19, 52, 32, 4, 0], -5),
        ([18, 40, 25, 7, 0], -4),
        ([15, 29, 19, 7, 0], -2),
    ];
    for (level, (counts, sum)) in of_level.into_iter().enumerate() {
        assert_eq!((cells[level], sums[level]), (counts, sum));
    }
    assert_eq!((&cells[5..], &sums[5..]), (&[[0; 5]; 28][..], &[0; 28][..]));
}
