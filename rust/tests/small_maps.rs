//! The small maps of docs/SCOPE.md, read through the binding.
#![cfg(feature = "alloc")]
#![allow(clippy::cast_possible_truncation)] // small numbers, written out here
#![allow(clippy::unnecessary_wraps)] // answers that are due are written as the jobs give them
use zompelgors::{
    add, check_base, mark_cells, row, survivors, Dimension, Factor, Level, Link, Pyramid,
    PyramidBuf, Refusal, Unfolding, ABSENT, STAY, WORDS,
};

const SQUARE: [u16; 16] = [1, 0, 3, 2, 5, 4, 7, 6, 7, 2, 1, 4, 3, 6, 5, 0];

const STAR: [u16; 36] = [
    6, 7, 8, 9, 10, 11, 0, 1, 2, 3, 4, 5, //
    5, 2, 1, 4, 3, 0, 7, 6, 9, 8, 11, 10, //
    1, 0, 3, 2, 5, 4, 7, 6, 9, 8, 11, 10,
];

fn refused(number: u16, level: u16, involution: u16, dart: u16) -> Refusal {
    Refusal {
        number,
        level,
        involution,
        dart,
    }
}

fn link(neighbour: u16, count: u32, since: u8) -> Result<Link, Refusal> {
    Ok(Link {
        neighbour,
        count,
        since: Level(since),
    })
}

fn unfolding(count: u32, since: u8) -> Result<Unfolding, Refusal> {
    Ok(Unfolding {
        count,
        since: Level(since),
    })
}

/// A map with the marks of its levels added one after the other.
struct Grown {
    pyramid: PyramidBuf,
    table: Vec<u16>,
}

impl Grown {
    fn new(n: u8, rows: &[u16]) -> Grown {
        let darts = rows.len() / (usize::from(n) + 1);
        Grown {
            pyramid: PyramidBuf::from_base(Dimension(n), darts as u16, rows.to_vec()).unwrap(),
            table: vec![0; rows.len()],
        }
    }

    fn add(&mut self, dimension: Dimension, removed: &[usize]) -> Result<Level, Refusal> {
        self.add_marked(&[(dimension.removed(), removed)])
    }

    fn contract(&mut self, dimension: Dimension, contracted: &[usize]) -> Result<Level, Refusal> {
        self.add_marked(&[(dimension.contracted(), contracted)])
    }

    /// One kernel, of cells with their marks.
    fn add_marked(&mut self, cells: &[(u8, &[usize])]) -> Result<Level, Refusal> {
        let mut marks = vec![STAY; usize::from(self.lend().darts)];
        for &(mark, cell) in cells {
            for &dart in cell {
                marks[dart] = mark;
            }
        }
        self.pyramid.add(&marks, &mut self.table)
    }

    fn lend(&self) -> Pyramid<'_> {
        self.pyramid.lend()
    }

    fn read(&self, level: u8, involution: u8, dart: u16) -> Result<Link, Refusal> {
        let (level, involution) = (Level(level), Dimension(involution));
        let direct = self.lend().read(level, involution, dart);
        let by_levels = self.lend().read_by_levels(level, involution, dart);
        assert_eq!(
            direct.map(|r| (r.neighbour, r.count)),
            by_levels.map(|r| (r.neighbour, r.count))
        );
        direct
    }

    fn unfolding(&self, level: u8) -> Result<Unfolding, Refusal> {
        self.lend()
            .unfold(Level(level), &mut vec![0; self.pyramid.entries()])
    }
}

fn star() -> Grown {
    let mut star = Grown::new(2, &STAR);
    star.add(Dimension(1), &[2, 3, 8, 9]).unwrap();
    star.add(Dimension(0), &[0, 1, 4, 5]).unwrap();
    star
}

#[test]
fn p1_segment() {
    let pyramid = Pyramid {
        n: Dimension(1),
        darts: 2,
        h: Level(1),
        rows: &[1, 0, 0, 1],
        lambda: &[1, 0],
        delta: &[1, 0],
    };
    let mut table = [7; 4];
    assert_eq!(pyramid.check(&mut table), Ok(()));
    assert_eq!(table, [0, ABSENT, 0, ABSENT]);
    assert_eq!(pyramid.read(Level(1), Dimension(0), 0), link(0, 3, 1));
    assert_eq!(pyramid.unfold(Level(1), &mut table), unfolding(4, 1));
}

#[test]
fn p3_p4_square() {
    let mut square = Grown::new(1, &SQUARE);
    assert_eq!(square.add(Dimension(0), &[1, 2]), Ok(Level(1)));
    assert_eq!(square.read(1, 0, 0), link(3, 3, 1));
    assert_eq!(square.read(1, 0, 3), link(0, 3, 1));
    assert_eq!(square.unfolding(1), unfolding(16, 1));
    assert_eq!(square.add(Dimension(0), &[3, 4]), Ok(Level(2)));
    assert_eq!(square.lend().h, Level(2));
    assert_eq!(square.lend().lambda, [2, 0, 0, 1, 1, 2, 2, 2]);
    assert_eq!(square.read(2, 0, 0), link(5, 5, 2));
    assert_eq!(square.read(2, 0, 6), link(7, 1, 0));
    assert_eq!(square.unfolding(2), unfolding(16, 2));
}

#[test]
fn p5_part_of_a_cell() {
    let mut square = Grown::new(1, &SQUARE);
    assert_eq!(square.add(Dimension(0), &[1]), Err(refused(9, 0, 1, 1)));
    assert_eq!(
        square.pyramid,
        PyramidBuf::from_base(Dimension(1), 8, SQUARE.to_vec()).unwrap()
    );
    assert_eq!(square.table, SQUARE);
}

#[test]
fn p6_two_edge_sides_by_count() {
    let rows = [
        4, 5, 6, 7, 0, 1, 2, 3, 2, 1, 0, 3, 4, 5, 6, 7, 1, 0, 3, 2, 5, 4, 7, 6,
    ];
    assert_eq!(check_base(Dimension(2), 8, &rows), Ok(()));
    let mut map = Grown::new(2, &rows);
    assert_eq!(
        map.add(Dimension(0), &[0, 1, 2, 3]),
        Err(refused(10, 0, 1, 0))
    );
}

#[test]
fn p7_not_commuting() {
    let rows = [1, 0, 3, 2, 0, 1, 2, 3, 2, 1, 0, 3];
    assert_eq!(check_base(Dimension(2), 4, &rows), Err(refused(7, 0, 0, 0)));
}

#[test]
fn p8_p9_star() {
    let star = star();
    assert_eq!(star.read(1, 1, 1).map(|r| r.neighbour), Ok(4));
    assert_eq!(star.read(1, 1, 4).map(|r| r.neighbour), Ok(1));
    assert_eq!(star.read(2, 0, 7), link(10, 5, 2));
    assert_eq!(star.lend().check(&mut [0; 36]), Ok(()));
}

#[test]
fn star_shrinks() {
    let star = star();
    let decimation = |level| star.lend().decimation(&mut [0; 36], Level(level));
    assert_eq!(decimation(0), Ok(Factor::By(1.5)));
    assert_eq!(decimation(1), Ok(Factor::By(2.0)));
    assert_eq!(decimation(2), Err(refused(11, 2, 0, 0)));
}

#[test]
fn segment_shrinks_to_nothing() {
    let mut segment = Grown::new(1, &[1, 0, 0, 1]);
    assert_eq!(segment.add(Dimension(0), &[0, 1]), Ok(Level(1)));
    let factor = segment.lend().decimation(&mut [0; 4], Level(0));
    assert_eq!(factor, Ok(Factor::Empty));
}

#[test]
fn corners_of_the_square_joined() {
    let mut square = Grown::new(1, &SQUARE);
    square.add(Dimension(0), &[1, 2]).unwrap();
    square.add(Dimension(0), &[3, 4]).unwrap();
    let top = square.table.clone();
    assert_eq!(
        square.pyramid.join(Level(0), &mut square.table),
        Ok(Level(1))
    );
    assert_eq!(square.lend().lambda, [1, 0, 0, 0, 0, 1, 1, 1]);
    assert_eq!(square.table, top);
    assert_eq!(square.lend().check(&mut [0; 16]), Ok(()));
    assert_eq!(square.read(1, 0, 0), link(5, 5, 1));
}

#[test]
fn star_not_joined() {
    let mut star = star();
    let refusal = star.pyramid.join(Level(0), &mut star.table).unwrap_err();
    assert_eq!(refusal, refused(9, 0, 1, 1));
    assert_eq!(star.table, STAR);
    assert_eq!(star.lend().h, Level(2));
    let refusal = star.pyramid.join(Level(1), &mut star.table).unwrap_err();
    assert_eq!(refusal, refused(11, 1, 0, 0));
}

#[test]
fn p10_star_vertex() {
    assert_eq!(
        Grown::new(2, &STAR).add(Dimension(0), &[0, 1, 2, 3, 4, 5]),
        Err(refused(10, 0, 1, 0))
    );
}

#[test]
fn c1_segment_contracted() {
    let mut segment = Grown::new(1, &[1, 0, 0, 1]);
    assert_eq!(segment.contract(Dimension(1), &[0, 1]), Ok(Level(1)));
    assert_eq!(segment.table, [ABSENT; 4]);
    assert_eq!(segment.lend().delta, [9, 9]);
    assert_eq!(segment.unfolding(1), unfolding(0, 0));
}

#[test]
fn c2_square_with_an_edge_contracted() {
    let mut square = Grown::new(1, &SQUARE);
    assert_eq!(square.contract(Dimension(1), &[0, 1]), Ok(Level(1)));
    assert_eq!(square.read(1, 1, 7), link(2, 3, 1));
    assert_eq!(square.read(1, 1, 2), link(7, 3, 1));
    assert_eq!(square.unfolding(1), unfolding(16, 1));
    let mut marks = [0; 8];
    assert_eq!(square.lend().marks_of(Level(0), &mut marks), Ok(()));
    assert_eq!(marks, [9, 9, STAY, STAY, STAY, STAY, STAY, STAY]);
}

#[test]
fn c4_both_kinds_in_one_kernel() {
    let rows = [0, 1, 2, 4, 3, 5, 1, 0, 3, 2, 5, 4, 0, 2, 1, 3, 4, 5];
    let mut map = Grown::new(2, &rows);
    let edge = Dimension(1);
    let cells = [
        (edge.removed(), &[1, 2][..]),
        (edge.contracted(), &[3, 4][..]),
    ];
    assert_eq!(map.add_marked(&cells), Ok(Level(1)));
    assert_eq!(map.read(1, 1, 0), link(5, 5, 1));
    assert_eq!(map.unfolding(1), unfolding(14, 1));
}

#[test]
fn c5_face_not_contractible() {
    let rows = [
        1, 0, 3, 2, 5, 4, 7, 6, 2, 1, 0, 3, 4, 5, 6, 7, 4, 5, 6, 7, 0, 1, 2, 3,
    ];
    assert_eq!(
        Grown::new(2, &rows).contract(Dimension(2), &[0, 1, 2, 3]),
        Err(refused(10, 0, 1, 0))
    );
}

#[test]
fn unchecked_reading() {
    let pyramid = Pyramid {
        n: Dimension(1),
        darts: 2,
        h: Level(1),
        rows: &[1, 1, 0, 1],
        lambda: &[1, 0],
        delta: &[1, 0],
    };
    assert_eq!(
        pyramid.read(Level(1), Dimension(0), 0),
        Err(refused(15, 1, 0, 0))
    );
}

#[test]
fn star_levels() {
    let star = star();
    let mut words = [1; WORDS];
    for (level, total, bits) in [(0, 36, 0xfff), (1, 28, 0xcf3), (2, 24, 0xcc0u64)] {
        assert_eq!(star.unfolding(level), unfolding(total, level));
        assert_eq!(
            star.lend().survivors(Level(level), &mut words),
            Ok(bits.count_ones())
        );
        assert_eq!((words[0], &words[1..]), (bits, &[0; 63][..]));
    }
}

#[test]
fn star_started_again() {
    let mut star = star();
    let refusal = star.pyramid.rebase(Level(3), &mut star.table).unwrap_err();
    assert_eq!(refusal, refused(11, 3, 0, 0));
    let old = star.pyramid.rebase(Level(1), &mut star.table);
    assert_eq!(old, Ok(vec![0, 1, 4, 5, 6, 7, 10, 11]));
    let again = star.lend();
    assert_eq!((again.darts, again.h), (8, Level(1)));
    assert_eq!(
        again.rows,
        [
            4, 5, 6, 7, 0, 1, 2, 3, //
            3, 2, 1, 0, 5, 4, 7, 6, //
            1, 0, 3, 2, 5, 4, 7, 6,
        ]
    );
    assert_eq!(again.lambda, [0, 0, 0, 0, 1, 1, 1, 1]);
    assert_eq!(again.delta, [0, 0, 0, 0, 2, 2, 2, 2]);
    assert_eq!(star.read(1, 0, 5), link(6, 3, 1));
    assert_eq!(star.unfolding(1), unfolding(20, 1));
}

#[test]
fn star_marks_read_back() {
    let star = star();
    let mut marks = [0; 12];
    assert_eq!(star.lend().marks_of(Level(1), &mut marks), Ok(()));
    assert_eq!(
        marks,
        [0, 0, STAY, STAY, 0, 0, STAY, STAY, STAY, STAY, STAY, STAY]
    );
    assert_eq!(star.lend().marks_of(Level(2), &mut marks), Ok(()));
    assert_eq!(marks, [STAY; 12]);
    assert_eq!(
        star.lend().marks_of(Level(3), &mut marks),
        Err(refused(11, 3, 0, 0))
    );
}

#[test]
fn star_cells_marked() {
    let mut marks = [0; 12];
    assert_eq!(
        mark_cells(Dimension(2), 12, &STAR, Dimension(1), &mut marks),
        Ok(())
    );
    assert_eq!(marks, [STAY, STAY, 1, 1, 1, 1, STAY, STAY, 1, 1, 1, 1]);
    assert_eq!(
        mark_cells(Dimension(2), 12, &STAR, Dimension(2), &mut marks),
        Err(refused(13, 0, 2, 0))
    );
}

#[test]
fn open_ends_and_a_ring_stay() {
    let mut marks = [0; 2];
    assert_eq!(
        mark_cells(Dimension(1), 2, &[1, 0, 0, 1], Dimension(0), &mut marks),
        Ok(())
    );
    assert_eq!(marks, [STAY; 2]);
    let mut marks = [0; 8];
    assert_eq!(
        mark_cells(Dimension(1), 8, &SQUARE, Dimension(0), &mut marks),
        Ok(())
    );
    assert_eq!(marks, [STAY, 0, 0, 0, 0, 0, 0, STAY]);
}

#[test]
fn rows_are_parts_of_what_is_lent() {
    let star = star();
    let pyramid = star.lend();
    let mut unfolded = [0; 36];
    pyramid.unfold(Level(1), &mut unfolded).unwrap();
    let first = pyramid.row(&unfolded, Level(0), Dimension(1)).unwrap();
    assert!(std::ptr::eq(first, &pyramid.rows[12..24]));
    let second = pyramid.row(&unfolded, Level(1), Dimension(2)).unwrap();
    assert!(std::ptr::eq(second, &unfolded[24..36]));
    assert_eq!(
        pyramid.row(&unfolded, Level(1), Dimension(3)),
        Err(refused(13, 1, 3, 0))
    );
    assert_eq!(
        pyramid.row(&unfolded[1..], Level(0), Dimension(1)),
        Err(refused(4, 0, 0, 0))
    );
    assert_eq!(
        row(
            Dimension(2),
            12,
            Level(2),
            &STAR,
            &[],
            Level(0),
            Dimension(1)
        ),
        Err(refused(4, 0, 0, 0))
    );
}

#[test]
fn a_level_added_at_31_and_32() {
    for (h, outcome) in [(31, Ok(Level(32))), (32, Err(refused(20, 0, 0, 0)))] {
        let (mut lambda, mut delta, mut table) = ([h; 2], [1; 2], [0; 4]);
        let added = add(
            Dimension(1),
            2,
            Level(h),
            &[1, 0, 0, 1],
            &mut lambda,
            &mut delta,
            &[STAY; 2],
            &mut table,
        );
        assert_eq!(added, outcome);
        assert_eq!(lambda, [32; 2]);
    }
}

#[test]
fn empty_slices_are_refused() {
    assert_eq!(check_base(Dimension(2), 12, &[]), Err(refused(4, 0, 0, 0)));
    assert_eq!(check_base(Dimension(5), 12, &[]), Err(refused(1, 0, 0, 0)));
    assert_eq!(
        survivors(12, Level(0), &[], Level(0), &mut []),
        Err(refused(4, 0, 0, 0))
    );
}
