//! Jobs called with the slices themselves, where a pyramid that owns its memory would hide what they leave in it.
use zompelgors::{
    join, marks_of, rebase, Base, Dimension, Level, Pyramid, Reading, Refusal, ABSENT, LEVELS, STAY,
};

/// The square, {1,2} removed, then {3,4}.
const SQUARE: [u16; 16] = [1, 0, 3, 2, 5, 4, 7, 6, 7, 2, 1, 4, 3, 6, 5, 0];
const LAMBDA: [u8; 8] = [2, 0, 0, 1, 1, 2, 2, 2];
const DELTA: [u8; 8] = [1, 0, 0, 0, 0, 1, 1, 1];
const ONE: Dimension = Dimension(1);
const TWO_LEVELS: Level = Level(2);

fn refused(number: u16, level: u16, involution: u16, dart: u16) -> Refusal {
    Refusal {
        number,
        level,
        involution,
        dart,
    }
}

fn corners() -> Pyramid<'static> {
    Pyramid {
        n: ONE,
        darts: 8,
        h: TWO_LEVELS,
        rows: &SQUARE,
        lambda: &LAMBDA,
        delta: &DELTA,
    }
}

#[test]
fn all_levels_at_once() {
    let (mut tables, mut counts, mut since) = ([9; 48], [9; LEVELS], [9; LEVELS]);
    let unfolded = corners().unfold_all(&mut tables, &mut counts, &mut since);
    assert_eq!(unfolded, Ok(()));
    for (level, block) in (0..3).zip(tables.chunks(16)) {
        let mut table = [0; 16];
        let alone = corners().unfold(Level(level), &mut table).unwrap();
        let at = usize::from(level);
        assert_eq!((block, counts[at]), (&table[..], alone.count));
        assert_eq!(Level(since[at]), alone.since);
    }
    assert_eq!((&counts[3..], &since[3..]), (&[0; 30][..], &[0; 30][..]));
}

#[test]
fn levels_below_a_kernel_that_fails() {
    // Kernel 1 has dart 3 alone, which is no whole vertex.
    let delta = [1, 0, 0, 0, 1, 1, 1, 1];
    let pyramid = Pyramid {
        lambda: &[2, 0, 0, 1, 2, 2, 2, 2],
        delta: &delta,
        ..corners()
    };
    let (mut tables, mut counts, mut since) = ([9; 48], [9; LEVELS], [9; LEVELS]);
    let unfolded = pyramid.unfold_all(&mut tables, &mut counts, &mut since);
    assert_eq!(unfolded, Err(refused(9, 1, 1, 3)));
    let mut table = [0; 16];
    for (level, block) in (0..2).zip(tables.chunks(16)) {
        pyramid.unfold(Level(level), &mut table).unwrap();
        assert_eq!(block, table);
    }
    assert_eq!(tables[32..], [9; 16]);
    assert_eq!((counts, since), ([9; LEVELS], [9; LEVELS]));
    let short = pyramid.unfold_all(&mut tables[..47], &mut counts, &mut since);
    assert_eq!(short, Err(refused(4, 0, 0, 0)));
}

#[test]
fn joined_in_place() {
    let (mut lambda, mut table) = (LAMBDA, [0; 16]);
    let height = join(
        ONE,
        8,
        TWO_LEVELS,
        &SQUARE,
        &mut lambda,
        &DELTA,
        &mut table,
        Level(0),
    );
    assert_eq!(height, Ok(Level(1)));
    assert_eq!(lambda, [1, 0, 0, 0, 0, 1, 1, 1]);
    let mut top = [0; 16];
    assert_eq!(corners().check(&mut top), Ok(()));
    assert_eq!(table, top);
}

#[test]
fn nothing_joined_above_the_top() {
    let (mut lambda, mut table) = (LAMBDA, [0; 16]);
    let height = join(
        ONE,
        8,
        TWO_LEVELS,
        &SQUARE,
        &mut lambda,
        &DELTA,
        &mut table,
        Level(1),
    );
    assert_eq!(height, Err(refused(11, 1, 0, 0)));
    assert_eq!(lambda, LAMBDA);
}

#[test]
fn started_again_in_place() {
    let (mut rows, mut lambda, mut delta) = (SQUARE, LAMBDA, DELTA);
    let (mut table, mut old) = ([0; 16], [9; 8]);
    let base = rebase(
        ONE,
        8,
        TWO_LEVELS,
        &mut rows,
        &mut lambda,
        &mut delta,
        &mut table,
        Level(1),
        &mut old,
    );
    assert_eq!(
        base,
        Ok(Base {
            darts: 6,
            h: Level(1)
        })
    );
    assert_eq!(rows[..6], [1, 0, 3, 2, 5, 4]);
    assert_eq!(rows[6..12], [5, 2, 1, 4, 3, 0]);
    assert_eq!(rows[12..], [ABSENT; 4]);
    assert_eq!(lambda, [1, 0, 0, 1, 1, 1, STAY, STAY]);
    assert_eq!(delta, [1, 0, 0, 1, 1, 1, STAY, STAY]);
    assert_eq!(old, [0, 3, 4, 5, 6, 7, ABSENT, ABSENT]);
}

#[test]
fn marks_of_a_level() {
    let mut marks = [9; 8];
    let answer = marks_of(ONE, 8, TWO_LEVELS, &LAMBDA, &DELTA, Level(1), &mut marks);
    assert_eq!(answer, Ok(()));
    assert_eq!(marks, [STAY, STAY, STAY, 0, 0, STAY, STAY, STAY]);
    let answer = marks_of(
        ONE,
        8,
        TWO_LEVELS,
        &LAMBDA,
        &DELTA[1..],
        Level(1),
        &mut marks,
    );
    assert_eq!(answer, Err(refused(4, 0, 0, 0)));
}

#[test]
fn a_torn_vertex_checked() {
    let torn = Pyramid {
        lambda: &[2, 0, 2, 1, 1, 2, 2, 2],
        delta: &[1, 0, 1, 0, 0, 1, 1, 1],
        ..corners()
    };
    let mut table = [0; 16];
    assert_eq!(torn.check(&mut table), Err(refused(9, 0, 1, 1)));
    assert_eq!(table, SQUARE);
}

/// Dart 1 alone of its vertex is removed: the direct walk passes it, but by levels its way on isn't in the kernel.
#[test]
fn one_passes_and_the_other_does_not() {
    let torn = Pyramid {
        h: Level(1),
        lambda: &[1, 0, 1, 1, 1, 1, 1, 1],
        delta: &[1, 0, 1, 1, 1, 1, 1, 1],
        ..corners()
    };
    let link = torn.read(Level(1), Dimension(0), 0).unwrap();
    assert_eq!((link.neighbour, link.count, link.since), (2, 2, Level(1)));
    let by_levels = torn.read_by_levels(Level(1), Dimension(0), 0);
    assert_eq!(by_levels, Err(refused(14, 1, 1, 2)));
    let whole = corners().read_by_levels(TWO_LEVELS, Dimension(0), 0);
    assert_eq!(
        whole,
        Ok(Reading {
            neighbour: 5,
            count: 5
        })
    );
}

#[test]
fn an_unfolding_refused() {
    let rounds = Pyramid {
        n: ONE,
        darts: 2,
        h: Level(1),
        rows: &[1, 1, 0, 1],
        lambda: &[1, 0],
        delta: &[1, 0],
    };
    let mut table = [9; 4];
    assert_eq!(
        rounds.unfold(Level(2), &mut table),
        Err(refused(11, 2, 0, 0))
    );
    assert_eq!(table, [9; 4]);
    assert_eq!(
        rounds.unfold(Level(1), &mut table),
        Err(refused(15, 1, 0, 0))
    );
    assert_eq!(table, [ABSENT; 4]);
}
