//! Pyramids of generalized maps in folded form: safe functions over the proved library libzompelgors.a.
//!
//! Every function takes slices that are lent for the call and answers any content and any length; include/zompelgors.h
//! says what is lent, in which order the numbers of refusal are tested, and what a refusal leaves behind.
//!
//! ```
//! use zompelgors::{Dimension, Level, Pyramid};
//!
//! // A segment whose vertex {1} is removed by kernel 0.
//! let pyramid = Pyramid {
//!     n: Dimension(1),
//!     darts: 2,
//!     h: Level(1),
//!     rows: &[1, 0, 0, 1],
//!     lambda: &[1, 0],
//!     delta: &[1, 0],
//! };
//! let mut table = [0; 4];
//! pyramid.check(&mut table)?;
//! let reading = pyramid.read(Level(1), Dimension(0), 0)?;
//! assert_eq!((reading.neighbour, reading.count), (0, 3));
//! # Ok::<(), zompelgors::Refusal>(())
//! ```
//!
//! A level is no dimension:
//!
//! ```compile_fail,E0308
//! # use zompelgors::{Dimension, Level, Pyramid};
//! fn swapped(pyramid: &Pyramid) {
//!     let _ = pyramid.read(Dimension(0), Level(1), 0);
//! }
//! ```
//!
//! # Features
//!
//! | Feature | Adds |
//! |---|---|
//! | none | every job on slices; the crate is `no_std` and allocates nothing |
//! | `alloc` | `PyramidBuf`, a pyramid that owns its tables |
//! | `std`, on by default | `alloc`, and `std::error::Error` for [`Refusal`] |
//! | `regions` | the module `regions`, over the second archive |
#![no_std]
#![deny(unsafe_op_in_unsafe_fn)]
#![warn(missing_docs)]

#[cfg(feature = "alloc")]
extern crate alloc;
#[cfg(feature = "std")]
extern crate std;

mod answers;
#[cfg(feature = "alloc")]
mod owned;
mod pyramid;
pub mod raw;
#[cfg(feature = "regions")]
pub mod regions;

pub use answers::{
    Base, Dimension, Factor, Header, Level, Link, Number, Reading, Refusal, Unfolding,
};
#[cfg(feature = "alloc")]
pub use owned::PyramidBuf;
pub use pyramid::Pyramid;

/// In a mark row: the dart stays.
pub const STAY: u8 = 255;

/// In a mark row and in Δ: a contraction is stored as this and its dimension ([`Dimension::contracted`]).
pub const CONTRACT: u8 = 8;

/// In an explicit level every entry of a dart that is removed or contracted.
pub const ABSENT: u16 = 65_535;

/// The largest N.
pub const MOST_DARTS: usize = 4_096;

/// The largest M, of a 2D combinatorial map.
pub const MOST_PARTNER_DARTS: usize = 2_048;

/// The largest h: so many levels above the base.
pub const MOST_HEIGHT: usize = 32;

/// The same number under its older name. There are 33 levels at most.
pub const MOST_LEVELS: usize = MOST_HEIGHT;

/// The entries of the largest rows, or of the largest table.
pub const MOST_ENTRIES: usize = 5 * MOST_DARTS;

/// The bytes of the largest record.
pub const MOST_RECORD: usize = 49_180;

/// How many survivor words there are.
pub const WORDS: usize = 64;

/// How many rows of five counts, and how many sums, a census has: one for each level that there may be.
pub const SUMS: usize = 33;

/// How many levels there may be: so many counts, and levels since which, [`Pyramid::unfold_all`] answers.
pub const LEVELS: usize = 33;

/// The version of the library: 65,536 times its major number, 256 times its minor one, and its patch.
#[must_use]
pub fn version() -> u32 {
    // SAFETY: it is lent nothing.
    unsafe { raw::zg_version() }
}

/// Checks a base.
///
/// # Errors
///
/// 1, 2, 4, then 5, 6 and 7 with the row and the dart.
pub fn check_base(n: Dimension, darts: u16, rows: &[u16]) -> Result<(), Refusal> {
    // SAFETY: the pointer comes from a slice with its length.
    let answer = unsafe { raw::zg_check_base(n.0, darts, rows.as_ptr(), rows.len()) };
    answer.accepted()
}

/// Adds a level on top, with the marks as kernel h: the new height. Λ and Δ grow with it, and the table holds the new
/// top level. A mark is [`Dimension::removed`] or [`Dimension::contracted`] of a dimension, or [`STAY`].
///
/// # Errors
///
/// 1, 2, 3, 4, 20, 5, 6, 7, 8 (of Λ and Δ, then of the marks), 9, 10; Λ and Δ are then as they were. After 9 or 10 the table holds the
/// level whose kernel failed.
#[allow(clippy::too_many_arguments)]
pub fn add(
    n: Dimension,
    darts: u16,
    h: Level,
    rows: &[u16],
    lambda: &mut [u8],
    delta: &mut [u8],
    marks: &[u8],
    table: &mut [u16],
) -> Result<Level, Refusal> {
    // SAFETY: every pointer comes from a slice with its own length, and only exclusive ones are written through.
    let answer = unsafe {
        raw::zg_add(
            n.0,
            darts,
            h.0,
            rows.as_ptr(),
            rows.len(),
            lambda.as_mut_ptr(),
            lambda.len(),
            delta.as_mut_ptr(),
            delta.len(),
            marks.as_ptr(),
            marks.len(),
            table.as_mut_ptr(),
            table.len(),
        )
    };
    answer.accepted().map(|r| Level(r.height))
}

/// Joins the kernels of a level and the next into one: the new height. Λ above that level falls with it, and the table
/// holds the top level. Where the joined kernel is refused, which is by number 9, the table holds the level asked.
///
/// # Errors
///
/// 1 to 10 as [`Pyramid::check`], 11 where the next level is not below h, last 9 of the joined kernel. Λ is then as it was.
#[allow(clippy::too_many_arguments)]
pub fn join(
    n: Dimension,
    darts: u16,
    h: Level,
    rows: &[u16],
    lambda: &mut [u8],
    delta: &[u8],
    table: &mut [u16],
    level: Level,
) -> Result<Level, Refusal> {
    // SAFETY: every pointer comes from a slice with its own length, and only exclusive ones are written through.
    let answer = unsafe {
        raw::zg_join(
            n.0,
            darts,
            h.0,
            rows.as_ptr(),
            rows.len(),
            lambda.as_mut_ptr(),
            lambda.len(),
            delta.as_ptr(),
            delta.len(),
            table.as_mut_ptr(),
            table.len(),
            level.0,
        )
    };
    answer.accepted().map(|r| Level(r.height))
}

/// Starts again from a level: it becomes the base, its darts numbered from 0 in rising order. The new rows, Λ and Δ stand
/// at the front of what is lent, their old numbers at that of `old`; behind them stands 65,535, and 255 in Λ and Δ. The
/// table is left as [`Pyramid::check`] leaves it.
///
/// A new base knows nothing of which of its boundaries belong to one region of the old one. Who needs that takes the
/// region names first and carries them over by the old numbers.
///
/// # Errors
///
/// 1 to 10 as [`Pyramid::check`], then 11, then 2 for a level that has no dart; all but the table is then as it was.
#[allow(clippy::too_many_arguments)]
pub fn rebase(
    n: Dimension,
    darts: u16,
    h: Level,
    rows: &mut [u16],
    lambda: &mut [u8],
    delta: &mut [u8],
    table: &mut [u16],
    level: Level,
    old: &mut [u16],
) -> Result<Base, Refusal> {
    // SAFETY: every pointer comes from an exclusive slice with its own length.
    let answer = unsafe {
        raw::zg_rebase(
            n.0,
            darts,
            h.0,
            rows.as_mut_ptr(),
            rows.len(),
            lambda.as_mut_ptr(),
            lambda.len(),
            delta.as_mut_ptr(),
            delta.len(),
            table.as_mut_ptr(),
            table.len(),
            level.0,
            old.as_mut_ptr(),
            old.len(),
        )
    };
    answer.accepted().map(|r| Base {
        darts: r.darts,
        h: Level(r.h),
    })
}

/// Reads the mark row of a level back: Δ where Λ is that level, else [`STAY`]; for level h [`STAY`] throughout.
///
/// # Errors
///
/// 1, 2, 3, 4, 11, 8; the marks are then as they were.
pub fn marks_of(
    n: Dimension,
    darts: u16,
    h: Level,
    lambda: &[u8],
    delta: &[u8],
    level: Level,
    marks: &mut [u8],
) -> Result<(), Refusal> {
    // SAFETY: every pointer comes from a slice with its own length, and only the exclusive one is written through.
    let answer = unsafe {
        raw::zg_marks_of(
            n.0,
            darts,
            h.0,
            lambda.as_ptr(),
            lambda.len(),
            delta.as_ptr(),
            delta.len(),
            level.0,
            marks.as_mut_ptr(),
            marks.len(),
        )
    };
    answer.accepted()
}

/// A row of a level: for level 0 a part of the base rows, for any other a part of the unfolded level, and no copy.
///
/// # Errors
///
/// 1, 2, 3, 4, 11, 13.
pub fn row<'a>(
    n: Dimension,
    darts: u16,
    h: Level,
    base: &'a [u16],
    unfolded: &'a [u16],
    level: Level,
    involution: Dimension,
) -> Result<&'a [u16], Refusal> {
    // SAFETY: both pointers come from a slice with its own length.
    let answer = unsafe {
        raw::zg_row(
            n.0,
            darts,
            h.0,
            base.as_ptr(),
            base.len(),
            unfolded.as_ptr(),
            unfolded.len(),
            level.0,
            involution.0,
        )
    };
    let part = answer.accepted()?;
    let lent = if part.unfolded == 0 { base } else { unfolded };
    Ok(&lent[usize::from(part.start)..][..usize::from(part.length)])
}

/// The survivor words of a level ([`WORDS`] of them), with the survivor count.
///
/// # Errors
///
/// 2, 3, 4, 11, 8 (of Λ alone); the words are then as they were.
pub fn survivors(
    darts: u16,
    h: Level,
    lambda: &[u8],
    level: Level,
    words: &mut [u64],
) -> Result<u32, Refusal> {
    // SAFETY: both pointers come from a slice with its own length, and only the exclusive one is written through.
    let answer = unsafe {
        raw::zg_survivors(
            darts,
            h.0,
            lambda.as_ptr(),
            lambda.len(),
            level.0,
            words.as_mut_ptr(),
            words.len(),
        )
    };
    answer.accepted().map(|r| r.count)
}

/// Marks the removable cells of one dimension, below n, on an explicit level that fall into exactly two parts when that
/// involution and the next are both left out; all other darts get [`STAY`]. Of a connected piece that would be marked as
/// a whole, the cell of its lowest dart is left unmarked. There is no marking for contraction.
///
/// # Errors
///
/// 1, 2, 4, 13, 5, 6, 7; the marks are then as they were.
pub fn mark_cells(
    n: Dimension,
    darts: u16,
    table: &[u16],
    dimension: Dimension,
    marks: &mut [u8],
) -> Result<(), Refusal> {
    // SAFETY: both pointers come from a slice with its own length, and only the exclusive one is written through.
    let answer = unsafe {
        raw::zg_mark_cells(
            n.0,
            darts,
            table.as_ptr(),
            table.len(),
            dimension.0,
            marks.as_mut_ptr(),
            marks.len(),
        )
    };
    answer.accepted()
}

/// Takes a record to the front of lent slices and checks its pyramid. Accepted, the front of the table holds the top level.
/// After numbers 5 to 10 rows and marks hold what the record said, and the table what [`Pyramid::check`] leaves.
///
/// # Errors
///
/// 16, 17 and 18 with the byte offset of the field, 1, 2, 3 of the header, 19 with the offset of the first byte too many, 4, all
/// with nothing written; then 5 to 10 as [`Pyramid::check`].
pub fn take(
    bytes: &[u8],
    rows: &mut [u16],
    lambda: &mut [u8],
    delta: &mut [u8],
    table: &mut [u16],
) -> Result<Header, Refusal> {
    // SAFETY: every pointer comes from a slice with its own length, and only exclusive ones are written through.
    let answer = unsafe {
        raw::zg_take(
            bytes.as_ptr(),
            bytes.len(),
            rows.as_mut_ptr(),
            rows.len(),
            lambda.as_mut_ptr(),
            lambda.len(),
            delta.as_mut_ptr(),
            delta.len(),
            table.as_mut_ptr(),
            table.len(),
        )
    };
    answer.accepted().map(|r| Header {
        n: Dimension(r.n),
        h: Level(r.h),
        darts: r.darts,
    })
}

/// Brings in a 2D combinatorial map of m darts, an edge partner and a vertex successor for each, as the rows of a base
/// of dimension 2 with 2m darts: dart d becomes 2d and 2d+1. After a refusal the rows are as they were.
///
/// # Errors
///
/// 2, 4, 5, 6, 21.
pub fn import(m: u16, edges: &[u16], vertices: &[u16], rows: &mut [u16]) -> Result<(), Refusal> {
    // SAFETY: every pointer comes from a slice with its own length, and only the exclusive one is written through.
    let answer = unsafe {
        raw::zg_import(
            m,
            edges.as_ptr(),
            edges.len(),
            vertices.as_ptr(),
            vertices.len(),
            rows.as_mut_ptr(),
            rows.len(),
        )
    };
    answer.accepted()
}

/// Takes a base back to the two rows that yield it, of half as many darts; 22 where no two rows do. After a refusal
/// both are as they were.
///
/// # Errors
///
/// 1, 2, 4, 5, 6, 7, 22.
pub fn export(
    n: Dimension,
    darts: u16,
    rows: &[u16],
    edges: &mut [u16],
    vertices: &mut [u16],
) -> Result<(), Refusal> {
    // SAFETY: every pointer comes from a slice with its own length, and only exclusive ones are written through.
    let answer = unsafe {
        raw::zg_export(
            n.0,
            darts,
            rows.as_ptr(),
            rows.len(),
            edges.as_mut_ptr(),
            edges.len(),
            vertices.as_mut_ptr(),
            vertices.len(),
        )
    };
    answer.accepted()
}
