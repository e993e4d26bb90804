//! Region names: the second library, for pyramids without contraction. `include/zompelgors_regions.h` says what is lent, in
//! which order the numbers of refusal are tested, and what a refusal leaves behind.
//!
//! ```
//! use zompelgors::{regions::name_regions, Dimension, Level, Pyramid};
//!
//! // A segment whose vertex {1} is removed by kernel 0.
//! let pyramid = Pyramid {
//!     n: Dimension(1),
//!     darts: 2,
//!     h: Level(1),
//!     rows: &[1, 0, 0, 1],
//!     lambda: &[1, 0],
//!     delta: &[1, 0],
//! };
//! let (mut table, mut names) = ([0; 4], [0; 2]);
//! name_regions(&pyramid, &mut table, Level(1), &mut names)?;
//! assert_eq!(names, [0, 0]);
//! # Ok::<(), zompelgors::Refusal>(())
//! ```
use crate::answers::{Level, Refusal};
use crate::pyramid::Pyramid;
use crate::raw::zg_regions;

/// Checks the whole pyramid and names the regions of a level: every dart of the base gets the lowest one that it reaches
/// in the base by a0 to a(n−1), and by an from darts with Λ below the level and Δ = n−1. The table is left as
/// [`Pyramid::check`] leaves it.
///
/// # Errors
///
/// 1 to 10 as [`Pyramid::check`], 4 of the names too, then 11, then 23 with the first dart that is contracted; the names are
/// then as they were.
pub fn name_regions(
    pyramid: &Pyramid,
    table: &mut [u16],
    level: Level,
    names: &mut [u16],
) -> Result<(), Refusal> {
    // SAFETY: every pointer comes from a slice with its own length, and only exclusive ones are written through.
    let answer = unsafe {
        zg_regions(
            pyramid.n.0,
            pyramid.darts,
            pyramid.h.0,
            pyramid.rows.as_ptr(),
            pyramid.rows.len(),
            pyramid.lambda.as_ptr(),
            pyramid.lambda.len(),
            pyramid.delta.as_ptr(),
            pyramid.delta.len(),
            table.as_mut_ptr(),
            table.len(),
            level.0,
            names.as_mut_ptr(),
            names.len(),
        )
    };
    answer.accepted()
}
