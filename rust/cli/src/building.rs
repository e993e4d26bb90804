//! From a labelled image to a pyramid: regions merged, then their boundaries simplified.
use crate::answer::{count, Value};
use crate::failure::Failure;
use crate::grid::Block;
use crate::labels::Labels;
use crate::refusals::Asked;
use zompelgors::regions::name_regions;
use zompelgors::{mark_cells, Dimension, PyramidBuf, Refusal, STAY};

/// The base of a block, as a pyramid of height 0.
pub fn base(block: &Block) -> Result<PyramidBuf, Refusal> {
    PyramidBuf::from_base(Dimension(block.n() as u8), block.darts() as u16, block.rows())
}

/// The pyramid of a labelled image. Kernel 0 removes the (n-1)-cells between equal labels, so level 1 has the regions.
/// Then, for each dimension from n-2 down to 0, whatever can be marked is removed until nothing is marked: that merges
/// the cells of one boundary.
pub fn build(labels: &Labels) -> Result<PyramidBuf, Refusal> {
    let mut pyramid = base(&labels.block)?;
    let mut table = vec![0; pyramid.entries()];
    pyramid.add(&between_equal(labels, &pyramid), &mut table)?;
    for dimension in (0..labels.block.n() - 1).rev() {
        simplify(&mut pyramid, Dimension(dimension as u8), &mut table)?;
    }
    Ok(pyramid)
}

/// The mark row of the (n-1)-cells that have the same label on both sides.
fn between_equal(labels: &Labels, pyramid: &PyramidBuf) -> Vec<u8> {
    let block = &labels.block;
    let across = &pyramid.lend().rows[block.n() * block.darts()..];
    let label = |dart: usize| labels.labels[block.cell_of(dart)];
    let mark = |(dart, other): (usize, &u16)| {
        let other = usize::from(*other);
        let merged = other != dart && label(dart) == label(other);
        if merged {
            (block.n() - 1) as u8
        } else {
            STAY
        }
    };
    across.iter().enumerate().map(mark).collect()
}

/// Marks the cells of one dimension on the top level, which the table holds, and removes them, until none is marked.
fn simplify(pyramid: &mut PyramidBuf, dimension: Dimension, table: &mut [u16]) -> Result<(), Refusal> {
    let (n, darts) = (pyramid.lend().n, pyramid.lend().darts);
    let mut marks = vec![STAY; usize::from(darts)];
    loop {
        mark_cells(n, darts, table, dimension, &mut marks)?;
        if marks.iter().all(|mark| *mark == STAY) {
            return Ok(());
        }
        pyramid.add(&marks, table)?;
    }
}

/// How many regions the top level has, by their names.
pub fn regions(file: &str, pyramid: &PyramidBuf) -> Result<Value, Failure> {
    let lent = pyramid.lend();
    let mut names = vec![0; usize::from(lent.darts)];
    let named = name_regions(&lent, &mut vec![0; pyramid.entries()], lent.h, &mut names);
    named.map_err(|refusal| Failure::refused(file, refusal, &Asked::Base))?;
    names.sort_unstable();
    names.dedup();
    Ok(count(names.len()))
}
