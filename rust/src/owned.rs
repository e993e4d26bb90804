//! A folded pyramid that owns its tables.
use crate::answers::{Dimension, Level, Refusal};
use crate::{add, check_base, join, rebase, take, Pyramid, MOST_DARTS, MOST_ENTRIES, MOST_RECORD};
use alloc::{vec, vec::Vec};

/// A pyramid in folded form with tables of its own. It begins as a base or as a record, and grows level by level;
/// [`PyramidBuf::lend`] lends it to every other job. Whatever it went through, it is an accepted pyramid.
#[derive(Clone, Debug, PartialEq, Eq)]
pub struct PyramidBuf {
    n: Dimension,
    darts: u16,
    h: Level,
    rows: Vec<u16>,
    lambda: Vec<u8>,
    delta: Vec<u8>,
}

impl PyramidBuf {
    /// A base that is checked, of height 0: no dart is removed or contracted.
    ///
    /// # Errors
    ///
    /// As [`check_base`].
    pub fn from_base(n: Dimension, darts: u16, rows: Vec<u16>) -> Result<PyramidBuf, Refusal> {
        check_base(n, darts, &rows)?;
        Ok(PyramidBuf {
            n,
            darts,
            h: Level(0),
            rows,
            lambda: vec![0; usize::from(darts)],
            delta: vec![n.0; usize::from(darts)],
        })
    }

    /// A record's pyramid, which is checked.
    ///
    /// # Errors
    ///
    /// As [`take`], but for 4.
    pub fn from_record(bytes: &[u8]) -> Result<PyramidBuf, Refusal> {
        let (mut rows, mut table) = (vec![0; MOST_ENTRIES], vec![0; MOST_ENTRIES]);
        let (mut lambda, mut delta) = (vec![0; MOST_DARTS], vec![0; MOST_DARTS]);
        let header = take(bytes, &mut rows, &mut lambda, &mut delta, &mut table)?;
        let darts = usize::from(header.darts);
        rows.truncate((usize::from(header.n.0) + 1) * darts);
        lambda.truncate(darts);
        delta.truncate(darts);
        Ok(PyramidBuf {
            n: header.n,
            darts: header.darts,
            h: header.h,
            rows,
            lambda,
            delta,
        })
    }

    /// Adds a level on top, with the marks as kernel h: the new height. The table, of [`PyramidBuf::entries`] entries,
    /// then holds the new top level; after number 9 or 10 it holds the level whose kernel failed.
    ///
    /// # Errors
    ///
    /// As [`add()`]; after an accepted pyramid only 4, 20, 8 of the marks, and 9 and 10 of the new kernel can come.
    pub fn add(&mut self, marks: &[u8], table: &mut [u16]) -> Result<Level, Refusal> {
        let PyramidBuf {
            n,
            darts,
            h,
            rows,
            lambda,
            delta,
        } = self;
        *h = add(*n, *darts, *h, rows, lambda, delta, marks, table)?;
        Ok(*h)
    }

    /// Joins the kernels of a level and the next into one: the new height. The table, of [`PyramidBuf::entries`] entries,
    /// then holds the top level; where the joined kernel is refused it holds the level asked.
    ///
    /// # Errors
    ///
    /// As [`join()`]; only 4, 11 and 9 of the joined kernel can come.
    pub fn join(&mut self, level: Level, table: &mut [u16]) -> Result<Level, Refusal> {
        let PyramidBuf {
            n,
            darts,
            h,
            rows,
            lambda,
            delta,
        } = self;
        *h = join(*n, *darts, *h, rows, lambda, delta, table, level)?;
        Ok(*h)
    }

    /// Starts again from a level, which becomes the base: the old numbers of its darts. The table, of
    /// [`PyramidBuf::entries`] entries, is left as [`Pyramid::check`] leaves it, in the old numbers. Region names that
    /// are to outlast it are taken before, and carried over by the old numbers.
    ///
    /// # Errors
    ///
    /// As [`rebase()`]; only 4, 11 and 2 can come.
    pub fn rebase(&mut self, level: Level, table: &mut [u16]) -> Result<Vec<u16>, Refusal> {
        let mut old = vec![0; usize::from(self.darts)];
        let PyramidBuf {
            n,
            darts,
            h,
            rows,
            lambda,
            delta,
        } = self;
        let base = rebase(*n, *darts, *h, rows, lambda, delta, table, level, &mut old)?;
        let kept = usize::from(base.darts);
        (*darts, *h) = (base.darts, base.h);
        rows.truncate((usize::from(n.0) + 1) * kept);
        lambda.truncate(kept);
        delta.truncate(kept);
        old.truncate(kept);
        Ok(old)
    }

    /// Its record: what [`Pyramid::write`] writes, in a vector of its own.
    ///
    /// # Errors
    ///
    /// None comes, since it is an accepted pyramid and the buffer is long enough.
    pub fn to_record(&self) -> Result<Vec<u8>, Refusal> {
        let (mut table, mut bytes) = (vec![0; self.entries()], vec![0; MOST_RECORD]);
        let length = self.lend().write(&mut table, &mut bytes)?;
        bytes.truncate(length);
        Ok(bytes)
    }

    /// Its dimension.
    #[must_use]
    pub fn n(&self) -> Dimension {
        self.n
    }

    /// N, its darts.
    #[must_use]
    pub fn darts(&self) -> u16 {
        self.darts
    }

    /// Its height: the number of its top level.
    #[must_use]
    pub fn height(&self) -> Level {
        self.h
    }

    /// How many entries its rows have, and every table of one of its levels.
    #[must_use]
    pub fn entries(&self) -> usize {
        self.rows.len()
    }

    /// The pyramid, lent to the other jobs.
    #[must_use]
    pub fn lend(&self) -> Pyramid<'_> {
        Pyramid {
            n: self.n,
            darts: self.darts,
            h: self.h,
            rows: &self.rows,
            lambda: &self.lambda,
            delta: &self.delta,
        }
    }
}
