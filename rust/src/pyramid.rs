//! A folded pyramid, borrowed, and the jobs that take one.
use crate::answers::{Dimension, Factor, Level, Link, Reading, Refusal, Unfolding};
use crate::{raw, LEVELS, SUMS};

/// The question, put to one of the two readings.
macro_rules! ask {
    ($reading:path, $pyramid:expr, $level:expr, $involution:expr, $dart:expr) => {
        $reading(
            $pyramid.n.0,
            $pyramid.darts,
            $pyramid.h.0,
            $pyramid.rows.as_ptr(),
            $pyramid.rows.len(),
            $pyramid.lambda.as_ptr(),
            $pyramid.lambda.len(),
            $pyramid.delta.as_ptr(),
            $pyramid.delta.len(),
            $level.0,
            $involution.0,
            $dart,
        )
    };
}

/// A pyramid in folded form: n, N and h, the base rows, and Λ and Δ of each dart. Nothing is presumed of them; each job
/// tests what it needs.
#[derive(Clone, Copy, Debug)]
pub struct Pyramid<'a> {
    /// n, 1 to 4.
    pub n: Dimension,
    /// N, 1 to 4,096.
    pub darts: u16,
    /// The height, 0 to 32.
    pub h: Level,
    /// The involutions a0 to an of the base, row 0 first: (n+1)N entries.
    pub rows: &'a [u16],
    /// Λ, N entries.
    pub lambda: &'a [u8],
    /// Δ, N entries.
    pub delta: &'a [u8],
}

impl<'a> Pyramid<'a> {
    /// Checks the whole pyramid; accepted, the table holds the explicit level h.
    ///
    /// # Errors
    ///
    /// 1, 2, 3, 4, 5, 6, 7, 8, then for each kernel 9 and 10. After 9 or 10 the table holds the level whose kernel failed, after
    /// any other number it is as it was.
    pub fn check(&self, table: &mut [u16]) -> Result<(), Refusal> {
        // SAFETY: every pointer comes from a slice with its own length, and only the exclusive one is written through.
        let answer = unsafe {
            raw::zg_check(
                self.n.0,
                self.darts,
                self.h.0,
                self.rows.as_ptr(),
                self.rows.len(),
                self.lambda.as_ptr(),
                self.lambda.len(),
                self.delta.as_ptr(),
                self.delta.len(),
                table.as_mut_ptr(),
                table.len(),
            )
        };
        answer.accepted()
    }

    /// Checks the whole pyramid and writes its record to the front of a buffer, with two bytes an entry; its length is
    /// answered. The table is left as [`Pyramid::check`] leaves it; a buffer too short is refused 4, after all others.
    ///
    /// # Errors
    ///
    /// 1 to 10 as [`Pyramid::check`], last 4 for a buffer that is too short; the buffer is then as it was.
    pub fn write(&self, table: &mut [u16], bytes: &mut [u8]) -> Result<usize, Refusal> {
        // SAFETY: every pointer comes from a slice with its own length, and only exclusive ones are written through.
        let answer = unsafe {
            raw::zg_write(
                self.n.0,
                self.darts,
                self.h.0,
                self.rows.as_ptr(),
                self.rows.len(),
                self.lambda.as_ptr(),
                self.lambda.len(),
                self.delta.as_ptr(),
                self.delta.len(),
                table.as_mut_ptr(),
                table.len(),
                bytes.as_mut_ptr(),
                bytes.len(),
            )
        };
        answer.accepted().map(|r| r.length as usize)
    }

    /// Checks the whole pyramid; then, by which factor it shrinks from a level below h to the next. The table is left as
    /// [`Pyramid::check`] leaves it; a level of h or more is refused 11, after all others.
    ///
    /// # Errors
    ///
    /// 1 to 10 as [`Pyramid::check`], last 11 for a level of h or more.
    pub fn decimation(&self, table: &mut [u16], level: Level) -> Result<Factor, Refusal> {
        // SAFETY: every pointer comes from a slice with its own length, and only the exclusive one is written through.
        let answer = unsafe {
            raw::zg_decimation(
                self.n.0,
                self.darts,
                self.h.0,
                self.rows.as_ptr(),
                self.rows.len(),
                self.lambda.as_ptr(),
                self.lambda.len(),
                self.delta.as_ptr(),
                self.delta.len(),
                table.as_mut_ptr(),
                table.len(),
                level.0,
            )
        };
        answer.accepted().map(|r| match r.empty {
            0 => Factor::By(r.factor),
            _ => Factor::Empty,
        })
    }

    /// Checks the whole pyramid and counts the cells of each level: `cells[l][i]` is the number of `i`-cells of level `l`
    /// and `sums[l]` their alternating sum; unused places are 0. The table is left as [`Pyramid::check`] leaves it; a
    /// refusal leaves counts and sums as they were.
    ///
    /// # Errors
    ///
    /// 1 to 10 as [`Pyramid::check`]; counts and sums are then as they were.
    pub fn census(
        &self,
        table: &mut [u16],
        cells: &mut [[u16; 5]; SUMS],
        sums: &mut [i32; SUMS],
    ) -> Result<(), Refusal> {
        // SAFETY: every pointer comes from a slice with its own length or an array with its own, rows of an array of
        // arrays lie one behind the other, and only exclusive ones are written through.
        let answer = unsafe {
            raw::zg_census(
                self.n.0,
                self.darts,
                self.h.0,
                self.rows.as_ptr(),
                self.rows.len(),
                self.lambda.as_ptr(),
                self.lambda.len(),
                self.delta.as_ptr(),
                self.delta.len(),
                table.as_mut_ptr(),
                table.len(),
                cells.as_mut_ptr().cast(),
                5 * SUMS,
                sums.as_mut_ptr(),
                SUMS,
            )
        };
        answer.accepted()
    }

    /// One neighbour on a level by the direct walk, on any tables, checked before or not, and since which level the
    /// dart has had it.
    ///
    /// # Errors
    ///
    /// 1, 2, 3, 4, 11, 13, 12, then 8 and 12 of the dart asked, then at each read 15, 5, 8, 14. After an accepted check only 11,
    /// 13 and 12 can come.
    pub fn read(&self, level: Level, involution: Dimension, dart: u16) -> Result<Link, Refusal> {
        // SAFETY: every pointer comes from a slice with its own length.
        let answer = unsafe { ask!(raw::zg_read, self, level, involution, dart) };
        answer.accepted().map(|r| Link {
            neighbour: r.neighbour,
            count: r.count,
            since: Level(r.since),
        })
    }

    /// The same question answered level by level, each step a reading one level lower, down to the base.
    ///
    /// # Errors
    ///
    /// As [`Pyramid::read`]; 14 has another condition.
    pub fn read_by_levels(
        &self,
        level: Level,
        involution: Dimension,
        dart: u16,
    ) -> Result<Reading, Refusal> {
        // SAFETY: every pointer comes from a slice with its own length.
        let answer = unsafe { ask!(raw::zg_read_by_levels, self, level, involution, dart) };
        answer.accepted().map(|r| Reading {
            neighbour: r.neighbour,
            count: r.count,
        })
    }

    /// Unfolds a whole level into the table; the total count of base entries read, and the latest level since which one
    /// of its links stands.
    ///
    /// # Errors
    ///
    /// 1, 2, 3, 4, 11, 8, then as the walks come 15, 5, 14. After an accepted check only 4 and 11 can come. After 15, 5 or 14
    /// the table is [`crate::ABSENT`] throughout, after any other number as it was.
    pub fn unfold(&self, level: Level, table: &mut [u16]) -> Result<Unfolding, Refusal> {
        // SAFETY: every pointer comes from a slice with its own length, and only the exclusive one is written through.
        let answer = unsafe {
            raw::zg_unfold(
                self.n.0,
                self.darts,
                self.h.0,
                self.rows.as_ptr(),
                self.rows.len(),
                self.lambda.as_ptr(),
                self.lambda.len(),
                self.delta.as_ptr(),
                self.delta.len(),
                level.0,
                table.as_mut_ptr(),
                table.len(),
            )
        };
        answer.accepted().map(|r| Unfolding {
            count: r.count,
            since: Level(r.since),
        })
    }

    /// Checks the whole pyramid and unfolds all its levels, one behind the other, level 0 first: the tables have h + 1
    /// times as many entries as the rows. `counts[l]` and `since[l]` are what [`Pyramid::unfold`] answers for level `l`,
    /// and 0 above the height.
    ///
    /// # Errors
    ///
    /// 1 to 10 as [`Pyramid::check`], 4 of the tables too. After 9 or 10 the tables hold the levels up to the one whose
    /// kernel failed, and all else is as it was; after any other number nothing has changed.
    pub fn unfold_all(
        &self,
        tables: &mut [u16],
        counts: &mut [u32; LEVELS],
        since: &mut [u8; LEVELS],
    ) -> Result<(), Refusal> {
        // SAFETY: every pointer comes from a slice or an array with its own length, and only exclusive ones are
        // written through.
        let answer = unsafe {
            raw::zg_unfold_all(
                self.n.0,
                self.darts,
                self.h.0,
                self.rows.as_ptr(),
                self.rows.len(),
                self.lambda.as_ptr(),
                self.lambda.len(),
                self.delta.as_ptr(),
                self.delta.len(),
                tables.as_mut_ptr(),
                tables.len(),
                counts.as_mut_ptr(),
                LEVELS,
                since.as_mut_ptr(),
                LEVELS,
            )
        };
        answer.accepted()
    }

    /// The mark row of a level, read back: [`crate::marks_of`].
    ///
    /// # Errors
    ///
    /// As [`crate::marks_of`].
    pub fn marks_of(&self, level: Level, marks: &mut [u8]) -> Result<(), Refusal> {
        crate::marks_of(
            self.n,
            self.darts,
            self.h,
            self.lambda,
            self.delta,
            level,
            marks,
        )
    }

    /// A row of a level, a part of the base rows or of the unfolded level: [`crate::row`].
    ///
    /// # Errors
    ///
    /// As [`crate::row`].
    pub fn row<'b>(
        &self,
        unfolded: &'b [u16],
        level: Level,
        involution: Dimension,
    ) -> Result<&'b [u16], Refusal>
    where
        'a: 'b,
    {
        crate::row(
            self.n, self.darts, self.h, self.rows, unfolded, level, involution,
        )
    }

    /// The survivor words of a level, with the survivor count: [`crate::survivors`].
    ///
    /// # Errors
    ///
    /// As [`crate::survivors`].
    pub fn survivors(&self, level: Level, words: &mut [u64]) -> Result<u32, Refusal> {
        crate::survivors(self.darts, self.h, self.lambda, level, words)
    }
}
