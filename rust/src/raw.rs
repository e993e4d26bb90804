//! The C interface as include/zompelgors.h and `include/zompelgors_regions.h` declare it; what each function does and
//! answers stands there. tests/interface.py of the project holds these declarations to the headers and to the proved
//! sources, type by type.
//!
//! # Safety
//!
//! Of every function: each pointer is not null, aligned as its type asks, and good for as many entries as the length
//! behind it says; memory behind a `*mut` overlaps no other memory lent to the same call, and nobody else reads or
//! writes it during the call; memory behind a `*const` is not written by anybody during the call. Nothing else is
//! asked: any numbers, lengths and contents are answered.
#![allow(missing_docs)] // of fields, which the headers tell

/// `zg_refusal`: all 0 where accepted.
#[repr(C)]
#[derive(Clone, Copy, Debug, Default)]
pub struct ZgRefusal {
    pub number: u16,
    pub level: u16,
    pub involution: u16,
    pub dart: u16,
}

macro_rules! answers {
    ($($(#[$said:meta])* $name:ident { $($field:ident: $kind:ty),* })*) => {
        $(
            $(#[$said])*
            #[repr(C)]
            #[derive(Clone, Copy, Debug, Default)]
            pub struct $name {
                pub refusal: ZgRefusal,
                $(pub $field: $kind,)*
            }
        )*
    };
}

answers! {
    /// `zg_reading`
    ZgReading { count: u32, neighbour: u16 }
    /// `zg_link`
    ZgLink { count: u32, neighbour: u16, since: u8 }
    /// `zg_unfolding`
    ZgUnfolding { count: u32, since: u8 }
    /// `zg_count`: survivors.
    ZgCount { count: u32 }
    /// `zg_height`: after an add or a join; as given in a refusal.
    ZgHeight { height: u8 }
    /// `zg_part`: unfolded 0: a part of base, 1: of unfolded.
    ZgPart { unfolded: u8, start: u16, length: u16 }
    /// `zg_record`
    ZgRecord { n: u8, h: u8, darts: u16 }
    /// `zg_written`: bytes of the record.
    ZgWritten { length: u32 }
    /// `zg_factor`: empty 1: the next level has no dart.
    ZgFactor { empty: u8, factor: f64 }
    /// `zg_base`: of the new base; as given in a refusal.
    ZgBase { darts: u16, h: u8 }
}

extern "C" {
    /// The version of the archive.
    ///
    /// # Safety
    ///
    /// It is lent nothing.
    pub fn zg_version() -> u32;

    /// Checks a base.
    ///
    /// # Safety
    ///
    /// As [the module](self#safety) says.
    pub fn zg_check_base(n: u8, darts: u16, rows: *const u16, rows_len: usize) -> ZgRefusal;

    /// Checks a whole pyramid.
    ///
    /// # Safety
    ///
    /// As [the module](self#safety) says.
    pub fn zg_check(
        n: u8,
        darts: u16,
        h: u8,
        rows: *const u16,
        rows_len: usize,
        lambda: *const u8,
        lambda_len: usize,
        delta: *const u8,
        delta_len: usize,
        table: *mut u16,
        table_len: usize,
    ) -> ZgRefusal;

    /// Adds a level on top.
    ///
    /// # Safety
    ///
    /// As [the module](self#safety) says.
    pub fn zg_add(
        n: u8,
        darts: u16,
        h: u8,
        rows: *const u16,
        rows_len: usize,
        lambda: *mut u8,
        lambda_len: usize,
        delta: *mut u8,
        delta_len: usize,
        marks: *const u8,
        marks_len: usize,
        table: *mut u16,
        table_len: usize,
    ) -> ZgHeight;

    /// Reads the mark row of a level back.
    ///
    /// # Safety
    ///
    /// As [the module](self#safety) says.
    pub fn zg_marks_of(
        n: u8,
        darts: u16,
        h: u8,
        lambda: *const u8,
        lambda_len: usize,
        delta: *const u8,
        delta_len: usize,
        level: u8,
        marks: *mut u8,
        marks_len: usize,
    ) -> ZgRefusal;

    /// Reads one neighbour on a level by the direct walk.
    ///
    /// # Safety
    ///
    /// As [the module](self#safety) says.
    pub fn zg_read(
        n: u8,
        darts: u16,
        h: u8,
        rows: *const u16,
        rows_len: usize,
        lambda: *const u8,
        lambda_len: usize,
        delta: *const u8,
        delta_len: usize,
        level: u8,
        involution: u8,
        dart: u16,
    ) -> ZgLink;

    /// Reads one neighbour level by level.
    ///
    /// # Safety
    ///
    /// As [the module](self#safety) says.
    pub fn zg_read_by_levels(
        n: u8,
        darts: u16,
        h: u8,
        rows: *const u16,
        rows_len: usize,
        lambda: *const u8,
        lambda_len: usize,
        delta: *const u8,
        delta_len: usize,
        level: u8,
        involution: u8,
        dart: u16,
    ) -> ZgReading;

    /// Unfolds a whole level.
    ///
    /// # Safety
    ///
    /// As [the module](self#safety) says.
    pub fn zg_unfold(
        n: u8,
        darts: u16,
        h: u8,
        rows: *const u16,
        rows_len: usize,
        lambda: *const u8,
        lambda_len: usize,
        delta: *const u8,
        delta_len: usize,
        level: u8,
        table: *mut u16,
        table_len: usize,
    ) -> ZgUnfolding;

    /// Checks a whole pyramid and unfolds all its levels.
    ///
    /// # Safety
    ///
    /// As [the module](self#safety) says.
    pub fn zg_unfold_all(
        n: u8,
        darts: u16,
        h: u8,
        rows: *const u16,
        rows_len: usize,
        lambda: *const u8,
        lambda_len: usize,
        delta: *const u8,
        delta_len: usize,
        tables: *mut u16,
        tables_len: usize,
        counts: *mut u32,
        counts_len: usize,
        since: *mut u8,
        since_len: usize,
    ) -> ZgRefusal;

    /// Says where a row of a level lies.
    ///
    /// # Safety
    ///
    /// As [the module](self#safety) says.
    pub fn zg_row(
        n: u8,
        darts: u16,
        h: u8,
        base: *const u16,
        base_len: usize,
        unfolded: *const u16,
        unfolded_len: usize,
        level: u8,
        involution: u8,
    ) -> ZgPart;

    /// The survivor words of a level.
    ///
    /// # Safety
    ///
    /// As [the module](self#safety) says.
    pub fn zg_survivors(
        darts: u16,
        h: u8,
        lambda: *const u8,
        lambda_len: usize,
        level: u8,
        words: *mut u64,
        words_len: usize,
    ) -> ZgCount;

    /// Marks removable cells of one dimension on an explicit level.
    ///
    /// # Safety
    ///
    /// As [the module](self#safety) says.
    pub fn zg_mark_cells(
        n: u8,
        darts: u16,
        table: *const u16,
        table_len: usize,
        dimension: u8,
        marks: *mut u8,
        marks_len: usize,
    ) -> ZgRefusal;

    /// Takes a record into lent memory and checks its pyramid.
    ///
    /// # Safety
    ///
    /// As [the module](self#safety) says.
    pub fn zg_take(
        bytes: *const u8,
        bytes_len: usize,
        rows: *mut u16,
        rows_len: usize,
        lambda: *mut u8,
        lambda_len: usize,
        delta: *mut u8,
        delta_len: usize,
        table: *mut u16,
        table_len: usize,
    ) -> ZgRecord;

    /// Writes the record of an accepted pyramid.
    ///
    /// # Safety
    ///
    /// As [the module](self#safety) says.
    pub fn zg_write(
        n: u8,
        darts: u16,
        h: u8,
        rows: *const u16,
        rows_len: usize,
        lambda: *const u8,
        lambda_len: usize,
        delta: *const u8,
        delta_len: usize,
        table: *mut u16,
        table_len: usize,
        bytes: *mut u8,
        bytes_len: usize,
    ) -> ZgWritten;

    /// How fast an accepted pyramid shrinks at a level.
    ///
    /// # Safety
    ///
    /// As [the module](self#safety) says.
    pub fn zg_decimation(
        n: u8,
        darts: u16,
        h: u8,
        rows: *const u16,
        rows_len: usize,
        lambda: *const u8,
        lambda_len: usize,
        delta: *const u8,
        delta_len: usize,
        table: *mut u16,
        table_len: usize,
        level: u8,
    ) -> ZgFactor;

    /// Counts the cells of each dimension of each level.
    ///
    /// # Safety
    ///
    /// As [the module](self#safety) says.
    pub fn zg_census(
        n: u8,
        darts: u16,
        h: u8,
        rows: *const u16,
        rows_len: usize,
        lambda: *const u8,
        lambda_len: usize,
        delta: *const u8,
        delta_len: usize,
        table: *mut u16,
        table_len: usize,
        cells: *mut u16,
        cells_len: usize,
        sums: *mut i32,
        sums_len: usize,
    ) -> ZgRefusal;

    /// Brings in a 2D combinatorial map.
    ///
    /// # Safety
    ///
    /// As [the module](self#safety) says.
    pub fn zg_import(
        m: u16,
        edges: *const u16,
        edges_len: usize,
        vertices: *const u16,
        vertices_len: usize,
        rows: *mut u16,
        rows_len: usize,
    ) -> ZgRefusal;

    /// Takes a base back to the two rows that yield it.
    ///
    /// # Safety
    ///
    /// As [the module](self#safety) says.
    pub fn zg_export(
        n: u8,
        darts: u16,
        rows: *const u16,
        rows_len: usize,
        edges: *mut u16,
        edges_len: usize,
        vertices: *mut u16,
        vertices_len: usize,
    ) -> ZgRefusal;

    /// Joins two kernels that follow each other.
    ///
    /// # Safety
    ///
    /// As [the module](self#safety) says.
    pub fn zg_join(
        n: u8,
        darts: u16,
        h: u8,
        rows: *const u16,
        rows_len: usize,
        lambda: *mut u8,
        lambda_len: usize,
        delta: *const u8,
        delta_len: usize,
        table: *mut u16,
        table_len: usize,
        level: u8,
    ) -> ZgHeight;

    /// Starts again from a level.
    ///
    /// # Safety
    ///
    /// As [the module](self#safety) says.
    pub fn zg_rebase(
        n: u8,
        darts: u16,
        h: u8,
        rows: *mut u16,
        rows_len: usize,
        lambda: *mut u8,
        lambda_len: usize,
        delta: *mut u8,
        delta_len: usize,
        table: *mut u16,
        table_len: usize,
        level: u8,
        old: *mut u16,
        old_len: usize,
    ) -> ZgBase;

    /// Names the regions of a level: the second library.
    ///
    /// # Safety
    ///
    /// As [the module](self#safety) says.
    #[cfg(feature = "regions")]
    pub fn zg_regions(
        n: u8,
        darts: u16,
        h: u8,
        rows: *const u16,
        rows_len: usize,
        lambda: *const u8,
        lambda_len: usize,
        delta: *const u8,
        delta_len: usize,
        table: *mut u16,
        table_len: usize,
        level: u8,
        names: *mut u16,
        names_len: usize,
    ) -> ZgRefusal;
}
