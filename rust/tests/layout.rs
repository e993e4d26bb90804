//! The structs have the sizes, alignments and offsets that gcc gives those of include/zompelgors.h on x86-64.
use std::mem::{align_of, size_of};
use std::ptr::addr_of;
use zompelgors::raw::{
    ZgBase, ZgCount, ZgFactor, ZgHeight, ZgLink, ZgPart, ZgReading, ZgRecord, ZgRefusal,
    ZgUnfolding, ZgWritten,
};

fn layout<T>() -> (usize, usize) {
    (size_of::<T>(), align_of::<T>())
}

#[test]
fn sizes_and_alignments() {
    assert_eq!(layout::<ZgRefusal>(), (8, 2));
    assert_eq!(layout::<ZgReading>(), (16, 4));
    assert_eq!(layout::<ZgLink>(), (16, 4));
    assert_eq!(layout::<ZgUnfolding>(), (16, 4));
    assert_eq!(layout::<ZgCount>(), (12, 4));
    assert_eq!(layout::<ZgHeight>(), (10, 2));
    assert_eq!(layout::<ZgPart>(), (14, 2));
    assert_eq!(layout::<ZgRecord>(), (12, 2));
    assert_eq!(layout::<ZgFactor>(), (24, 8));
    assert_eq!(layout::<ZgWritten>(), (12, 4));
    assert_eq!(layout::<ZgBase>(), (12, 2));
}

macro_rules! offset {
    ($name:ident, $field:ident) => {{
        let value = $name::default();
        addr_of!(value.$field) as usize - addr_of!(value) as usize
    }};
}

#[test]
fn offsets() {
    assert_eq!(offset!(ZgRefusal, dart), 6);
    assert_eq!(offset!(ZgReading, count), 8);
    assert_eq!(offset!(ZgReading, neighbour), 12);
    assert_eq!(offset!(ZgLink, count), 8);
    assert_eq!(offset!(ZgLink, neighbour), 12);
    assert_eq!(offset!(ZgLink, since), 14);
    assert_eq!(offset!(ZgUnfolding, count), 8);
    assert_eq!(offset!(ZgUnfolding, since), 12);
    assert_eq!(offset!(ZgCount, count), 8);
    assert_eq!(offset!(ZgHeight, height), 8);
    assert_eq!(offset!(ZgPart, unfolded), 8);
    assert_eq!(offset!(ZgPart, start), 10);
    assert_eq!(offset!(ZgPart, length), 12);
    assert_eq!(offset!(ZgRecord, n), 8);
    assert_eq!(offset!(ZgRecord, h), 9);
    assert_eq!(offset!(ZgRecord, darts), 10);
    assert_eq!(offset!(ZgFactor, empty), 8);
    assert_eq!(offset!(ZgFactor, factor), 16);
    assert_eq!(offset!(ZgWritten, length), 8);
    assert_eq!(offset!(ZgBase, darts), 8);
    assert_eq!(offset!(ZgBase, h), 10);
}

#[test]
fn every_answer_begins_with_its_refusal() {
    assert_eq!(offset!(ZgReading, refusal), 0);
    assert_eq!(offset!(ZgLink, refusal), 0);
    assert_eq!(offset!(ZgUnfolding, refusal), 0);
    assert_eq!(offset!(ZgCount, refusal), 0);
    assert_eq!(offset!(ZgHeight, refusal), 0);
    assert_eq!(offset!(ZgPart, refusal), 0);
    assert_eq!(offset!(ZgRecord, refusal), 0);
    assert_eq!(offset!(ZgFactor, refusal), 0);
    assert_eq!(offset!(ZgWritten, refusal), 0);
    assert_eq!(offset!(ZgBase, refusal), 0);
}
