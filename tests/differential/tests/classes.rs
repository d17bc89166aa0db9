//! For each listed class an input that shows it, as small as one was found; and inputs beside it that show no difference.

use differential::case::{Build, Call, Case};
use differential::compare::{describe, judge, run, whole, Verdict};
use differential::gen::{head, set32, ARRAY_SUM};
use differential::listed::ends_process;
use differential::original::Did;
use differential::run::silence;

/// The class of the difference, G where the original's header kept its sums, or none.
fn class(img: &[u8], call: Call) -> Option<&'static str> {
    silence();
    let case = Case { img: img.to_vec(), call };
    if ends_process(&case).is_some() {
        return matches!(whole(&case), Verdict::Listed("I")).then_some("I");
    }
    let ran = run(&case);
    match judge(&case, &ran) {
        Verdict::Agree if matches!(ran.original, Did::Answered { sums: true, .. }) => Some("G"),
        Verdict::Agree => None,
        Verdict::Listed(class) => Some(class),
        Verdict::Unlisted(_) => panic!("{:?}\n{}", case.call, describe(&case, &ran)),
    }
}

fn build(backup: u64, last: u64, size: u32, primary: bool) -> Call {
    Call::Build(Build { b: 512, primary, guid: [0; 16], backup, first: 0, last, count: 128, size, which: 31 })
}

fn entry(index: u64, start: u64, size: u32) -> Call {
    Call::WriteEntry { index, start, b: 512, size, entry: Box::new([1; 128]) }
}

fn zero(index: u64, count: u64, start: u64) -> Call {
    Call::WriteZero { index, count, start, b: 512, size: 128 }
}

const LAST_BLOCK: u64 = (1 << 55) - 1;

#[test]
fn builder() {
    assert_eq!(class(&[], build(67, 0, 33_554_432, true)), Some("A1"));
    assert_eq!(class(&[], build(67, 0, 33_554_431, true)), None);
    assert_eq!(class(&[], build(67, u64::MAX, 128, false)), Some("A2"));
    assert_eq!(class(&[], build(67, u64::MAX, 128, true)), None);
    let both = head(u64::MAX, u64::MAX, 0, u64::MAX, [0; 16], 0, 0, 0);
    assert_eq!(class(&[], Call::BuildFrom { b: 512, head: Box::new(both) }), Some("A2"));
}

#[test]
fn arrays() {
    let read = |count, size| Call::ReadArray { b: 512, head: Box::new(head(0, 0, 0, 0, [0; 16], 0, count, size)) };
    assert_eq!(class(&[], read(0, 127)), Some("A3"));
    assert_eq!(class(&[], read(0, 128)), None);
    let mut img = [0; 128];
    img[56..60].copy_from_slice(&[0x3D, 0xD8, 0x41, 0x00]);
    let mut h = head(0, 0, 0, 0, [0; 16], 0, 1, 128);
    set32(&mut h, ARRAY_SUM, crc32fast::hash(&img));
    assert_eq!(class(&img, Call::ReadArray { b: 512, head: Box::new(h) }), Some("E"));
    assert_eq!(class(&img, Call::EntryFromBytes), Some("E"));
    let sum = |count, size| Call::ArraySum { b: 512, head: Box::new(head(0, 0, 0, 0, [0; 16], 0, count, size)) };
    assert_eq!(class(&[], sum((1 << 31) + 1, u32::MAX)), Some("H"));
    assert_eq!(class(&[], sum(1 << 20, 1 << 25)), Some("I"));
    assert_eq!(class(&[], sum(1 << 20, 1 << 8)), None);
}

#[test]
fn device_writes() {
    assert_eq!(class(&[], entry(5, LAST_BLOCK, 128)), Some("A4"));
    assert_eq!(class(&[], entry(3, LAST_BLOCK, 128)), Some("D"));
    assert_eq!(class(&[], entry(2, LAST_BLOCK, 128)), None);
    assert_eq!(class(&[], zero(4, 0, LAST_BLOCK)), Some("A5"));
    assert_eq!(class(&[], zero(3, 0, LAST_BLOCK)), None);
    assert_eq!(class(&[], zero(0, 1 << 56, 0)), Some("A6"));
    assert_eq!(class(&[], entry(0, 0, 0)), Some("B"));
    assert_eq!(class(&[0; 4097], entry(0, 0, 4097)), Some("B"));
    assert_eq!(class(&[0; 4096], entry(0, 0, 4096)), None);
    assert_eq!(class(&[0; 127], entry(0, 0, 128)), Some("C"));
    assert_eq!(class(&[0; 128], entry(0, 0, 128)), None);
}

#[test]
fn parts_of_writes() {
    let write = |current| Call::WritePrimary { b: 512, head: Box::new(head(current, 9, 0, 0, [0; 16], 0, 0, 128)) };
    assert_eq!(class(&[0; 1600], write(3)), Some("C"));
    assert_eq!(class(&[0; 1600], write(4)), Some("G"));
    assert_eq!(class(&[0; 1600], write(2)), None);
    let mbr = Box::new([9; 512]);
    assert_eq!(class(&[0; 511], Call::Overwrite { mbr: mbr.clone() }), Some("C"));
    assert_eq!(class(&[0; 511], Call::Conservative { mbr: mbr.clone() }), Some("C"));
    assert_eq!(class(&[0; 446], Call::Conservative { mbr: mbr.clone() }), None);
    assert_eq!(class(&[0; 512], Call::Overwrite { mbr }), None);
    assert_eq!(class(&[0; 439], Call::WriteBoot { boot: Box::new([9; 440]) }), Some("C"));
    assert_eq!(class(&[0; 440], Call::WriteBoot { boot: Box::new([9; 440]) }), None);
    assert_eq!(class(&[0; 443], Call::WriteSignature { signature: [9; 4] }), Some("C"));
    assert_eq!(class(&[0; 440], Call::WriteSignature { signature: [9; 4] }), None);
}
