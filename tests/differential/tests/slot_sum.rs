//! The port's sum after one slot beside crc32fast's sum of the whole array.

use differential::port::gpt_slot_sum;
use differential::rng::Rng;

fn after_slot(sum: u32, was: &[u8], is: &[u8], after: usize) -> (u32, u32) {
    let r = unsafe { gpt_slot_sum(sum, was.as_ptr(), was.len(), is.as_ptr(), is.len(), after) };
    (r.number, r.value)
}

/// Each byte from place `at` on becomes another one.
fn try_at(array: &mut [u8], at: usize) {
    let sum = crc32fast::hash(array);
    let was: Vec<u8> = array[at..at + 128].to_vec();
    for (i, byte) in array[at..at + 128].iter_mut().enumerate() {
        *byte = byte.wrapping_mul(29).wrapping_add((i + at) as u8);
    }
    let is = &array[at..at + 128];
    assert_eq!(after_slot(sum, &was, is, array.len() - at - 128), (0, crc32fast::hash(array)), "place {at} of {}", array.len());
}

fn array(n: usize) -> Vec<u8> {
    let mut bytes = vec![0; n];
    Rng::new(12, n as u64).fill(&mut bytes);
    bytes
}

#[test]
fn each_slot_of_a_card() {
    let mut array = array(16384);
    for slot in 1..=128 {
        try_at(&mut array, 128 * (slot - 1));
    }
}

#[test]
fn each_length() {
    let mut lengths: Vec<usize> = (128..2200).collect();
    for bits in 11..=20 {
        lengths.extend([(1 << bits) - 1, 1 << bits, (1 << bits) + 128].into_iter().filter(|n| *n <= 1 << 20));
    }
    for n in lengths {
        let mut array = array(n);
        for at in [0, (n - 128) / 3, n - 128] {
            try_at(&mut array, at);
        }
    }
}

#[test]
fn refusals() {
    let piece = [7; 129];
    for n in [0, 1, 127, 129] {
        assert_eq!(after_slot(5, &piece[..n], &piece[..128], usize::MAX), (2, 0));
        assert_eq!(after_slot(5, &piece[..128], &piece[..n], usize::MAX), (2, 0));
    }
    for after in [(1 << 20) - 127, 1 << 20, usize::MAX - 127, usize::MAX] {
        assert_eq!(after_slot(5, &piece[..128], &piece[..128], after), (3, 0));
    }
    assert_eq!(after_slot(5, &piece[..128], &piece[..128], (1 << 20) - 128), (0, 5));
}
