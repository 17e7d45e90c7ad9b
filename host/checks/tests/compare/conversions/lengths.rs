//! Slices that are too short or too long, on both sides.

use checks::old_queue::OldQueue;
use checks::queue::SMALL;
use checks::random::Random;
use mound::Shape;

use super::length_of;
use crate::both;

/// The conversion to this many bytes.
fn convert_to(random: &mut Random, old: &[u8], length: usize) -> u32 {
    let mut new = random.bytes(length);
    both::convert(random, old, &mut new)
}

#[test]
fn new_slices_of_every_length_for_a_small_shape() {
    let random = &mut Random::new(210);
    let old = OldQueue::any_readable(random, SMALL).bytes;
    for length in 0..800 {
        let due = if length == 384 { 0 } else { 2 };
        assert_eq!(convert_to(random, &old, length), due, "{length} bytes");
    }
}

#[test]
fn new_slices_of_another_length() {
    let random = &mut Random::new(211);
    for _ in 0..200 {
        let shape = random.shape(7);
        let old = OldQueue::any_readable(random, shape).bytes;
        let exact = length_of(shape);
        let around = (exact - 9..=exact + 9).filter(|&length| length != exact);
        let far = [0, 1, 4, 24, old.len(), exact - 144, exact + 144, 2 * exact];
        for length in around.chain(far) {
            assert_eq!(convert_to(random, &old, length), 2, "{shape:?} to {length} bytes");
        }
    }
}

/// An old slice is looked at before the new one's length, whatever that is.
#[test]
fn old_slices_cut_short_or_lengthened() {
    let random = &mut Random::new(212);
    for shape in (0..60).map(|_| random.shape(6)).chain([Shape::LARGEST]).collect::<Vec<_>>() {
        let old = OldQueue::any_readable(random, shape).bytes;
        let exact = old.len();
        let longer = [old, random.bytes(140)].concat();
        for length in (exact - 9..=exact + 9).chain([0, 1, 16, 24, exact - 132, exact + 132]) {
            for new in [0, length_of(shape), length_of(shape) - 4] {
                let due = match (length == exact, new == length_of(shape)) {
                    (false, _) => 7,
                    (true, false) => 2,
                    (true, true) => 0,
                };
                assert_eq!(convert_to(random, &longer[..length], new), due, "{shape:?}: {length}");
            }
        }
    }
}

/// First words with numbers far out of range: if sums and shifts wrap, a wrong length may seem
/// right.
#[test]
fn headings_alone_with_huge_numbers() {
    let random = &mut Random::new(213);
    let numbers = [0, 1, 2, 12, 13, 31, 32, 33, 64, 65, 1 << 30, 1 << 31, u32::MAX];
    for depth in numbers {
        for cells in numbers {
            for threads in numbers {
                let words = [depth, cells, threads, 1, 1, 0];
                let heading: Vec<u8> = words.into_iter().flat_map(u32::to_le_bytes).collect();
                for length in [0, 15, 16, 23, 24] {
                    assert_eq!(convert_to(random, &heading[..length], 196), 7);
                }
                let is_readable = [depth, cells, threads] == [1, 1, 1];
                let region = [heading, vec![0; 156]].concat();
                assert_eq!(convert_to(random, &region, 196), if is_readable { 0 } else { 7 });
            }
        }
    }
}
