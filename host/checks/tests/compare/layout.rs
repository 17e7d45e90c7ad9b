//! Layout: small shapes, random ones, numbers far out of range, bad lists, other lengths.

use checks::random::Random;
use mound::{calls, Shape};

use crate::both;

/// Numbers at and around the ends of the ranges and of the machine's words.
const NUMBERS: [u32; 17] =
    [0, 1, 2, 12, 13, 16, 17, 31, 32, 33, 64, 65, 2048, 2049, 1 << 31, u32::MAX - 1, u32::MAX];

/// Lays out random bytes of that length.
fn lay_out(random: &mut Random, length: usize, shape: Shape, permissions: &[u8]) -> u32 {
    let mut region = random.bytes(length);
    both::layout(random, &mut region, shape, permissions)
}

fn length_of(shape: Shape) -> usize {
    shape.byte_len().expect("a shape in range")
}

/// The length that follows from the numbers of any shape if sums and shifts wrap, cut to what a
/// test can lend.
fn wrapped_length_of(shape: Shape) -> usize {
    let words = (1u32.wrapping_shl(shape.depth).wrapping_sub(1).wrapping_mul(4))
        .wrapping_add(shape.cells.wrapping_mul(3))
        .wrapping_add(shape.threads.wrapping_mul(36))
        .wrapping_add(6);
    words.wrapping_mul(4).min(100_000) as usize
}

#[test]
fn a_region_of_one_cell_and_one_thread_word_by_word() {
    let mut expected = [0u32; 49];
    expected[..6].copy_from_slice(&[1, 1, 1, 9, 1, 1]);
    expected[13] = 2;
    let mut region = [0xa5; 196];
    assert_eq!(calls::layout(&mut region, 1, 1, 1, 9, &[2]), 0);
    let words = region.chunks_exact(4).map(|word| u32::from_le_bytes(word.try_into().unwrap()));
    assert!(words.eq(expected));
}

#[test]
fn all_small_shapes_and_those_just_out_of_range() {
    let random = &mut Random::new(2);
    for depth in 0..=5 {
        for cells in 0..=18 {
            for threads in 0..=4 {
                for threshold in [0, 1, 2, 16, 17] {
                    let shape = Shape { depth, cells, threads, threshold };
                    let permissions = random.permissions(shape);
                    let length = wrapped_length_of(shape);
                    let number = lay_out(random, length, shape, &permissions);
                    assert_eq!(number, u32::from(!shape.is_in_range()), "{shape:?}");
                }
            }
        }
    }
}

#[test]
fn random_shapes_are_laid_out_and_readable() {
    let random = &mut Random::new(3);
    let shapes: Vec<Shape> = (0..4000).map(|_| random.shape(12)).collect();
    for shape in shapes.into_iter().chain([Shape::LARGEST]) {
        let permissions = random.permissions(shape);
        let mut region = random.bytes(length_of(shape));
        assert_eq!(both::layout(random, &mut region, shape, &permissions), 0);
        assert!(both::is_readable(&region), "{shape:?}");
    }
}

#[test]
fn numbers_out_of_range() {
    let random = &mut Random::new(4);
    for depth in NUMBERS {
        for cells in NUMBERS {
            for threads in NUMBERS {
                let threshold = random.one_of(&NUMBERS);
                let shape = Shape { depth, cells, threads, threshold };
                let permissions = vec![3; threads.min(100) as usize];
                lay_out(random, wrapped_length_of(shape), shape, &permissions);
                lay_out(random, 0, shape, &permissions);
            }
        }
    }
}

#[test]
fn one_number_out_of_range() {
    let random = &mut Random::new(5);
    for number in NUMBERS {
        for _ in 0..20 {
            let good = random.shape(6);
            let leaves = 1 << (good.depth - 1);
            let changed = [
                (Shape { depth: number, cells: 1, ..good }, (1..=12).contains(&number)),
                (Shape { cells: number, ..good }, (1..=leaves).contains(&number)),
                (Shape { threads: number, ..good }, (1..=64).contains(&number)),
                (Shape { threshold: number, ..good }, (1..=16).contains(&number)),
            ];
            for (shape, in_range) in changed {
                let permissions = vec![0; shape.threads.min(70) as usize];
                let length = wrapped_length_of(shape);
                let number = lay_out(random, length, shape, &permissions);
                assert_eq!(number, u32::from(!in_range), "{shape:?}");
            }
        }
    }
}

#[test]
fn permission_lists_that_are_not_one_byte_of_0_to_3_a_thread() {
    let random = &mut Random::new(6);
    for _ in 0..300 {
        let shape = random.shape(5);
        let good = random.permissions(shape);
        let mut refused = vec![Vec::new(), good[1..].to_vec(), [&good[..], &[3]].concat()];
        refused.push([&good[..], &good[..]].concat());
        for (thread, bad) in [(0, 4), (good.len() - 1, 4), (0, 255), (good.len() - 1, 128)] {
            let mut list = good.clone();
            list[thread] = bad;
            refused.push(list);
        }
        for list in refused {
            // The list is looked at before the length.
            for length in [length_of(shape), length_of(shape) - 4, 0] {
                assert_eq!(lay_out(random, length, shape, &list), 1);
            }
        }
    }
}

#[test]
fn every_permission_byte_at_every_thread() {
    let random = &mut Random::new(7);
    let shape = Shape { depth: 1, cells: 1, threads: 3, threshold: 1 };
    for thread in 0..3 {
        for permission in 0..=255 {
            let mut list = [1, 2, 3];
            list[thread] = permission;
            let number = lay_out(random, length_of(shape), shape, &list);
            assert_eq!(number, u32::from(permission > 3));
        }
    }
}

#[test]
fn slices_of_another_length() {
    let random = &mut Random::new(8);
    for _ in 0..300 {
        let shape = random.shape(7);
        let permissions = random.permissions(shape);
        let exact = length_of(shape);
        let around = (exact - 9..=exact + 9).filter(|&length| length != exact);
        for length in around.chain([0, 1, 4, 24, exact - 144, exact + 144, 2 * exact]) {
            assert_eq!(lay_out(random, length, shape, &permissions), 2);
        }
    }
}
