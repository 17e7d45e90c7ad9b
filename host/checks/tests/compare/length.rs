//! Check: regions cut short or lengthened.

use checks::fields::Words;
use checks::random::Random;
use mound::Shape;

use crate::both;

#[test]
fn the_empty_slice() {
    assert!(!both::is_readable(&[]));
}

#[test]
fn each_part_of_a_region_that_starts_or_ends_with_it() {
    let random = &mut Random::new(40);
    let small = Shape { depth: 2, cells: 2, threads: 2, threshold: 1 };
    for _ in 0..4 {
        let bytes = Words::any_readable(random, small).bytes();
        for length in 0..bytes.len() {
            assert!(!both::is_readable(&bytes[..length]), "the first {length} bytes");
            both::is_readable(&bytes[bytes.len() - length..]);
        }
        assert!(both::is_readable(&bytes));
    }
}

#[test]
fn bytes_after_the_end() {
    let random = &mut Random::new(41);
    for _ in 0..40 {
        let shape = random.shape(6);
        let bytes = Words::any_readable(random, shape).bytes();
        for more in 1..=150 {
            assert!(!both::is_readable(&[bytes.clone(), vec![0; more]].concat()), "{more} zeros");
            assert!(!both::is_readable(&[bytes.clone(), random.bytes(more)].concat()), "{more}");
        }
    }
}

#[test]
fn large_regions_cut_short() {
    let random = &mut Random::new(42);
    for _ in 0..100 {
        let shape = random.shape(12);
        let bytes = Words::any_readable(random, shape).bytes();
        for less in [1, 2, 3, 4, 8, 12, 24, 143, 144, 145] {
            assert!(!both::is_readable(&bytes[..bytes.len() - less]), "{shape:?} less {less}");
        }
    }
}

/// First words with numbers far out of range: if sums and shifts wrap, a wrong length may seem
/// right.
#[test]
fn headings_alone_with_huge_numbers() {
    let numbers = [0, 1, 2, 12, 13, 30, 31, 32, 33, 63, 64, 65, 1 << 31, u32::MAX];
    for depth in numbers {
        for cells in numbers {
            for threads in numbers {
                let words = [depth, cells, threads, 1, 1, 0];
                let heading: Vec<u8> = words.into_iter().flat_map(u32::to_le_bytes).collect();
                for length in 0..=heading.len() {
                    assert!(!both::is_readable(&heading[..length]), "{length} bytes of {words:?}");
                }
                both::is_readable(&[heading, vec![0; 172]].concat());
            }
        }
    }
}
