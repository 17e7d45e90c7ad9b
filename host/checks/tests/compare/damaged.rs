//! Check: regions with one word set to another value, one word after the other.

use checks::fields::Words;
use checks::random::Random;
use mound::Shape;

use crate::both;

/// Small shapes with each kind of record in them, their ranges of different sizes.
pub const SHAPES: [Shape; 5] = [
    Shape { depth: 1, cells: 1, threads: 1, threshold: 1 },
    Shape { depth: 2, cells: 2, threads: 2, threshold: 1 },
    Shape { depth: 3, cells: 4, threads: 2, threshold: 16 },
    Shape { depth: 4, cells: 5, threads: 3, threshold: 2 },
    Shape { depth: 5, cells: 9, threads: 1, threshold: 7 },
];

/// Checks the region, whose answer must be that of the table of fields too.
fn check_by_table(region: &Words, what: &str) {
    assert_eq!(both::is_readable(&region.bytes()), region.is_readable(), "{what}");
}

/// Values at the ends of a word's range and past them.
pub fn telling_values(region: &Words, at: usize) -> [u32; 12] {
    let greatest = region.greatest(at);
    let (below, above) = (greatest.saturating_sub(1), greatest.saturating_add(1));
    [0, 1, 2, below, greatest, above, 1 << 8, 1 << 16, 1 << 24, 1 << 31, u32::MAX - 1, u32::MAX]
}

/// Checks the region with each word after the shape set to each telling value.
fn try_each_word(region: &Words) {
    for at in 4..region.words.len() {
        for value in telling_values(region, at) {
            let what = format!("word {at}, {:?}, set to {value}", region.field(at));
            check_by_table(&region.with(at, value), &what);
        }
    }
}

#[test]
fn each_word_of_a_laid_out_region() {
    for shape in SHAPES {
        try_each_word(&Words::laid_out(shape));
    }
}

#[test]
fn each_word_of_a_readable_region() {
    let random = &mut Random::new(30);
    for shape in SHAPES {
        for _ in 0..20 {
            try_each_word(&Words::any_readable(random, shape));
        }
    }
}

#[test]
fn each_word_of_the_largest_shape() {
    let random = &mut Random::new(31);
    let region = Words::any_readable(random, Shape::LARGEST);
    let mut bytes = region.bytes();
    for at in (4..region.words.len()).filter(|&at| region.has_range(at)) {
        let word = 4 * at..4 * at + 4;
        bytes[word.clone()].copy_from_slice(&(region.greatest(at) + 1).to_le_bytes());
        assert!(!both::is_readable(&bytes), "word {at}");
        bytes[word].copy_from_slice(&region.words[at].to_le_bytes());
    }
    assert!(both::is_readable(&bytes));
}

#[test]
fn a_few_words_of_random_regions() {
    let random = &mut Random::new(32);
    for _ in 0..10_000 {
        let shape = random.shape(6);
        let mut region = Words::any_readable(random, shape);
        for _ in 0..random.among(1..=3) {
            let at = random.index(4..region.words.len());
            region.words[at] = random.one_of(&telling_values(&region, at));
        }
        check_by_table(&region, "a few words");
    }
}

/// Each number of the shape changed, at the old length and at that of the new shape.
#[test]
fn each_word_of_the_shape() {
    let random = &mut Random::new(33);
    let numbers = (0..=70).chain([255, 256, 2048, 2049, 4095, 1 << 16, 1 << 31, u32::MAX]);
    for value in numbers {
        for shape in SHAPES {
            for at in 0..4 {
                let what = format!("word {at} of {shape:?} set to {value}");
                let mut region = Words::any_readable(random, shape).with(at, value);
                check_by_table(&region, &what);
                if let Ok(length) = region.shape().byte_len() {
                    region.words.resize(length / 4, 0);
                    check_by_table(&region, &what);
                }
            }
        }
    }
}

/// A thread is as long as twelve cells and as nine nodes, so shapes can share a length.
#[test]
fn another_shape_of_the_same_length() {
    let pairs = [
        (Shape { depth: 5, cells: 1, threads: 3, threshold: 4 }, [5, 13, 2]),
        (Shape { depth: 5, cells: 16, threads: 2, threshold: 4 }, [5, 4, 3]),
        (Shape { depth: 4, cells: 5, threads: 7, threshold: 1 }, [6, 1, 2]),
        (Shape { depth: 6, cells: 32, threads: 1, threshold: 16 }, [4, 96, 1]),
    ];
    let random = &mut Random::new(34);
    for (shape, other) in pairs {
        for mut region in [Words::laid_out(shape), Words::any_readable(random, shape)] {
            region.words[..3].copy_from_slice(&other);
            check_by_table(&region, &format!("{shape:?} as {other:?}"));
        }
    }
}

#[test]
fn the_present_depth_at_every_value() {
    for shape in SHAPES {
        for depth in 0..=40 {
            let region = Words::laid_out(shape).with(4, depth);
            assert_eq!(both::is_readable(&region.bytes()), (1..=shape.depth).contains(&depth));
        }
    }
}
