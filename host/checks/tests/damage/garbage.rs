//! Bytes of no meaning, and what becomes of them when each damage is set right.

use checks::fields::Words;
use checks::random::Random;
use mound::Shape;

use crate::due::{look_at, look_at_bytes, range, Wrong};

#[test]
fn random_bytes() {
    let random = &mut Random::new(70);
    for length in (0..600).chain([1000, 4096, 99_336]) {
        for _ in 0..10 {
            let bytes = random.bytes(length);
            look_at_bytes(&bytes, &Words::of(&bytes));
        }
    }
}

#[test]
fn a_few_words_of_readable_regions() {
    let random = &mut Random::new(71);
    for _ in 0..5000 {
        let shape = random.shape(4);
        let mut region = Words::any_readable(random, shape);
        for _ in 0..random.among(1..=4) {
            let at = random.index(4..region.words.len());
            region.words[at] = random.among_or_extreme(0..=70);
        }
        look_at(&region);
    }
}

/// Whatever stands behind a shape: each damage names a word, later than the one before, and once
/// all are set right the region is readable.
#[test]
fn random_words_are_set_right_one_by_one() {
    let random = &mut Random::new(72);
    for _ in 0..200 {
        let shape = Shape { threads: random.among(1..=4), ..random.shape(4) };
        let mut region = Words::laid_out(shape);
        for word in &mut region.words[4..] {
            *word = random.among_or_extreme(0..=u32::MAX);
        }
        let mut last = None;
        while let Some((wrong, when)) = look_at(&region) {
            let Wrong::Word(at) = wrong else { panic!("{wrong:?} at the shape's length") };
            assert!(last < Some(when), "word {at} once more");
            last = Some(when);
            region.words[at] = random.among(range(&region, at));
        }
        assert!(region.is_readable());
    }
}
