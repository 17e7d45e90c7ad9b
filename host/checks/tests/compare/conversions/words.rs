//! Regions of the old form that are readable, and such with words set to other values.

use checks::fields::{Form, Words};
use checks::old_queue::OldQueue;
use checks::random::Random;
use mound::{calls, Shape};

use super::{convert, length_of};
use crate::both;
use crate::damaged::{telling_values, SHAPES};

/// Converts a region to a slice of the length that is due to this shape; refused just where the
/// table of fields says that it is not readable.
fn convert_by_table(random: &mut Random, region: &Words, shape: Shape, what: &str) {
    let due = if region.is_readable() { 0 } else { 7 };
    let mut new = random.bytes(length_of(shape));
    assert_eq!(both::convert(random, &region.bytes(), &mut new), due, "{what}");
}

#[test]
fn every_field_anywhere_in_its_range() {
    let random = &mut Random::new(200);
    for shape in (0..600).map(|_| random.shape(9)).chain([Shape::LARGEST; 3]).collect::<Vec<_>>() {
        let old = OldQueue::any_readable(random, shape);
        convert(random, &old.bytes);
    }
}

#[test]
fn every_field_at_an_end_of_its_range() {
    let random = &mut Random::new(201);
    for shape in SHAPES.into_iter().chain([Shape::LARGEST]) {
        let mut region = Words::laid_out_in(Form::OLD, shape);
        convert(random, &region.bytes());
        for take in [Words::least, Words::greatest] {
            for at in 4..region.words.len() {
                region.words[at] = take(&region, at);
            }
            convert(random, &region.bytes());
        }
    }
}

/// Each word after the shape set to each telling value.
#[test]
fn each_word() {
    let random = &mut Random::new(202);
    for shape in SHAPES {
        let any = OldQueue::any_readable(random, shape).words();
        for region in [Words::laid_out_in(Form::OLD, shape), any] {
            for at in 4..region.words.len() {
                for value in telling_values(&region, at) {
                    let what = format!("word {at}, {:?}, set to {value}", region.field(at));
                    convert_by_table(random, &region.with(at, value), shape, &what);
                }
            }
        }
    }
}

#[test]
fn words_of_the_largest_shape() {
    let random = &mut Random::new(203);
    let region = OldQueue::any_readable(random, Shape::LARGEST).words();
    let last = region.words.len() - 1;
    for at in (0..300).map(|_| random.index(4..last)).chain([4, last]).collect::<Vec<_>>() {
        let changed = region.with(at, region.greatest(at).saturating_add(1));
        convert_by_table(random, &changed, Shape::LARGEST, &format!("word {at}"));
    }
}

#[test]
fn a_few_words_of_random_regions() {
    let random = &mut Random::new(204);
    for _ in 0..3000 {
        let shape = random.shape(5);
        let mut region = OldQueue::any_readable(random, shape).words();
        for _ in 0..random.among(1..=3) {
            let at = random.index(4..region.words.len());
            region.words[at] = random.one_of(&telling_values(&region, at));
        }
        convert_by_table(random, &region, shape, "a few words");
    }
}

/// Each number of the shape changed, at the old length and at that of the new shape.
#[test]
fn each_word_of_the_shape() {
    let random = &mut Random::new(205);
    for value in (0..=70).chain([255, 256, 2048, 2049, 1 << 16, 1 << 31, u32::MAX]) {
        for shape in SHAPES {
            for at in 0..4 {
                let what = format!("word {at} of {shape:?} set to {value}");
                let mut region = OldQueue::any_readable(random, shape).words().with(at, value);
                let named = region.shape();
                let length_due_to = if named.is_in_range() { named } else { shape };
                convert_by_table(random, &region, length_due_to, &what);
                if let Ok(length) = named.old_byte_len() {
                    region.words.resize(length / 4, 0);
                    convert_by_table(random, &region, named, &what);
                }
            }
        }
    }
}

/// Neither form is read as the other.
#[test]
fn a_region_of_the_other_form() {
    let random = &mut Random::new(206);
    for _ in 0..300 {
        let shape = random.shape(7);
        let present = Words::any_readable(random, shape).bytes();
        let mut new = random.bytes(present.len());
        assert_eq!(both::convert(random, &present, &mut new), 7);
        assert_eq!(calls::check(&OldQueue::any_readable(random, shape).bytes), 7);
    }
}

#[test]
fn random_bytes() {
    let random = &mut Random::new(207);
    for length in (0..600).chain([1000, 4096, 82_188]) {
        let (old, mut new) = (random.bytes(length), random.bytes(length));
        both::convert(random, &old, &mut new);
        both::convert(random, &old, &mut []);
    }
}
