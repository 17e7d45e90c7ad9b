//! Slices that are too short or too long.

use checks::fields::Words;
use checks::random::Random;
use mound::{Damage, Shape};

use crate::due::look_at_bytes;

const SHAPE: Shape = Shape { depth: 2, cells: 2, threads: 2, threshold: 1 };

/// What is wrong with the bytes, which the table confirms.
fn damage(bytes: &[u8]) -> Option<Damage> {
    look_at_bytes(bytes, &Words::of(bytes));
    Damage::of(bytes)
}

/// Of a slice too short for a shape the length is told, whatever its first words are.
#[test]
fn too_short_for_a_shape() {
    let random = &mut Random::new(80);
    for found in 0..16 {
        let start_of_a_region = Words::laid_out(SHAPE).bytes()[..found].to_vec();
        for bytes in [start_of_a_region, vec![0; found], vec![0xff; found], random.bytes(found)] {
            assert_eq!(damage(&bytes), Some(Damage::Length { found, due: 196..=99_336 }));
        }
    }
}

#[test]
fn shorter_or_longer_than_the_shape() {
    let random = &mut Random::new(81);
    for region in [Words::laid_out(SHAPE), Words::any_readable(random, SHAPE)] {
        let whole = region.bytes();
        assert_eq!(whole.len(), 384);
        for found in (16..384).chain(385..700) {
            let mut bytes = whole.clone();
            bytes.resize(found, 0);
            assert_eq!(damage(&bytes), Some(Damage::Length { found, due: 384..=384 }));
        }
        assert_eq!(damage(&whole), None);
    }
}

/// The shape is looked at before the length.
#[test]
fn a_shape_out_of_range_at_any_length() {
    for length in (16..400).chain([99_336, 100_000]) {
        assert!(matches!(damage(&vec![0; length]), Some(Damage::Word(word)) if word.index() == 0));
        let mut bytes = vec![0; length];
        bytes[..16].copy_from_slice(&Words::laid_out(SHAPE).bytes()[..16]);
        bytes[12] = 17;
        assert!(matches!(damage(&bytes), Some(Damage::Word(word)) if word.index() == 3));
    }
}
