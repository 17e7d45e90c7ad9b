//! Check: regions that are readable, and bytes of no meaning.

use checks::fields::Words;
use checks::random::Random;
use mound::Shape;

use crate::both;

#[test]
fn every_field_anywhere_in_its_range() {
    let random = &mut Random::new(20);
    for _ in 0..3000 {
        let shape = random.shape(12);
        let region = Words::any_readable(random, shape);
        assert!(both::is_readable(&region.bytes()), "{shape:?}");
    }
}

#[test]
fn every_field_at_an_end_of_its_range() {
    let random = &mut Random::new(21);
    for shape in (0..100).map(|_| random.shape(8)).chain([Shape::LARGEST]) {
        let mut region = Words::laid_out(shape);
        for take in [Words::least, Words::greatest] {
            for at in 4..region.words.len() {
                region.words[at] = take(&region, at);
            }
            assert!(both::is_readable(&region.bytes()), "{shape:?}");
        }
    }
}

#[test]
fn at_every_alignment() {
    let random = &mut Random::new(22);
    for _ in 0..50 {
        let shape = random.shape(5);
        let bytes = Words::any_readable(random, shape).bytes();
        for shift in 0..16 {
            let shifted = [vec![0xff; shift], bytes.clone(), vec![0xff; 4]].concat();
            assert!(both::is_readable(&shifted[shift..][..bytes.len()]));
        }
    }
}

#[test]
fn random_bytes() {
    let random = &mut Random::new(23);
    for length in (0..600).chain([1000, 4096, 99_336]) {
        for _ in 0..10 {
            both::is_readable(&random.bytes(length));
        }
    }
}

#[test]
fn random_bytes_after_a_good_heading() {
    let random = &mut Random::new(24);
    for _ in 0..2000 {
        let shape = random.shape(4);
        let mut bytes = Words::laid_out(shape).bytes();
        let length = bytes.len();
        // Mostly zero bytes, so that some of these regions are readable.
        for _ in 0..random.among(1..=6) {
            let at = random.index(0..length);
            bytes[at] = random.among(0..=255) as u8;
        }
        both::is_readable(&bytes);
        let noise = random.bytes(length - 24);
        bytes[24..].copy_from_slice(&noise);
        both::is_readable(&bytes);
    }
}
