//! One word after the other set to values in its range and out of it, and set right again.

use checks::fields::{place, Words, PLACE, TRIES, WAITING};
use checks::queue::Queue;
use checks::random::Random;
use mound::Shape;

use crate::due::{look_at, range, Wrong, SHAPE};

const SHAPES: [Shape; 4] = [
    Shape { depth: 1, cells: 1, threads: 1, threshold: 1 },
    Shape { depth: 2, cells: 2, threads: 2, threshold: 1 },
    Shape { depth: 3, cells: 4, threads: 2, threshold: 16 },
    Shape { depth: 4, cells: 5, threads: 3, threshold: 2 },
];

/// Sets each word to values at the ends of its range, past them, and anywhere. A word that is then
/// named as damaged is set to values in its range, with which the damage ends or comes later.
fn try_each_word(random: &mut Random, region: &Words) {
    assert_eq!(look_at(region), None);
    for at in 0..region.words.len() {
        let greatest = *range(region, at).end();
        let values = [0, greatest, greatest.saturating_add(1), u32::MAX];
        for value in values.into_iter().chain([random.among(0..=u32::MAX), random.among(0..=70)]) {
            let changed = region.with(at, value);
            if let Some((Wrong::Word(wrong), when)) = look_at(&changed) {
                let in_range = range(&changed, wrong);
                let any = random.among(in_range.clone());
                for right in [*in_range.start(), any, *in_range.end()] {
                    let restored = look_at(&changed.with(wrong, right));
                    assert!(restored.is_none_or(|(_, later)| later > when), "{wrong} to {right}");
                }
            }
        }
    }
}

#[test]
fn of_laid_out_regions() {
    let random = &mut Random::new(60);
    for shape in SHAPES {
        try_each_word(random, &Words::laid_out(shape));
    }
}

/// A readable region whose last thread stands at this place.
fn with_thread_at(random: &mut Random, shape: Shape, place: u32) -> Words {
    let mut region = Words::any_readable(random, shape);
    let record = region.thread(shape.threads);
    region.words[record + PLACE] = place;
    for field in [TRIES, WAITING] {
        let greatest = region.greatest(record + field);
        region.words[record + field] = random.among_or_extreme(0..=greatest);
    }
    region
}

#[test]
fn of_readable_regions_with_a_thread_at_each_place() {
    let random = &mut Random::new(61);
    for shape in SHAPES {
        for place in place::IDLE..=place::GREATEST {
            let region = with_thread_at(random, shape, place);
            try_each_word(random, &region);
        }
    }
}

/// Regions as calls leave them, in the midst of puts, takes and lists.
#[test]
fn of_busy_regions() {
    let random = &mut Random::new(62);
    for shape in SHAPES {
        for _ in 0..10 {
            let mut queue = Queue::open_to_all(shape);
            for _ in 0..random.among(5..=50) {
                let thread = random.among(1..=shape.threads);
                // A call that is refused leaves the region as it is.
                _ = match random.among(0..=2) {
                    0 => queue.put(thread, random.among(0..=9), random.among(0..=9)),
                    1 => queue.take(thread),
                    _ => queue.list(thread),
                };
                for _ in 0..random.among(0..=6) {
                    queue.turn(random.among(1..=shape.threads), random.among(0..=9));
                }
            }
            try_each_word(random, &Words::of(&queue.bytes));
        }
    }
}

/// Each number of the shape at many values, at the old length and at that of the new shape.
#[test]
fn of_the_shape() {
    let random = &mut Random::new(63);
    for value in (0..=70).chain([255, 256, 2048, 2049, 1 << 16, 1 << 31, u32::MAX]) {
        for shape in SHAPES {
            for at in 0..SHAPE {
                let mut region = Words::any_readable(random, shape).with(at, value);
                look_at(&region);
                if let Ok(length) = region.shape().byte_len() {
                    region.words.resize(length / 4, 0);
                    look_at(&region);
                }
            }
        }
    }
}

#[test]
fn of_the_largest_shape() {
    let random = &mut Random::new(64);
    let region = Words::any_readable(random, Shape::LARGEST);
    for _ in 0..500 {
        let at = random.index(0..region.words.len());
        let changed = region.with(at, u32::MAX);
        match look_at(&changed) {
            Some((wrong, _)) => assert_eq!(wrong, Wrong::Word(at)),
            None => assert!(!region.has_range(at)),
        }
    }
}
