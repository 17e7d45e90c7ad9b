//! Put, take, list and permit: laid-out regions, damaged ones, readable ones of every kind.

use checks::beginnings::with_every_set_of_reasons;
use checks::fields::{place, Words, FIRST_FREE_CELL, PERMISSION, PLACE, WAITING};
use checks::queue::Queue;
use checks::random::Random;

use crate::any_call::{self, BEGINNINGS, PERMITS};
use crate::both;
use crate::damaged::{telling_values, SHAPES};
use crate::tally::Outcome::{List, Permit, Put, Take};
use crate::tally::Tally;

#[test]
fn the_first_reason_in_order_refuses() {
    let random = &mut Random::new(90);
    for beginning in with_every_set_of_reasons() {
        let (thread, key, tag) = (beginning.thread, beginning.key, beginning.tag);
        let mut region = beginning.region.clone();
        let number = both::put(random, &mut region, thread, key, tag);
        assert_eq!(number, both::number_of(beginning.put));
        for begin in [both::take, both::list] {
            let number = begin(random, &mut beginning.region.clone(), thread);
            assert_eq!(number, both::number_of(beginning.take));
        }
        for (permission, due) in beginning.permits() {
            let mut region = beginning.region.clone();
            let number = both::permit(random, &mut region, thread, permission);
            assert_eq!(number, both::number_of(due));
        }
    }
}

#[test]
fn any_readable_region() {
    let random = &mut Random::new(94);
    let mut tally = Tally::default();
    for _ in 0..20_000 {
        let shape = random.shape(6);
        let threads = shape.threads.min(3);
        let mut region = Words::any_readable(random, shape);
        // In half of the regions one of these threads is idle and may do all, and a cell is free.
        if random.among(0..=1) == 0 {
            let record = region.thread(random.among(1..=threads));
            for (field, value) in [(PERMISSION, 3), (PLACE, place::IDLE), (WAITING, 0)] {
                region.words[record + field] = value;
            }
            region.words[FIRST_FREE_CELL] = random.among(1..=shape.cells);
        }
        tally.add(any_call::begin(random, &mut region.bytes(), threads));
        tally.add(any_call::permit(random, &mut region.bytes(), threads));
    }
    tally.has_just(&[&BEGINNINGS[..], &PERMITS].concat(), 50);
}

/// Regions with one word set to another value, one word after the other.
#[test]
fn damaged_regions() {
    let random = &mut Random::new(95);
    let mut tally = Tally::default();
    for shape in SHAPES {
        let laid_out = Words::of(&Queue::open_to_all(shape).bytes);
        let no_free_cell = laid_out.with(FIRST_FREE_CELL, 0);
        for region in [laid_out, no_free_cell, Words::any_readable(random, shape)] {
            for at in 0..region.words.len() {
                for value in telling_values(&region, at.max(4)) {
                    let damaged = region.with(at, value).bytes();
                    tally.add(any_call::begin(random, &mut damaged.clone(), shape.threads));
                    tally.add(any_call::permit(random, &mut damaged.clone(), shape.threads));
                }
            }
        }
    }
    let unreadable = [Put(7), Take(7), List(7), Permit(7)];
    tally.has_just(&[&BEGINNINGS[..], &PERMITS, &unreadable].concat(), 50);
}

#[test]
fn regions_of_another_length() {
    let random = &mut Random::new(96);
    for shape in SHAPES {
        let bytes = Words::any_readable(random, shape).bytes();
        for length in (0..bytes.len()).step_by(3).chain(bytes.len() + 1..bytes.len() + 9) {
            let mut region = bytes.clone();
            region.resize(length, 0);
            let outcome = any_call::begin(random, &mut region, shape.threads);
            assert!(matches!(outcome, Put(7) | Take(7) | List(7)), "{outcome:?} of {length} bytes");
            assert_eq!(any_call::permit(random, &mut region, shape.threads), Permit(7));
        }
    }
}
