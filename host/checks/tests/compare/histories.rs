//! Histories: calls of every kind one after the other, on regions of every kind.

use std::ops::RangeInclusive;

use checks::fields::{Field, Words};
use checks::queue::Queue;
use checks::random::Random;
use mound::Shape;

use crate::any_call::{self, usual_outcomes, BEGINNINGS, PERMITS};
use crate::any_region::any_region;
use crate::both;
use crate::damaged::telling_values;
use crate::tally::Outcome::{self, Check, Layout, List, Permit, Put, RefusedTurn, Run, Take, Turn};
use crate::tally::Tally;

/// Just layouts, the usual outcomes and these came up, each so often at least.
fn has_just_these_beside_the_usual(tally: &Tally, others: &[Outcome], least: u32) {
    let layouts = [Layout(1), Layout(2)];
    tally.has_just(&[&layouts, &usual_outcomes()[..], others].concat(), least);
}

/// An empty queue of a few threads, most of which may put and take.
pub fn laid_out(random: &mut Random) -> Queue {
    let shape = random.crowded_shape(1..=8);
    Queue::laid_out(shape, &random.generous_permissions(shape))
}

fn make_calls(random: &mut Random, queue: &mut Queue, calls: u32, tally: &mut Tally) {
    let shape = queue.shape();
    for _ in 0..calls {
        any_call::any(random, &mut queue.bytes, shape, tally);
    }
}

/// Sets each node's counter to one of these.
fn set_counters(random: &mut Random, queue: &mut Queue, counters: RangeInclusive<u64>) {
    for node in 1..1 << queue.shape().depth {
        queue.set_counter(queue.node_at(node), random.wide_among(counters.clone()));
    }
}

#[test]
fn of_laid_out_regions() {
    let random = &mut Random::new(100);
    let mut tally = Tally::default();
    for _ in 0..3000 {
        let mut queue = laid_out(random);
        make_calls(random, &mut queue, 150, &mut tally);
    }
    has_just_these_beside_the_usual(&tally, &[], 500);
}

#[test]
fn of_regions_whose_counters_are_nearly_spent() {
    let random = &mut Random::new(101);
    let mut tally = Tally::default();
    for _ in 0..2000 {
        let mut queue = laid_out(random);
        set_counters(random, &mut queue, u64::MAX - 10..=u64::MAX);
        make_calls(random, &mut queue, 100, &mut tally);
    }
    has_just_these_beside_the_usual(&tally, &[RefusedTurn(11)], 500);
}

/// The low words come to their ends, and the high words grow.
#[test]
fn of_regions_whose_counters_leave_32_bits() {
    let random = &mut Random::new(105);
    let mut tally = Tally::default();
    let last_of_32_bits = u64::from(u32::MAX);
    for _ in 0..2000 {
        let mut queue = laid_out(random);
        set_counters(random, &mut queue, last_of_32_bits - 10..=last_of_32_bits);
        make_calls(random, &mut queue, 100, &mut tally);
    }
    has_just_these_beside_the_usual(&tally, &[], 500);
}

#[test]
fn of_any_readable_regions() {
    let random = &mut Random::new(102);
    let mut tally = Tally::with_tries();
    for _ in 0..4000 {
        let mut queue = any_region(random);
        make_calls(random, &mut queue, 30, &mut tally);
    }
    has_just_these_beside_the_usual(&tally, &[RefusedTurn(7), RefusedTurn(11)], 500);
    tally.has_all_tries_but(&[], 5);
}

/// A few words are set to other values again and again; where the region is not readable after it,
/// every call is refused, and the old words are stored again.
#[test]
fn of_damaged_regions() {
    let random = &mut Random::new(103);
    let mut tally = Tally::default();
    for _ in 0..1500 {
        let mut queue = laid_out(random);
        for _ in 0..8 {
            make_calls(random, &mut queue, 10, &mut tally);
            let whole = queue.clone();
            for _ in 0..random.among(1..=3) {
                let region = Words::of(&queue.bytes);
                let at = random.index(4..region.words.len());
                let value = random.one_of(&telling_values(&region, at));
                queue.set_word(at, value);
                // Both words of a counter have to be at their ends for it to be spent.
                if region.field(at) == Field::CounterLow {
                    queue.set_word(at + 1, value);
                }
            }
            if !both::is_readable(&queue.bytes) {
                make_calls(random, &mut queue, 3, &mut tally);
                queue = whole;
            }
        }
    }
    let calls = [Put(7), Take(7), List(7), Permit(7), Check(7), Run(7)];
    let turns = [RefusedTurn(7), RefusedTurn(11)];
    has_just_these_beside_the_usual(&tally, &[&calls[..], &turns].concat(), 100);
}

/// All threads are busy again before each run of as many turns as a run may have, and some of them
/// have got another permission by then.
#[test]
#[cfg_attr(debug_assertions, ignore = "slow without --release")]
fn of_the_largest_shape() {
    let random = &mut Random::new(104);
    let mut tally = Tally::default();
    let Shape { threads, .. } = Shape::LARGEST;
    for _ in 0..4 {
        let mut queue = Queue::open_to_all(Shape { threshold: 2, ..Shape::LARGEST });
        for run in 0..40 {
            if run == 30 {
                set_counters(random, &mut queue, u64::MAX - 10..=u64::MAX);
            }
            for _ in 0..2 * threads {
                tally.add(any_call::begin(random, &mut queue.bytes, threads));
            }
            for _ in 0..threads / 4 {
                tally.add(any_call::permit(random, &mut queue.bytes, threads));
            }
            let turns = random.one_of(&[4096, 4096, 4096, 4097]);
            let schedule = any_call::schedule(random, threads, turns);
            let limit = random.one_of(&[u32::MAX, u32::MAX, 4096, 100]);
            let ran = both::run(random, &mut queue.bytes, &schedule, limit, 12 * 4097);
            tally.add_run(&ran);
        }
    }
    let with_a_free_cell: Vec<Outcome> =
        BEGINNINGS.into_iter().filter(|&outcome| outcome != Put(10)).collect();
    let runs = [Run(0), Run(6), Turn(0), Turn(1), Turn(2), Turn(3), Turn(4), Turn(6)];
    let refused = [RefusedTurn(3), RefusedTurn(11)];
    tally.has_just(&[&with_a_free_cell[..], &PERMITS, &runs, &refused].concat(), 20);
}
