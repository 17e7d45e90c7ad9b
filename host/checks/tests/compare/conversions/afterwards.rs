//! Calls on a converted region: they answer as the old machine answers on the old region, up to the
//! first turn that it refuses 11, and as the plain implementation of the present form without end.

use std::ops::RangeInclusive;

use checks::old_queue::OldQueue;
use checks::random::Random;
use mound::{Answer, Refusal, Shape};

use super::{by_old, convert};
use crate::any_call::{any_run, beginning, permission, usual_outcomes, Call, Run};
use crate::both::{self, Ran};
use crate::tally::Outcome::{self, RefusedTurn};
use crate::tally::Tally;

const REFUSED_11: Answer = Answer::Refused(Refusal::CounterSpent);

/// A call of any kind but a layout.
enum AnyCall {
    Numbered(Call),
    Run(Run),
}

impl AnyCall {
    fn draw(random: &mut Random, threads: u32) -> AnyCall {
        match random.among(0..=19) {
            0 => AnyCall::Numbered(Call::Check),
            1..=10 => AnyCall::Numbered(beginning(random, threads)),
            11 => AnyCall::Numbered(permission(random, threads)),
            _ => AnyCall::Run(any_run(random, threads)),
        }
    }
}

/// A region and what it was converted from. The old one is gone once a turn has been refused 11
/// there, from which on the two go their own ways.
struct Converted {
    old: Option<OldQueue>,
    bytes: Vec<u8>,
    threads: u32,
}

impl Converted {
    fn of(random: &mut Random, old: OldQueue) -> Converted {
        let bytes = convert(random, &old.bytes);
        let threads = old.shape().threads;
        Converted { old: Some(old), bytes, threads }
    }

    /// Makes a call on both; as long as both answer the same, the one is the other converted.
    fn go_on(&mut self, random: &mut Random, tally: &mut Tally) {
        match AnyCall::draw(random, self.threads) {
            AnyCall::Numbered(call) => {
                let outcome = call.by_both(random, &mut self.bytes);
                tally.add(outcome);
                if let Some(old) = &mut self.old {
                    assert_eq!(by_old::call(old, &call), outcome, "{call:?}");
                }
            }
            AnyCall::Run(run) => {
                let Run { schedule, limit, room } = &run;
                let ran = both::run(random, &mut self.bytes, schedule, *limit, *room);
                tally.add_run(&ran);
                self.compare(&run, &ran);
            }
        }
        if let Some(old) = &self.old {
            assert!(old.converted().bytes == self.bytes, "other bytes");
        }
    }

    /// The old machine's run has the same answers and the same counts; where it refuses a turn 11,
    /// the same answers up to that.
    fn compare(&mut self, run: &Run, ran: &Ran) {
        let Some(old) = &mut self.old else { return };
        let due = by_old::run(old, run);
        match due.answers.iter().position(|&answer| answer == REFUSED_11) {
            None => assert_eq!(*ran, due, "{run:?}"),
            Some(refused) => {
                assert_eq!(ran.answers[..refused], due.answers[..refused], "{run:?}");
                assert!(ran.answers[refused].is_access(), "a counter of 64 bits goes on");
                self.old = None;
            }
        }
    }
}

/// Just these and the usual outcomes came up, each so often at least.
fn has_just_these_beside_the_usual(tally: &Tally, others: &[Outcome], least: u32) {
    tally.has_just(&[&usual_outcomes(), others].concat(), least);
}

/// An old queue of a few threads that calls have worked on, its counters from these on.
fn driven(random: &mut Random, counters: RangeInclusive<u32>) -> OldQueue {
    let shape = random.crowded_shape(1..=8);
    let mut old = OldQueue::laid_out(shape, &random.generous_permissions(shape));
    old.set_counters(random, counters);
    for _ in 0..random.among(0..=60) {
        match AnyCall::draw(random, shape.threads) {
            AnyCall::Numbered(call) => _ = by_old::call(&mut old, &call),
            AnyCall::Run(run) => _ = by_old::run(&mut old, &run),
        }
    }
    old
}

#[test]
fn on_regions_that_calls_have_worked_on() {
    let random = &mut Random::new(220);
    let mut tally = Tally::default();
    for _ in 0..1500 {
        let old = driven(random, 0..=1000);
        let mut converted = Converted::of(random, old);
        (0..100).for_each(|_| converted.go_on(random, &mut tally));
        assert!(converted.old.is_some(), "refused 11 at a small counter");
    }
    has_just_these_beside_the_usual(&tally, &[], 300);
}

/// Old counters come to their end, some of them before the conversion, most of them after it; no
/// turn is refused 11 in the present form.
#[test]
fn on_regions_whose_old_counters_are_nearly_spent() {
    let random = &mut Random::new(221);
    let mut tally = Tally::default();
    let (mut refused, mut agreed) = (0, 0);
    for _ in 0..2000 {
        let old = driven(random, u32::MAX - 12..=u32::MAX);
        let mut converted = Converted::of(random, old);
        for _ in 0..100 {
            converted.go_on(random, &mut tally);
            agreed += u32::from(converted.old.is_some());
        }
        refused += u32::from(converted.old.is_none());
    }
    assert!(refused >= 1000 && agreed >= 20_000, "{refused} refused, {agreed} calls before");
    has_just_these_beside_the_usual(&tally, &[], 300);
}

/// Whatever the fields are, a region goes on as it would have.
#[test]
fn on_any_readable_regions() {
    let random = &mut Random::new(222);
    let mut tally = Tally::default();
    for _ in 0..6000 {
        let shape = Shape { threads: random.among(1..=4), ..random.shape(5) };
        let old = OldQueue::any_readable(random, shape);
        let mut converted = Converted::of(random, old);
        (0..20).for_each(|_| converted.go_on(random, &mut tally));
    }
    has_just_these_beside_the_usual(&tally, &[RefusedTurn(7)], 300);
}
