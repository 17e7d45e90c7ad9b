//! Rounds of measurements of both implementations, and medians over the rounds.

use std::time::Instant;

use crate::play::{play, Library, Plain, Queue};
use crate::work::Work;

/// How often a work is measured: fewer times where one implementation would take longer than this
/// for all of them.
pub const ROUNDS: usize = 1001;
const FEWEST_ROUNDS: usize = 25;
const NANOSECONDS_OF_ROUNDS: f64 = 1e9;

/// How long the work of one measurement takes, about: it is played on several copies of the region,
/// but on no more than fit in a cache of this size.
const NANOSECONDS: f64 = 100_000.0;
const CACHE: usize = 512 * 1024;

/// Nanoseconds of one unit of a work by each implementation, and the library's time divided by the
/// plain implementation's.
pub struct Times {
    pub library: f64,
    pub plain: f64,
    pub ratio: f64,
}

/// The medians over all rounds, after a test that both leave the same bytes.
pub fn measure(work: &Work, units: u32) -> Times {
    let mut bench = Bench::of(work);
    bench.compare();
    let rounds = in_turn(bench.rounds, &mut bench, Bench::time::<Library>, Bench::time::<Plain>);
    let units = f64::from(units);
    Times {
        library: median(rounds.iter().map(|(library, _)| library / units).collect()),
        plain: median(rounds.iter().map(|(_, plain)| plain / units).collect()),
        ratio: median(rounds.iter().map(|(library, plain)| library / plain).collect()),
    }
}

/// The library's time for a call of one work, divided by that for a call of another: the median
/// over rounds of both.
pub fn share(part: &Work, whole: &Work) -> f64 {
    let mut benches = (Bench::of(part), Bench::of(whole));
    let rounds = in_turn(
        ROUNDS,
        &mut benches,
        |(part, _)| part.time::<Library>() / f64::from(part.work.call_count()),
        |(_, whole)| whole.time::<Library>() / f64::from(whole.work.call_count()),
    );
    median(rounds.iter().map(|(part, whole)| part / whole).collect())
}

/// Both measurements in each round; which of them is first alternates.
fn in_turn<B>(
    rounds: usize,
    bench: &mut B,
    one: impl Fn(&mut B) -> f64,
    other: impl Fn(&mut B) -> f64,
) -> Vec<(f64, f64)> {
    let round = |round: usize| {
        if round.is_multiple_of(2) {
            let by_one = one(bench);
            (by_one, other(bench))
        } else {
            let by_other = other(bench);
            (one(bench), by_other)
        }
    };
    (0..rounds).map(round).collect()
}

/// Nanoseconds since then.
pub fn nanoseconds_since(start: Instant) -> f64 {
    1e9 * start.elapsed().as_secs_f64()
}

pub fn median(mut values: Vec<f64>) -> f64 {
    values.sort_by(f64::total_cmp);
    values[values.len() / 2]
}

/// A work with the memory to play it in.
struct Bench<'a> {
    work: &'a Work,
    rounds: usize,
    regions: Vec<u8>,
    answers: Vec<u8>,
}

impl Bench<'_> {
    #[allow(
        clippy::cast_possible_truncation,
        clippy::cast_precision_loss,
        clippy::cast_sign_loss,
        reason = "a time is above 0, and the number of copies no greater than the cache allows"
    )]
    fn of(work: &Work) -> Bench<'_> {
        let answers = vec![0; work.answer_bytes];
        let mut once = Bench { work, rounds: 0, regions: work.start.clone(), answers };
        let fastest = (0..20).map(|_| once.time::<Plain>()).fold(f64::INFINITY, f64::min);
        let copies = ((NANOSECONDS / fastest) as usize).min(CACHE / work.start.len()).max(1);
        once.regions = work.start.repeat(copies);
        let rounds = NANOSECONDS_OF_ROUNDS / (fastest * copies as f64);
        once.rounds = (rounds as usize).clamp(FEWEST_ROUNDS, ROUNDS);
        once
    }

    /// Nanoseconds of playing the work once, from one measurement of all copies.
    #[allow(clippy::cast_precision_loss, reason = "the copies fit into a cache")]
    fn time<Q: Queue>(&mut self) -> f64 {
        let length = self.work.start.len();
        let copies = self.regions.chunks_exact_mut(length);
        let count = copies.len() as f64;
        copies.for_each(|region| region.copy_from_slice(&self.work.start));
        let start = Instant::now();
        for region in self.regions.chunks_exact_mut(length) {
            play::<Q>(self.work, region, &mut self.answers);
        }
        nanoseconds_since(start) / count
    }

    /// Both leave the same region and answers.
    fn compare(&mut self) {
        self.time::<Library>();
        let by_library = (self.regions.clone(), self.answers.clone());
        self.time::<Plain>();
        assert!(by_library == (self.regions.clone(), self.answers.clone()), "not the same bytes");
    }
}
