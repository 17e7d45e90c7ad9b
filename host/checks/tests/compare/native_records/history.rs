//! A history of the library on a laid-out region, without lists, and a recorder beside it that is
//! told each moment.

use std::ops::RangeInclusive;

use checks::fields::place;
use checks::native::RecordWords;
use checks::queue::{Call, Queue};
use checks::random::Random;
use checks::recorder::Recorder;
use mound::{Answer, Record, Shape};

use crate::any_call;
use crate::both;
use crate::tally::Outcome;

/// The most turns that a random call serves.
pub const MOST_TURNS: u32 = 60;

pub struct History {
    pub queue: Queue,
    pub recorder: Recorder,
    /// The keys that are put, but for one that is refused; and the puts among ten beginnings.
    keys: RangeInclusive<u32>,
    puts: u32,
    /// How many calls were refused, and how many operations withdrawn.
    pub refused: usize,
    pub withdrawn: usize,
}

impl History {
    pub fn laid_out(random: &mut Random, shape: Shape, permissions: &[u8]) -> History {
        let mut bytes = random.bytes(shape.byte_len().expect("a shape in range"));
        assert_eq!(both::layout(random, &mut bytes, shape, permissions), 0);
        History {
            queue: Queue { bytes },
            recorder: Recorder::default(),
            keys: 0..=random.one_of(&[0, 3, 100, u32::MAX - 1]),
            puts: random.among(3..=7),
            refused: 0,
            withdrawn: 0,
        }
    }

    /// An empty queue of at most 6 levels and 16 threads, most of which may put and take.
    pub fn start(random: &mut Random) -> History {
        let depth = random.among(1..=6);
        let shape = Shape {
            depth,
            cells: random.among_or_extreme(1..=1 << (depth - 1)),
            threads: random.among_or_extreme(1..=16),
            threshold: random.among_or_extreme(1..=16),
        };
        let permissions = random.generous_permissions(shape);
        History::laid_out(random, shape, &permissions)
    }

    /// Makes any call, which serves so many turns at most.
    pub fn go_on(&mut self, random: &mut Random, most_turns: u32) {
        let shape = self.queue.shape();
        match random.among(0..=29) {
            0 => {
                any_call::refused_layout(random, &mut self.queue.bytes, shape);
                self.called_otherwise(true);
            }
            1 => {
                assert!(both::is_readable(&self.queue.bytes));
                self.called_otherwise(false);
            }
            2 => {
                let set = any_call::permit(random, &mut self.queue.bytes, shape.threads);
                self.called_otherwise(set != Outcome::Permit(0));
            }
            3..=14 => self.begin_any(random, shape.threads),
            _ => self.run_any(random, shape.threads, most_turns),
        }
    }

    fn begin_any(&mut self, random: &mut Random, threads: u32) {
        let thread = any_call::any_thread(random, threads);
        let any_key = random.among(self.keys.clone());
        let key = if random.among(0..=19) == 0 { u32::MAX } else { any_key };
        let item = (key, random.one_of(&[0, 1, 2, 65_535]));
        let is_put = random.among(1..=10) <= self.puts;
        self.begin(random, thread, if is_put { Call::Put(item) } else { Call::Take });
    }

    /// Runs any schedule, now and then with a part of a turn, for which it is refused.
    fn run_any(&mut self, random: &mut Random, threads: u32, most_turns: u32) {
        let turns = random.one_of(&[0, 1, 2, 5, 10, 30, MOST_TURNS]).min(most_turns);
        let mut schedule = any_call::schedule(random, threads, turns);
        if random.among(0..=19) == 0 {
            schedule.pop();
        }
        let limit = random.one_of(&[0, 1, 2, 7, u32::MAX, u32::MAX, u32::MAX]);
        self.run(random, &schedule, limit);
    }

    pub fn begin(&mut self, random: &mut Random, thread: u32, call: Call) {
        let region = &mut self.queue.bytes;
        let number = match call {
            Call::Put((key, tag)) => both::put(random, region, thread, key, tag),
            Call::Take => both::take(random, region, thread),
            Call::List => panic!("histories here are without lists"),
        };
        self.refused += usize::from(number != 0);
        self.recorder.called(thread, call, number == 0);
    }

    pub fn permit(&mut self, random: &mut Random, thread: u32, permission: u32) {
        let number = both::permit(random, &mut self.queue.bytes, thread, permission);
        self.called_otherwise(number != 0);
    }

    /// Runs a schedule. The library serves its turns once more, each by itself, so that the places
    /// between them are seen.
    pub fn run(&mut self, random: &mut Random, schedule: &[u8], limit: u32) {
        let mut after = self.queue.bytes.clone();
        let ran = both::run(random, &mut after, schedule, limit, 12 * schedule.len());
        for (turn, &answer) in schedule.chunks_exact(8).zip(&ran.answers) {
            self.turn(random, turn, answer);
        }
        assert!(self.queue.bytes == after, "turn by turn other bytes");
        self.called_otherwise(ran.result.is_err());
    }

    fn turn(&mut self, random: &mut Random, turn: &[u8], due: Answer) {
        let before = self.queue.clone();
        let ran = both::run(random, &mut self.queue.bytes, turn, 1, 12);
        assert_eq!(ran.answers, [due]);
        let thread = u32::from_le_bytes(*turn.first_chunk().expect("a turn has two words"));
        self.recorder.turned(thread, due, (&before, &self.queue));
        self.withdrawn += usize::from(due == Answer::Withdrawn);
    }

    fn called_otherwise(&mut self, refused: bool) {
        self.refused += usize::from(refused);
        self.recorder.called_otherwise();
    }

    /// The operations that have begun and not decided.
    pub fn undecided(&self) -> usize {
        let threads = 1..=self.queue.shape().threads;
        let busy = threads.filter(|&thread| self.queue.place(thread) != place::IDLE);
        busy.count() - self.recorder.unanswered()
    }

    /// The records' words, by position.
    pub fn records(&self) -> Vec<RecordWords> {
        self.recorder.records().into_iter().map(Record::words).collect()
    }
}
