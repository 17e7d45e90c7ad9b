//! What is measured: calls on a region, with the region as it stands before them; or on records, or
//! on a script.

use checks::ending_scripts::LongScript;
use checks::old_queue::OldQueue;
use mound::{Permission, Record, Shape, Verdict};

use crate::native;
use crate::play::Call;
use crate::record::Recorder;

/// Puts and takes of a work of pairs.
pub const PAIRS: u32 = 32;

/// Calls to be made on a region.
#[derive(Default)]
pub struct Work {
    /// The region before the calls, or the records, or the script.
    pub start: Vec<u8>,
    /// The bytes that the calls' answers need: twelve for each turn, those of a region that is
    /// converted, or those of a script that is cut.
    pub answer_bytes: usize,
    pub calls: Vec<Call>,
    /// The turns of all runs, eight bytes each.
    pub schedule: Vec<u8>,
    /// The turns of all runs, and how many of them are accesses.
    pub turns: u32,
    pub accesses: u32,
}

impl Work {
    pub fn call_count(&self) -> u32 {
        u32::try_from(self.calls.len()).expect("a work has few calls")
    }

    /// One run in which every second thread has begun a take and each other one a put, with half of
    /// the cells in use. Each turn is that of a thread drawn from those that are not answered, or
    /// from all when none is left.
    pub fn crossing_operations(shape: Shape, turns: u32) -> Work {
        Work::takes_and_puts(shape, |_| {}, |recorder| recorder.run_crossing(turns))
    }

    /// The same, each thread with the one permission that it needs.
    pub fn crossing_by_single_permissions(shape: Shape, turns: u32) -> Work {
        let permit = Recorder::permit_takes_and_puts;
        Work::takes_and_puts(shape, permit, |recorder| recorder.run_crossing(turns))
    }

    /// A turn of each thread, in which its take or its put is withdrawn.
    pub fn withdrawn_operations(shape: Shape) -> Work {
        let permit = Recorder::permit_nothing;
        Work::takes_and_puts(shape, permit, |recorder| recorder.run_in_turn(shape.threads))
    }

    /// A run, with takes and puts begun before it and permissions set.
    fn takes_and_puts(
        shape: Shape,
        permit: impl Fn(&mut Recorder),
        run: impl Fn(&mut Recorder),
    ) -> Work {
        let mut recorder = Recorder::holding(shape, shape.cells / 2);
        recorder.begin_takes_and_puts();
        permit(&mut recorder);
        let mut recorder = recorder.started();
        run(&mut recorder);
        recorder.work()
    }

    /// One run of puts that never end: each leaf holds a lesser item.
    pub fn endless_puts(shape: Shape, turns: u32) -> Work {
        let mut recorder = Recorder::with_occupied_leaves(shape);
        recorder.begin_greatest_puts();
        let mut recorder = recorder.started();
        recorder.run_in_turn(turns);
        recorder.work()
    }

    /// The run of a put that finds its leaf by walking, in a tree as full as it gets.
    pub fn walking_put(shape: Shape) -> Work {
        Recorder::with_full_left_half(shape).run_greatest_put().work()
    }

    /// Puts and takes by thread 1, one after the other, in a queue that holds this many items.
    pub fn pairs(shape: Shape, items: u32) -> Work {
        let mut recorder = Recorder::holding(shape, items);
        for _ in 0..PAIRS {
            recorder.put_and_run();
            recorder.take_and_run();
        }
        recorder.work()
    }

    /// A list by thread 1 of all items at the root, this many; the other cells are in use below it.
    pub fn list(shape: Shape, items: u32) -> Work {
        let mut recorder = Recorder::with_list_at_root(shape, items);
        recorder.list();
        recorder.run_until_taken(items);
        recorder.work()
    }

    /// The run of such a list alone.
    pub fn turns_of_a_list(shape: Shape, items: u32) -> Work {
        let mut recorder = Recorder::with_list_at_root(shape, items);
        recorder.list();
        let mut recorder = recorder.started();
        recorder.run_until_taken(items);
        recorder.work()
    }

    /// As many takes by thread 1, one after the other, of the same items.
    pub fn takes(shape: Shape, items: u32) -> Work {
        let mut recorder = Recorder::with_list_at_root(shape, items);
        for _ in 0..items {
            recorder.take_and_run();
        }
        recorder.work()
    }

    /// This many permits to the last thread of a region that is laid out, put alone and both in
    /// turn.
    pub fn permits(shape: Shape, permits: u32) -> Work {
        let mut recorder = Recorder::holding(shape, 0);
        for permit in 0..permits {
            let put_alone = permit % 2 == 0;
            let permission = if put_alone { Permission::PUT } else { Permission::PUT_AND_TAKE };
            recorder.permit(shape.threads, permission);
        }
        recorder.work()
    }

    /// This many checks of a region that is laid out.
    pub fn checks(shape: Shape, checks: usize) -> Work {
        let mut work = Recorder::holding(shape, 0).work();
        work.calls = vec![Call::Check; checks];
        work
    }

    /// This many conversions of a region of the old form that is laid out.
    pub fn conversions(shape: Shape, conversions: usize) -> Work {
        let start = OldQueue::open_to_all(shape).bytes;
        let answer_bytes = shape.byte_len().expect("a shape in range");
        Work { start, answer_bytes, calls: vec![Call::Convert; conversions], ..Work::default() }
    }

    /// This many checks of the records of so many operations, which are accepted.
    pub fn records(operations: u32, checks: usize) -> Work {
        let records = native::records(operations);
        let start: Vec<u8> = records.into_iter().flat_map(Record::to_bytes).collect();
        assert_eq!(mound::check_records(&start), Ok(Verdict::Accepted));
        assert_eq!(plain::check_records_by_position(&start), Ok(Verdict::Accepted));
        Work { start, calls: vec![Call::Records; checks], ..Work::default() }
    }

    /// A cut of a script for the number that it shows.
    pub fn cut(script: &LongScript) -> Work {
        let start = script.text.clone().into_bytes();
        let calls = vec![Call::Cut { number: script.number }];
        Work { answer_bytes: start.len(), start, calls, ..Work::default() }
    }

    /// The same calls on bytes in which the word behind this many others is out of any range.
    pub fn with_bad_word(mut self, words_before: usize) -> Work {
        self.start[4 * words_before..][..4].copy_from_slice(&u32::MAX.to_le_bytes());
        self
    }

    /// The same turns, each in a run of its own.
    pub fn one_turn_a_run(self) -> Work {
        let calls = (0..self.turns as usize).map(|turn| Call::Run(turn..turn + 1)).collect();
        Work { calls, ..self }
    }
}
