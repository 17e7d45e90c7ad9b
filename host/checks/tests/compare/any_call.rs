//! Calls with any arguments, most of them such that the call is not refused for them.

use checks::queue::Queue;
use checks::random::Random;
use mound::Shape;

use crate::both;
use crate::tally::Outcome::{self, Check, Layout, List, Permit, Put, RefusedTurn, Take, Turn};
use crate::tally::Tally;

/// What beginnings answer in readable regions: begun, or refused.
pub const BEGINNINGS: [Outcome; 14] = [
    Put(0),
    Put(3),
    Put(4),
    Put(8),
    Put(9),
    Put(10),
    Take(0),
    Take(3),
    Take(8),
    Take(9),
    List(0),
    List(3),
    List(8),
    List(9),
];

/// What setting a permission answers there.
pub const PERMITS: [Outcome; 3] = [Permit(0), Permit(1), Permit(3)];

/// What checks, runs and their turns answer in regions that were laid out.
const CHECKS_RUNS_AND_TURNS: [Outcome; 11] = [
    Check(0),
    Outcome::Run(0),
    Outcome::Run(5),
    Outcome::Run(6),
    Turn(0),
    Turn(1),
    Turn(2),
    Turn(3),
    Turn(4),
    Turn(6),
    RefusedTurn(3),
];

/// What all calls but layouts answer there.
pub fn usual_outcomes() -> Vec<Outcome> {
    [&BEGINNINGS[..], &PERMITS, &CHECKS_RUNS_AND_TURNS].concat()
}

/// A call with its arguments, of those that answer a number.
#[derive(Debug)]
pub enum Call {
    Put { thread: u32, key: u32, tag: u32 },
    Take { thread: u32 },
    List { thread: u32 },
    Permit { thread: u32, permission: u32 },
    Check,
}

impl Call {
    /// Made on the region by the library and by the plain implementation.
    pub fn by_both(&self, random: &mut Random, region: &mut [u8]) -> Outcome {
        match *self {
            Call::Put { thread, key, tag } => Put(both::put(random, region, thread, key, tag)),
            Call::Take { thread } => Take(both::take(random, region, thread)),
            Call::List { thread } => List(both::list(random, region, thread)),
            Call::Permit { thread, permission } => {
                Permit(both::permit(random, region, thread, permission))
            }
            Call::Check => Check(if both::is_readable(region) { 0 } else { 7 }),
        }
    }
}

/// A run with its arguments.
#[derive(Debug)]
pub struct Run {
    pub schedule: Vec<u8>,
    pub limit: u32,
    /// The bytes for answers.
    pub room: usize,
}

/// Makes any call on a region that was laid out by that shape, so that no layout is accepted by
/// another.
pub fn any(random: &mut Random, region: &mut [u8], shape: Shape, tally: &mut Tally) {
    match random.among(0..=19) {
        0 => tally.add(Layout(refused_layout(random, region, shape))),
        1 => tally.add(Call::Check.by_both(random, region)),
        2..=11 => tally.add(begin(random, region, shape.threads)),
        12 => tally.add(permit(random, region, shape.threads)),
        _ => run(random, region, shape.threads, tally),
    }
}

/// Begins a put, a take or a list.
pub fn begin(random: &mut Random, region: &mut [u8], threads: u32) -> Outcome {
    beginning(random, threads).by_both(random, region)
}

/// A put, a take or a list.
pub fn beginning(random: &mut Random, threads: u32) -> Call {
    let thread = any_thread(random, threads);
    match random.among(0..=8) {
        0 => return Call::List { thread },
        1 | 2 => return Call::Take { thread },
        _ => {}
    }
    let key = match random.among(0..=9) {
        0 => u32::MAX,
        // Few enough that equal keys meet.
        1..=4 => random.among(0..=9),
        _ => random.among_or_extreme(0..=u32::MAX - 1),
    };
    let tag = match random.among(0..=9) {
        0 => random.one_of(&[65_536, 1 << 31, u32::MAX]),
        _ => random.among_or_extreme(0..=65_535),
    };
    Call::Put { thread, key, tag }
}

/// Sets a permission.
pub fn permit(random: &mut Random, region: &mut [u8], threads: u32) -> Outcome {
    permission(random, threads).by_both(random, region)
}

/// A permit, half of the time of both bits, so that operations go on.
pub fn permission(random: &mut Random, threads: u32) -> Call {
    let thread = any_thread(random, threads);
    let permission = match random.among(0..=9) {
        0 => random.one_of(&[4, 5, 7, 255, 256, 1 << 16, 1 << 31, u32::MAX]),
        1..=5 => 3,
        _ => random.among(0..=2),
    };
    Call::Permit { thread, permission }
}

/// A thread, one in ten of which does not exist.
pub fn any_thread(random: &mut Random, threads: u32) -> u32 {
    match random.among(0..=9) {
        0 => random.one_of(&[0, threads + 1, 65, u32::MAX]),
        _ => random.among(1..=threads),
    }
}

fn run(random: &mut Random, region: &mut [u8], threads: u32, tally: &mut Tally) {
    let Run { schedule, limit, room } = any_run(random, threads);
    let before = Queue { bytes: region.to_vec() };
    let ran = both::run(random, region, &schedule, limit, room);
    tally.add_run(&ran);
    tally.add_tries(before, &schedule, &ran);
}

/// A run. Some schedules are no whole turns or have too little room for answers, and many limits
/// are 0 or small.
pub fn any_run(random: &mut Random, threads: u32) -> Run {
    let turns = random.one_of(&[0, 1, 1, 2, 3, 4, 5, 7, 10, 15, 30]);
    let mut schedule = schedule(random, threads, turns);
    let mut room = 12 * turns as usize;
    match random.among(0..=19) {
        0 => schedule.truncate(schedule.len().saturating_sub(random.among(1..=7) as usize)),
        1 => room = room.saturating_sub(random.among(1..=40) as usize),
        2 => room += random.among(1..=40) as usize,
        _ => {}
    }
    let limit = random.one_of(&[0, 1, 2, 7, turns, u32::MAX, u32::MAX, u32::MAX]);
    Run { schedule, limit, room }
}

/// So many turns, a few of them of threads that do not exist.
pub fn schedule(random: &mut Random, threads: u32, turns: u32) -> Vec<u8> {
    let mut turn = || {
        let thread = match random.among(0..=39) {
            0 => random.one_of(&[0, threads + 1, u32::MAX]),
            _ => random.among(1..=threads),
        };
        [thread, random.among_or_extreme(0..=u32::MAX)]
    };
    (0..turns).flat_map(|_| turn()).flat_map(u32::to_le_bytes).collect()
}

/// Lays out again by a shape or permissions that are refused.
pub fn refused_layout(random: &mut Random, region: &mut [u8], shape: Shape) -> u32 {
    let mut permissions = random.permissions(shape);
    let mut other = shape;
    match random.among(0..=3) {
        0 => {
            // Another length, or 65 threads.
            other.threads += 1;
            permissions.push(3);
        }
        1 => other.threshold = random.one_of(&[0, 17, u32::MAX]),
        2 => permissions.push(0),
        _ => permissions[0] = 4,
    }
    let number = both::layout(random, region, other, &permissions);
    assert_ne!(number, 0, "laid out again by {other:?}");
    number
}
