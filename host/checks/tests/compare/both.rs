//! A call made twice, to the library and to the plain implementation, and its outcomes compared.

use std::fmt::Debug;
use std::ops::Range;

use checks::random::Random;
use mound::{calls, Answer, Refusal, Served, Shape, Verdict};

/// Random bytes before and after a lent slice that no call may touch.
const GUARD: usize = 40;

/// A copy of a slice between guards, anywhere in memory.
#[derive(Clone, PartialEq)]
struct Lent {
    memory: Vec<u8>,
    at: Range<usize>,
}

impl Lent {
    fn copy_of(random: &mut Random, slice: &[u8]) -> Lent {
        let start = GUARD + random.among(0..=7) as usize;
        let at = start..start + slice.len();
        let mut memory = random.bytes(at.end + GUARD);
        memory[at.clone()].copy_from_slice(slice);
        Lent { memory, at }
    }

    fn slice(&mut self) -> &mut [u8] {
        &mut self.memory[self.at.clone()]
    }
}

/// Makes a call on copies of slices; answers the call's number, whose first 16 bits are the
/// refusal. The two must leave the same bytes, the guards among them, and a refused call the old
/// ones. The slices are then as they left them.
fn change<const N: usize, Number: Copy + Debug + PartialEq + Into<u64>>(
    random: &mut Random,
    slices: [&mut [u8]; N],
    what: impl Fn() -> String,
    by_library: impl Fn([&mut [u8]; N]) -> Number,
    by_plain: impl Fn([&mut [u8]; N]) -> Number,
) -> Number {
    let before = slices.each_ref().map(|slice| Lent::copy_of(random, slice));
    let mut left_by_library = before.clone();
    let number = by_library(left_by_library.each_mut().map(Lent::slice));
    let mut left_by_plain = before.clone();
    let due = by_plain(left_by_plain.each_mut().map(Lent::slice));

    assert_eq!(number, due, "{}", what());
    assert!(left_by_library == left_by_plain, "other bytes after {}", what());
    let refused = number.into() as u16 != 0;
    assert!(!refused || left_by_library == before, "changed by a refused {}", what());
    for (slice, mut left) in slices.into_iter().zip(left_by_plain) {
        slice.copy_from_slice(left.slice());
    }
    number
}

/// Lays a region out.
pub fn layout(random: &mut Random, region: &mut [u8], shape: Shape, permissions: &[u8]) -> u32 {
    let Shape { depth, cells, threads, threshold } = shape;
    let length = region.len();
    change(
        random,
        [region],
        || format!("layout of {length} bytes, {shape:?}, permissions {permissions:?}"),
        |[region]| calls::layout(region, depth, cells, threads, threshold, permissions),
        |[region]| number_of(plain::layout(region, shape, permissions)),
    )
}

/// Begins a put.
pub fn put(random: &mut Random, region: &mut [u8], thread: u32, key: u32, tag: u32) -> u32 {
    let before = region.to_vec();
    change(
        random,
        [region],
        || format!("put of {key} {tag} by thread {thread} in {:?}", Start(&before)),
        |[region]| calls::put(region, thread, key, tag),
        |[region]| number_of(plain::put(region, thread, key, tag)),
    )
}

/// Begins a take.
pub fn take(random: &mut Random, region: &mut [u8], thread: u32) -> u32 {
    begin(random, region, thread, "take", calls::take, plain::take)
}

/// Begins a list.
pub fn list(random: &mut Random, region: &mut [u8], thread: u32) -> u32 {
    begin(random, region, thread, "list", calls::list, plain::list)
}

/// Sets a permission.
pub fn permit(random: &mut Random, region: &mut [u8], thread: u32, permission: u32) -> u32 {
    let before = region.to_vec();
    change(
        random,
        [region],
        || format!("permit of {permission} to thread {thread} in {:?}", Start(&before)),
        |[region]| calls::permit(region, thread, permission),
        |[region]| number_of(plain::permit(region, thread, permission)),
    )
}

/// Begins an operation that is told its thread alone.
fn begin(
    random: &mut Random,
    region: &mut [u8],
    thread: u32,
    name: &str,
    by_library: fn(&mut [u8], u32) -> u32,
    by_plain: fn(&mut [u8], u32) -> Result<(), Refusal>,
) -> u32 {
    let before = region.to_vec();
    change(
        random,
        [region],
        || format!("{name} by thread {thread} in {:?}", Start(&before)),
        |[region]| by_library(region, thread),
        |[region]| number_of(by_plain(region, thread)),
    )
}

/// What a run answered.
#[derive(Debug, PartialEq)]
pub struct Ran {
    pub result: Result<Served, Refusal>,
    /// The answers of the turns served.
    pub answers: Vec<Answer>,
}

/// Runs a schedule with this many bytes of room for answers. The bytes past the last answer must
/// stay as they were, and the counts fit the answers and the limit.
pub fn run(
    random: &mut Random,
    region: &mut [u8],
    schedule: &[u8],
    limit: u32,
    room: usize,
) -> Ran {
    let before = region.to_vec();
    let unwritten = random.bytes(room);
    let mut answers = unwritten.clone();
    let what = || format!("run of {schedule:?} up to {limit} in {:?}", Start(&before));
    let packed = change(
        random,
        [region, &mut schedule.to_vec(), &mut answers],
        what,
        |[region, schedule, answers]| calls::run(region, schedule, limit, answers),
        |[region, schedule, answers]| packed(plain::run(region, schedule, limit, answers)),
    );
    let (refusal, turns) = (packed as u16, (packed >> 16) as u16);
    let accesses = (packed >> 32) as u32;

    let (written, rest) = answers.split_at(12 * usize::from(turns));
    assert!(rest == &unwritten[written.len()..], "written past the last answer of {}", what());
    let answers = answers_of(written);
    let made = answers.iter().filter(|answer| answer.is_access()).count();
    assert_eq!(made, accesses as usize, "accesses of {}", what());
    let ended = accesses == limit || refusal != 0 || usize::from(turns) == schedule.len() / 8;
    assert!(ended && accesses <= limit, "turns served of {}", what());

    let served = Served { turns: turns.into(), accesses };
    let result = Refusal::try_from(u32::from(refusal)).map_or(Ok(served), Err);
    Ran { result, answers }
}

/// Checks a region; the two must answer the same number and the library leave the bytes alone.
pub fn is_readable(region: &[u8]) -> bool {
    let before = region.to_vec();
    let number = calls::check(region);
    assert_eq!(number, number_of(plain::check(&before)), "check of {:?}", Start(region));
    assert!(region == before, "a check changed {:?}", Start(region));
    number == 0
}

/// Converts a region of the old form.
pub fn convert(random: &mut Random, old: &[u8], new: &mut [u8]) -> u32 {
    let length = new.len();
    change(
        random,
        [&mut old.to_vec(), new],
        || format!("conversion to {length} bytes of {:?}", Start(old)),
        |[old, new]| calls::convert(old, new),
        |[old, new]| number_of(plain::convert(old, new)),
    )
}

/// Checks records; the fast checker must answer the same as the two.
pub fn check_records(random: &mut Random, records: &[u8]) -> u32 {
    let due = verdict_number(plain::check_records_by_position(records));
    let number = change(
        random,
        [&mut records.to_vec()],
        || format!("check of records in {:?}", Start(records)),
        |[records]| calls::records(records),
        |[records]| verdict_number(plain::check_records(records)),
    );
    assert_eq!(number, due, "fast check of records in {:?}", Start(records));
    number
}

/// The verdict on records as the library would number it.
fn verdict_number(result: Result<Verdict, Refusal>) -> u32 {
    match result {
        Ok(Verdict::Accepted) => 0,
        Ok(Verdict::Rejected) => 255,
        Err(refusal) => refusal.number(),
    }
}

/// A result as the library would number it.
pub fn number_of(result: Result<(), Refusal>) -> u32 {
    result.map_or_else(Refusal::number, |()| 0)
}

/// The result of a run as the library would pack it: refusal, turns served, accesses made.
fn packed(result: Result<Served, Refusal>) -> u64 {
    result.map_or_else(
        |refusal| refusal.number().into(),
        |Served { turns, accesses }| u64::from(turns) << 16 | u64::from(accesses) << 32,
    )
}

/// The answers whose words these are.
pub fn answers_of(written: &[u8]) -> Vec<Answer> {
    let (answers, _) = written.as_chunks::<4>().0.as_chunks::<3>();
    let answer = |words: &[[u8; 4]; 3]| Answer::try_from(words.map(u32::from_le_bytes));
    answers.iter().map(|words| answer(words).expect("an answer's words")).collect()
}

/// Shows the length and the first bytes of a region or of records.
struct Start<'a>(&'a [u8]);

impl Debug for Start<'_> {
    fn fmt(&self, f: &mut std::fmt::Formatter<'_>) -> std::fmt::Result {
        let shown = &self.0[..self.0.len().min(600)];
        write!(f, "{} bytes that start {shown:?}", self.0.len())
    }
}
