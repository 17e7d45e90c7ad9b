//! The damage that bytes are due, by the table of the fields.

use std::ops::RangeInclusive;

use checks::fields::{
    Field, Words, CELL_RECORD, COPIES, COPY_RECORD, HEADING, NODE_RECORD, THREAD,
};
use mound::{calls, Damage, Part, Region, Shape};

/// Words of the shape.
pub const SHAPE: usize = 4;

/// The fields by their names in document 01.
const HEADING_NAMES: [&str; HEADING] =
    ["greatest depth", "cells", "threads", "threshold", "present depth", "first free cell"];
const NODE_NAMES: [&str; NODE_RECORD] = ["first cell", "dirty mark", "counter", "counter"];
const CELL_NAMES: [&str; CELL_RECORD] = ["key", "tag", "next cell"];
const COPY_NAMES: [&str; COPY_RECORD] =
    ["first cell", "dirty mark", "counter", "counter", "head's key", "head's tag", "head's next"];
const THREAD_NAMES: [&str; 15] = [
    "permission",
    "place",
    "key",
    "tag",
    "own cell",
    "d",
    "leaf",
    "tries",
    "lo",
    "hi",
    "node",
    "waiting levels",
    "after",
    "result key",
    "result tag",
];

/// When a check sees what is wrong: after this many words, behind the words' own tests or among
/// them, and of what is seen at once the first word.
type When = (usize, bool, usize);

/// What is wrong with bytes, as far as it is told of a word.
#[derive(Debug, PartialEq)]
pub enum Wrong {
    Length(RangeInclusive<usize>),
    Word(usize),
}

/// Looks at the damage of a region: there exactly where the library's check refuses, that of the
/// table, and told right. Answers what is wrong, if anything is, and when a check sees it.
pub fn look_at(region: &Words) -> Option<(Wrong, When)> {
    look_at_bytes(&region.bytes(), region)
}

/// The same of any bytes, which have these whole words.
pub fn look_at_bytes(bytes: &[u8], region: &Words) -> Option<(Wrong, When)> {
    let damage = Damage::of(bytes);
    assert_eq!(damage.is_some(), calls::check(bytes) != 0);
    let mut lent = bytes.to_vec();
    assert_eq!(Region::open(&mut lent).err(), damage);
    assert!(lent == bytes, "opening changed a byte");

    let due = first_wrong(bytes.len(), region);
    match (damage, &due) {
        (None, None) => {}
        (Some(Damage::Length { found, due }), Some((Wrong::Length(lengths), _))) => {
            assert_eq!((found, &due), (bytes.len(), lengths));
        }
        (Some(Damage::Word(word)), Some((Wrong::Word(at), _))) => {
            assert_eq!(word.index(), *at, "{word}");
            assert_eq!(word.value(), region.words[*at], "{word}");
            assert_eq!((word.part(), word.field()), name(region, *at), "{word}");
            assert_eq!(word.range(), range(region, *at), "{word}");
        }
        (damage, due) => panic!("{damage:?} instead of {due:?}"),
    }
    due
}

fn first_wrong(length: usize, region: &Words) -> Option<(Wrong, When)> {
    let behind_the_shape = (SHAPE, true, 0);
    if region.words.len() < SHAPE {
        return Some((Wrong::Length(196..=99_336), behind_the_shape));
    }
    let is_wrong = |&at: &usize| !range(region, at).contains(&region.words[at]);
    if let Some(at) = (0..SHAPE).find(is_wrong) {
        return Some((Wrong::Word(at), (at + 1, false, at)));
    }
    let due = region.shape().byte_len().expect("a shape in range");
    if length != due {
        return Some((Wrong::Length(due..=due), behind_the_shape));
    }
    let wrong = (SHAPE..region.words.len()).filter(is_wrong);
    let first = wrong.min_by_key(|&at| when(region, at))?;
    Some((Wrong::Word(first), when(region, first)))
}

fn when(region: &Words, at: usize) -> When {
    let read = region.words_to_read(at, region.words[at]);
    (read, read != at + 1, at)
}

/// The range of a word in the test that it fails. Tries above H fail by that, whatever the place.
pub fn range(region: &Words, at: usize) -> RangeInclusive<u32> {
    let Shape { depth, threshold, .. } = region.shape();
    match at {
        0 => 1..=12,
        1 => 1..=1 << (depth - 1),
        2 => 1..=64,
        3 => 1..=16,
        _ if region.field(at) == Field::Tries && region.words[at] > threshold => 0..=threshold,
        _ => region.least(at)..=region.greatest(at),
    }
}

/// The part that a word stands in, and its field.
fn name(region: &Words, at: usize) -> (Part, &'static str) {
    if at < HEADING {
        return (Part::Heading, HEADING_NAMES[at]);
    }
    let record = |first: usize, size: usize| u32::try_from((at - first) / size + 1).expect("small");
    let word = |first: usize, size: usize| (at - first) % size;
    let [cells, threads] = [region.cell(1), region.thread(1)];
    if at < cells {
        (Part::Node(record(HEADING, NODE_RECORD)), NODE_NAMES[word(HEADING, NODE_RECORD)])
    } else if at < threads {
        (Part::Cell(record(cells, CELL_RECORD)), CELL_NAMES[word(cells, CELL_RECORD)])
    } else {
        let (thread, word) = (record(threads, THREAD), word(threads, THREAD));
        match (1..).zip(COPIES).find(|&(_, start)| (start..start + COPY_RECORD).contains(&word)) {
            Some((copy, start)) => (Part::NodeCopy { thread, copy }, COPY_NAMES[word - start]),
            None => (Part::Thread(thread), THREAD_NAMES[word]),
        }
    }
}
