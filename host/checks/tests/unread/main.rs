//! Where a check ends: at the first field out of range, or at the first record. The bytes up to that
//! field, or up to the end of the words that are looked at together, stand at the end of memory that
//! may be read, the rest of the region behind it, where a read ends this program by a fault. No test
//! measures time.
#![cfg(target_os = "linux")]

mod memory;

use std::env;
use std::os::unix::process::ExitStatusExt;
use std::process::Command;

use checks::fields::{Form, Words};
use checks::native::{accepted_records, bytes_of, KIND};
use checks::random::Random;
use mound::{Refusal, Shape};

use memory::Memory;

/// The words of the shape, which are read together.
const SHAPE_WORDS: usize = 4;

/// Tries each word after the shape that has a range, all others in theirs, at the value below its
/// range (below 0 it is the greatest number) and at the one above.
fn try_each_word(region: &Words, mut call: impl FnMut(&[u8], usize) -> u32) {
    let mut bytes = region.bytes();
    for at in (SHAPE_WORDS..region.words.len()).filter(|&at| region.has_range(at)) {
        for value in [region.least(at).wrapping_sub(1), region.greatest(at) + 1] {
            bytes[4 * at..][..4].copy_from_slice(&value.to_le_bytes());
            let read = 4 * region.words_to_read(at, value);
            let answer = call(&bytes[..read], bytes.len());
            assert_eq!(answer, Refusal::Unreadable.number(), "word {at} set to {value}");
        }
        bytes[4 * at..][..4].copy_from_slice(&region.words[at].to_le_bytes());
    }
}

#[test]
fn each_word_of_small_shapes() {
    let (memory, random) = (&mut Memory::new(), &mut Random::new(40));
    for _ in 0..100 {
        let shape = random.shape(5);
        for region in [Words::laid_out(shape), Words::any_readable(random, shape)] {
            try_each_word(&region, |first, length| memory.check(first, length));
        }
    }
}

#[test]
fn each_word_of_the_largest_shape() {
    let (memory, random) = (&mut Memory::new(), &mut Random::new(41));
    for region in [Words::laid_out(Shape::LARGEST), Words::any_readable(random, Shape::LARGEST)] {
        try_each_word(&region, |first, length| memory.check(first, length));
    }
}

/// A conversion is refused by its check of the old region, which ends where a check does.
#[test]
fn each_word_of_regions_of_the_old_form() {
    let (memory, random) = (&mut Memory::new(), &mut Random::new(43));
    for _ in 0..100 {
        let shape = random.shape(5);
        let mut new = random.bytes(shape.byte_len().expect("a shape in range"));
        let laid_out = Words::laid_out_in(Form::OLD, shape);
        for region in [laid_out, Words::any_readable_in(Form::OLD, random, shape)] {
            try_each_word(&region, |first, length| memory.convert(first, length, &mut new));
        }
    }
}

/// A shape out of range, or of another length, is refused by its own words.
#[test]
fn each_word_of_the_shape() {
    let memory = &mut Memory::new();
    let region = Words::laid_out(Shape::LARGEST);
    let length = 4 * region.words.len();
    let out_of_range = (0..SHAPE_WORDS)
        .flat_map(|at| [0, region.words[at] + 1, u32::MAX].map(|value| (at, value)));
    let one_cell_or_thread_less = [(1, 2047), (2, 63)];
    for (at, value) in out_of_range.chain(one_cell_or_thread_less) {
        let bytes = region.with(at, value).bytes();
        let answer = memory.check(&bytes[..4 * SHAPE_WORDS], length);
        assert_eq!(answer, Refusal::Unreadable.number(), "word {at} set to {value}");
    }
}

/// The records behind the first one out of range, and all of slices that are no whole records or too
/// many of them.
#[test]
fn records_that_are_refused() {
    let (memory, random) = (&mut Memory::new(), &mut Random::new(42));
    let refused = Refusal::Records.number();
    for count in [1, 2, 10, 1024] {
        let records = accepted_records(random, count);
        let bytes = bytes_of(&records);
        assert_eq!(memory.records(&bytes, bytes.len()), 0);
        for bad in [0, count / 2, count - 1] {
            let mut first = records[..=bad].to_vec();
            first[bad][KIND] = random.one_of(&[0, 4]);
            assert_eq!(memory.records(&bytes_of(&first), bytes.len()), refused, "record {bad}");
        }
        for length in [bytes.len() - 1, bytes.len() + 1, 28 * 1025, 28 * 2048] {
            assert_eq!(memory.records(&[], length), refused, "{length} bytes");
        }
    }
}

/// What these tests rest on: a check that goes on to the last word, which may not be read, is ended
/// by the system. It is made in a process of its own.
#[test]
fn a_read_behind_the_end_is_a_fault() {
    const IS_CHILD: &str = "MOUND_READS_BEHIND_THE_END";
    if env::var_os(IS_CHILD).is_some() {
        let bytes = Words::laid_out(Shape::LARGEST).bytes();
        Memory::new().check(&bytes[..bytes.len() - 4], bytes.len());
        return;
    }
    let this_program = env::current_exe().expect("a test runs from a file");
    let child = Command::new(this_program)
        .args(["--exact", "a_read_behind_the_end_is_a_fault"])
        .env(IS_CHILD, "yes")
        .output()
        .expect("this program runs once more");
    let segmentation_fault = Some(11);
    assert_eq!(child.status.signal(), segmentation_fault);
}
