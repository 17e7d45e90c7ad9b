//! The converter of request 7: what it answers and writes, and what the queue does afterwards.

mod by_old;

mod afterwards;
mod cases;
mod lengths;
mod words;

use checks::fields::{Field, Form, Words};
use checks::random::Random;
use mound::Shape;

use crate::both;

fn length_of(shape: Shape) -> usize {
    shape.byte_len().expect("a shape in range")
}

/// Converts a region of the old form to a slice of just the length; nothing is refused, and the
/// words are the same ones, but that each counter has got a high word of 0.
fn convert(random: &mut Random, old: &[u8]) -> Vec<u8> {
    let old_words = Words::of_form(Form::OLD, old);
    let mut new = random.bytes(length_of(old_words.shape()));
    assert_eq!(both::convert(random, old, &mut new), 0);

    let new_words = Words::of(&new);
    let is_high = |&at: &usize| at >= 4 && new_words.field(at) == Field::CounterHigh;
    let (high, others): (Vec<usize>, Vec<usize>) = (0..new_words.words.len()).partition(is_high);
    assert!(high.into_iter().all(|at| new_words.words[at] == 0));
    assert!(others.into_iter().map(|at| new_words.words[at]).eq(old_words.words));
    assert!(both::is_readable(&new));
    new
}
