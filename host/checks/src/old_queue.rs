//! A queue in a region of the old form, whose counters have one word, by the plain implementation.

use std::ops::RangeInclusive;

use mound::{Answer, Shape};
use plain::OldMachine;

use crate::fields::{Form, Words, COUNTER_LOW};
use crate::queue::Queue;
use crate::random::Random;

/// Such a region.
#[derive(Clone)]
pub struct OldQueue {
    pub bytes: Vec<u8>,
}

impl OldQueue {
    /// An empty queue.
    pub fn laid_out(shape: Shape, permissions: &[u8]) -> OldQueue {
        let mut bytes = vec![0; OldMachine::byte_len(shape).expect("a shape in range")];
        OldMachine::lay_out(&mut bytes, shape, permissions).expect("the shape's length");
        OldQueue { bytes }
    }

    /// An empty queue whose threads may all put and take.
    pub fn open_to_all(shape: Shape) -> OldQueue {
        OldQueue::laid_out(shape, &vec![3; shape.threads as usize])
    }

    /// Any readable region.
    pub fn any_readable(random: &mut Random, shape: Shape) -> OldQueue {
        OldQueue { bytes: Words::any_readable_in(Form::OLD, random, shape).bytes() }
    }

    pub fn words(&self) -> Words {
        Words::of_form(Form::OLD, &self.bytes)
    }

    pub fn shape(&self) -> Shape {
        self.words().shape()
    }

    /// The queue to make calls on, checked once.
    pub fn machine(&mut self) -> OldMachine<'_> {
        OldMachine::open(&mut self.bytes).expect("a readable region")
    }

    /// Serves a turn of each of these threads, one after the other, with choice 0.
    pub fn turns(&mut self, threads: &[u32]) -> Vec<Answer> {
        let mut machine = self.machine();
        threads.iter().map(|&thread| machine.turn(thread, 0)).collect()
    }

    /// Sets each node's counter to one of these.
    pub fn set_counters(&mut self, random: &mut Random, counters: RangeInclusive<u32>) {
        let mut region = self.words();
        for node in 1..1 << region.shape().depth {
            let counter = region.node(node) + COUNTER_LOW;
            region.words[counter] = random.among(counters.clone());
        }
        self.bytes = region.bytes();
    }

    /// The same queue in the present form.
    pub fn converted(&self) -> Queue {
        let mut bytes = vec![0; self.shape().byte_len().expect("a shape in range")];
        plain::convert(&self.bytes, &mut bytes).expect("a readable region");
        Queue { bytes }
    }
}
