//! Scripts of which the last line is the first to show a refusal: those that are hard to cut down.

use std::ops::RangeInclusive;

use mound::{Refusal, Shape};
use plain::script::Line;

use crate::fields::place;
use crate::made_scripts::{opening, LARGEST};
use crate::queue::Queue;
use crate::random::Random;

/// A long script, with the number that its last line shows.
pub struct LongScript {
    pub name: &'static str,
    pub number: u32,
    pub text: String,
}

/// The lines of a long script.
pub const LONG: u32 = 5000;

/// Long scripts: of a thread that is busy, in a large queue and in a small one, and of a large queue
/// that has no free cell, of which more lines are needed.
pub fn long_scripts() -> [LongScript; 3] {
    let small = Shape { depth: 4, cells: 8, threads: 4, threshold: 2 };
    let large = Shape { threshold: 2, ..LARGEST };
    let scripts = [
        ("D 8 T 64: a thread is busy", 9, large),
        ("D 4 T 4: a thread is busy", 9, small),
        ("D 8 T 64: no cell is free", 10, large),
    ];
    scripts.map(|(name, number, shape)| {
        let text = ending_in(number, &mut Random::new(0), shape, LONG);
        LongScript { name, number, text }
    })
}

/// A script of any shape and of as many lines as the range allows, whose last one is the first to
/// show the refusal of this number.
pub fn any_ending_in(number: u32, random: &mut Random, lines: RangeInclusive<u32>) -> String {
    let lines = random.among(lines);
    let shape = match random.among(0..=2) {
        0 => random.shape(8),
        1 => random.crowded_shape(4..=12),
        _ => random.crowded_shape(1..=4),
    };
    // A queue of more cells would not come to be full.
    let most_cells = if number == 10 { lines.div_ceil(40) } else { shape.cells };
    let shape = Shape { cells: shape.cells.min(most_cells), ..shape };
    ending_in(number, random, shape, lines)
}

/// A script of so many lines whose last one is the first to show the refusal of this number, which
/// a queue of this shape must come to after that many.
pub fn ending_in(number: u32, random: &mut Random, shape: Shape, lines: u32) -> String {
    let mut tries = (0..1000).map(|_| try_ending_in(number, random, shape, lines));
    tries.find_map(|script| script).expect("one try in a thousand succeeds")
}

/// The same; none where the lines before the last leave a queue in which no line shows it.
fn try_ending_in(number: u32, random: &mut Random, shape: Shape, lines: u32) -> Option<String> {
    let mut script = opening(shape, 3);
    let mut queue = Queue::open_to_all(shape);
    for _ in 1..lines {
        script += &drawn(random, &mut queue, |refused| refused != Some(number))?;
    }
    Some(script + &drawn(random, &mut queue, |refused| refused == Some(number))?)
}

/// A script in which thread 1 fills the queue, a greater key each time and with the first leaf as its
/// choice, and is refused one put more: every line is needed.
pub fn filling(shape: Shape) -> String {
    let mut script = opening(shape, 3);
    let mut queue = Queue::open_to_all(shape);
    for key in 1..=shape.cells {
        let put = format!("put 1 {key} 0\n");
        script += &put;
        assert_eq!(queue.put(1, key, 0), Ok(()));
        while queue.place(1) != place::IDLE {
            script += "turn 1 0 0\n";
            queue.turn(1, 0);
        }
    }
    script + "put 1 0 0\n"
}

/// A line whose call is refused, or not, as it fits; it is made on the queue.
fn drawn(
    random: &mut Random,
    queue: &mut Queue,
    fits: impl Fn(Option<u32>) -> bool,
) -> Option<String> {
    (0..1000).find_map(|_| {
        let text = short_line(random, queue);
        let line = Line::parse(text.trim_end().as_bytes()).expect("it can be read");
        let mut after = queue.clone();
        let refused = line.make(&mut after.machine()).err().map(Refusal::number);
        fits(refused).then(|| {
            *queue = after;
            text
        })
    })
}

/// A line of few bytes: as a rule a thread begins something where it is idle, and goes on with it
/// where it is not. Each refusal that a script can show comes up now and then.
fn short_line(random: &mut Random, queue: &Queue) -> String {
    let threads = queue.shape().threads;
    let thread = random.among(1..=threads);
    match random.among(0..=99) {
        0 => format!("turn {} 0 0\n", random.one_of(&[0, threads + 1])),
        1 => format!("put {thread} 1 65536\n"),
        2 => format!("permit {thread} {} 0\n", random.one_of(&[0, 1, 2, 3, 3, 3, 3, 4])),
        3 | 4 => beginning(random, thread),
        _ if queue.place(thread) == place::IDLE => beginning(random, thread),
        _ => format!("turn {thread} {} 0\n", random.among(0..=9)),
    }
}

/// More puts than takes, so that the cells come to be in use.
fn beginning(random: &mut Random, thread: u32) -> String {
    match random.among(0..=19) {
        0..=15 => format!("put {thread} {} {}\n", random.among(0..=99), random.among(0..=9)),
        16..=18 => format!("take {thread} 0 0\n"),
        _ => format!("list {thread} 0 0\n"),
    }
}
