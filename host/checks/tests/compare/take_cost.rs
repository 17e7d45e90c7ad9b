//! What a take costs, request 3: in laid-out regions with all nodes clean, while no other thread
//! moves, the library's take makes as many accesses as the plain implementation's figure says.

use std::collections::BTreeMap;

use checks::fields::{place, NODE, OWN_CELL, PRESENT_DEPTH};
use checks::queue::Queue;
use checks::random::Random;
use checks::values::{rank, triples, Value};
use mound::Answer;

use crate::any_call;
use crate::both;
use crate::histories::laid_out;
use crate::runs::run_turns;
use crate::tally::Tally;

/// The calls on a region, beside any calls: puts at first, then takes, so that trees of every depth
/// become empty.
const PUTS: u32 = 80;
const TAKES: u32 = 160;

/// Begins a put or a take, runs turns, and makes any call. The keys of these puts rise, as times
/// do, so that the tree grows deep; some are equal, with other tags or the same.
fn go_on(random: &mut Random, queue: &mut Queue, calls_before: u32) {
    let shape = queue.shape();
    let thread = random.among(1..=shape.threads);
    if calls_before < PUTS {
        let (key, tag) = (10 + calls_before / 3, random.among(0..=3));
        both::put(random, &mut queue.bytes, thread, key, tag);
    } else {
        both::take(random, &mut queue.bytes, thread);
    }
    let turns = random.among(0..=40);
    let schedule = any_call::schedule(random, shape.threads, turns);
    both::run(random, &mut queue.bytes, &schedule, u32::MAX, 12 * turns as usize);
    any_call::any(random, &mut queue.bytes, shape, &mut Tally::default());
}

/// As many turns of a thread as a take may need, among turns that make no access: of other threads
/// that are idle, and of threads that do not exist.
fn turns_of_a_take(random: &mut Random, queue: &Queue, thread: u32) -> Vec<(u32, u32)> {
    let threads = queue.shape().threads;
    let idle = |&other: &u32| other != thread && queue.place(other) == place::IDLE;
    let mut others: Vec<u32> = (1..=threads).filter(idle).collect();
    others.extend([0, threads + 1, u32::MAX]);
    let mut turns = vec![];
    for _ in 0..5 * queue.word(PRESENT_DEPTH) {
        for _ in 0..random.one_of(&[0, 0, 0, 1, 2]) {
            turns.push((random.one_of(&others), 0));
        }
        turns.push((thread, random.among(0..=u32::MAX)));
    }
    turns
}

/// A take costs its figure, however its turns are cut into runs. Gives the level at which it leaves
/// the rest of the root's list, or 0 where the root is empty.
fn take_alone(random: &mut Random, before: &Queue, thread: u32) -> u32 {
    let cost = before.take_cost();
    let mut queue = before.clone();
    assert_eq!(both::take(random, &mut queue.bytes, thread), 0);
    let turns = turns_of_a_take(random, &queue, thread);

    let mut after = queue.clone();
    let runs = turns.chunks(random.one_of(&[1, 2, 5, 200]));
    let answers: Vec<Answer> =
        runs.flat_map(|turns| run_turns(random, &mut after, turns, u32::MAX).answers).collect();
    let accesses: Vec<Answer> =
        answers.iter().copied().filter(|answer| answer.is_access()).collect();
    assert_eq!(accesses.len(), cost as usize);

    // Once more, with a stop before the last access.
    let first = run_turns(random, &mut queue, &turns, cost - 1).answers;
    let before_last_access = queue.clone();
    let second = run_turns(random, &mut queue, &turns[first.len()..], u32::MAX).answers;
    assert_eq!([first, second].concat(), answers);
    assert!(queue == after);

    if let Some((key, tag)) = before.value_of(1) {
        assert_eq!(accesses.last(), Some(&Answer::Took { key, tag }));
        level_of_rest(thread, before, &before_last_access, &after)
    } else {
        assert_eq!(accesses, [Answer::Empty]);
        0
    }
}

/// The level at which the last access of a thread's take leaves the root's list without its head,
/// given the queue before the take, before that access and after it. An empty list has no cell to
/// know it by: that its node is the only dirty one is how it is known.
fn level_of_rest(thread: u32, before: &Queue, before_last_access: &Queue, after: &Queue) -> u32 {
    let node = before_last_access.field(thread, NODE);
    assert_eq!(before_last_access.place(thread), place::M6);
    assert!(before_last_access.dirty_nodes().eq([node]));
    assert!(after.all_clean());
    assert!(after.list_of(node).eq(before.list_of(1).skip(1)));
    node.ilog2() + 1
}

/// Request 3's figure by that level.
fn figure(level: u32, depth: u32) -> u32 {
    match level {
        0 => 1,
        _ if level < depth => 5 * level + 2,
        _ => 5 * depth,
    }
}

#[test]
fn a_take_alone_makes_the_accesses_of_its_figure() {
    let random = &mut Random::new(120);
    let mut came_up = BTreeMap::<(u32, u32), u32>::new();
    for _ in 0..200 {
        let mut queue = laid_out(random);
        for calls_before in 0..PUTS + TAKES {
            go_on(random, &mut queue, calls_before);
            let may_take: Vec<u32> = queue.may_take().collect();
            if queue.all_clean() && !may_take.is_empty() {
                let thread = random.one_of(&may_take);
                let level = take_alone(random, &queue, thread);
                let depth = queue.word(PRESENT_DEPTH);
                assert_eq!(queue.take_cost(), figure(level, depth));
                *came_up.entry((depth, level)).or_default() += 1;
            }
        }
    }
    println!("{came_up:?}");
    let all = (1..=7).flat_map(|depth| (0..=depth).map(move |level| (depth, level)));
    assert!(came_up.keys().copied().eq(all), "not each level at each depth came up");
    let rare = came_up.iter().find(|&(_, &times)| times < 5);
    assert_eq!(rare, None, "came up less than 5 times");
}

/// A clean queue of depth 2 that holds key 0 at its root, before a rest of the first value, and
/// lists of the others at the children.
fn with_rest_and_children(values: [Value; 3]) -> Queue {
    let mut queue = Queue::with_thread_at(place::IDLE, &[(OWN_CELL, 0)], values);
    let [rest, ..] = queue.node(1);
    queue.set_word(PRESENT_DEPTH, 2);
    queue.set_words(queue.node_at(1), [4, 0, 9, 0]);
    queue.set_words(queue.cell_at(4), [0, 0, rest]);
    queue
}

#[test]
fn a_rest_of_each_value_over_children_of_each_value() {
    let random = &mut Random::new(121);
    for values in triples() {
        let [rest, left, right] = values.map(rank);
        let due = if left.min(right) < rest { 2 } else { 1 };
        let queue = with_rest_and_children(values);
        assert_eq!(take_alone(random, &queue, 1), due, "rest and children {values:?}");
        assert_eq!(queue.take_cost(), figure(due, 2));
    }
}
