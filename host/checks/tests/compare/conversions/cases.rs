//! Cases of request 7.

use checks::fields::{place, Words, COUNTER_LOW};
use checks::old_queue::OldQueue;
use checks::queue::{Queue, SMALL};
use checks::random::Random;
use mound::Answer::{self, Inserted, Moved, Refused, Took};
use mound::{Refusal, Shape};

use super::convert;
use crate::cases::Case;

const TOOK_5: Answer = Took { key: 5, tag: 9 };
const SPENT: Answer = Refused(Refusal::CounterSpent);

/// The queue after thread 1 has put (5, 9), and then (7, 1), which makes the tree grow.
fn holding_two() -> OldQueue {
    let mut old = OldQueue::open_to_all(SMALL);
    for (key, tag, turns) in [(5, 9, 4), (7, 1, 9)] {
        assert_eq!(old.machine().put(1, key, tag), Ok(()));
        assert_eq!(old.turns(&vec![1; turns]).last(), Some(&Inserted));
    }
    old
}

/// The queue converted, on which each call is made by the library and by the plain implementation.
fn converted(old: &OldQueue) -> Case {
    Case::of(Queue { bytes: convert(&mut Random::new(230), &old.bytes) })
}

/// A region of 348 bytes, word by word: each word comes later by as many as there are counters
/// before it.
#[test]
fn a_region_word_by_word() {
    let mut old = holding_two();
    assert_eq!(old.machine().take(2), Ok(()));
    assert_eq!(old.turns(&[2, 2]), [Moved; 2]);
    assert_eq!(old.bytes.len(), 348);

    let new = convert(&mut Random::new(231), &old.bytes);
    assert_eq!(new.len(), 384);
    let (old, new) = (old.words().words, Words::of(&new).words);
    assert_eq!(old[..6], [2, 2, 2, 1, 2, 1]);
    assert_eq!(new[..6], old[..6]);
    // The root, popped and dirty, after two updates; node 2, which holds cell 2; node 3.
    assert_eq!(old[6..15], [0, 1, 2, 2, 0, 1, 0, 0, 0]);
    assert_eq!(new[6..18], [0, 1, 2, 0, 2, 0, 1, 0, 0, 0, 0, 0]);
    assert_eq!(new[18..24], old[15..21]);
    // Thread 1 is idle; of thread 2 the first copy is the root as E1 read it.
    assert_eq!(new[24..39], old[21..36]);
    assert_eq!(new[60..75], old[54..69]);
    assert_eq!(old[69..75], [1, 0, 1, 5, 9, 0]);
    assert_eq!(new[75..82], [1, 0, 1, 0, 5, 9, 0]);
    assert!(new[39..60].iter().chain(&new[82..]).all(|&word| word == 0));
}

/// A take is converted after each of its turns, and its last turns answer the same.
#[test]
fn in_the_middle_of_a_take() {
    let answers = [vec![Moved; 9], vec![TOOK_5]].concat();
    for turns in 0..=10 {
        let mut old = holding_two();
        assert_eq!(old.machine().take(2), Ok(()));
        assert_eq!(old.turns(&vec![2; turns]), answers[..turns]);
        let mut case = converted(&old);
        assert_eq!(case.turns(&vec![2; 10 - turns]), answers[turns..]);
        assert_eq!(case.queue.place(2), place::IDLE);
        assert_eq!(case.queue.items(), [(7, 1)]);
    }
}

/// So is a list, of two items at the root: before it decides, while it mends, and between the items
/// that it hands out.
#[test]
fn in_the_middle_of_a_list() {
    let answers = [vec![Moved; 5], vec![Took { key: 5, tag: 2 }, TOOK_5]].concat();
    for turns in 0..=7 {
        let mut old = OldQueue::open_to_all(SMALL);
        for tag in [9, 2] {
            assert_eq!(old.machine().put(1, 5, tag), Ok(()));
            assert_eq!(old.turns(&[1; 4]), [Moved, Moved, Moved, Inserted]);
        }
        assert_eq!(old.machine().list(1), Ok(()));
        assert_eq!(old.turns(&vec![1; turns]), answers[..turns]);
        let mut case = converted(&old);
        assert_eq!(case.turns(&vec![1; 7 - turns]), answers[turns..]);
        assert!(case.queue.free().eq([1, 2]));
    }
}

/// A put at its last turn, with its copies of the node and of the parent.
#[test]
fn in_the_middle_of_a_put() {
    let mut old = OldQueue::open_to_all(SMALL);
    assert_eq!(old.machine().put(1, 5, 9), Ok(()));
    assert_eq!(old.turns(&[1; 4])[3], Inserted);
    assert_eq!(old.machine().put(2, 7, 1), Ok(()));
    assert_eq!(old.turns(&[2; 8]), [Moved; 8]);
    let mut case = converted(&old);
    assert_eq!(case.queue.place(2), place::I8);
    assert_eq!(case.turns(&[2]), [Inserted]);
    assert_eq!(case.queue.items(), [(5, 9), (7, 1)]);
}

/// The old machine refuses the put's last turn; converted, it is served, and the high word grows.
#[test]
fn a_counter_of_4_294_967_295_goes_on() {
    let mut old = OldQueue::open_to_all(SMALL);
    let mut region = old.words();
    let counter = region.node(1) + COUNTER_LOW;
    region.words[counter] = u32::MAX;
    old.bytes = region.bytes();
    assert_eq!(old.machine().put(1, 5, 9), Ok(()));
    assert_eq!(old.turns(&[1; 5]), [Moved, Moved, Moved, SPENT, SPENT]);

    let mut case = converted(&old);
    assert_eq!(case.queue.counter(1), u64::from(u32::MAX));
    assert_eq!(case.turns(&[1]), [Inserted]);
    assert_eq!(case.queue.node(1), [1, 0, 0, 1]);
    assert_eq!(case.take(2), 0);
    assert_eq!(case.turns(&[2; 5]), [Moved, Moved, Moved, Moved, TOOK_5]);
    assert_eq!(case.queue.node(1), [0, 0, 2, 1]);
}

/// The last step is served, and the next one refused.
#[test]
fn a_counter_ends_at_2_to_the_64_less_1() {
    let mut queue = Queue::open_to_all(SMALL);
    queue.set_counter(queue.node_at(1), u64::MAX - 1);
    let mut case = Case::of(queue);
    assert_eq!(case.put_item(1, (5, 9)), 0);
    assert_eq!(case.turns(&[1; 4]), [Moved, Moved, Moved, Inserted]);
    assert_eq!(case.queue.node(1), [1, 0, u32::MAX, u32::MAX]);
    assert_eq!([case.put_item(1, (4, 9)), case.take(2)], [0, 0]);
    assert_eq!(case.turns(&[1, 1, 1, 1]), [Moved, Moved, Moved, SPENT]);
    assert_eq!(case.turns(&[2, 2, 2]), [Moved, SPENT, SPENT]);
}

/// A low word at its end alone is no spent counter, nor is a high word.
#[test]
fn one_word_at_its_end_is_no_spent_counter() {
    for counter in [u64::from(u32::MAX), u64::MAX << 32] {
        let mut queue = Queue::open_to_all(Shape { depth: 1, cells: 1, ..SMALL });
        queue.set_counter(queue.node_at(1), counter);
        let mut case = Case::of(queue);
        assert_eq!(case.put_item(1, (5, 9)), 0);
        assert_eq!(case.turns(&[1; 4]), [Moved, Moved, Moved, Inserted]);
        assert_eq!(case.queue.counter(1), counter + 1);
    }
}
