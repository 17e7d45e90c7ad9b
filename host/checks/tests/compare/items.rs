//! The cases of request 2: of equal keys the smaller tag first, an empty node above every item.
//! Then each place that compares, on values that differ by key, by tag alone or not at all.

use checks::fields::place::{E1, E2, I1, I2, I3, I5, I6, I7, M1, M5, M6};
use checks::fields::{D, FIRST_FREE_CELL, HI, LEAF, LO, NODE, PRESENT_DEPTH};
use checks::queue::{Item, Queue, SMALL};
use checks::values::{items, triples, RISING};
use mound::Answer::{self, Empty, Inserted, Moved, Took};

use crate::cases::{take_alone, Case};

pub const TAG_2: Item = (5, 2);
pub const TAG_9: Item = (5, 9);
/// Greater than every item of a laid-out region.
const GREATEST: Item = (u32::MAX, 65_535);

pub fn took((key, tag): Item) -> Answer {
    Took { key, tag }
}

/// What a thread's operation answers, which is to be at the last of this many turns.
pub fn answered(case: &mut Case, thread: u32, turns: usize) -> Answer {
    let answers = case.turns(&vec![thread; turns]);
    assert_eq!(answers[..turns - 1], vec![Moved; turns - 1]);
    answers[turns - 1]
}

/// Thread 1 puts an item, in this many turns.
pub fn put(case: &mut Case, item: Item, turns: usize) {
    assert_eq!(case.put_item(1, item), 0);
    assert_eq!(answered(case, 1, turns), Inserted);
}

/// What thread 1 takes in this many turns.
fn take(case: &mut Case, turns: usize) -> Answer {
    assert_eq!(case.take(1), 0);
    answered(case, 1, turns)
}

/// A queue of the cases' shape that holds an item at its root.
pub fn with_root(item: Item) -> Case {
    let mut case = Case::fresh();
    put(&mut case, item, 4);
    case
}

#[test]
fn tag_9_then_tag_2_in_the_root() {
    let mut case = with_root(TAG_9);
    put(&mut case, TAG_2, 4);
    assert!(case.queue.list_of(1).eq([2, 1]));
    assert_eq!([5, 5, 1].map(|turns| take(&mut case, turns)), [took(TAG_2), took(TAG_9), Empty]);
}

/// The second put's item is greater than the root's, so the tree grows, as in case H.
#[test]
fn tag_2_then_tag_9_below_it() {
    let mut case = with_root(TAG_2);
    put(&mut case, TAG_9, 9);
    assert_eq!([1, 2, 3].map(|node| case.queue.node(node)[0]), [1, 2, 0]);
    assert_eq!([10, 7, 1].map(|turns| take(&mut case, turns)), [took(TAG_2), took(TAG_9), Empty]);
}

#[test]
fn a_take_that_ends_between_the_puts() {
    let mut case = with_root(TAG_9);
    assert_eq!(take(&mut case, 5), took(TAG_9));
    put(&mut case, TAG_2, 4);
    assert_eq!(take(&mut case, 5), took(TAG_2));
}

/// Thread 1 takes, with the first item at the root; between its E1 and E2 thread 2 puts the other
/// item, in this many turns.
fn put_between_e1_and_e2(root: Item, other: Item, turns: usize) -> Case {
    let mut case = with_root(root);
    assert_eq!([case.take(1), case.put_item(2, other)], [0, 0]);
    assert_eq!(case.turns(&[1]), [Moved]);
    assert_eq!(answered(&mut case, 2, turns), Inserted);
    assert_eq!(case.queue.place(1), E2);
    assert_eq!(case.turns(&[1]), [Moved]);
    case
}

/// Tag 2 comes to stand before tag 9: E2 fails.
#[test]
fn a_take_under_way_while_tag_2_is_put() {
    let mut case = put_between_e1_and_e2(TAG_9, TAG_2, 4);
    assert_eq!(case.queue.place(1), E1);
    assert_eq!(answered(&mut case, 1, 5), took(TAG_2));
    assert_eq!(case.queue.items(), [TAG_9]);
}

/// Tag 9 comes to stand below tag 2, and the root is as E1 has read it.
#[test]
fn a_take_under_way_while_tag_9_is_put() {
    let mut case = put_between_e1_and_e2(TAG_2, TAG_9, 9);
    assert_eq!(case.queue.place(1), M1);
    assert_eq!(answered(&mut case, 1, 8), took(TAG_2));
    assert_eq!(case.queue.items(), [TAG_9]);
}

#[test]
fn equal_items() {
    let mut case = with_root(TAG_2);
    put(&mut case, TAG_2, 4);
    assert_eq!(case.queue.items(), [TAG_2; 2]);
    assert_eq!([5, 5, 1].map(|turns| take(&mut case, turns)), [took(TAG_2), took(TAG_2), Empty]);
}

/// A queue of depth 2 that no calls have made: the greatest item at one child of the root.
fn with_greatest_at(child: u32) -> Queue {
    let mut queue = Queue::open_to_all(SMALL);
    queue.set_word(PRESENT_DEPTH, 2);
    queue.set_word(FIRST_FREE_CELL, 2);
    queue.set_words(queue.node_at(child), [1, 0, 0, 0]);
    queue.set_words(queue.cell_at(1), [GREATEST.0, GREATEST.1, 0]);
    queue
}

/// Mending gives the empty root its child's list, so that the take does not answer empty.
#[test]
fn an_empty_root_over_the_greatest_item() {
    for child in [2, 3] {
        let mut queue = with_greatest_at(child);
        queue.set_words(queue.node_at(1), [0, 1, 0, 0]);
        let mut case = Case::of(queue);
        // E1, M1 to M5; M1, M2, M6 of the child; E1, E2; M1 to M4, M6 of the root, empty again.
        assert_eq!(take(&mut case, 16), took(GREATEST));
        assert_eq!(take(&mut case, 1), Empty);
    }
}

/// The empty rest of the root's list goes down to level 2.
#[test]
fn an_empty_rest_over_the_greatest_item() {
    for child in [2, 3] {
        let mut queue = with_greatest_at(child);
        queue.set_word(FIRST_FREE_CELL, 0);
        queue.set_words(queue.node_at(1), [2, 0, 0, 0]);
        queue.set_words(queue.cell_at(2), [5, 2, 0]);
        assert_eq!(take_alone(Case::of(queue)), (10, 10, took(TAG_2)));
    }
}

/// The places of a put that compare, with what they need to read the root or node 2.
const PUT_PLACES: [(u32, &[(usize, u32)]); 4] =
    [(I2, &[(D, 1)]), (I3, &[(LEAF, 5), (LO, 1), (HI, 3)]), (I5, &[(NODE, 1)]), (I7, &[(NODE, 3)])];

/// An empty parent is above the greatest item too: I7 starts again. Each other place goes on.
#[test]
fn a_put_of_the_greatest_item_at_empty_nodes() {
    let gone_to = PUT_PLACES.map(|(place, fields)| {
        let mut case = Case::of(Queue::with_put_at(place, GREATEST, fields, [None; 3]));
        assert_eq!(case.turns(&[1]), [Moved]);
        case.queue.place(1)
    });
    assert_eq!(gone_to, [I5, I3, I6, I1]);
}

#[test]
fn each_place_of_a_put_on_each_value_and_item() {
    for (place, fields) in PUT_PLACES {
        for (value, item) in RISING.into_iter().flat_map(|v| items().map(move |item| (v, item))) {
            let queue = Queue::with_put_at(place, item, fields, [value; 3]);
            assert_eq!(Case::of(queue).turns(&[1]), [Moved]);
        }
    }
}

/// M4, and then M5 or M6.
#[test]
fn m4_and_m5_on_each_three_values() {
    for values in triples() {
        let mut case = Case::of(Queue::with_mending_at_m4(values));
        assert_eq!(case.turns(&[1]), [Moved]);
        assert!([M5, M6].contains(&case.queue.place(1)));
        assert_eq!(case.turns(&[1]), [Moved]);
    }
}
