//! The cases of request 1: a list at an empty root, its items in their order, operations that cross
//! it, and turns of it that are refused.

use checks::fields::place::{IDLE, M1, P17, P18, P19};
use checks::fields::OWN_CELL;
use checks::queue::{Item, Queue, SMALL};
use mound::Answer::{self, Empty, Idle, Inserted, Moved, Refused};
use mound::{Refusal, Shape};

use crate::cases::Case;
use crate::items::{answered, put, took, with_root, TAG_2, TAG_9};

/// A queue of the cases' shape with both items in the root's list, at depth 1; no cell is free.
fn with_both_in_the_root() -> Case {
    let mut case = with_root(TAG_9);
    put(&mut case, TAG_2, 4);
    case
}

/// What thread 1 answers once its list has decided and has mended a root over nothing: moved to the
/// last mending turn, then these items.
fn mended_and_handed_out<const N: usize>(items: [Item; N]) -> Vec<Answer> {
    [[Moved; 3].to_vec(), items.map(took).to_vec(), vec![Idle]].concat()
}

#[test]
fn a_fresh_region_is_empty_at_turn_1() {
    let mut case = Case::fresh();
    assert_eq!(case.list(1), 0);
    assert_eq!(case.queue.place(1), P17);
    assert_eq!(case.turns(&[1]), [Empty]);
    assert!(case.queue == Case::fresh().queue);
}

#[test]
fn two_items_in_their_order() {
    let mut case = with_both_in_the_root();
    assert_eq!(case.list(1), 0);
    assert_eq!(case.turns(&[1; 2]), [Moved; 2]);
    assert_eq!(case.queue.node(1), [0, 1, 3, 0]);
    assert_eq!(case.turns(&[1; 6]), mended_and_handed_out([TAG_2, TAG_9]));
    // Updates by two I6, 18 and M6; cell 2 was freed first.
    assert_eq!(case.queue.node(1), [0, 0, 4, 0]);
    assert!(case.queue.free().eq([1, 2]));
    assert_eq!([case.queue.cell(1), case.queue.cell(2)], [[0, 0, 2], [0, 0, 0]]);
    assert_eq!(case.list(1), 0);
    assert_eq!(case.turns(&[1]), [Empty]);
}

/// The root is not what 17 has read, and 18 fails; what it then removes has the new item too.
#[test]
fn an_18_that_fails_because_a_put_came_between() {
    let mut case = with_root(TAG_9);
    assert_eq!([case.list(1), case.put_item(2, TAG_2)], [0, 0]);
    assert_eq!(case.turns(&[1]), [Moved]);
    assert_eq!(answered(&mut case, 2, 4), Inserted);
    assert_eq!(case.queue.place(1), P18);
    assert_eq!(case.turns(&[1]), [Moved]);
    assert_eq!(case.queue.place(1), P17);
    assert_eq!(case.turns(&[1; 2]), [Moved; 2]);
    assert_eq!(case.turns(&[1; 6]), mended_and_handed_out([TAG_2, TAG_9]));
}

/// The same cell and no dirty mark, but another counter: the item was taken and put again.
#[test]
fn an_18_that_fails_because_of_the_counter() {
    let mut case = with_root(TAG_9);
    assert_eq!([case.list(1), case.take(2)], [0, 0]);
    assert_eq!(case.turns(&[1]), [Moved]);
    assert_eq!(answered(&mut case, 2, 5), took(TAG_9));
    assert_eq!(case.put_item(2, TAG_9), 0);
    assert_eq!(answered(&mut case, 2, 4), Inserted);
    assert_eq!(case.queue.node(1), [1, 0, 4, 0]);
    assert_eq!(case.turns(&[1]), [Moved]);
    assert_eq!(case.queue.place(1), P17);
}

/// Thread 1 makes the first two accesses of a list, and the second one decides.
fn decide(case: &mut Case) {
    assert_eq!(case.list(1), 0);
    assert_eq!(case.turns(&[1; 2]), [Moved; 2]);
    assert_eq!(case.queue.place(1), M1);
}

/// All items are in hand: the other thread's take mends the root and finds nothing.
#[test]
fn a_take_between_18_and_19_that_finds_nothing() {
    let mut case = with_both_in_the_root();
    decide(&mut case);
    assert_eq!(case.take(2), 0);
    // E1, M1, M2, M6; E1.
    assert_eq!(answered(&mut case, 2, 5), Empty);
    // The root is clean already.
    assert_eq!(case.turns(&[1; 2]), [Moved; 2]);
    assert_eq!(case.queue.place(1), P19);
    assert_eq!(case.turns(&[1; 3]), [took(TAG_2), took(TAG_9), Idle]);
}

/// The other thread's take mends the root, which gets the list below it, and takes from that; it
/// answers first, though it has decided last.
#[test]
fn a_take_between_18_and_19_of_an_item_below() {
    let mut case = with_root(TAG_2);
    put(&mut case, TAG_9, 9);
    decide(&mut case);
    assert_eq!(case.take(2), 0);
    // E1, M1 to M5; M1, M2, M6 of the child; E1, E2; M1 to M4, M6 of the root, empty again.
    assert_eq!(answered(&mut case, 2, 16), took(TAG_9));
    assert_eq!(case.turns(&[1; 4]), [Moved, Moved, took(TAG_2), Idle]);
    assert_eq!(case.queue.items(), []);
}

#[test]
fn a_put_refused_10_while_the_items_are_in_hand() {
    let mut case = with_both_in_the_root();
    assert_eq!([case.put_item(2, TAG_2), case.list(1)], [10, 0]);
    for _ in 0..5 {
        assert_eq!(case.turns(&[1]), [Moved]);
        assert_eq!(case.put_item(2, TAG_2), 10);
    }
    assert_eq!(case.queue.items(), []);
    assert_eq!(case.turns(&[1]), [took(TAG_2)]);
    assert_eq!(case.put_item(2, TAG_2), 0);
    assert_eq!(case.turns(&[1]), [took(TAG_9)]);
    assert_eq!(case.queue.place(1), IDLE);
    assert!(case.queue.free().eq([1]));
}

/// Both read the root; the second 18 fails, mends with the first and finds nothing.
#[test]
fn two_lists_of_which_one_gets_all() {
    let mut case = with_both_in_the_root();
    assert_eq!([case.list(1), case.list(2)], [0, 0]);
    assert_eq!(case.turns(&[1, 2, 2, 1]), [Moved; 4]);
    assert_eq!([case.queue.place(1), case.queue.place(2)], [P17, M1]);
    // 17, M1, M2, M6; 17.
    assert_eq!(answered(&mut case, 1, 5), Empty);
    assert_eq!(case.turns(&[2; 5]), [Moved, Moved, took(TAG_2), took(TAG_9), Idle]);
}

/// The root's last item is greater than one that stays below: what leaves is the list, and its
/// first item is the least of all.
#[test]
fn a_list_that_leaves_a_lesser_item_than_its_last() {
    let shape = Shape { depth: 3, cells: 4, ..SMALL };
    let items = [(7, 0), (6, 0), (5, 0), (6, 0)];
    let mut case = Case::of(Queue::open_to_all(shape).holding(&items));
    decide(&mut case);
    assert_eq!(case.queue.items(), [(6, 0)]);
    // M1 to M5; M1, M2, M6 of the child.
    assert_eq!(case.turns(&[1; 8]), [Moved; 8]);
    assert_eq!(case.turns(&[1; 3]), [(5, 0), (6, 0), (7, 0)].map(took));
    assert_eq!(case.turns(&[1]), [Idle]);
}

/// Only in regions that were never laid out: an 18 of an empty list, even where the counter is
/// spent, and a 19 with nothing in hand.
#[test]
fn what_is_not_there_is_refused_7() {
    for counter in [0, u64::MAX] {
        let mut queue = Queue::with_thread_at(P18, &[], [None; 3]);
        queue.set_counter(queue.node_at(1), counter);
        queue.match_copies(1);
        assert_eq!(Case::of(queue).turns(&[1]), [Refused(Refusal::Unreadable)]);
    }
    let queue = Queue::with_thread_at(P19, &[(OWN_CELL, 0)], [None; 3]);
    assert_eq!(Case::of(queue).turns(&[1]), [Refused(Refusal::Unreadable)]);
}

#[test]
fn an_18_at_a_spent_counter_is_refused_11() {
    let mut queue = Queue::with_thread_at(P18, &[], [Some(TAG_2), None, None]);
    queue.set_counter(queue.node_at(1), u64::MAX);
    // The comparison fails, and nothing is refused.
    let mut case = Case::of(queue.clone());
    assert_eq!(case.turns(&[1]), [Moved]);
    assert_eq!(case.queue.place(1), P17);
    queue.match_copies(1);
    assert_eq!(Case::of(queue).turns(&[1]), [Refused(Refusal::CounterSpent)]);
}
