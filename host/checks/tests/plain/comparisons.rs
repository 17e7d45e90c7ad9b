//! Which way each place goes on a value that is less, equal or greater, or of an empty node.

use std::cmp::Ordering;

use checks::fields::place::{I1, I2, I3, I4, I5, I6, I7, I8, M1, M6};
use checks::fields::{COPIES, COUNTER_LOW, D, HI, KEY, LEAF, LO, NODE, PLACE, TRIES};
use checks::leaves;
use checks::queue::{Item, Queue};
use checks::values::{items, rank, triples, Value, RISING};
use mound::Answer;

/// Each value that a node may have beside each item that a put may have, and how the two compare.
fn values_beside_items() -> impl Iterator<Item = (Value, Item, Ordering)> {
    let compared = |value, item| (value, item, rank(value).cmp(&rank(Some(item))));
    RISING.into_iter().flat_map(move |value| items().map(move |item| compared(value, item)))
}

const CHOICES: [u32; 8] = [0, 1, 2, 3, 9, 1 << 31, u32::MAX - 1, u32::MAX];

/// Below the greatest depth, which is 3 here, whatever the leaf word; at it where that is no leaf
/// of level 3.
#[test]
fn i2_picks_its_leaf_by_the_choice() {
    for (d, words) in [(1, 0..8), (2, 0..8), (3, 0..4)] {
        for (word, choice) in words.flat_map(|word| CHOICES.map(|choice| (word, choice))) {
            let mut queue = Queue::with_thread_at(I2, &[(D, d), (LEAF, word)], [None; 3]);
            assert_eq!(queue.turn(1, choice), Answer::Moved);
            assert_eq!(queue.field(1, LEAF), leaves::picked(d, choice));
        }
    }
}

/// Each leaf of level 3, empty or of a lesser value than the item, with every choice.
#[test]
fn i2_goes_by_a_leaf_word_of_the_greatest_depth() {
    for leaf in 4..8 {
        for choice in CHOICES {
            let mut queue = Queue::with_thread_at(I2, &[(D, 3), (LEAF, leaf), (KEY, 6)], [None; 3]);
            let mut occupied = queue.clone();
            assert_eq!(queue.turn(1, choice), Answer::Moved);
            assert_eq!([queue.place(1), queue.field(1, LEAF)], [I3, leaf]);

            occupied.set_words(occupied.node_at(leaf), [1, 0, 9, 0]);
            occupied.set_words(occupied.cell_at(1), [5, 0, 0]);
            assert_eq!(occupied.turn(1, choice), Answer::Moved);
            assert_eq!([occupied.place(1), occupied.field(1, LEAF)], [I1, leaves::next(leaf)]);
        }
    }
}

/// At depth 1 the leaf tried is the root; at depth 3 it is node 4, which is empty.
#[test]
fn i2_searches_from_a_value_not_below_the_item() {
    for (value, item, order) in values_beside_items() {
        let tried = |d| {
            Queue::with_put_at(I2, item, &[(D, d)], [value, None, None])
                .moved([PLACE, LEAF, TRIES, LO, HI])
        };
        let due = if order.is_lt() { [I4, 1, 1, 0, 0] } else { [I5, 1, 0, 1, 1] };
        assert_eq!(tried(1), due, "{item:?} at {value:?}");
        assert_eq!(tried(3), [I3, 4, 0, 1, 3], "{item:?} at an empty leaf");
    }
}

/// Node 2, at level 2, lies halfway of levels 1 to 3 and of 2 to 3; the root of levels 1 and 2.
#[test]
fn i3_goes_up_from_a_value_not_below_the_item() {
    for (value, item, order) in values_beside_items() {
        let searched = |lo, hi| {
            Queue::with_put_at(I3, item, &[(LEAF, 5), (LO, lo), (HI, hi)], [value; 3])
                .moved([PLACE, LO, HI, NODE])
        };
        let due = if order.is_lt() {
            [[I5, 3, 3, 5], [I5, 3, 3, 5], [I5, 2, 2, 2]]
        } else {
            [[I3, 1, 2, 0], [I5, 2, 2, 2], [I5, 1, 1, 1]]
        };
        let all = [searched(1, 3), searched(2, 3), searched(1, 2)];
        assert_eq!(all, due, "{item:?} at {value:?}");
    }
}

#[test]
fn i5_starts_again_at_a_value_below_the_item() {
    for (value, item, order) in values_beside_items() {
        let read = |node| {
            Queue::with_put_at(I5, item, &[(NODE, node)], [value, value, None]).moved([PLACE, NODE])
        };
        let due = if order.is_lt() { [[I1, 1], [I1, 2]] } else { [[I6, 1], [I7, 2]] };
        assert_eq!([read(1), read(2)], due, "{item:?} at {value:?}");
    }
}

#[test]
fn i7_starts_again_at_a_parent_above_the_item() {
    for (value, item, order) in values_beside_items() {
        let queue = Queue::with_put_at(I7, item, &[(NODE, 3)], [value, None, None]);
        let counter = queue.node(1)[COUNTER_LOW];
        let place = if order.is_gt() { I1 } else { I8 };
        let read = queue.moved([PLACE, COPIES[1] + COUNTER_LOW]);
        assert_eq!(read, [place, counter], "{item:?} below {value:?}");
    }
}

/// The child with which the root exchanges its list, if it does.
fn chosen_child(values: [Value; 3]) -> Option<u32> {
    let mut queue = Queue::with_mending_at_m4(values);
    assert_eq!(queue.turn(1, 0), Answer::Moved);
    if queue.place(1) == M6 {
        return None;
    }
    let [place, child] = queue.moved([PLACE, NODE]);
    assert_eq!(place, M1);
    Some(child)
}

#[test]
fn m4_and_m5_choose_the_lesser_child_and_the_left_of_equals() {
    for values in triples() {
        let [node, left, right] = values.map(rank);
        let lesser = if left <= right { 2 } else { 3 };
        let due = (left.min(right) < node).then_some(lesser);
        assert_eq!(chosen_child(values), due, "node and children {values:?}");
    }
}
