//! What turns leave in the thread's record and in shared memory, word by word: a field keeps what
//! was last put in it until the thread goes idle.

use checks::fields::{
    place, AFTER, FIRST_FREE_CELL, NODE, OWN_CELL, PLACE, RESULT_KEY, THREAD, WAITING,
};
use checks::queue::{Queue, SMALL};
use mound::Answer::{Idle, Inserted, Moved, Took, Withdrawn};
use mound::Shape;

/// The record's words from the place to the node.
fn put_words(queue: &Queue, thread: u32) -> [u32; 10] {
    std::array::from_fn(|word| queue.field(thread, PLACE + word))
}

/// Case H: a put that fails at the root, grows the tree and ends at node 3.
#[test]
fn a_put_turn_by_turn() {
    use place::{I1, I2, I3, I4, I5, I7, I8};
    let root = [1, 0, 1, 0, 5, 6, 0];
    let none = [0; 7];
    let mut queue = Queue::open_to_all(SMALL).holding(&[(5, 6)]);
    assert_eq!(queue.put(2, 7, 8), Ok(()));
    assert_eq!(queue.cell(2), [7, 8, 0]);
    assert_eq!(put_words(&queue, 2), [I1, 7, 8, 2, 0, 0, 0, 0, 0, 0]);

    // Place, item, own cell, d, leaf, tries, lo, hi, node; then the first copy and the second.
    let after_each_turn = [
        ([I2, 7, 8, 2, 1, 0, 0, 0, 0, 0], none, none),
        ([I4, 7, 8, 2, 1, 1, 1, 0, 0, 0], root, none),
        ([I1, 7, 8, 2, 1, 1, 1, 0, 0, 0], root, none),
        ([I2, 7, 8, 2, 2, 1, 0, 0, 0, 0], root, none),
        ([I3, 7, 8, 2, 2, 3, 0, 1, 2, 0], none, none),
        ([I5, 7, 8, 2, 2, 3, 0, 2, 2, 3], root, none),
        ([I7, 7, 8, 2, 2, 3, 0, 2, 2, 3], none, none),
        ([I8, 7, 8, 2, 2, 3, 0, 2, 2, 3], none, root),
    ];
    for (words, first, second) in after_each_turn {
        assert_eq!(queue.turn(2, 5), Moved);
        assert_eq!(put_words(&queue, 2), words);
        assert_eq!([queue.copy(2, 0), queue.copy(2, 1)], [first, second]);
    }
    assert_eq!(queue.turn(2, 5), Inserted);
    assert_eq!(put_words(&queue, 2), [0; 10]);
    assert_eq!(queue.node(3), [2, 0, 1, 0]);
    assert_eq!(queue.cell(2), [7, 8, 0]);
}

/// Items of keys 5 and 7 at nodes 1 and 3; the second take finds node 3 as the first left it,
/// dirty.
#[test]
fn two_takes_that_mend_turn_by_turn() {
    use place::{E2, M1, M2, M3, M4, M5, M6};
    let mut queue = Queue::open_to_all(SMALL).holding(&[(5, 6), (7, 8)]);
    assert_eq!([queue.node(1), queue.node(3)], [[1, 0, 1, 0], [2, 0, 1, 0]]);
    assert_eq!([queue.take(1), queue.take(2)], [Ok(()); 2]);

    let places_of = |queue: &mut Queue, thread: u32, turns: usize| -> Vec<u32> {
        let turn = |_| {
            assert_eq!(queue.turn(thread, 0), Moved);
            queue.place(thread)
        };
        (0..turns).map(turn).collect()
    };
    assert_eq!(places_of(&mut queue, 1, 7), [E2, M1, M2, M3, M4, M5, M1]);
    // The root got the child's list, clean; the child the root's empty one, dirty.
    assert_eq!([queue.node(1), queue.node(3)], [[2, 0, 3, 0], [0, 1, 2, 0]]);
    assert_eq!([queue.field(1, NODE), queue.field(1, AFTER)], [3, 1]);
    assert_eq!((queue.cell(1), queue.word(FIRST_FREE_CELL)), ([0, 0, 0], 1));

    assert_eq!(places_of(&mut queue, 2, 6), [E2, M1, M2, M3, M4, M1]);
    assert_eq!([queue.field(2, NODE), queue.field(2, WAITING)], [3, 1]);
    assert_eq!(queue.copy(2, 0), [0, 1, 4, 0, 0, 0, 0]);
    assert_eq!(queue.copy(2, 2), [0, 1, 2, 0, 0, 0, 0]);
    assert_eq!((queue.cell(2), queue.word(FIRST_FREE_CELL)), ([0, 0, 1], 2));

    // Thread 2 cleans the child and comes back to the root, which waits no more.
    assert_eq!(places_of(&mut queue, 2, 3), [M2, M6, M1]);
    assert_eq!([queue.field(2, NODE), queue.field(2, WAITING)], [1, 0]);
    assert_eq!([queue.node(1), queue.node(3)], [[0, 1, 4, 0], [0, 0, 3, 0]]);
    assert_eq!(places_of(&mut queue, 2, 4), [M2, M3, M4, M6]);
    assert_eq!(queue.turn(2, 0), Took { key: 7, tag: 8 });
    assert_eq!(queue.node(1), [0, 0, 5, 0]);

    assert_eq!(places_of(&mut queue, 1, 1), [M2]);
    assert_eq!(queue.turn(1, 0), Took { key: 5, tag: 6 });
    assert_eq!([queue.place(1), queue.place(2)], [place::IDLE; 2]);
}

/// A put that is withdrawn at I8, its last turn: what it has copied is gone, and its cell is free
/// again.
#[test]
fn a_withdrawn_put_word_by_word() {
    let mut queue = Queue::open_to_all(SMALL).holding(&[(5, 6)]);
    assert_eq!(queue.put(2, 7, 8), Ok(()));
    assert_eq!(queue.turns(&[2; 8]), [Moved; 8]);
    assert_eq!((queue.place(2), queue.word(FIRST_FREE_CELL)), (place::I8, 0));
    let nodes = [1, 2, 3].map(|node| queue.node(node));

    assert_eq!(queue.permit(2, 2), Ok(()));
    assert_eq!(queue.turn(2, 0), Withdrawn);
    let mut idle = [0; 4 * THREAD];
    idle[0] = 2;
    assert_eq!(queue.record(2), idle);
    assert_eq!((queue.cell(2), queue.word(FIRST_FREE_CELL)), ([0, 0, 0], 2));
    assert_eq!([1, 2, 3].map(|node| queue.node(node)), nodes);
    assert_eq!(queue.cell(1), [5, 6, 0]);
    assert_eq!(queue.turn(2, 0), Idle);
}

/// Freed cells stand in the order in which they are withdrawn, the last one first.
#[test]
fn cells_of_withdrawn_puts_come_first() {
    let shape = Shape { depth: 3, cells: 4, threads: 3, threshold: 1 };
    let mut queue = Queue::open_to_all(shape);
    for thread in 1..=3 {
        assert_eq!(queue.put(thread, 5, 0), Ok(()));
        assert_eq!(queue.permit(thread, 0), Ok(()));
    }
    assert!(queue.free().eq([4]));
    assert_eq!(queue.turns(&[2, 1, 3]), [Withdrawn; 3]);
    assert!(queue.free().eq([3, 1, 2, 4]));
}

/// Items of key 5 with tags 2 and 9 in the root's list, cells 2 and 1, and no node below it.
#[test]
fn a_list_turn_by_turn() {
    use place::{IDLE, M1, M2, M6, P17, P18, P19};
    let mut queue = Queue::open_to_all(SMALL).holding(&[(5, 9), (5, 2)]);
    assert_eq!(queue.list(1), Ok(()));
    // Place, own cell, node, after, result key; then the root.
    let words = |queue: &Queue| {
        let fields = [PLACE, OWN_CELL, NODE, AFTER, RESULT_KEY];
        (fields.map(|field| queue.field(1, field)), queue.node(1))
    };
    assert_eq!(words(&queue), ([P17, 0, 0, 0, 0], [2, 0, 2, 0]));

    let after_each_turn = [
        ([P18, 0, 0, 0, 0], [2, 0, 2, 0]),
        ([M1, 2, 1, 3, 0], [0, 1, 3, 0]),
        ([M2, 2, 1, 3, 0], [0, 1, 3, 0]),
        ([M6, 2, 1, 3, 0], [0, 1, 3, 0]),
        ([P19, 2, 1, 3, 0], [0, 0, 4, 0]),
    ];
    for after in after_each_turn {
        assert_eq!(queue.turn(1, 0), Moved);
        assert_eq!(words(&queue), after);
        assert_eq!([queue.cell(1), queue.cell(2)], [[5, 9, 0], [5, 2, 1]]);
        assert_eq!(queue.word(FIRST_FREE_CELL), 0);
    }
    assert_eq!(queue.copy(1, 0), [0, 1, 3, 0, 0, 0, 0]);

    assert_eq!(queue.turn(1, 0), Took { key: 5, tag: 2 });
    assert_eq!(words(&queue), ([P19, 1, 1, 3, 0], [0, 0, 4, 0]));
    assert_eq!([queue.cell(1), queue.cell(2)], [[5, 9, 0], [0, 0, 0]]);
    assert_eq!(queue.word(FIRST_FREE_CELL), 2);

    assert_eq!(queue.turn(1, 0), Took { key: 5, tag: 9 });
    assert_eq!(words(&queue), ([IDLE, 0, 0, 0, 0], [0, 0, 4, 0]));
    assert_eq!([queue.cell(1), queue.cell(2)], [[0, 0, 2], [0, 0, 0]]);
    assert_eq!(queue.word(FIRST_FREE_CELL), 1);
    assert_eq!(queue.turn(1, 0), Idle);
}
