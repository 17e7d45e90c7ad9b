//! Taking, listing and mending on records of every kind: where a turn goes, what it leaves in the
//! record.

use checks::fields::place::{E1, E2, IDLE, M1, M2, M3, M4, M5, M6, P17, P18, P19};
use checks::fields::{
    AFTER, COPIES, COUNTER_LOW, D, DIRTY, FIRST_FREE_CELL, NODE, OWN_CELL, PERMISSION, PLACE,
    PRESENT_DEPTH, RESULT_KEY, RESULT_TAG, WAITING,
};
use checks::queue::Queue;
use mound::Answer;

fn at(place: u32, fields: &[(usize, u32)]) -> Queue {
    Queue::with_thread_at(place, fields, [5, 6, 7].map(|key| Some((key, 0))))
}

/// Thread 1 is idle: of its record the permission alone is left.
fn assert_idle(queue: &Queue) {
    assert_eq!([queue.field(1, PERMISSION), queue.place(1)], [3, IDLE]);
    assert!(queue.record(1)[4..].iter().all(|&byte| byte == 0));
}

#[test]
fn e1_and_17_mend_a_dirty_root_and_come_back() {
    for (place, after) in [(E1, 0), (P17, 2)] {
        for value in [Some((5, 0)), None] {
            let fields = [(NODE, 6), (AFTER, 1)];
            let mut queue = Queue::with_thread_at(place, &fields, [value, None, None]);
            queue.set_word(queue.node_at(1) + DIRTY, 1);
            let left = queue.moved([PLACE, NODE, AFTER, COPIES[0] + DIRTY]);
            assert_eq!(left, [M1, 1, after, 1]);
        }
    }
}

#[test]
fn e1_and_17_keep_what_they_do_not_use() {
    for (place, next) in [(E1, E2), (P17, P18)] {
        let left = at(place, &[(NODE, 6), (AFTER, 1)]).moved([PLACE, NODE, AFTER]);
        assert_eq!(left, [next, 6, 1]);
    }
}

#[test]
fn e1_and_17_answer_that_an_empty_root_is_empty() {
    for place in [E1, P17] {
        let mut queue = Queue::with_thread_at(place, &[], [None, Some((6, 0)), None]);
        assert_eq!(queue.turn(1, 0), Answer::Empty);
        assert_idle(&queue);
    }
}

/// The fields that 18 uses, and the result words, which it leaves alone.
const OF_18: [usize; 6] = [PLACE, NODE, AFTER, OWN_CELL, RESULT_KEY, RESULT_TAG];

#[test]
fn p18_takes_the_whole_list_in_hand() {
    let mut queue = at(P18, &[(NODE, 6), (RESULT_KEY, 8), (RESULT_TAG, 9)]);
    queue.set_words(queue.cell_at(1), [5, 0, 3]);
    queue.match_copies(1);
    let before = queue.clone();
    assert_eq!(queue.clone().moved(OF_18), [M1, 1, 3, 1, 8, 9]);
    queue.turn(1, 0);
    assert_eq!(queue.node(1), [0, 1, 10, 0]);
    assert_eq!([1, 2, 3, 4].map(|cell| queue.cell(cell)), [1, 2, 3, 4].map(|c| before.cell(c)));
    assert_eq!(queue.word(FIRST_FREE_CELL), 0);
}

#[test]
fn a_failed_18_starts_again_at_17() {
    let fields = [(NODE, 6), (AFTER, 1), (RESULT_KEY, 8), (RESULT_TAG, 9), (COPIES[0], 1)];
    assert_eq!(at(P18, &fields).moved(OF_18), [P17, 6, 1, 4, 8, 9]);
}

/// The own cell goes on along its chain, whatever the cells are beside; with the last the thread is
/// idle.
#[test]
fn p19_hands_out_from_the_own_cell() {
    let mut queue = at(P19, &[(OWN_CELL, 2), (AFTER, 3), (RESULT_KEY, 8)]);
    queue.set_word(FIRST_FREE_CELL, 4);
    queue.set_words(queue.cell_at(2), [6, 7, 3]);
    assert_eq!(queue.turn(1, 0), Answer::Took { key: 6, tag: 7 });
    let left = [PLACE, OWN_CELL, AFTER, RESULT_KEY].map(|field| queue.field(1, field));
    assert_eq!(left, [P19, 3, 3, 8]);
    assert_eq!((queue.cell(2), queue.word(FIRST_FREE_CELL)), ([0, 0, 4], 2));

    assert_eq!(queue.turn(1, 0), Answer::Took { key: 7, tag: 0 });
    assert_idle(&queue);
    assert_eq!((queue.cell(3), queue.word(FIRST_FREE_CELL)), ([0, 0, 2], 3));
}

/// A cell that is its own next one, which only a region that was never laid out has.
#[test]
fn p19_goes_by_the_next_cell_as_it_was() {
    let mut queue = at(P19, &[(OWN_CELL, 2)]);
    queue.set_words(queue.cell_at(2), [6, 7, 2]);
    assert_eq!(queue.turn(1, 0), Answer::Took { key: 6, tag: 7 });
    assert_eq!([queue.place(1), queue.field(1, OWN_CELL)], [P19, 2]);
    assert_eq!((queue.cell(2), queue.word(FIRST_FREE_CELL)), ([0, 0, 0], 2));
}

#[test]
fn m2_reads_the_depth_and_compares_the_level() {
    let dirty = (COPIES[0] + DIRTY, 1);
    for (node, place) in [(1, M3), (2, M6), (3, M6), (4, M3), (7, M3)] {
        let mut queue = at(M2, &[(NODE, node), dirty]);
        queue.set_word(PRESENT_DEPTH, 2);
        assert_eq!(queue.moved([PLACE, D, NODE]), [place, 2, node]);
    }
}

#[test]
fn m4_mends_a_dirty_child_first() {
    let mend = |left_dirty, right_dirty| {
        let mut queue = at(M4, &[(NODE, 3), (WAITING, 1), (COPIES[1] + DIRTY, left_dirty)]);
        queue.set_word(queue.node_at(7) + DIRTY, right_dirty);
        queue.moved([PLACE, NODE, WAITING])
    };
    assert_eq!(mend(1, 0), [M1, 6, 3]);
    assert_eq!(mend(1, 1), [M1, 6, 3]);
    assert_eq!(mend(0, 1), [M1, 7, 3]);
    assert_eq!(mend(0, 0), [M6, 3, 1]);
}

#[test]
fn a_failed_m5_or_m6_starts_again_at_its_node() {
    let waits = [(NODE, 3), (WAITING, 1), (COPIES[0] + COUNTER_LOW, 8)];
    for place in [M5, M6] {
        assert_eq!(at(place, &waits).moved([PLACE, NODE, WAITING]), [M1, 3, 1]);
    }
}

/// From node 6, at level 3, by way of the clean copy that M2 finds and of a successful M6.
#[test]
fn a_return_goes_to_the_deepest_waiting_level() {
    for (waiting, node, left) in [(1, 1, 0), (2, 3, 0), (3, 3, 1)] {
        let fields = [(NODE, 6), (WAITING, waiting), (AFTER, 1)];
        let mut cleaning = at(M6, &fields);
        cleaning.match_copies(1);
        for queue in [at(M2, &fields), cleaning] {
            assert_eq!(queue.moved([PLACE, NODE, WAITING, AFTER]), [M1, node, left, 1]);
        }
    }
}

#[test]
fn a_return_with_none_waiting_goes_by_after() {
    let returning = |place, after| {
        let mut queue = at(place, &[(NODE, 2), (AFTER, after), (RESULT_KEY, 8), (RESULT_TAG, 9)]);
        queue.match_copies(1);
        queue
    };
    for from in [M2, M6] {
        for (after, place) in [(0, E1), (2, P17), (3, P19)] {
            let left = returning(from, after).moved([PLACE, NODE, AFTER, RESULT_KEY, RESULT_TAG]);
            assert_eq!(left, [place, 2, after, 8, 9]);
        }
        let mut queue = returning(from, 1);
        assert_eq!(queue.turn(1, 0), Answer::Took { key: 8, tag: 9 });
        assert_idle(&queue);
    }
}
