//! Turns that are refused: 3 for the thread, 7 for what does not exist, 11 for a spent counter.
//! Each leaves every byte. Between 7 and 11, turns that lack their permission are withdrawn.

use checks::fields::place::{
    E1, E2, I1, I2, I3, I4, I5, I6, I7, I8, IDLE, M1, M2, M3, M4, M5, M6, P17, P18, P19,
};
use checks::fields::{
    AFTER, COPIES, D, DIRTY, HI, KEY, LEAF, LO, NODE, OWN_CELL, PLACE, RESULT_KEY,
};
use checks::queue::Queue;
use mound::{Answer, Refusal};

/// Thread 1 at a place with these fields; the root and node 2 hold keys 5 and 6, tags 0.
fn queue_with_thread_at(place: u32, fields: &[(usize, u32)]) -> Queue {
    Queue::with_thread_at(place, fields, [Some((5, 0)), Some((6, 0)), None])
}

/// Serves a turn of thread 1, which is refused and leaves every byte.
fn refused(queue: &Queue) -> Refusal {
    assert_eq!(plain::check(&queue.bytes), Ok(()));
    let mut after = queue.clone();
    let Answer::Refused(refusal) = after.turn(1, 0) else {
        panic!("not refused at place {}", queue.place(1));
    };
    assert!(after == *queue, "a refused turn changed bytes at place {}", queue.place(1));
    refusal
}

/// The same of a turn that is refused 7, which it is whatever the thread's permission.
fn refused_7(queue: &Queue) {
    for permission in 0..=3 {
        let mut queue = queue.clone();
        assert_eq!(queue.permit(1, permission), Ok(()));
        assert_eq!(refused(&queue), Refusal::Unreadable);
    }
}

/// Serves a turn of thread 1 without its permission, which is withdrawn.
fn withdrawn(queue: &Queue) {
    let mut queue = queue.clone();
    assert_eq!(queue.permit(1, 0), Ok(()));
    let due = queue.withdrawn(1).expect("it has a cell, or needs none");
    assert_eq!(queue.turn(1, 0), Answer::Withdrawn);
    assert!(queue == due);
}

#[test]
fn a_thread_that_does_not_exist() {
    for thread in [0, 3, 64, u32::MAX] {
        let mut queue = queue_with_thread_at(I1, &[]);
        let before = queue.clone();
        assert_eq!(queue.turn(thread, 0), Answer::Refused(Refusal::Thread));
        assert!(queue == before);
    }
}

#[test]
fn a_region_that_is_not_readable() {
    let queue = queue_with_thread_at(20, &[]);
    for thread in 0..=3 {
        let mut after = queue.clone();
        assert_eq!(after.turn(thread, 0), Answer::Refused(Refusal::Unreadable));
        assert!(after == queue);
    }
}

#[test]
fn a_node_a_cell_or_a_level_that_does_not_exist() {
    let at = |place, fields: &[(usize, u32)]| refused_7(&queue_with_thread_at(place, fields));
    at(I2, &[(D, 0)]);
    at(I4, &[(D, 0)]);
    at(I4, &[(D, 3)]);
    at(I5, &[(NODE, 0)]);
    at(I6, &[(NODE, 1), (OWN_CELL, 0)]);
    at(I7, &[(NODE, 0)]);
    at(I7, &[(NODE, 1)]);
    at(I8, &[(NODE, 2), (OWN_CELL, 0)]);
    at(I8, &[(NODE, 0)]);
    at(I8, &[(NODE, 1)]);
    at(M1, &[(NODE, 0)]);
    at(M6, &[(NODE, 0)]);
    at(M3, &[(NODE, 0)]);
    at(M3, &[(NODE, 4)]);
    at(M4, &[(NODE, 0)]);
    at(M4, &[(NODE, 7)]);
    at(M5, &[(NODE, 0)]);
    at(M5, &[(NODE, 4)]);
    at(P19, &[(OWN_CELL, 0)]);
}

/// A put that names all it needs is withdrawn, or refused 7 for want of a cell to free.
#[test]
fn a_withdrawn_put_without_an_own_cell() {
    let ready: [&[(usize, u32)]; 8] = [
        &[(PLACE, I1)],
        &[(PLACE, I2), (D, 3)],
        &[(PLACE, I3), (LEAF, 4), (LO, 1), (HI, 3)],
        &[(PLACE, I4), (D, 2)],
        &[(PLACE, I5), (NODE, 2)],
        &[(PLACE, I6)],
        &[(PLACE, I7), (NODE, 2)],
        &[(PLACE, I8), (NODE, 2)],
    ];
    for fields in ready {
        let mut queue = queue_with_thread_at(I1, fields);
        withdrawn(&queue);
        queue.set_field(1, OWN_CELL, 0);
        assert_eq!(queue.permit(1, 2), Ok(()));
        assert_eq!(refused(&queue), Refusal::Unreadable);
    }
}

/// E2 and 18 name the copied cell only where their comparison holds.
#[test]
fn a_copied_head_that_does_not_exist() {
    for (place, failed) in [(E2, E1), (P18, P17)] {
        assert_eq!(queue_with_thread_at(place, &[(COPIES[0], 0)]).moved([PLACE]), [failed]);
        // An empty root, copied as empty and equal; 7 comes before 11.
        for counter in [0, u64::MAX] {
            let mut queue = Queue::with_thread_at(place, &[], [None; 3]);
            queue.set_counter(queue.node_at(1), counter);
            queue.match_copies(1);
            refused_7(&queue);
        }
    }
}

/// M2 names its node only where the copy is dirty.
#[test]
fn a_mended_node_that_does_not_exist() {
    let at = |fields: &[(usize, u32)]| {
        queue_with_thread_at(M2, &[&[(NODE, 0), (RESULT_KEY, 8)], fields].concat())
    };
    assert_eq!(at(&[]).moved([PLACE, D, NODE, RESULT_KEY]), [E1, 3, 0, 8]);
    assert_eq!(at(&[(AFTER, 1)]).turn(1, 0), Answer::Took { key: 8, tag: 0 });
    refused_7(&at(&[(COPIES[0] + DIRTY, 1)]));
}

#[test]
fn a_search_that_leaves_the_path_to_its_leaf() {
    let searching = |leaf, lo, hi, key| {
        queue_with_thread_at(I3, &[(LEAF, leaf), (LO, lo), (HI, hi), (KEY, key)])
    };
    // Nothing left to search; no leaf; no level 0; a level below the leaf.
    for (leaf, lo, hi) in [(4, 2, 2), (4, 3, 1), (4, 0, 0), (0, 1, 3), (4, 0, 1), (1, 2, 3)] {
        refused_7(&searching(leaf, lo, hi, 6));
    }
    // Node 2 is read either way. One way ends there, the other at level 3, below the leaf.
    assert_eq!(searching(2, 2, 3, 6).moved([PLACE]), [I5]);
    withdrawn(&searching(2, 2, 3, 6));
    refused_7(&searching(2, 2, 3, 7));
    // With level 3 to be searched on, the way down is not yet refused.
    assert_eq!(searching(2, 0, 3, 7).moved([PLACE]), [I3]);
}

#[test]
fn what_a_place_does_not_use_may_be_missing() {
    for place in [IDLE, I1, E1, P17] {
        let mut queue = queue_with_thread_at(place, &[]);
        assert!(!matches!(queue.turn(1, 0), Answer::Refused(_)));
    }
    // I6 goes to the root whatever node the record names.
    assert_eq!(queue_with_thread_at(I6, &[]).moved([PLACE]), [I1]);
    // M2 without a copy is a return; M1 of a node in the lowest level is a READ like any other.
    assert_eq!(queue_with_thread_at(M2, &[(NODE, 4)]).moved([PLACE]), [E1]);
    assert_eq!(queue_with_thread_at(M1, &[(NODE, 7)]).moved([PLACE]), [M2]);
}

/// Each update with its copies equal to their nodes, and the nodes that it changes.
fn updates() -> [(Queue, &'static [u32]); 6] {
    let at = |place, node, changed: &'static [u32]| {
        let mut queue = queue_with_thread_at(place, &[(NODE, node), (KEY, 5)]);
        queue.match_copies(1);
        (queue, changed)
    };
    [
        at(I6, 1, &[1]),
        at(I8, 2, &[2]),
        at(E2, 1, &[1]),
        at(M5, 1, &[1, 2]),
        at(M6, 2, &[2]),
        at(P18, 1, &[1]),
    ]
}

/// The queue with that counter at a node and another in the copy that is compared with it.
fn with_counter(queue: &Queue, node: u32, counter: u64, copied: u64) -> Queue {
    let mut queue = queue.clone();
    let (copy, _) = *queue.compared(1).iter().find(|compared| compared.1 == node).unwrap();
    queue.set_counter(queue.node_at(node), counter);
    queue.set_counter(copy, copied);
    queue
}

/// The counters of all nodes.
fn counters(queue: &Queue) -> Vec<u64> {
    (1..8).map(|node| queue.counter(node)).collect()
}

#[test]
fn a_spent_counter_in_a_node_that_would_change() {
    for (queue, changed) in updates() {
        for &node in changed {
            let spent = with_counter(&queue, node, u64::MAX, u64::MAX);
            assert_eq!(refused(&spent), Refusal::CounterSpent);
            // Without its permission the turn is withdrawn before it; mending needs none.
            if [M5, M6].contains(&queue.place(1)) {
                let mut spent = spent;
                assert_eq!(spent.permit(1, 0), Ok(()));
                assert_eq!(refused(&spent), Refusal::CounterSpent);
            } else {
                withdrawn(&spent);
            }
            // The last step of a counter is not refused, nor is that from the low word to the high.
            for counter in [u64::MAX - 1, u64::from(u32::MAX), 9 << 32 | u64::from(u32::MAX)] {
                let mut stepped = with_counter(&queue, node, counter, counter);
                assert!(stepped.turn(1, 0).is_access());
                assert_eq!(stepped.counter(node), counter + 1);
            }
        }
    }
}

/// The copied counter differs in its low word or in its high word alone.
#[test]
fn a_spent_counter_where_the_comparison_fails() {
    for (queue, _) in updates() {
        for (_, node) in queue.compared(1).into_iter().filter(|compared| compared.1 != 3) {
            for copied in [u64::MAX - 1, u64::MAX >> 1, u64::from(u32::MAX)] {
                let mut failing = with_counter(&queue, node, u64::MAX, copied);
                let before = counters(&failing);
                assert_eq!(failing.turn(1, 0), Answer::Moved);
                assert_eq!(counters(&failing), before);
            }
        }
    }
}

#[test]
fn a_spent_counter_in_a_node_that_would_stay() {
    let [_, (push, _), _, (swap, _), ..] = updates();
    let mut push = with_counter(&push, 1, u64::MAX, u64::MAX);
    assert_eq!(push.turn(1, 0), Answer::Inserted);
    assert_eq!(push.counter(1), u64::MAX);
    // The child that is not chosen is not even compared.
    let mut swap = with_counter(&swap, 3, u64::MAX, 0);
    assert_eq!(swap.turn(1, 0), Answer::Moved);
    assert_eq!(swap.field(1, NODE), 2);
}
