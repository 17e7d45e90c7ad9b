//! The machine without a mistake agrees with the bag in every state.

use std::collections::BTreeSet;

use checks::fields::place::{
    E1, E2, I1, I2, I3, I4, I5, I6, I7, I8, IDLE, M1, M2, M3, M4, M5, M6, P17, P18, P19,
};
use checks::leaves::Try;
use checks::queue::{Call, Item};
use mound::Shape;

use super::mistaken::Machine;
use super::search::{explore, Explored, Permit, Workload};

/// The items that a queue holds at the start: the first few of these. A thread's number, which is
/// the tag of its puts, is less than their tag.
const HELD: [Item; 4] = [(5, 9), (6, 9), (7, 9), (8, 9)];

/// From each place, the places where document 01 and request 1 let a turn go on.
const WAYS: [(u32, &[u32]); 19] = [
    (I1, &[I2]),
    (I2, &[I1, I2, I3, I4, I5]),
    (I3, &[I3, I5]),
    (I4, &[I1]),
    (I5, &[I1, I6, I7]),
    (I6, &[IDLE, I1]),
    (I7, &[I1, I8]),
    (I8, &[IDLE, I1]),
    (E1, &[IDLE, E2, M1]),
    (E2, &[E1, M1]),
    (M1, &[M2]),
    (M2, &[IDLE, E1, M1, M3, M6, P17, P19]),
    (M3, &[M4]),
    (M4, &[M1, M5, M6]),
    (M5, &[M1]),
    (M6, &[IDLE, E1, M1, P17, P19]),
    (P17, &[IDLE, M1, P18]),
    (P18, &[M1, P17]),
    (P19, &[IDLE, P19]),
];

pub fn shape(depth: u32, threads: u32, threshold: u32) -> Shape {
    Shape { depth, cells: 1 << (depth - 1), threads, threshold }
}

/// All lists of `length` numbers below `bound`.
fn all_lists(bound: usize, length: u32) -> impl Iterator<Item = Vec<usize>> {
    let digits = move |number| (0..length).map(|at| number / bound.pow(at) % bound).collect();
    (0..bound.pow(length)).map(digits)
}

/// All workloads on a queue of `held` items in which each thread makes one to `longest` calls:
/// takes, lists, and puts of key 3, below all items held, or of another key. Threads differ in
/// their number alone, so that workloads which are the same but for that are taken once.
pub fn workloads(
    shape: Shape,
    held: usize,
    key: u32,
    longest: u32,
) -> impl Iterator<Item = Workload> {
    let lists: Vec<_> = (1..=longest).flat_map(|length| all_lists(4, length)).collect();
    let distinct = all_lists(lists.len(), shape.threads).filter(|chosen| chosen.is_sorted());
    distinct.map(move |chosen| {
        let calls_by = |(thread, list): (u32, &usize)| -> Vec<Call> {
            let calls = [Call::Put((3, thread)), Call::Put((key, thread)), Call::Take, Call::List];
            lists[*list].iter().map(|&call| calls[call]).collect()
        };
        let calls = (1..).zip(&chosen).map(calls_by).collect();
        let permissions = vec![3; shape.threads as usize];
        Workload { shape, permissions, held: HELD[..held].to_vec(), calls, permits: vec![] }
    })
}

/// The workload with one key for all items and their keys as tags: threads then put items that
/// wholly equal each other's, and some that equal items held.
pub fn with_one_key(mut workload: Workload) -> Workload {
    let put = workload.calls.iter_mut().flatten().filter_map(|call| match call {
        Call::Put(item) => Some(item),
        Call::Take | Call::List => None,
    });
    for item in workload.held.iter_mut().chain(put) {
        *item = (5, item.0);
    }
    workload
}

pub fn has_lists(workload: &Workload) -> bool {
    workload.calls.iter().flatten().any(|&call| call == Call::List)
}

/// The workload with the items held in the root's list, since they were put from the last on.
fn with_one_list(mut workload: Workload) -> Workload {
    workload.held.reverse();
    workload
}

/// The workload as it is and with one key. With lists, which compare nothing, it is one of these
/// two, by the number of items held, and the workload with the items in one list.
fn variants(workload: Workload) -> Vec<Workload> {
    if !has_lists(&workload) {
        return vec![with_one_key(workload.clone()), workload];
    }
    match workload.held.len() {
        0 => vec![with_one_key(workload)],
        1 => vec![workload],
        2 | 4 => vec![with_one_list(workload.clone()), with_one_key(workload)],
        _ => vec![with_one_list(workload.clone()), workload],
    }
}

fn two_threads_with_two_calls_at_depth_3() -> impl Iterator<Item = Workload> {
    (0..=4).flat_map(|held| workloads(shape(3, 2, 1), held, 6, 2))
}

pub fn calls_in(workload: &Workload) -> usize {
    workload.calls.iter().flatten().count()
}

fn has_four_calls_and_lists(workload: &Workload) -> bool {
    calls_in(workload) == 4 && has_lists(workload)
}

/// The permissions of a thread are taken away, at any moment, and given back at any later one; or
/// one of them is left, and then the other one instead.
const TAKEN_AWAY: [[u32; 2]; 2] = [[0, 3], [1, 2]];

/// The workload with each of these beside it, for each of its threads.
pub fn with_permits(workload: Workload) -> impl Iterator<Item = Workload> {
    let beside = (1..=workload.shape.threads)
        .flat_map(|thread| TAKEN_AWAY.map(|permissions| (thread, permissions)));
    beside.map(move |(thread, permissions)| Workload {
        permits: permissions.map(|permission| Permit { thread, permission }).to_vec(),
        ..workload.clone()
    })
}

/// The workload with the permissions of all threads taken away, one after the other, and given
/// back.
fn with_permits_for_all(workload: Workload) -> Workload {
    let threads = workload.shape.threads;
    let permit_all = |permission| (1..=threads).map(move |thread| Permit { thread, permission });
    Workload { permits: [0, 3].into_iter().flat_map(permit_all).collect(), ..workload }
}

/// Explores each workload.
fn explore_all(workloads: impl Iterator<Item = Workload>) -> Explored {
    let mut all = Explored::default();
    for workload in workloads {
        match explore(&workload, Machine { mistake: None }) {
            Ok(explored) => all.add(explored),
            Err(counterexample) => panic!("{workload:?}: {counterexample:?}"),
        }
    }
    println!("{} states, at most {} accesses of a put alone", all.states, all.most_of_a_put);
    all
}

/// The turns went every way that the papers let them go, but for these, and no other.
fn went_every_way_but(not_gone: &[(u32, u32)], explored: &Explored) {
    let ways = WAYS.iter().flat_map(|&(from, to)| to.iter().map(move |&to| (from, to)));
    let due: BTreeSet<(u32, u32)> = ways.filter(|way| !not_gone.contains(way)).collect();
    assert_eq!(explored.moves, due);
}

/// Explores each workload. The turns go every way that the papers let them go, but for those that
/// these workloads do not lead to, and no other; none is withdrawn.
fn agree_going_every_way_but(
    not_gone: &[(u32, u32)],
    workloads: impl Iterator<Item = Workload>,
) -> Explored {
    let explored = explore_all(workloads.flat_map(variants));
    went_every_way_but(not_gone, &explored);
    assert_eq!(explored.withdrawn_at, BTreeSet::new());
    explored
}

/// The first try of a put at the greatest depth, and later ones.
const FOUND_AT_ONCE: Try = Try { is_first: true, failed: false };
const FAILED_AT_FIRST: Try = Try { is_first: true, failed: true };
const FOUND_LATER: Try = Try { is_first: false, failed: false };
const FAILED_AGAIN: Try = Try { is_first: false, failed: true };

/// At depth 2 the tree holds one item at most beside that of a put, and no second try failed. A put
/// alone made at most 7 accesses: I1 and I2 twice, then I3, I5 and I6, the root being empty and
/// dirty.
fn puts_at_depth_2(explored: &Explored) {
    let tries = [FOUND_AT_ONCE, FAILED_AT_FIRST, FOUND_LATER];
    assert_eq!((&explored.tries, explored.most_of_a_put), (&BTreeSet::from(tries), 7));
}

/// At depth 3 others came to occupy the next leaf as well. A put alone made at most 9 accesses: I1
/// and I2 twice, I3 twice, then I5, I7 and I8.
fn puts_at_depth_3(explored: &Explored) {
    let tries = [FOUND_AT_ONCE, FAILED_AT_FIRST, FOUND_LATER, FAILED_AGAIN];
    assert_eq!((&explored.tries, explored.most_of_a_put), (&BTreeSet::from(tries), 9));
}

/// Explores each workload, in which permissions are taken away. The turns go as above, and at each
/// place that needs a permission some are withdrawn.
fn agree_with_permits_going_every_way_but(
    not_gone: &[(u32, u32)],
    workloads: impl Iterator<Item = Workload>,
) {
    let explored = explore_all(workloads);
    went_every_way_but(not_gone, &explored);
    let needing = [I1, I2, I3, I4, I5, I6, I7, I8, E1, E2, P17, P18];
    assert_eq!(explored.withdrawn_at, BTreeSet::from(needing));
}

#[test]
#[cfg_attr(debug_assertions, ignore = "slow without --release")]
fn two_threads_at_depth_2() {
    let at_threshold = |h| (0..=2).flat_map(move |held| workloads(shape(2, 2, h), held, 7, 2));
    let explored = agree_going_every_way_but(&[(I3, I3)], (1..=2).flat_map(at_threshold));
    puts_at_depth_2(&explored);
}

#[test]
#[cfg_attr(debug_assertions, ignore = "slow without --release")]
fn two_threads_at_depth_3() {
    let workloads = two_threads_with_two_calls_at_depth_3();
    let explored = agree_going_every_way_but(
        &[(I2, I2)],
        workloads.filter(|workload| !has_four_calls_and_lists(workload)),
    );
    puts_at_depth_3(&explored);
}

#[test]
#[cfg_attr(debug_assertions, ignore = "slow without --release")]
fn three_threads_at_depth_2() {
    let workloads = (0..=2).flat_map(|held| workloads(shape(2, 3, 1), held, 7, 1));
    puts_at_depth_2(&agree_going_every_way_but(&[(I2, I2), (I3, I3)], workloads));
}

#[test]
#[cfg_attr(debug_assertions, ignore = "slow without --release")]
fn three_threads_at_depth_3() {
    let workloads = (0..=2).flat_map(|held| workloads(shape(3, 3, 1), held, 6, 1));
    puts_at_depth_3(&agree_going_every_way_but(&[(I2, I2)], workloads));
}

#[test]
#[ignore = "about five seconds"]
fn two_threads_at_depth_3_with_four_calls_and_lists() {
    let workloads = two_threads_with_two_calls_at_depth_3();
    agree_going_every_way_but(&[(I2, I1), (I2, I2)], workloads.filter(has_four_calls_and_lists));
}

#[test]
#[ignore = "about a minute"]
fn two_threads_at_depth_2_with_three_calls_each() {
    let workloads = (0..=2).flat_map(|held| workloads(shape(2, 2, 1), held, 7, 3));
    agree_going_every_way_but(&[(I2, I2), (I3, I3)], workloads);
}

#[test]
#[ignore = "about three minutes, and a gigabyte"]
fn three_threads_at_depth_3_with_more_items() {
    let workloads = (2..=4).flat_map(|held| workloads(shape(3, 3, 1), held, 7, 1));
    agree_going_every_way_but(&[(I2, I2)], workloads);
}

#[test]
#[cfg_attr(debug_assertions, ignore = "slow without --release")]
fn two_threads_at_depth_2_with_permits() {
    let workloads = (0..=2).flat_map(|held| workloads(shape(2, 2, 1), held, 7, 2));
    let workloads = workloads.filter(|workload| calls_in(workload) <= 3).flat_map(with_permits);
    agree_with_permits_going_every_way_but(&[(I2, I2), (I3, I3)], workloads);
}

#[test]
#[cfg_attr(debug_assertions, ignore = "slow without --release")]
fn two_threads_at_depth_2_with_permits_for_both() {
    let workloads = (0..=2).flat_map(|held| workloads(shape(2, 2, 1), held, 7, 1));
    let not_gone = [(I2, I2), (I3, I3)];
    agree_with_permits_going_every_way_but(&not_gone, workloads.map(with_permits_for_all));
}

#[test]
#[cfg_attr(debug_assertions, ignore = "slow without --release")]
fn two_threads_at_depth_3_with_permits() {
    let workloads = (0..=4).flat_map(|held| workloads(shape(3, 2, 1), held, 6, 1));
    let not_gone = [(I2, I1), (I2, I2)];
    agree_with_permits_going_every_way_but(&not_gone, workloads.flat_map(with_permits));
}

#[test]
#[ignore = "about forty seconds"]
fn two_threads_at_depth_2_with_two_calls_each_and_permits() {
    let at_threshold = |h| (0..=2).flat_map(move |held| workloads(shape(2, 2, h), held, 7, 2));
    let workloads = (1..=2).flat_map(at_threshold).flat_map(with_permits);
    agree_with_permits_going_every_way_but(&[(I3, I3)], workloads);
}

#[test]
#[ignore = "more than a minute"]
fn three_threads_at_depth_2_with_permits() {
    let workloads = (0..=2).flat_map(|held| workloads(shape(2, 3, 1), held, 7, 1));
    agree_with_permits_going_every_way_but(&[(I2, I2), (I3, I3)], workloads.flat_map(with_permits));
}
