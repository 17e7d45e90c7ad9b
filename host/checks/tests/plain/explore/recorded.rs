//! Request 9: at every moment of every history without lists, the check accepts the records of what
//! has decided by then.

use super::right::{calls_in, has_lists, shape, with_one_key, with_permits, workloads};
use super::search::{explore_histories, Explored, Workload};

/// Explores the histories of each workload without lists. In so many states at least, operations
/// that overlap have decided.
fn are_accepted(workloads: impl Iterator<Item = Workload>, overlapping: usize) {
    let mut all = Explored::default();
    for workload in workloads.filter(|workload| !has_lists(workload)) {
        match explore_histories(&workload) {
            Ok(explored) => all.add(explored),
            Err(counterexample) => panic!("{workload:?}: {counterexample:?}"),
        }
    }
    println!("{} states, {} with operations that overlap", all.states, all.overlapping);
    assert!(all.overlapping >= overlapping, "only {} with overlaps", all.overlapping);
}

#[test]
#[cfg_attr(debug_assertions, ignore = "slow without --release")]
fn two_threads_at_depth_2() {
    let workloads = (0..=1).flat_map(|held| workloads(shape(2, 2, 1), held, 7, 2));
    are_accepted(workloads, 200_000);
}

#[test]
fn two_threads_at_depth_2_with_permits() {
    let workloads = (0..=2).flat_map(|held| workloads(shape(2, 2, 1), held, 7, 1));
    are_accepted(workloads.flat_map(with_permits), 10_000);
}

#[test]
#[cfg_attr(debug_assertions, ignore = "slow without --release")]
fn two_threads_at_depth_3() {
    let workloads = (0..=1).flat_map(|held| workloads(shape(3, 2, 1), held, 6, 2));
    are_accepted(workloads.filter(|workload| calls_in(workload) <= 3), 20_000);
}

/// All items have one key, and some of them are equal.
#[test]
fn three_threads_at_depth_1() {
    let workloads = (0..=1).flat_map(|held| workloads(shape(1, 3, 1), held, 7, 1));
    are_accepted(workloads.map(with_one_key), 10_000);
}

#[test]
fn three_threads_at_depth_2() {
    are_accepted(workloads(shape(2, 3, 1), 0, 7, 1), 10_000);
}

#[test]
#[ignore = "about eight seconds"]
fn three_threads_at_depth_2_with_items_held() {
    let workloads = (1..=2).flat_map(|held| workloads(shape(2, 3, 1), held, 7, 1));
    are_accepted(workloads, 1_000_000);
}

#[test]
#[ignore = "about ten seconds"]
fn two_threads_at_depth_3_with_two_calls_each() {
    let workloads = (0..=2).flat_map(|held| workloads(shape(3, 2, 1), held, 6, 2));
    are_accepted(workloads, 2_000_000);
}

#[test]
#[ignore = "about three seconds"]
fn two_threads_at_depth_2_with_three_calls_and_permits() {
    let workloads = (0..=2).flat_map(|held| workloads(shape(2, 2, 1), held, 7, 2));
    let workloads = workloads.filter(|workload| calls_in(workload) <= 3);
    are_accepted(workloads.flat_map(with_permits), 300_000);
}
