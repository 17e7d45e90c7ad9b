//! Each mistake is found: the search finds a disagreement with the bag, on a workload on which
//! the machine without the mistake has none.

use checks::fields::place::{I2, I3, I5, I7, M4, M5};
use checks::queue::{Call, Item, SMALL};
use checks::recorder::positions_by_answer;
use mound::{Refusal, Shape};

use super::mistaken::{LeafMistake, ListMistake, Machine, Mistake, PermissionMistake};
use super::search::{explore, is_accepted, Counterexample, Permit, Step, Workload};
use crate::ledger::Disagreement;

/// Two threads with these calls on a queue of that depth at most that holds key 5, tag 0, at its
/// root.
fn workload(depth: u32, calls: [&[Call]; 2]) -> Workload {
    Workload {
        shape: Shape { depth, cells: 1 << (depth - 1), ..SMALL },
        permissions: vec![3, 3],
        held: vec![(5, 0)],
        calls: calls.map(<[Call]>::to_vec).to_vec(),
        permits: vec![],
    }
}

/// The shortest way to a disagreement, which is printed.
fn find(mistake: Mistake, workload: &Workload) -> Counterexample {
    explore(workload, Machine { mistake: None }).expect("the right machine agrees with the bag");
    let found = explore(workload, Machine { mistake: Some(mistake) });
    let counterexample = found.expect_err("the mistake shows");
    println!("{mistake:?}: {:?} after", counterexample.disagreement);
    for step in &counterexample.steps {
        println!("  {step:?}");
    }
    counterexample
}

#[test]
fn an_empty_list_that_grants_all() {
    let mut workload = workload(2, [&[], &[Call::Put((3, 1))]]);
    workload.permissions[1] = 0;
    let found = find(Mistake::EmptyListGrantsAll, &workload);
    assert_eq!(found.disagreement, Disagreement::EmptyListActed);
    assert_eq!(found.steps, [Step::Begin { thread: 2, call: Call::Put((3, 1)) }]);
}

/// Case J: 'empty' is answered before the take, or the list, that emptied the queue answers.
#[test]
fn an_order_by_answers() {
    for call in [Call::Take, Call::List] {
        let found = find(Mistake::OrderedByAnswer, &workload(2, [&[call], &[Call::Take]]));
        assert_eq!(found.disagreement, Disagreement::EmptyAnswer);
    }
}

/// The history of case J's takes: positions by answers are not accepted.
#[test]
fn records_in_the_order_of_answers() {
    let workload = workload(2, [&[Call::Take], &[Call::Take]]);
    let found = find(Mistake::OrderedByAnswer, &workload);
    let records = found.recorded(&workload, Machine { mistake: None }).records();
    assert!(is_accepted(&records), "{records:?}");
    let records = positions_by_answer(records);
    assert!(!is_accepted(&records), "{records:?}");
}

/// Request 9's check of the history finds the mistake, too.
fn is_found_by_records(mistake: Mistake, workload: &Workload, found: &Counterexample) {
    let records = found.recorded(workload, Machine { mistake: Some(mistake) }).records();
    assert!(!is_accepted(&records), "{records:?}");
}

/// A cell that is freed and used again at the root is the same list with another item.
#[test]
fn a_comparison_without_the_counter() {
    let calls: [&[Call]; 2] = [&[Call::Take], &[Call::Take, Call::Put((3, 1))]];
    let found = find(Mistake::CounterNotCompared, &workload(1, calls));
    let disagreement = Disagreement::OtherAnswer { got: (5, 0), due: (3, 1) };
    assert_eq!(found.disagreement, disagreement);
}

/// An item that comes to lie below an empty clean root is lost to takes.
#[test]
fn an_i8_that_does_not_test_the_parent() {
    let calls: [&[Call]; 2] = [&[Call::Put((6, 1))], &[Call::Take, Call::Take]];
    let workload = workload(2, calls);
    let found = find(Mistake::ParentNotTested, &workload);
    assert_eq!(found.disagreement, Disagreement::EmptyAnswer);
    is_found_by_records(Mistake::ParentNotTested, &workload, &found);
}

/// Case K: with E2 the cell is free, and the take holds it no more.
#[test]
fn a_cell_freed_at_the_answer() {
    let calls: [&[Call]; 2] = [&[Call::Put((3, 1))], &[Call::Take]];
    let found = find(Mistake::FreedAtAnswer, &workload(1, calls));
    assert_eq!(found.disagreement, Disagreement::OtherHand { thread: 2 });
}

/// Three items of one key.
const TAG_0: Item = (5, 0);
const TAG_2: Item = (5, 2);
const TAG_9: Item = (5, 9);

/// Keys compared where items should be: of one key, tag 9 is taken before tag 2 or 0.
fn find_keys_alone(at: &'static [u32], workload: &Workload) {
    let found = find(Mistake::KeysAlone { at }, workload);
    assert_eq!(found.disagreement, Disagreement::NotLeast(TAG_9));
    is_found_by_records(Mistake::KeysAlone { at }, workload, &found);
}

/// A put comes to stand before a held item of a smaller tag.
#[test]
fn keys_alone_at_every_place() {
    let calls: [&[Call]; 2] = [&[Call::Put(TAG_9)], &[Call::Take]];
    find_keys_alone(&[I2, I3, I5, I7, M4, M5], &workload(2, calls));
}

/// The root is empty when the put of tag 9 looks for a node, and holds tag 2 when I5 reads it.
#[test]
fn keys_alone_at_i5() {
    let calls: [&[Call]; 2] = [&[Call::Put(TAG_9)], &[Call::Put(TAG_2), Call::Take]];
    find_keys_alone(&[I5], &Workload { held: vec![], ..workload(2, calls) });
}

/// The root holds tag 0 when the put of tag 2 looks for a node, and tag 9 when I7 reads it.
#[test]
fn keys_alone_at_i7() {
    let others = [Call::Take, Call::Put(TAG_9), Call::Take];
    find_keys_alone(&[I7], &workload(2, [&[Call::Put(TAG_2)], &others]));
}

/// Tag 2 stays below a root whose list starts with tag 9 once tag 0 is taken.
#[test]
fn keys_alone_at_m4() {
    let calls = [Call::Put(TAG_2), Call::Take, Call::Take];
    find_keys_alone(&[M4], &Workload { held: vec![TAG_9, TAG_0], ..workload(3, [&calls, &[]]) });
}

/// Of the root's children the left one, tag 9, goes up and not the right one, tag 2.
#[test]
fn keys_alone_at_m5() {
    let calls = [Call::Put(TAG_9), Call::Put(TAG_2), Call::Take, Call::Take];
    find_keys_alone(&[M5], &workload(3, [&calls, &[]]));
}

/// A mistake of lists, in a list by thread 1 that goes with these calls of thread 2, on a queue
/// that holds these items.
fn find_of_list(mistake: ListMistake, held: &[Item], others: &[Call]) -> Disagreement {
    let workload = Workload { held: held.to_vec(), ..workload(2, [&[Call::List], others]) };
    find(Mistake::OfList(mistake), &workload).disagreement
}

/// Two items that come to stand in the root's list, the last first.
const IN_THE_ROOT: [Item; 2] = [TAG_9, TAG_2];
/// Two of which the second comes to stand below the first.
const BELOW_THE_ROOT: [Item; 2] = [TAG_2, TAG_9];

/// A list that came back to E1 is a take then.
#[test]
fn a_list_that_comes_back_as_a_take() {
    let found = find_of_list(ListMistake::BackToE1, &BELOW_THE_ROOT, &[Call::Take]);
    assert_eq!(found, Disagreement::NoSuchOperation);
}

/// An item below an empty clean root is lost to takes.
#[test]
fn a_list_that_leaves_the_root_clean() {
    let found = find_of_list(ListMistake::RootLeftClean, &BELOW_THE_ROOT, &[Call::Take]);
    assert_eq!(found, Disagreement::EmptyAnswer);
}

#[test]
fn a_list_that_frees_its_cells_at_18() {
    let found = find_of_list(ListMistake::FreedAt18, &IN_THE_ROOT, &[]);
    assert_eq!(found, Disagreement::OtherCells);
}

/// Others would mend the root when they find it dirty: the bag cannot tell.
#[test]
fn a_list_that_does_not_mend() {
    let found = find_of_list(ListMistake::NotMended, &IN_THE_ROOT, &[]);
    assert_eq!(found, Disagreement::DirtyAtRest);
}

#[test]
fn a_list_that_returns_as_a_take() {
    let found = find_of_list(ListMistake::AfterReadAsBit, &IN_THE_ROOT, &[]);
    let got = (0, 0);
    assert_eq!(found, Disagreement::OtherAnswer { got, due: TAG_2 });
}

#[test]
fn a_list_in_another_order() {
    let found = find_of_list(ListMistake::SecondHandedOutFirst, &IN_THE_ROOT, &[]);
    assert_eq!(found, Disagreement::OtherAnswer { got: TAG_9, due: TAG_2 });
}

#[test]
fn a_list_that_leaves_an_item_out() {
    let found = find_of_list(ListMistake::SecondLeftOut, &IN_THE_ROOT, &[]);
    assert_eq!(found, Disagreement::OtherIdleness { thread: 1 });
}

#[test]
fn a_list_that_is_idle_with_its_first_item() {
    let found = find_of_list(ListMistake::IdleByAnswer, &IN_THE_ROOT, &[]);
    assert_eq!(found, Disagreement::OtherIdleness { thread: 1 });
}

/// A mistake of permissions, in this call of thread 1, whose permission becomes this one at some
/// moment and comes back later.
fn find_of_permission(mistake: PermissionMistake, call: Call, permission: u32) -> Disagreement {
    let permits = [permission, 3].map(|permission| Permit { thread: 1, permission }).to_vec();
    let workload = Workload { permits, ..workload(2, [&[call], &[]]) };
    find(Mistake::OfPermission(mistake), &workload).disagreement
}

const PUT: Call = Call::Put((3, 1));

/// Each operation with the permission of the other kind alone.
fn goes_on(mistake: PermissionMistake) {
    for (call, other) in [(PUT, 2), (Call::Take, 1), (Call::List, 1)] {
        assert_eq!(find_of_permission(mistake, call, other), Disagreement::NotWithdrawn);
    }
}

#[test]
fn an_operation_that_goes_on_once_begun() {
    goes_on(PermissionMistake::OnceBegunGoesOn);
}

/// 'Empty' is a READ, and decides.
#[test]
fn a_permission_looked_at_by_updates_alone() {
    let mistake = Mistake::OfPermission(PermissionMistake::LookedAtByUpdatesAlone);
    for call in [Call::Take, Call::List] {
        let permits = vec![Permit { thread: 1, permission: 1 }];
        let workload = Workload { held: vec![], permits, ..workload(2, [&[call], &[]]) };
        assert_eq!(find(mistake, &workload).disagreement, Disagreement::DecidedWithoutPermission);
    }
    let found = find_of_permission(PermissionMistake::LookedAtByUpdatesAlone, PUT, 2);
    assert_eq!(found, Disagreement::NotWithdrawn);
}

#[test]
fn a_permission_of_the_other_kind_that_will_do() {
    goes_on(PermissionMistake::AnyPermissionWillDo);
}

/// The item is gone, or there, and the bag was not told.
#[test]
fn an_access_before_the_permission_is_looked_at() {
    for call in [Call::Take, Call::List] {
        let found = find_of_permission(PermissionMistake::LookedAtAfterTheAccess, call, 0);
        assert_eq!(found, Disagreement::OtherTree);
    }
}

/// What has decided is finished whatever the permission.
#[test]
fn a_permission_looked_at_everywhere() {
    for call in [Call::Take, Call::List] {
        let found = find_of_permission(PermissionMistake::LookedAtEverywhere, call, 1);
        assert_eq!(found, Disagreement::WithdrawnInVain);
    }
}

#[test]
fn a_withdrawn_put_that_keeps_its_cell() {
    let found = find_of_permission(PermissionMistake::CellKept, PUT, 0);
    assert_eq!(found, Disagreement::OtherCells);
}

#[test]
fn a_withdrawn_put_that_leaves_its_item_in_the_free_cell() {
    let found = find_of_permission(PermissionMistake::CellNotWiped, PUT, 0);
    assert_eq!(found, Disagreement::FreeCellNotWiped);
}

#[test]
fn a_withdrawn_thread_that_is_not_idle() {
    for call in [PUT, Call::Take, Call::List] {
        let found = find_of_permission(PermissionMistake::PlaceKept, call, 0);
        assert_eq!(found, Disagreement::OtherIdleness { thread: 1 });
    }
}

#[test]
fn a_permit_that_a_busy_thread_refuses() {
    let found = find_of_permission(PermissionMistake::BusyRefused, PUT, 0);
    let got = Err(Refusal::Busy);
    assert_eq!(found, Disagreement::Permit { got, due: Ok(()) });
}

/// Given back before the next turn, the operation would have gone on.
#[test]
fn a_permit_that_withdraws_by_itself() {
    let found = find_of_permission(PermissionMistake::WithdrawnByThePermit, PUT, 0);
    assert_eq!(found, Disagreement::PermitChangedMore);
}

/// A mistake of leaves, on a workload of that threshold.
fn find_of_leaf(mistake: LeafMistake, threshold: u32, workload: Workload) -> Disagreement {
    let shape = Shape { threshold, ..workload.shape };
    find(Mistake::OfLeaf(mistake), &Workload { shape, ..workload }).disagreement
}

/// Key 6 comes to stand in a leaf, and a take leaves nothing above it: then key 7 is put.
fn with_an_occupied_leaf() -> Workload {
    workload(2, [&[Call::Put((6, 1)), Call::Take], &[Call::Put((7, 2))]])
}

/// Thread 2's put, once that leaf is the choice of all its turns.
const TOO_LONG: Disagreement = Disagreement::PutTakesTooLong { thread: 2 };

#[test]
fn a_choice_that_counts_at_every_try() {
    for threshold in [1, 2] {
        let mistake = LeafMistake::ChoiceAlwaysCounts;
        assert_eq!(find_of_leaf(mistake, threshold, with_an_occupied_leaf()), TOO_LONG);
    }
}

/// With two tries a visit both leaves are read before the next one. A try that succeeded tells,
/// too.
#[test]
fn a_leaf_word_cleared_by_i1() {
    let mistake = LeafMistake::ClearedByI1;
    assert_eq!(find_of_leaf(mistake, 1, with_an_occupied_leaf()), TOO_LONG);
    let found = find_of_leaf(mistake, 2, with_an_occupied_leaf());
    assert!(matches!(found, Disagreement::OtherLeaf { .. }), "{found:?}");
}

#[test]
fn a_failed_try_that_does_not_move_on() {
    let mistake = LeafMistake::NeverMovesOn;
    assert_eq!(find_of_leaf(mistake, 1, with_an_occupied_leaf()), TOO_LONG);
}

#[test]
fn a_last_leaf_that_is_not_left() {
    let mistake = LeafMistake::StaysAtLast;
    assert_eq!(find_of_leaf(mistake, 1, with_an_occupied_leaf()), TOO_LONG);
}

/// The choice counts a second time; the put is in time all the same.
#[test]
fn a_next_leaf_told_by_the_leaf_word() {
    let mistake = LeafMistake::NextAfterLeafWord;
    let found = find_of_leaf(mistake, 1, with_an_occupied_leaf());
    assert!(matches!(found, Disagreement::OtherLeaf { thread: 2, .. }), "{found:?}");
}

/// A put has found its leaf, and its update fails.
#[test]
fn a_try_that_succeeded_and_moves_on() {
    let mistake = LeafMistake::MovesOnAfterSuccess;
    let found = find_of_leaf(mistake, 1, with_an_occupied_leaf());
    assert!(matches!(found, Disagreement::OtherLeaf { .. }), "{found:?}");
}

/// The root, the leaf of depth 1, was tried in vain before the tree grew.
#[test]
fn a_leaf_of_a_lower_depth_that_counts() {
    let mistake = LeafMistake::LowerLevelCounts;
    let found = find_of_leaf(mistake, 1, workload(2, [&[Call::Put((7, 1))], &[]]));
    assert_eq!(found, Disagreement::OtherLeaf { thread: 1, due: 2 });
}

/// Key 6 stands in one of two leaves of depth 2, and the second try is to read the other one.
#[test]
fn a_leaf_word_that_counts_below_the_greatest_depth() {
    let mistake = LeafMistake::CountsAtLowerDepth;
    let held = vec![(5, 0), (6, 0)];
    let workload = Workload { held, ..workload(3, [&[Call::Put((7, 1))], &[]]) };
    let found = find_of_leaf(mistake, 2, workload);
    assert_eq!(found, Disagreement::OtherLeaf { thread: 1, due: 2 });
}
