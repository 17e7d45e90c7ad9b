//! The sentences that are printed.

use checks::fields::{
    place, Words, COPIES, D, FIRST_FREE_CELL, NODE, PLACE, PRESENT_DEPTH, TRIES, WAITING,
};
use mound::{Damage, Refusal, Shape};

const SHAPE: Shape = Shape { depth: 3, cells: 4, threads: 2, threshold: 2 };

/// What is printed of a laid-out region with these words set.
fn sentence(set: &[(usize, u32)]) -> String {
    let mut region = Words::laid_out(SHAPE);
    for &(at, value) in set {
        region.words[at] = value;
    }
    let damage = Damage::of(&region.bytes()).expect("a word is out of range");
    assert_eq!(Refusal::from(damage.clone()), Refusal::Unreadable);
    damage.to_string()
}

#[test]
fn of_the_heading() {
    assert_eq!(sentence(&[(0, 13)]), "word 0: the greatest depth is 13, not 1 to 12");
    assert_eq!(sentence(&[(1, 5)]), "word 1: the cells are 5, not 1 to 4");
    assert_eq!(sentence(&[(0, 1), (1, 2)]), "word 1: the cells are 2, not 1");
    assert_eq!(sentence(&[(2, 0)]), "word 2: the threads are 0, not 1 to 64");
    assert_eq!(sentence(&[(3, 17)]), "word 3: the threshold is 17, not 1 to 16");
    assert_eq!(sentence(&[(PRESENT_DEPTH, 0)]), "word 4: the present depth is 0, not 1 to 3");
    assert_eq!(sentence(&[(FIRST_FREE_CELL, 5)]), "word 5: the first free cell is 5, not 0 to 4");
    assert_eq!(sentence(&[(2, 1)]), "the length in bytes is 472, not 328");
}

#[test]
fn of_nodes_and_cells() {
    let cell = Words::laid_out(SHAPE).cell(4);
    assert_eq!(sentence(&[(31, 2)]), "word 31: node 7's dirty mark is 2, not 0 to 1");
    assert_eq!(sentence(&[(6, u32::MAX)]), "word 6: node 1's first cell is 4294967295, not 0 to 4");
    assert_eq!(sentence(&[(cell + 1, 65_536)]), "word 44: cell 4's tag is 65536, not 0 to 65535");
    assert_eq!(sentence(&[(cell + 2, 5)]), "word 45: cell 4's next cell is 5, not 0 to 4");
}

#[test]
fn of_threads() {
    let record = Words::laid_out(SHAPE).thread(2);
    let copy = record + COPIES[1];
    assert_eq!(sentence(&[(record, 4)]), "word 82: thread 2's permission is 4, not 0 to 3");
    assert_eq!(sentence(&[(record + PLACE, 20)]), "word 83: thread 2's place is 20, not 0 to 19");
    assert_eq!(sentence(&[(record + D, 4)]), "word 87: thread 2's d is 4, not 0 to 3");
    assert_eq!(sentence(&[(record + TRIES, 3)]), "word 89: thread 2's tries are 3, not 0 to 2");
    assert_eq!(
        sentence(&[(copy + 1, 2)]),
        "word 105: the dirty mark in node copy 2 of thread 2 is 2, not 0 to 1"
    );
    assert_eq!(
        sentence(&[(copy + 6, 9)]),
        "word 110: the head's next in node copy 2 of thread 2 is 9, not 0 to 4"
    );
}

/// What hangs on other words of the record comes with these.
#[test]
fn of_tries_and_waiting_levels() {
    let record = Words::laid_out(SHAPE).thread(2);
    let [place, tries, node, waiting] = [PLACE, TRIES, NODE, WAITING].map(|field| record + field);
    assert_eq!(
        sentence(&[(place, place::I2), (tries, 2)]),
        "word 89: thread 2's tries are 2, not 0 to 1 (its place is 2)"
    );
    assert_eq!(
        sentence(&[(waiting, 1)]),
        "word 93: thread 2's waiting levels are 1, not 0 (its place is 0, its node 0)"
    );
    assert_eq!(
        sentence(&[(place, place::M3), (node, 5), (waiting, 4)]),
        "word 93: thread 2's waiting levels are 4, not 0 to 3 (its place is 13, its node 5)"
    );
}
