//! Cases worked out by hand in which an update fails: one at each place that has an update.

use checks::queue::SMALL;
use mound::Shape;

use crate::cases::assert_prints;
use crate::inputs::script;

/// Thread 1 puts key 5: I1, I2, I5, I6.
const ROOT_5: [&str; 2] = ["put 1 5 0", "turns 1 1 1 1"];

/// Thread 2 puts 3, by I1, I2, I5, I6, after thread 1's first access and before its second.
const CROSSED: [&str; 2] = ["put 2 3 0", "turns 1 2 2 2 2 1 1 1 1 1 1"];

/// Case I. The take has E1; E2, which fails; E1; E2; M1; M2; M6.
#[test]
fn a_take_that_a_put_crosses_has_a_failed_cas() {
    assert_prints(
        &script(SMALL, &[&ROOT_5[..], &["take 1 0 0"], &CROSSED].concat()),
        &[
            "1 1 5 2 4 0 0 0 1 1 1 0 0 5 1",
            "1 2 2 1 1 0 0 0 0 1 0 0 0 4 0",
            "0 0 7 3 5 0 0 0 1 2 1 0 0 5 0",
        ],
    );
}

/// The list has 17; 18, which fails; 17; 18; M1; M2; M6; 19 for each of two items.
#[test]
fn a_list_that_a_put_crosses_has_a_failed_cas() {
    assert_prints(
        &script(SMALL, &[&ROOT_5[..], &["list 1 0 0"], &CROSSED, &["turns 1 1"]].concat()),
        &[
            "1 1 5 2 4 0 0 2 1 1 0 1 0 6 1",
            "1 2 2 1 1 0 0 0 0 1 0 0 0 4 0",
            "0 0 7 3 5 0 0 2 1 2 0 1 0 5 2",
        ],
    );
}

/// Both puts read the empty root, I1, I2, I5, before either has its I6; the second one fails.
#[test]
fn of_two_puts_at_the_root_one_has_a_failed_cas() {
    assert_prints(
        &script(SMALL, &["put 1 5 0", "put 2 3 0", "turns 1 2 1 2 1 2 1 2"]),
        &[
            "1 1 2 1 1 0 0 0 0 1 0 0 0 4 0",
            "1 2 2 1 1 0 0 0 1 0 0 0 0 0 0",
            "0 0 4 2 2 0 0 0 1 1 0 0 0 8 0",
        ],
    );
}

/// Both puts are too great for the root: I1, I2, I4, and the second I4 fails. Both then find the
/// left leaf: I1, I2, I3, I5, I7, I8, and the second I8 fails.
#[test]
fn of_two_puts_that_grow_the_tree_one_fails_and_of_two_at_a_leaf_one_fails() {
    let shape = Shape { depth: 3, cells: 3, ..SMALL };
    let grow = [&ROOT_5[..], &["put 1 7 0", "put 2 8 0", "turns 1 2 1 2 1 2"]].concat();
    assert_prints(
        &script(shape, &grow),
        &[
            "1 1 3 2 2 0 0 0 0 1 0 0 0 7 0",
            "1 2 1 1 1 0 0 0 1 0 0 0 0 0 0",
            "0 0 4 3 3 0 0 0 1 1 0 0 0 10 0",
        ],
    );
    assert_prints(
        &script(shape, &[&grow[..], &["turns 1 1 1 1 1 2 2 2 2 2 1 2"]].concat()),
        &[
            "1 1 7 3 2 0 1 0 0 2 0 0 0 6 1",
            "1 2 5 2 1 0 1 0 2 0 0 0 0 0 0",
            "0 0 12 5 3 0 2 0 2 2 0 0 0 11 0",
        ],
    );
}

/// The tree has 5 at the root and 7 at the left leaf, by case H: I1, I2, I4, I1, I2, I3, I5, I7, I8.
/// Thread 1 takes up to M5: E1, E2, M1, M2, M3, M4. Thread 2 finds the root dirty and mends it: E1,
/// M1, M2, M3, M4, M5. So thread 1's M5 fails; it reads the root, M1, clean now, and answers at M2.
#[test]
fn of_two_mendings_of_a_node_one_has_a_failed_dcas() {
    let tree = [&ROOT_5[..], &["put 1 7 0", "turns 1 1 1 1 1 1 1 1 1"]].concat();
    let takes = ["take 1 0 0", "take 2 0 0", "turns 1 1 1 1 1 1 2 2 2 2 2 2 1 1 1"];
    assert_prints(
        &script(SMALL, &[&tree[..], &takes].concat()),
        &[
            "1 1 12 5 3 1 1 0 1 2 1 0 0 7 1",
            "1 2 4 1 0 1 0 0 0 0 0 0 0 0 0",
            "0 0 16 6 3 2 1 0 1 2 1 0 0 9 1",
        ],
    );
}

/// Thread 1 takes up to M6: E1, E2, M1, M2. Thread 2 finds the root dirty and cleans it: E1, M1, M2,
/// M6. So thread 1's M6 fails; it reads the root, M1, clean now, and answers at M2.
#[test]
fn of_two_cleanings_of_a_node_one_has_a_failed_cas() {
    let takes = ["take 1 0 0", "take 2 0 0", "turns 1 1 1 1 2 2 2 2 1 1 1"];
    assert_prints(
        &script(SMALL, &[&ROOT_5[..], &takes].concat()),
        &[
            "1 1 5 3 3 0 0 0 1 1 1 0 0 5 1",
            "1 2 2 1 1 0 0 0 0 0 0 0 0 0 0",
            "0 0 7 4 4 0 0 0 1 1 1 0 0 7 1",
        ],
    );
}
