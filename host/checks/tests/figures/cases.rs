//! Cases worked out by hand: one thread at a time. Those where threads meet are in `races.rs`.

use checks::figures::{self, COLUMNS};
use checks::made_scripts::SMALLEST;
use checks::program;
use checks::queue::SMALL;
use mound::Shape;

use crate::inputs::script;

/// A report of these lines is what plain Rust and the program print.
pub fn assert_prints(scripts: &str, lines: &[&str]) {
    let report = format!("{COLUMNS}{}\n", lines.join("\n"));
    assert_eq!(figures::printed(scripts.as_bytes()), report, "plain Rust");
    assert_eq!(program::figures(scripts.as_bytes()), report, "the program");
}

/// Document 01's script. I1 reads the depth, I2 and I5 read the root, I6 is a CAS.
#[test]
fn the_worked_example_is_a_put_of_four_accesses() {
    assert_prints(
        &script(SMALLEST, &["put 1 5 9", "turns 1 1 1 1"]),
        &["1 1 2 1 1 0 0 0 0 1 0 0 0 4 0", "0 0 2 1 1 0 0 0 0 1 0 0 0 4 0"],
    );
}

/// Its first put goes as in the worked example. The second, case H, has I1; I2, too great for the
/// root; I4, which grows the tree; I1; I2, the left leaf; I3, the root; I5; I7; I8. The take has E1;
/// E2; M1; M2; M3; M4, the left child is less; M5; M1 and M2 at that leaf; M6.
#[test]
fn a_put_below_the_root_has_a_dcss_and_a_take_above_a_leaf_a_dcas() {
    let lines = ["put 1 5 0", "turns 1 1 1 1", "put 1 7 0", "turns 1 1 1 1 1 1 1 1 1"];
    let take = ["take 1 0 0", "turns 1 1 1 1 1 1 1 1 1 1"];
    let idle = "1 2 0 0 0 0 0 0 0 0 0 0 0 0 0";
    assert_prints(
        &script(SMALL, &lines),
        &["1 1 7 3 2 0 1 0 0 2 0 0 0 6 1", idle, "0 0 7 3 2 0 1 0 0 2 0 0 0 6 1"],
    );
    assert_prints(
        &script(SMALL, &[&lines[..], &take].concat()),
        &["1 1 12 5 4 1 1 0 0 2 1 0 0 7 2", idle, "0 0 12 5 4 1 1 0 0 2 1 0 0 7 2"],
    );
}

/// Each put has I1, I2, I5, I6. The list has 17, 18, M1, M2, M6, then 19 for each item, and is
/// answered with the last one.
#[test]
fn a_list_of_two_is_one_operation_at_its_second_item() {
    let shape = Shape { threads: 1, ..SMALL };
    let puts = ["put 1 5 0", "turns 1 1 1 1", "put 1 3 0", "turns 1 1 1 1"];
    let first_item = [&puts[..], &["list 1 0 0", "turns 1 1 1 1 1 1"]].concat();
    assert_prints(
        &script(shape, &first_item),
        &["1 1 6 3 4 0 0 1 0 2 0 0 0 7 0", "0 0 6 3 4 0 0 1 0 2 0 0 0 7 0"],
    );
    assert_prints(
        &script(shape, &[&first_item[..], &["turns 1"]].concat()),
        &["1 1 6 3 4 0 0 2 0 2 0 1 0 5 0", "0 0 6 3 4 0 0 2 0 2 0 1 0 5 0"],
    );
}

/// E1 and 17 read the root and answer at once.
#[test]
fn both_kinds_of_take_are_answered_empty() {
    assert_prints(
        &script(SMALLEST, &["take 1 0 0", "turns 1", "list 1 0 0", "turns 1"]),
        &["1 1 2 0 0 0 0 0 0 0 0 0 2 1 0", "0 0 2 0 0 0 0 0 0 0 0 0 2 1 0"],
    );
}

/// I1 is made; at I2 the permission lacks, which is no access, no failed update and no operation.
#[test]
fn a_withdrawn_put_has_the_accesses_before_and_no_operation() {
    assert_prints(
        &script(SMALLEST, &["put 1 5 9", "turns 1", "permit 1 2 0", "turns 1 1"]),
        &["1 1 0 1 0 0 0 0 0 0 0 0 0 0 0", "0 0 0 1 0 0 0 0 0 0 0 0 0 0 0"],
    );
}

/// Idle turns, those of threads that are not there, refused beginnings and permits.
#[test]
fn what_makes_no_access_counts_nowhere() {
    let lines = ["turns 1 0 2", "put 1 5 65536", "list 2 0 0", "permit 1 4 0", "turns 4294967295"];
    assert_prints(
        &script(SMALLEST, &lines),
        &["1 1 0 0 0 0 0 0 0 0 0 0 0 0 0", "0 0 0 0 0 0 0 0 0 0 0 0 0 0 0"],
    );
}

#[test]
fn a_script_of_no_lines_has_a_line_for_each_thread() {
    assert_prints(
        &script(SMALL, &[]),
        &[
            "1 1 0 0 0 0 0 0 0 0 0 0 0 0 0",
            "1 2 0 0 0 0 0 0 0 0 0 0 0 0 0",
            "0 0 0 0 0 0 0 0 0 0 0 0 0 0 0",
        ],
    );
}

#[test]
fn no_byte_at_all_has_the_heading_and_a_total_of_zeros() {
    assert_prints("", &["0 0 0 0 0 0 0 0 0 0 0 0 0 0 0"]);
}

/// The second script starts with an empty queue: the first one's item is not in it.
#[test]
fn scripts_are_counted_apart_and_the_total_over_all() {
    let first = script(SMALL, &["put 2 5 9", "turns 2 2 2 2"]);
    let second = script(SMALLEST, &["take 1 0 0", "turns 1"]);
    assert_prints(
        &(first + &second),
        &[
            "1 1 0 0 0 0 0 0 0 0 0 0 0 0 0",
            "1 2 2 1 1 0 0 0 0 1 0 0 0 4 0",
            "2 1 1 0 0 0 0 0 0 0 0 0 1 1 0",
            "0 0 3 1 1 0 0 0 0 1 0 0 1 2 1",
        ],
    );
}
