//! Cases worked out by hand, of queues in which threads meet, and of how lines are written. Those of
//! one thread are in the wrapper's tests.

use checks::made_scripts::{opening, SMALLEST};
use checks::queue::SMALL;
use mound::Shape;

use crate::both::cut_as_claimed;

/// What is left of these lines, in a queue of this shape whose threads may all put and take.
fn assert_left(shape: Shape, number: u32, lines: &[&str], left: &[&str]) {
    let script = |lines: &[&str]| opening(shape, 3) + &lines.join("\n") + "\n";
    let kept = cut_as_claimed(script(lines).as_bytes(), number);
    assert_eq!(String::from_utf8(kept).expect("lines of the script"), script(left));
}

/// A put holds its cell from its beginning on, so none of its turns is needed.
#[test]
fn cells_in_use_need_no_turns() {
    let turn = "turn 1 0 0";
    let shape = Shape { threads: 3, ..SMALL };
    let lines = ["put 1 5 0", turn, turn, turn, turn, "put 2 6 0", turn, "put 3 7 0", "put 1 8 0"];
    assert_left(shape, 10, &lines, &["put 1 5 0", "put 2 6 0", "put 3 7 0"]);
}

/// The second turn of the take frees the cell. With that turn gone the put behind it is refused 10,
/// which will do, so that all before it goes too. Then that put has the cell, the last line shows the
/// number again, and the next pass removes the turns between them.
#[test]
fn a_line_that_goes_lets_an_earlier_one_show_the_number() {
    let turn = "turn 1 0 0";
    let shape = Shape { threads: 2, ..SMALLEST };
    let item = ["put 1 5 0", turn, turn, turn, turn];
    let taken = ["take 1 0 0", turn, turn, "put 2 6 0", "put 1 7 0"];
    let more = [turn, turn, turn, "put 1 7 0"];
    assert_left(shape, 10, &[&item[..], &taken, &more].concat(), &["put 2 6 0", "put 1 7 0"]);
}

/// Leading zeros are kept, in the opening too, and show which of three puts are left.
#[test]
fn lines_are_written_as_they_stand() {
    let opening = opening(SMALLEST, 3).replace("1 1 1 1 3", "01 1 001 1 03");
    let script = |lines: &str| opening.clone() + lines;
    let lines = "put 01 5 9\nturn 1 0 0\nput 001 0005 00\nput 1 5 9\n";
    let kept = cut_as_claimed(script(lines).as_bytes(), 9);
    assert_eq!(String::from_utf8_lossy(&kept), script("put 01 5 9\nput 001 0005 00\n"));
}
