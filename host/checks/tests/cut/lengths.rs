//! The longest scripts and slices of other lengths than the script's.

use checks::made_scripts::{of_length, opening, SMALLEST};
use mound::Refusal;
use plain::script::MOST_BYTES;

use crate::both::{cut, cut_as_claimed, cut_into};

/// Lines, each with the number that it shows the second time in the smallest queue if not the first.
const LINES: [(&str, u32); 5] = [
    ("put 1 5 9\n", 9),
    ("turn 9 0 0\n", 3),
    ("permit 1 4 0\n", 1),
    ("put 1 5 65536\n", 4),
    ("put 1 4294967295 9\n", 4),
];

#[test]
fn a_script_of_60_000_bytes_is_cut_down_and_a_longer_one_is_refused() {
    for (line, number) in LINES {
        let script = of_length(MOST_BYTES, line);
        let kept = cut_as_claimed(script.as_bytes(), number);
        let lines = if number == 9 { 2 } else { 1 };
        assert_eq!(kept, (opening(SMALLEST, 3) + &line.repeat(lines)).as_bytes());
        for longer in [1, 2, MOST_BYTES, 9 * MOST_BYTES] {
            let script = of_length(MOST_BYTES + longer, line);
            assert_eq!(cut(script.as_bytes(), number), Err(Refusal::NotShown), "{longer}");
        }
    }
}

/// As many lines as there can be, of which the last one alone shows the number.
#[test]
fn a_refusal_behind_5_992_lines_is_found() {
    let mut script = opening(SMALLEST, 3);
    let last = "put 9 5 9\n";
    while script.len() + 2 * last.len() <= MOST_BYTES {
        script += "put 1 5 9\n";
    }
    script += last;
    assert_eq!(script.lines().count(), 3 + 5993);
    let kept = cut_as_claimed(script.as_bytes(), 3);
    assert_eq!(kept, (opening(SMALLEST, 3) + last).as_bytes());
}

/// A line of nearly 60,000 bytes, and the same as the shape's line.
#[test]
fn a_line_may_be_nearly_as_long_as_a_script() {
    let zeros = |rest: &str| "0".repeat(MOST_BYTES - rest.len());
    let [before, behind] = [opening(SMALLEST, 3) + "turn ", String::from("2 0 0\n")];
    let script = before.clone() + &zeros(&(before + &behind)) + &behind;
    assert_eq!(cut_as_claimed(script.as_bytes(), 3), script.as_bytes());
    let whole = opening(SMALLEST, 3) + "turn 2 0 0\n";
    let (before, behind) = whole.split_once("1 1 1 1 3").expect("the shape");
    let script = format!("{before}{}1 1 1 1 3{behind}", zeros(&whole));
    assert_eq!(cut_as_claimed(script.as_bytes(), 3), script.as_bytes());
}

#[test]
fn a_slice_may_be_longer_than_the_script_and_not_shorter() {
    let script = opening(SMALLEST, 3) + "turn 1 0 0\nput 1 5 9\nturn 1 0 0\nput 1 5 9\n";
    let (script, length) = (script.as_bytes(), script.len());
    let kept = cut_as_claimed(script, 9);
    for longer in [0, 1, 2, 100, 100_000] {
        assert_eq!(cut_into(length + longer, script, 9).as_ref(), Ok(&kept), "{longer}");
        assert_eq!(cut_into(length + longer, script, 8), Err(Refusal::NotShown), "{longer}");
    }
    // Neither what is left nor the number makes a shorter slice do.
    for shorter in 0..length {
        for number in [9, 8] {
            assert_eq!(cut_into(shorter, script, number), Err(Refusal::RegionLength), "{shorter}");
        }
    }
}

/// The slice is looked at before the script.
#[test]
fn a_script_that_cannot_be_read_needs_its_slice_too() {
    let too_long = of_length(MOST_BYTES + 1, "turn 9 0 0\n");
    for script in [b"x" as &[u8], b"depth cells threads\n", too_long.as_bytes()] {
        assert_eq!(cut_into(script.len() - 1, script, 3), Err(Refusal::RegionLength));
        assert_eq!(cut_into(script.len(), script, 3), Err(Refusal::NotShown));
    }
    assert_eq!(cut_into(0, b"", 3), Err(Refusal::NotShown));
}
