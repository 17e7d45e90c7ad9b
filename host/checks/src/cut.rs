//! What a script cut down has to be, change request 14, by the output of the script program in plain
//! Rust alone: a cutter that is as slow as that, and the request's claim.

use crate::script::printed;

/// The refusals that scripts can show.
pub const SHOWN: [u32; 6] = [1, 3, 4, 8, 9, 10];

/// Lines that stay: the shape's heading, the shape, the heading of the others.
const OPENING_LINES: usize = 3;

/// The script cut down: each trial runs all that is left without one line. None where a line cannot
/// be read or the number is not shown.
pub fn naive(script: &[u8], number: u32) -> Option<Vec<u8>> {
    if has_unreadable_line(script) || !shows(script, number) {
        return None;
    }
    let mut kept = lines(script);
    loop {
        let before = kept.len();
        for tried in (OPENING_LINES..before).rev() {
            if shows(&without(&kept, tried), number) {
                kept.remove(tried);
            }
        }
        if kept.len() == before {
            return Some(kept.concat());
        }
    }
}

/// The claim: of a script's lines, with its opening, these show the number, and none of them can be
/// left out.
pub fn assert_cut(script: &[u8], number: u32, cut: &[u8]) {
    let (all, kept) = (lines(script), lines(cut));
    assert_eq!(all[..OPENING_LINES], kept[..OPENING_LINES], "the opening stays");
    let mut others = all[OPENING_LINES..].iter();
    let in_order = kept[OPENING_LINES..].iter().all(|line| others.any(|other| other == line));
    assert!(in_order, "its lines are the script's, in their order");
    assert!(shows(cut, number), "it shows the number");
    for left_out in OPENING_LINES..kept.len() {
        let shown = shows(&without(&kept, left_out), number);
        assert!(!shown, "line {} can be left out", left_out - OPENING_LINES + 1);
    }
}

/// How many lines a script has behind its opening.
pub fn line_count(script: &[u8]) -> usize {
    lines(script).len() - OPENING_LINES
}

/// Whether a refusal of this number is printed.
pub fn shows(script: &[u8], number: u32) -> bool {
    let refused = format!(" refused {number} 0");
    printed(script).lines().any(|line| line.ends_with(&refused))
}

/// Whether a line cannot be read. Behind a refused layout none is read, so the lines are run with a
/// shape that is laid out, too.
fn has_unreadable_line(script: &[u8]) -> bool {
    let is_printed = |script: &[u8]| printed(script).ends_with(" unreadable 0 0\n");
    let mut lines = lines(script);
    is_printed(script) || {
        lines[1] = b"1 1 1 1 3\n";
        is_printed(&lines.concat())
    }
}

/// The lines, each with its LF.
fn lines(script: &[u8]) -> Vec<&[u8]> {
    script.split_inclusive(|&byte| byte == b'\n').collect()
}

fn without(lines: &[&[u8]], left_out: usize) -> Vec<u8> {
    [&lines[..left_out], &lines[left_out + 1..]].concat().concat()
}
