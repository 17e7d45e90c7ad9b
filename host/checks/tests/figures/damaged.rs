//! Input that cannot be read: cut short, with other bytes, with bad lines anywhere, with layouts
//! that are refused.

use checks::figures::UNREADABLE;
use checks::made_scripts::{damaged, opening, BAD_LINES, LARGEST, REFUSED, SMALLEST};
use checks::random::Random;

use crate::inputs::{any, script, small};
use crate::report::printed;

#[test]
fn scripts_cut_short_at_any_byte_are_unreadable() {
    let scripts = small();
    let first = scripts.find("\n\n").expect("an empty line") + 2;
    for length in 0..=scripts.len() {
        let printed = printed(&scripts.as_bytes()[..length]);
        let is_whole = [0, first, scripts.len()].contains(&length);
        assert_eq!(printed == UNREADABLE, !is_whole, "{length}");
    }
}

/// Each byte of the small scripts replaced by each of these.
fn try_each_byte_as(others: &[u8]) {
    let scripts = small();
    for at in 0..scripts.len() {
        for &other in others {
            let mut scripts = scripts.clone().into_bytes();
            scripts[at] = other;
            printed(&scripts);
        }
    }
}

#[test]
fn any_byte_may_be_another_one() {
    try_each_byte_as(b"\n 02p");
}

#[test]
#[ignore = "a minute: each byte as every other one"]
fn any_byte_may_be_every_other_one() {
    try_each_byte_as(&(0..=255).collect::<Vec<u8>>());
}

#[test]
fn a_bad_line_anywhere_is_unreadable() {
    let scripts = small();
    let lines: Vec<&str> = scripts.lines().collect();
    for at in 0..lines.len() {
        for bad in BAD_LINES.iter().filter(|&&bad| bad != lines[at]) {
            let mut lines = lines.clone();
            lines[at] = bad;
            assert_eq!(printed((lines.join("\n") + "\n").as_bytes()), UNREADABLE, "{bad} at {at}");
        }
    }
}

#[test]
fn a_line_left_out_or_said_twice_may_be_read() {
    let scripts = small();
    let lines: Vec<&str> = scripts.lines().collect();
    for at in 0..lines.len() {
        let (before, after) = lines.split_at(at);
        for lines in [[before, &after[1..]].concat(), [before, &after[..1], after].concat()] {
            printed((lines.join("\n") + "\n").as_bytes());
        }
    }
}

#[test]
fn a_refused_layout_of_any_script_is_unreadable() {
    for (shape, permission) in REFUSED {
        let bad = opening(shape, permission) + "\n";
        for scripts in [bad.clone(), small() + &bad, bad.clone() + &small()] {
            assert_eq!(printed(scripts.as_bytes()), UNREADABLE, "{scripts}");
        }
    }
    for shape in [SMALLEST, LARGEST] {
        assert_ne!(printed(script(shape, &[]).as_bytes()), UNREADABLE);
    }
}

/// Random scripts with a byte changed, left out or inserted, or cut short.
#[test]
fn damaged_scripts_print_what_plain_rust_prints() {
    let mut random = Random::new(2);
    let mut readable = 0;
    for _ in 0..60 {
        let scripts = any(&mut random).concat();
        for _ in 0..4 {
            if !scripts.is_empty() {
                let scripts = damaged(&mut random, &scripts);
                readable += u32::from(printed(&scripts) != UNREADABLE);
            }
        }
    }
    assert!(readable > 0, "some damage changes a number");
}
