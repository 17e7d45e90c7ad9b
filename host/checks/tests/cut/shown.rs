//! Random scripts of many shapes that show each refusal: at their end, or anywhere.

use std::ops::RangeInclusive;

use checks::cut::{shows, SHOWN};
use checks::ending_scripts::any_ending_in;
use checks::made_scripts::{any_line, opening, REFUSED};
use checks::random::Random;
use mound::Refusal;

use crate::both::{cut, cut_as_claimed};

/// Numbers that no script shows: its region has the exact length and stays readable, and no counter
/// is spent; others are refusals of other calls, or of none.
const NEVER_SHOWN: [u32; 10] = [0, 2, 5, 6, 7, 11, 12, 16, 99, u32::MAX];

/// So many scripts that end in each refusal are cut down, of these many lines each.
fn try_endings(seed: u64, scripts: u32, lines: &RangeInclusive<u32>) {
    let mut random = Random::new(seed);
    for number in SHOWN {
        for _ in 0..scripts {
            let script = any_ending_in(number, &mut random, lines.clone());
            cut_as_claimed(script.as_bytes(), number);
        }
    }
}

#[test]
fn short_scripts_that_end_in_each_refusal_are_cut_as_claimed() {
    try_endings(1, 100, &(20..=100));
}

#[test]
fn long_scripts_that_end_in_each_refusal_are_cut_as_claimed() {
    try_endings(2, 30, &(400..=2000));
}

#[test]
#[ignore = "half a minute: many more scripts"]
fn many_scripts_that_end_in_each_refusal_are_cut_as_claimed() {
    try_endings(3, 2000, &(20..=100));
    try_endings(4, 300, &(100..=3000));
}

/// Scripts of any lines, which show a refusal in many of them or in none.
#[test]
fn any_script_is_cut_as_claimed_or_refused() {
    let mut random = Random::new(5);
    let (mut cuts, mut refused) = (0, 0);
    for _ in 0..150 {
        let shape = random.crowded_shape(1..=6);
        let permission = random.one_of(&[0, 1, 2, 3, 3, 3]);
        let greatest_key = random.one_of(&[0, 5, 50, u32::MAX]);
        let mut script = opening(shape, permission);
        for _ in 0..random.among(0..=300) {
            script += &any_line(&mut random, shape.threads, greatest_key);
        }
        for number in SHOWN {
            if shows(script.as_bytes(), number) {
                cut_as_claimed(script.as_bytes(), number);
                cuts += 1;
            } else {
                assert_eq!(cut(script.as_bytes(), number), Err(Refusal::NotShown));
                refused += 1;
            }
        }
        for number in NEVER_SHOWN {
            assert_eq!(cut(script.as_bytes(), number), Err(Refusal::NotShown), "{number}");
        }
    }
    assert!(cuts > 200 && refused > 200, "{cuts} cuts, {refused} refused");
}

/// Whatever lines follow, it is cut down to its opening.
#[test]
fn a_refused_layout_is_cut_down_to_its_opening() {
    let mut random = Random::new(6);
    for (shape, permission) in REFUSED {
        let opening = opening(shape, permission);
        for lines in [0, 1, 30] {
            let lines: String = (0..lines).map(|_| any_line(&mut random, 4, 9)).collect();
            let script = opening.clone() + &lines;
            assert_eq!(cut_as_claimed(script.as_bytes(), 1), opening.as_bytes());
            for number in [3, 4, 8, 9, 10].into_iter().chain(NEVER_SHOWN) {
                assert_eq!(cut(script.as_bytes(), number), Err(Refusal::NotShown), "{number}");
            }
        }
    }
}
