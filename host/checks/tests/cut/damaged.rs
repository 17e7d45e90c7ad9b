//! Scripts that cannot be read: cut short, with other bytes, with bad lines anywhere, without lines.

use checks::cut::SHOWN;
use checks::ending_scripts::any_ending_in;
use checks::made_scripts::{damaged, opening, BAD_LINES, REFUSED, SMALLEST};
use checks::random::Random;
use mound::Refusal;

use crate::both::{cut, cut_as_claimed};

/// A line of each kind; the take is refused, since the thread is busy.
const LINES: &str = "put 1 5 9\nturn 1 0 0\ntake 1 0 0\nlist 2 0 0\npermit 1 3 0\n";
const BUSY: u32 = 9;

fn small() -> String {
    opening(SMALLEST, 3) + LINES
}

/// Cuts for the number of a busy thread; most of the time it is refused.
fn is_cut(script: &[u8]) -> bool {
    cut(script, BUSY).is_ok()
}

#[test]
fn scripts_cut_short_are_cut_down_at_a_line_end_behind_the_refusal_alone() {
    let small = small();
    let shown = small.find("take").expect("a take");
    for length in 0..=small.len() {
        let script = &small.as_bytes()[..length];
        let is_whole = shown < length && script.ends_with(b"\n");
        assert_eq!(is_cut(script), is_whole, "{length}");
    }
}

#[test]
fn any_byte_may_be_another_one() {
    let small = small();
    let mut cuts = 0;
    for at in 0..small.len() {
        for &other in b"\n 012p\r\xaa\0" {
            let mut script = small.clone().into_bytes();
            script[at] = other;
            cuts += u32::from(is_cut(&script));
        }
    }
    assert!(cuts > 0, "some bytes are a number's");
}

#[test]
fn a_bad_line_anywhere_is_refused() {
    let small = small();
    let lines: Vec<&str> = small.lines().collect();
    for at in 0..lines.len() {
        for bad in BAD_LINES.into_iter().chain([""]).filter(|&bad| bad != lines[at]) {
            let mut lines = lines.clone();
            lines[at] = bad;
            assert!(!is_cut((lines.join("\n") + "\n").as_bytes()), "{bad} at {at}");
        }
    }
}

#[test]
fn a_bad_line_behind_a_refused_layout_is_refused() {
    for (shape, permission) in REFUSED {
        for bad in BAD_LINES.into_iter().chain([""]) {
            for lines in [format!("{bad}\n"), format!("{LINES}{bad}\n"), format!("{bad}\n{LINES}")]
            {
                let script = opening(shape, permission) + &lines;
                assert_eq!(cut(script.as_bytes(), 1), Err(Refusal::NotShown), "{script}");
            }
        }
        let whole = opening(shape, permission) + LINES;
        let without_end = &whole.as_bytes()[..whole.len() - 1];
        assert_eq!(cut(without_end, 1), Err(Refusal::NotShown));
        cut_as_claimed(whole.as_bytes(), 1);
    }
}

#[test]
fn other_line_ends_are_refused() {
    let small = small();
    for (at, _) in small.match_indices('\n') {
        let mut script = small.clone();
        script.insert(at, '\r');
        assert!(!is_cut(script.as_bytes()), "{at}");
    }
    for end in ["\r\n", "\r", "\n\n", " \n", "\0"] {
        assert!(!is_cut(small.replace('\n', end).as_bytes()), "{end:?}");
    }
    assert!(is_cut(small.as_bytes()));
}

#[test]
fn scripts_without_lines_show_nothing() {
    let opening = opening(SMALLEST, 3);
    let headings: Vec<&str> = opening.split_inclusive('\n').collect();
    let scripts = ["", "\n", &opening, &opening.repeat(2), headings[0], headings[2]];
    for script in scripts {
        for number in SHOWN {
            assert_eq!(cut(script.as_bytes(), number), Err(Refusal::NotShown), "{script}");
        }
    }
}

/// Random scripts with a byte changed, left out or inserted, or cut short; some damage makes a line
/// another one, with which the number is still shown.
#[test]
fn damaged_scripts_are_cut_as_plain_rust_does() {
    let mut random = Random::new(7);
    let (mut cuts, mut refused) = (0, 0);
    for number in SHOWN {
        for _ in 0..30 {
            let script = any_ending_in(number, &mut random, 20..=80);
            for _ in 0..8 {
                match cut(&damaged(&mut random, &script), number) {
                    Ok(_) => cuts += 1,
                    Err(_) => refused += 1,
                }
            }
        }
    }
    assert!(cuts > 100 && refused > 100, "{cuts} cuts, {refused} refused");
}

#[test]
fn bytes_that_are_no_script_are_refused() {
    let mut random = Random::new(8);
    for length in [1, 2, 40, 400, 4000] {
        let bytes = random.bytes(length);
        for number in SHOWN {
            assert_eq!(cut(&bytes, number), Err(Refusal::NotShown));
        }
    }
}
