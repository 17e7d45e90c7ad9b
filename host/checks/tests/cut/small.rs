//! All scripts of a few lines out of some.

use checks::cut::{shows, SHOWN};
use checks::made_scripts::{opening, SMALLEST};
use mound::Shape;

use crate::both::{cut, cut_as_claimed};

/// Two threads and one cell: with these lines every refusal can be shown, and the permission, the
/// cell and the thread's being busy come and go.
const LINES: [&str; 9] = [
    "put 1 5 9\n",
    "put 2 5 9\n",
    "turn 1 0 0\n",
    "take 1 0 0\n",
    "permit 1 0 0\n",
    "permit 1 3 0\n",
    "permit 2 4 0\n",
    "list 3 0 0\n",
    "put 2 5 65536\n",
];

/// The scripts of at most so many of these lines.
fn scripts(most: u32) -> Vec<String> {
    let mut scripts = vec![opening(Shape { threads: 2, ..SMALLEST }, 3)];
    let mut last = 0..1;
    for _ in 0..most {
        for at in last.clone() {
            for line in LINES {
                scripts.push(scripts[at].clone() + line);
            }
        }
        last = last.end..scripts.len();
    }
    scripts
}

#[test]
fn every_script_of_up_to_four_lines_is_cut_as_claimed() {
    let mut cuts = [0; SHOWN.len()];
    for script in scripts(4) {
        for (number, count) in SHOWN.into_iter().zip(&mut cuts) {
            if shows(script.as_bytes(), number) {
                cut_as_claimed(script.as_bytes(), number);
                *count += 1;
            } else {
                assert!(cut(script.as_bytes(), number).is_err(), "{number} of {script}");
            }
        }
    }
    assert!(cuts.iter().all(|&count| count > 100), "{cuts:?}");
}
