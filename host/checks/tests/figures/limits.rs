//! The most scripts, the most bytes, the most threads, and one more of each; empty lines where a
//! script should be.

use checks::figures::{MOST_SCRIPTS, UNREADABLE};
use checks::made_scripts::{of_length, LARGEST, SMALLEST};
use plain::script::MOST_BYTES;

use crate::inputs::{script, small};
use crate::report::{printed, report};

/// A script of this many bytes with its empty line.
fn script_of(length: usize, line: &str) -> String {
    of_length(length - 1, line) + "\n"
}

/// The small scripts with these bytes before them, between them or behind them.
fn small_with(more: &str) -> [String; 3] {
    let small = small();
    let (first, _) = small.split_once("\n\n").expect("two scripts");
    [0, first.len() + 2, small.len()].map(|at| {
        let mut scripts = small.clone();
        scripts.insert_str(at, more);
        scripts
    })
}

#[test]
fn a_report_has_64_scripts_and_no_65th() {
    let script = script(SMALLEST, &[]);
    let most = script.repeat(MOST_SCRIPTS);
    assert_eq!(report(most.as_bytes()).scripts.len(), MOST_SCRIPTS);
    for more in [&script, "\n", "x", "depth cells threads threshold permission\n"] {
        let scripts = most.clone() + more;
        assert_eq!(printed(scripts.as_bytes()), UNREADABLE, "with {more:?}");
    }
}

/// The most lines that a report has. In each script all threads begin a put, and one ends it.
#[test]
fn a_report_has_64_scripts_of_64_threads() {
    let puts: Vec<String> = (1..=64).map(|thread| format!("put {thread} 9 9")).collect();
    let turns = "turns 1 64 1 64 1 64 1";
    let lines: Vec<&str> = puts.iter().map(String::as_str).chain([turns]).collect();
    for (lines, operations) in [(&[][..], 0), (&lines, 64)] {
        let report = report(script(LARGEST, lines).repeat(MOST_SCRIPTS).as_bytes());
        assert_eq!(report.scripts.len(), MOST_SCRIPTS);
        assert!(report.scripts.iter().all(|threads| threads.len() == 64));
        assert_eq!(report.total().operations, [operations, 0, 0, 0]);
    }
}

#[test]
fn scripts_of_60_000_bytes_are_read_whole() {
    for line in ["turn 1 0 0\n", "take 1 0 0\n", "list 1 0 0\n", "put 9 9 9\n", "permit 1 3 0\n"] {
        let one = script_of(MOST_BYTES, line);
        let two = script_of(MOST_BYTES / 2, line) + &script_of(MOST_BYTES / 2, "turn 1 9 0\n");
        for scripts in [one, two] {
            assert_eq!(scripts.len(), MOST_BYTES);
            assert_ne!(printed(scripts.as_bytes()), UNREADABLE);
        }
    }
    let most = script_of(MOST_BYTES / 64, "turn 1 0 0\n").repeat(63);
    let last = script_of(MOST_BYTES - most.len(), "turn 1 0 0\n");
    assert_eq!(report((most + &last).as_bytes()).scripts.len(), MOST_SCRIPTS);
}

#[test]
fn longer_scripts_are_unreadable() {
    for length in [MOST_BYTES + 1, MOST_BYTES + 2, 2 * MOST_BYTES, 10 * MOST_BYTES] {
        let scripts = script_of(length, "turn 1 0 0\n");
        assert_eq!(printed(scripts.as_bytes()), UNREADABLE, "{length}");
    }
    // The last byte too many is the empty line itself, or comes behind it.
    for more in ["\n", "\n\n"] {
        let scripts = of_length(MOST_BYTES, "turn 1 0 0\n") + more;
        assert_eq!(printed(scripts.as_bytes()), UNREADABLE);
    }
}

#[test]
fn the_last_script_needs_its_empty_line() {
    for scripts in [small(), script(SMALLEST, &[]), script_of(MOST_BYTES, "turn 1 0 0\n")] {
        assert_eq!(printed(&scripts.as_bytes()[..scripts.len() - 1]), UNREADABLE);
        assert_eq!(printed(&scripts.as_bytes()[..scripts.len() - 2]), UNREADABLE);
    }
    let full = of_length(MOST_BYTES, "turn 1 0 0\n");
    assert_eq!(printed(full.as_bytes()), UNREADABLE);
}

#[test]
fn an_empty_line_where_a_script_should_begin_is_unreadable() {
    for more in ["\n", "\n\n", " \n", "\r\n", "0\n"] {
        assert_eq!(printed(more.as_bytes()), UNREADABLE, "{more:?} alone");
        for scripts in small_with(more) {
            assert_eq!(printed(scripts.as_bytes()), UNREADABLE, "{scripts}");
        }
    }
    assert_ne!(printed(small().as_bytes()), UNREADABLE);
}
