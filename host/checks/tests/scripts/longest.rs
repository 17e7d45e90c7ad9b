//! Scripts of the greatest length and beyond it.

use checks::made_scripts::of_length;
use checks::{program, script};
use plain::script::MOST_BYTES;

#[test]
fn a_script_of_60_000_bytes_is_read_whole() {
    let lines = ["turn 1 0 0\n", "take 1 0 0\n", "list 1 0 0\n", "put 9 9 9\n", "permit 1 3 0\n"];
    for line in lines {
        let script = of_length(MOST_BYTES, line);
        let output = program::printed(script.as_bytes());
        assert_eq!(output, script::printed(script.as_bytes()));
        assert_eq!(output.lines().count() + 2, script.lines().count());
    }
}

#[test]
fn a_longer_script_is_unreadable_as_line_0() {
    for length in [MOST_BYTES + 1, MOST_BYTES + 2, 2 * MOST_BYTES, 10 * MOST_BYTES] {
        let script = of_length(length, "turn 1 0 0\n");
        let output = program::printed(script.as_bytes());
        assert_eq!(output, "line thread answer key tag\n0 0 unreadable 0 0\n");
        assert_eq!(output, script::printed(script.as_bytes()));
    }
}
