//! The stored scripts, each with its output: `NAME.script` and `NAME.out` in
//! `crates/script_main/data`.

use checks::stored::examples;
use checks::{program, script};

#[test]
fn stored_scripts_print_their_stored_outputs() {
    for stored in examples("../../crates/script_main/data", "script") {
        let path = stored.path.display();
        assert_eq!(program::printed(&stored.input), stored.output, "{path}");
        assert_eq!(script::printed(&stored.input), stored.output, "{path} in plain Rust");
    }
}
