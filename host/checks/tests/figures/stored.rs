//! The stored scripts, each with its report: `NAME.scripts` and `NAME.out` in
//! `crates/figures_main/data`.

use checks::figures;
use checks::program;
use checks::stored::examples;

#[test]
fn stored_scripts_print_their_stored_reports() {
    for stored in examples("../../crates/figures_main/data", "scripts") {
        let path = stored.path.display();
        assert_eq!(figures::printed(&stored.input), stored.output, "{path} in plain Rust");
        assert_eq!(program::figures(&stored.input), stored.output, "{path}");
    }
}
