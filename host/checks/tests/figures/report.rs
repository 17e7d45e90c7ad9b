//! What the program prints, held against plain Rust.

use chart::Report;
use checks::figures;
use checks::program;

/// What the program prints, which is what plain Rust does.
pub fn printed(scripts: &[u8]) -> String {
    let printed = program::figures(scripts);
    assert_eq!(printed, figures::printed(scripts), "{}", String::from_utf8_lossy(scripts));
    printed
}

/// The report that the program prints. To be read as one its lines must be in order, the total the
/// sum of the others, and in each line the kinds of access sum up to whole × operations + rest.
pub fn report(scripts: &[u8]) -> Report {
    let printed = printed(scripts);
    printed.parse().unwrap_or_else(|error| panic!("{error}:\n{printed}"))
}
