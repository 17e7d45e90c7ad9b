//! Random scripts: the program prints what plain Rust prints, and the report's sums are right.

use chart::Figures;
use checks::random::Random;

use crate::inputs::any;
use crate::report::report;

/// Prints reports of random scripts, and gives the sums of their totals.
fn try_random(seed: u64, inputs: u32) -> Figures {
    let mut random = Random::new(seed);
    let totals = (0..inputs).map(|_| {
        let scripts = any(&mut random);
        let report = report(scripts.concat().as_bytes());
        assert_eq!(report.scripts.len(), scripts.len());
        report.total()
    });
    totals.sum()
}

#[test]
fn random_scripts_print_what_plain_rust_prints() {
    let counted = try_random(1, 200);
    let Figures { accesses, failed, operations } = counted;
    let counts = [&accesses[..], &[failed], &operations].concat();
    assert!(counts.iter().all(|&count| count > 1000), "each figure is counted: {counted:?}");
}

#[test]
#[ignore = "a minute: many more random scripts"]
fn many_random_scripts_print_what_plain_rust_prints() {
    try_random(3, 10_000);
}
