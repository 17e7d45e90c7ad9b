//! The example of the documents, in `docs/figures`: its scripts are those that are made, its reports
//! what the program prints, and its chart what is drawn of them. What differs is written anew by
//! `cargo run --release -p checks --example figures`.

use std::fs;

use chart::{draw, Report};
use checks::figures;
use checks::program;
use checks::workloads::{scripts, THRESHOLDS};
use plain::script::MOST_BYTES;

fn stored(name: &str) -> String {
    let path = format!("../../docs/figures/{name}");
    fs::read_to_string(&path).unwrap_or_else(|error| panic!("{path}: {error}"))
}

fn stored_scripts(threshold: u32) -> String {
    stored(&format!("threshold_{threshold}.scripts"))
}

fn stored_report(threshold: u32) -> String {
    stored(&format!("threshold_{threshold}.report"))
}

/// The reports as the chart has them.
fn reports() -> [(String, Report); 4] {
    THRESHOLDS.map(|threshold| {
        let report = stored_report(threshold).parse().expect("a report");
        (threshold.to_string(), report)
    })
}

#[test]
fn the_examples_scripts_are_those_that_are_made() {
    for threshold in THRESHOLDS {
        let scripts = scripts(threshold);
        assert!(stored_scripts(threshold) == scripts, "threshold {threshold}");
        assert!(scripts.len() <= MOST_BYTES);
    }
}

/// At two thresholds the scripts differ in the shape's line alone.
#[test]
fn the_examples_scripts_differ_in_the_threshold_alone() {
    let first = stored_scripts(THRESHOLDS[0]);
    for threshold in THRESHOLDS {
        let scripts = stored_scripts(threshold);
        let differing = first.lines().zip(scripts.lines()).filter(|(one, other)| one != other);
        for (one, other) in differing {
            assert_eq!(one.replace(" 1 3", &format!(" {threshold} 3")), other);
        }
        assert_eq!(first.lines().count(), scripts.lines().count());
    }
}

#[test]
fn the_examples_reports_are_what_is_printed() {
    for threshold in THRESHOLDS {
        let (scripts, report) = (stored_scripts(threshold), stored_report(threshold));
        assert_eq!(figures::printed(scripts.as_bytes()), report, "{threshold}, plain Rust");
        assert_eq!(program::figures(scripts.as_bytes()), report, "{threshold}, the program");
    }
}

/// So the bars of a script are of the same work.
#[test]
fn the_examples_scripts_have_the_same_operations_at_each_threshold() {
    for (threshold, report) in reports() {
        let operations = report.sums().map(|figures| figures.all_operations());
        assert!(operations.eq([32, 32, 24, 24]), "{threshold}: {:?}", report.scripts);
    }
}

#[test]
fn the_examples_chart_is_drawn_of_its_reports() {
    let picture = draw(&reports()).expect("the same scripts");
    assert!(stored("chart.svg") == picture, "chart.svg is another picture");
}
