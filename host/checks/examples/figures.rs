//! Writes the example of the figures anew, into `docs/figures`: the scripts at each threshold, their
//! reports as plain Rust prints them, and the chart of these.
//!
//! `cargo run --release -p checks --example figures`

use std::fs;
use std::io;
use std::path::Path;

use chart::draw;
use checks::figures::printed;
use checks::workloads::{scripts, THRESHOLDS};

fn main() -> io::Result<()> {
    let folder = Path::new(env!("CARGO_MANIFEST_DIR")).join("../../docs/figures");
    let mut reports = vec![];
    for threshold in THRESHOLDS {
        let scripts = scripts(threshold);
        let report = printed(scripts.as_bytes());
        fs::write(folder.join(format!("threshold_{threshold}.scripts")), scripts)?;
        fs::write(folder.join(format!("threshold_{threshold}.report")), &report)?;
        reports.push((threshold.to_string(), report.parse().map_err(io::Error::other)?));
    }
    fs::write(folder.join("chart.svg"), draw(&reports).map_err(io::Error::other)?)
}
