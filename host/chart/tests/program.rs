//! The program `chart`: what it writes, what it refuses and how it says so.

use std::fs;
use std::path::PathBuf;
use std::process::{Command, Output};

use chart::draw;

const COLUMNS: &str =
    "script thread node depth cas dcas dcss hand failed put take list empty whole rest\n";
const FIRST: &str = "1 1 2 1 1 0 0 0 0 1 0 0 0 4 0\n";
const SECOND: &str = "2 1 0 0 0 0 0 0 0 0 0 0 0 0 0\n";
const TOTAL: &str = "0 0 2 1 1 0 0 0 0 1 0 0 0 4 0\n";

/// A file with this content.
fn file(name: &str, content: &[u8]) -> String {
    let path = PathBuf::from(env!("CARGO_TARGET_TMPDIR")).join(name);
    fs::write(&path, content).expect("the folder can be written");
    path.to_str().expect("a path in UTF-8").to_owned()
}

fn chart(arguments: &[String]) -> Output {
    Command::new(env!("CARGO_BIN_EXE_chart")).args(arguments).output().expect("it starts")
}

fn assert_refuses(arguments: &[String], message: &str) {
    let output = chart(arguments);
    let said = String::from_utf8_lossy(&output.stderr);
    assert_eq!(output.status.code(), Some(1), "{arguments:?}");
    assert!(said.starts_with("chart: ") && said.contains(message), "{said}");
    assert!(output.stdout.is_empty());
}

/// A label ends at the first equals sign; the file's name may have more of them.
#[test]
fn the_program_writes_the_picture_of_its_reports() {
    let report = format!("{COLUMNS}{FIRST}{SECOND}{TOTAL}");
    let paths = ["good.report", "as=good.report"].map(|name| file(name, report.as_bytes()));
    let output = chart(&[format!("1={}", paths[0]), format!("2={}", paths[1])]);
    assert_eq!(output.status.code(), Some(0));
    let reports = ["1", "2"].map(|label| (label.to_owned(), report.parse().unwrap()));
    assert_eq!(String::from_utf8(output.stdout).unwrap(), draw(&reports).unwrap());
    assert!(output.stderr.is_empty());
}

#[test]
fn what_is_no_report_is_refused() {
    let bad = |name, content: &str| format!("1={}", file(name, content.as_bytes()));
    assert_refuses(&[bad("unreadable.report", "unreadable\n")], "its scripts were unreadable");
    assert_refuses(&[bad("empty.report", "")], "no report");
    assert_refuses(&[bad("text.report", "2 1 1\n")], "no report");
    let without_total = format!("{COLUMNS}{FIRST}{SECOND}");
    assert_refuses(&[bad("no_total.report", &without_total)], "it has no total");
    let path = file("bytes.report", b"\xff\n");
    assert_refuses(&[format!("1={path}")], &path);
}

#[test]
fn reports_of_other_scripts_are_refused() {
    let two = file("two.report", format!("{COLUMNS}{FIRST}{SECOND}{TOTAL}").as_bytes());
    let one = file("one.report", format!("{COLUMNS}{FIRST}{TOTAL}").as_bytes());
    let none = format!("{COLUMNS}0 0 0 0 0 0 0 0 0 0 0 0 0 0 0\n");
    let none = file("none.report", none.as_bytes());
    let both = [format!("1={two}"), format!("2={one}")];
    assert_refuses(&both, "one report has 2 scripts and another one 1");
    assert_refuses(&[format!("1={none}")], "there is no script to draw");
}

#[test]
fn other_arguments_are_refused() {
    assert_refuses(&[], "usage: chart LABEL=REPORT.. > chart.svg");
    assert_refuses(&[String::from("1")], "1 is no LABEL=REPORT");
    assert_refuses(&[String::from("1=there/is/none")], "there/is/none: ");
}
