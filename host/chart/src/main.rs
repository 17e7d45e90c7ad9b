//! `chart LABEL=REPORT.. > chart.svg`: draws reports of figures over many scripts, one for each
//! setting, each from a file and under a label, as `1=threshold_1.report`.

use std::env;
use std::ffi::OsString;
use std::fs;
use std::io::{self, Write};
use std::process::ExitCode;

use chart::{draw, Report};

fn main() -> ExitCode {
    let written = picture(env::args_os().skip(1)).and_then(|picture| {
        io::stdout().write_all(picture.as_bytes()).map_err(|error| error.to_string())
    });
    match written {
        Ok(()) => ExitCode::SUCCESS,
        Err(message) => {
            eprintln!("chart: {message}");
            ExitCode::FAILURE
        }
    }
}

/// The picture of the reports that the arguments name.
fn picture(arguments: impl Iterator<Item = OsString>) -> Result<String, String> {
    let reports: Vec<(String, Report)> = arguments.map(labelled).collect::<Result<_, _>>()?;
    if reports.is_empty() {
        return Err(String::from("usage: chart LABEL=REPORT.. > chart.svg"));
    }
    draw(&reports).map_err(|error| error.to_string())
}

/// The label and the report of an argument.
fn labelled(argument: OsString) -> Result<(String, Report), String> {
    let argument =
        argument.into_string().map_err(|name| format!("{} is no text", name.display()))?;
    let (label, file) = argument
        .split_once('=')
        .ok_or_else(|| format!("{argument} is no LABEL=REPORT, as 1=threshold_1.report"))?;
    let text = fs::read_to_string(file).map_err(|error| format!("{file}: {error}"))?;
    let report = text.parse().map_err(|error| format!("{file}: {error}"))?;
    Ok((label.to_owned(), report))
}
