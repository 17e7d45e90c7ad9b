//! The three programs, each a file that an environment variable names, or else the one in its crate's
//! folder `out`, which `rt ci` and `rt run` build: the script program, `SCRIPT_PROGRAM` or `script_main`;
//! the figures over many scripts, `FIGURES_PROGRAM` or `figures_main`; and the cut of a script,
//! `CUT_PROGRAM` or `cut_main`.

use std::env;
use std::io::{ErrorKind, Write};
use std::path::{Path, PathBuf};
use std::process::{Command, Stdio};

/// What the script program prints for a script.
pub fn printed(script: &[u8]) -> String {
    output("SCRIPT_PROGRAM", "script_main", script)
}

/// What the program of the figures prints for scripts that stand one behind the other.
pub fn figures(scripts: &[u8]) -> String {
    output("FIGURES_PROGRAM", "figures_main", scripts)
}

/// What the program that cuts a script down prints for a number's line and a script.
pub fn cut(number_and_script: &[u8]) -> String {
    output("CUT_PROGRAM", "cut_main", number_and_script)
}

fn output(variable: &str, name: &str, given: &[u8]) -> String {
    let built = || Path::new("../../crates").join(name).join("out").join(name);
    let path = env::var_os(variable).map_or_else(built, PathBuf::from);
    let mut program = Command::new(&path)
        .stdin(Stdio::piped())
        .stdout(Stdio::piped())
        .spawn()
        .unwrap_or_else(|error| panic!("{}: {error}", path.display()));
    let mut input = program.stdin.take().expect("its input is a pipe");
    // The program reads no more than it needs to see that its input is too long.
    match input.write_all(given) {
        Err(error) if error.kind() != ErrorKind::BrokenPipe => panic!("{error}"),
        _ => drop(input),
    }
    let output = program.wait_with_output().expect("the program ends");
    assert!(output.status.success());
    String::from_utf8(output.stdout).expect("the program prints ASCII")
}
