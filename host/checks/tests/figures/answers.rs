//! The figures against what the script program prints for the same scripts, line by line.

use chart::Figures;
use checks::program;
use checks::random::Random;

use crate::inputs::any;
use crate::report::report;

/// How often the script program gives a thread one of these answers.
fn answered(output: &str, thread: usize, answers: &[&str]) -> u32 {
    let thread = thread.to_string();
    let is_one = |line: &&str| {
        let fields: Vec<&str> = line.split(' ').collect();
        fields[1] == thread && answers.contains(&fields[2])
    };
    u32::try_from(output.lines().filter(is_one).count()).expect("few lines")
}

#[test]
fn accesses_and_operations_are_the_script_programs_answers() {
    let mut random = Random::new(4);
    let mut compared = 0;
    for _ in 0..12 {
        let scripts = any(&mut random);
        let report = report(scripts.concat().as_bytes());
        for (script, threads) in scripts.iter().zip(report.scripts) {
            let lines = script.strip_suffix('\n').expect("an empty line");
            let output = program::printed(lines.as_bytes());
            for (thread, figures) in (1..).zip(threads) {
                let Figures { accesses: [.., hand], operations: [put, take, list, empty], .. } =
                    figures;
                let count = |answers: &[&str]| answered(&output, thread, answers);
                let accesses = count(&["moved", "inserted", "took", "empty"]);
                assert_eq!(figures.all_accesses(), accesses, "{thread} of {script}");
                assert_eq!([put, empty], [&["inserted"], &["empty"]].map(|one| count(one)));
                // Of a list each item is a hand-out, and the last one alone an operation.
                assert_eq!(take + hand, count(&["took"]), "{thread} of {script}");
                assert!(list <= hand, "{thread} of {script}");
                compared += accesses;
            }
        }
    }
    assert!(compared > 1000, "{compared} accesses");
}
