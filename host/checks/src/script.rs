//! The script program in plain Rust: from a script's bytes to its output, written from the papers,
//! over the plain queue.

use std::fmt::{self, Write};

use mound::{Answer, Refusal};
use plain::script::{next_line, Line, Opening, Outcome, MOST_BYTES};
use plain::Machine;

/// What a script prints.
pub fn printed(script: &[u8]) -> String {
    let mut output = String::from("line thread answer key tag\n");
    run(script, &mut output).expect("a string grows");
    output
}

fn run(script: &[u8], output: &mut String) -> fmt::Result {
    let mut rest = script;
    let Some(opening) = Opening::read(&mut rest).filter(|_| script.len() <= MOST_BYTES) else {
        return writeln!(output, "0 0 unreadable 0 0");
    };
    let mut region = match opening.lay_out() {
        Ok(region) => region,
        Err(refusal) => return writeln!(output, "0 0 {}", refused(refusal)),
    };
    let mut machine = Machine::open(&mut region).expect("a region that was laid out");
    for number in 1.. {
        if rest.is_empty() {
            break;
        }
        let Some(line) = next_line(&mut rest).and_then(Line::parse) else {
            return writeln!(output, "{number} 0 unreadable 0 0");
        };
        let words = line.make(&mut machine).map_or_else(refused, words);
        writeln!(output, "{number} {} {words}", line.thread)?;
    }
    Ok(())
}

fn words(outcome: Outcome) -> String {
    match outcome {
        Outcome::Begun => String::from("begun 0 0"),
        Outcome::Set => String::from("set 0 0"),
        Outcome::Answered(Answer::Took { key, tag }) => format!("took {key} {tag}"),
        Outcome::Answered(other) => format!("{} 0 0", word(other)),
    }
}

/// The word of an answer without numbers.
fn word(answer: Answer) -> &'static str {
    match answer {
        Answer::Moved => "moved",
        Answer::Idle => "idle",
        Answer::Inserted => "inserted",
        Answer::Empty => "empty",
        Answer::Withdrawn => "withdrawn",
        other => panic!("the papers know no answer {other:?}"),
    }
}

fn refused(refusal: Refusal) -> String {
    format!("refused {} 0", refusal.number())
}
