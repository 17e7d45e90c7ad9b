//! Queues behind one lock, used by several threads at once, whose operations are recorded and
//! checked by the library: a right queue, whose runs must all be accepted, and queues that go wrong
//! now and then, whose runs must be rejected where they did.
//!
//! `cargo run --release --example native` prints how many runs were accepted and rejected, and ends
//! with a failure if one of them should not have been.

mod queue;
mod random;
mod run;

use std::process::ExitCode;

use mound::{check_records, Record, Verdict};

use queue::Queue;
use run::run;

/// How many runs of one queue there were, and what became of them.
#[derive(Default)]
struct Report {
    runs: u32,
    operations: usize,
    /// Operations in which another one began or was answered.
    overlapping: usize,
    /// Runs in which the queue went wrong.
    wrong: u32,
    accepted: u32,
    rejected: u32,
    /// Runs that are refused, accepted though wrong, or rejected though right.
    misjudged: u32,
}

impl Report {
    fn of(queue: Queue, runs: u32) -> Report {
        let mut report = Report { runs, ..Report::default() };
        for seed in 0..runs {
            let (records, went_wrong) = run(queue, seed.into());
            report.add(&records, went_wrong);
        }
        report
    }

    /// Has the library check a run.
    fn add(&mut self, records: &[Record], went_wrong: bool) {
        let bytes: Vec<u8> = records.iter().flat_map(|record| record.to_bytes()).collect();
        let verdict = check_records(&bytes);
        let due = if went_wrong { Verdict::Rejected } else { Verdict::Accepted };
        self.operations += records.len();
        // Each moment is the begin or the answer of one operation.
        self.overlapping +=
            records.iter().filter(|record| record.answer > record.begin + 1).count();
        self.wrong += u32::from(went_wrong);
        self.accepted += u32::from(verdict == Ok(Verdict::Accepted));
        self.rejected += u32::from(verdict == Ok(Verdict::Rejected));
        self.misjudged += u32::from(verdict != Ok(due));
    }

    fn print(&self, queue: Queue) {
        let Report { runs, operations, overlapping, wrong, accepted, rejected, .. } = self;
        println!(
            "{:<46}{runs:>5}{operations:>12}{overlapping:>13}{wrong:>7}{accepted:>10}{rejected:>10}",
            queue.to_string()
        );
    }
}

fn main() -> ExitCode {
    println!("Queues behind one lock, used by 2 to 8 threads, up to 1,024 operations a run:");
    println!(
        "{:<46}{:>5}{:>12}{:>13}{:>7}{:>10}{:>10}",
        "the queue", "runs", "operations", "overlapping", "wrong", "accepted", "rejected"
    );
    let mut is_as_it_must_be = true;
    for (queue, runs) in Queue::ALL.into_iter().zip([2000, 500, 500, 500]) {
        let report = Report::of(queue, runs);
        report.print(queue);
        let some_went_wrong = queue == Queue::Right || report.wrong != 0;
        is_as_it_must_be &= report.misjudged == 0 && some_went_wrong;
    }
    if is_as_it_must_be {
        println!("Just the runs that went wrong were rejected.");
        ExitCode::SUCCESS
    } else {
        println!("NOT AS IT MUST BE: a verdict is wrong, or no run of a wrong queue went wrong.");
        ExitCode::FAILURE
    }
}

/// The same in short.
#[test]
fn just_the_runs_that_went_wrong_are_rejected() {
    for queue in Queue::ALL {
        let report = Report::of(queue, 50);
        assert_eq!((report.misjudged, report.wrong + report.accepted), (0, 50), "{queue}");
        assert_eq!(report.wrong == 0, queue == Queue::Right, "{queue}");
    }
}
