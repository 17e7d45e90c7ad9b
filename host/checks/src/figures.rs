//! The figures over many scripts, change request 6, in plain Rust: from the bytes of the scripts to
//! the report, written from the papers, over the plain queue.
//!
//! Whether an update failed is seen in shared memory: one that succeeds makes the depth greater or
//! a node's counter, and one that fails leaves both as they were.

use std::fmt;

use mound::Answer;
use plain::script::{next_line, Line, Opening, Outcome, MOST_BYTES};

use crate::fields::{place, HEADING, PRESENT_DEPTH};
use crate::queue::Queue;

/// The most scripts of a report.
pub const MOST_SCRIPTS: usize = 64;

/// The report's first line.
pub const COLUMNS: &str =
    "script thread node depth cas dcas dcss hand failed put take list empty whole rest\n";

/// What is printed where there is no report.
pub const UNREADABLE: &str = "unreadable\n";

/// What scripts print that stand one behind the other, each ended by an empty line.
pub fn printed(scripts: &[u8]) -> String {
    let Some(scripts) = of_scripts(scripts) else { return String::from(UNREADABLE) };
    let mut report = String::from(COLUMNS);
    let mut total = Figures::default();
    for (script, threads) in (1..).zip(scripts) {
        for (thread, figures) in (1..).zip(threads) {
            report += &line(script, thread, figures);
            total.add(figures);
        }
    }
    report + &line(0, 0, total)
}

fn line(script: u32, thread: u32, figures: Figures) -> String {
    format!("{script} {thread} {figures}\n")
}

/// The figures that are counted, in the report's order: six kinds of access, updates that failed,
/// and four ways in which an operation is answered.
#[derive(Clone, Copy)]
enum Column {
    Node,
    Depth,
    Cas,
    Dcas,
    Dcss,
    Hand,
    Failed,
    Put,
    Take,
    List,
    Empty,
}

/// The counts of a thread or of all of them.
#[derive(Clone, Copy, Default)]
struct Figures([u32; Column::Empty as usize + 1]);

impl Figures {
    fn count(&mut self, column: Column) {
        self.0[column as usize] += 1;
    }

    fn add(&mut self, other: Figures) {
        for (sum, count) in self.0.iter_mut().zip(other.0) {
            *sum += count;
        }
    }
}

/// The counts, then the accesses for each operation as quotient and remainder: 0 and 0 without any
/// operation.
impl fmt::Display for Figures {
    fn fmt(&self, f: &mut fmt::Formatter<'_>) -> fmt::Result {
        let accesses: u32 = self.0[..=Column::Hand as usize].iter().sum();
        let operations: u32 = self.0[Column::Put as usize..].iter().sum();
        for count in self.0 {
            write!(f, "{count} ")?;
        }
        let whole = accesses.checked_div(operations).unwrap_or(0);
        let rest = accesses.checked_rem(operations).unwrap_or(0);
        write!(f, "{whole} {rest}")
    }
}

/// The figures of each thread of each script; none where they are unreadable.
fn of_scripts(mut scripts: &[u8]) -> Option<Vec<Vec<Figures>>> {
    if MOST_BYTES < scripts.len() {
        return None;
    }
    let mut figures = vec![];
    while !scripts.is_empty() {
        figures.push(of_next_script(&mut scripts)?);
    }
    (figures.len() <= MOST_SCRIPTS).then_some(figures)
}

/// Reads a script with its empty line, and counts for each of its threads.
fn of_next_script(rest: &mut &[u8]) -> Option<Vec<Figures>> {
    let opening = Opening::read(rest)?;
    let mut queue = Queue { bytes: opening.lay_out().ok()? };
    let mut threads = vec![Figures::default(); opening.shape.threads as usize];
    loop {
        let line = next_line(rest)?;
        if line.is_empty() {
            return Some(threads);
        }
        let line = Line::parse(line)?;
        let before = queue.clone();
        match line.make(&mut queue.machine()) {
            Ok(Outcome::Answered(answer)) if answer.is_access() => {
                let figures = &mut threads[line.thread as usize - 1];
                count(figures, line.thread, answer, &before, &queue);
            }
            _ => {}
        }
    }
}

/// Counts a turn of a thread that made an access, given the queue before and after it.
fn count(figures: &mut Figures, thread: u32, answer: Answer, before: &Queue, after: &Queue) {
    let place = before.place(thread);
    let kind = kind_at(place);
    figures.count(kind);
    let is_update = matches!(kind, Column::Cas | Column::Dcas | Column::Dcss);
    if is_update && updated(before) == updated(after) {
        figures.count(Column::Failed);
    }
    match answer {
        Answer::Inserted => figures.count(Column::Put),
        Answer::Took { .. } if place != place::P19 => figures.count(Column::Take),
        // A list ends with its last item.
        Answer::Took { .. } if after.place(thread) == place::IDLE => figures.count(Column::List),
        Answer::Empty => figures.count(Column::Empty),
        _ => {}
    }
}

/// The kind of access that a place makes.
fn kind_at(place: u32) -> Column {
    match place {
        place::I2
        | place::I3
        | place::I5
        | place::I7
        | place::E1
        | place::M1
        | place::M3
        | place::M4
        | place::P17 => Column::Node,
        place::I1 | place::M2 => Column::Depth,
        place::I4 | place::I6 | place::E2 | place::M6 | place::P18 => Column::Cas,
        place::M5 => Column::Dcas,
        place::I8 => Column::Dcss,
        place::P19 => Column::Hand,
        other => panic!("no access is made at place {other}"),
    }
}

/// The words that an update changes: the present depth, and those of the nodes.
fn updated(queue: &Queue) -> (u32, &[u8]) {
    (queue.word(PRESENT_DEPTH), &queue.bytes[4 * HEADING..4 * queue.cell_at(1)])
}
