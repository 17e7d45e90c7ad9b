//! A report, read strictly: what the program of the figures would not print is none.

use std::array;
use std::error::Error;
use std::fmt;
use std::iter::Sum;
use std::str::FromStr;

/// The kinds of access, in the report's order.
pub const KINDS: [&str; 6] = ["READ node", "READ depth", "CAS", "DCAS", "DCSS", "hand-out"];

const COLUMNS: &str =
    "script thread node depth cas dcas dcss hand failed put take list empty whole rest";
/// The most scripts of a report, and the most threads of a script.
const MOST: u32 = 64;
/// No figure is greater: an access takes a line of a script, and the scripts have at most so many
/// bytes.
const GREATEST_FIGURE: u32 = 60_000;

/// The figures of a thread, of a script or of all scripts.
#[derive(Clone, Copy, Debug, Default, PartialEq, Eq)]
pub struct Figures {
    /// Accesses, by the [kinds](KINDS).
    pub accesses: [u32; 6],
    /// Updates that failed.
    pub failed: u32,
    /// Operations answered: put, take, list, empty.
    pub operations: [u32; 4],
}

impl Figures {
    /// Accesses of all kinds.
    #[must_use]
    pub fn all_accesses(&self) -> u32 {
        self.accesses.iter().sum()
    }

    /// Operations answered in any way.
    #[must_use]
    pub fn all_operations(&self) -> u32 {
        self.operations.iter().sum()
    }

    /// Accesses by CAS, DCAS and DCSS.
    fn updates(&self) -> u32 {
        self.accesses[2..5].iter().sum()
    }

    /// As quotient and remainder; 0 and 0 without any operation.
    fn accesses_per_operation(&self) -> [u32; 2] {
        let (accesses, operations) = (self.all_accesses(), self.all_operations());
        match accesses.checked_div(operations) {
            Some(quotient) => [quotient, accesses % operations],
            None => [0, 0],
        }
    }
}

impl Sum for Figures {
    fn sum<I: Iterator<Item = Figures>>(all: I) -> Figures {
        all.fold(Figures::default(), |sum, one| Figures {
            accesses: array::from_fn(|kind| sum.accesses[kind] + one.accesses[kind]),
            failed: sum.failed + one.failed,
            operations: array::from_fn(|way| sum.operations[way] + one.operations[way]),
        })
    }
}

/// The lines of a report.
#[derive(Clone, Debug, Default, PartialEq, Eq)]
pub struct Report {
    /// The threads of each script, both in the report's order.
    pub scripts: Vec<Vec<Figures>>,
}

impl Report {
    /// The figures of each script: the sums over its threads.
    pub fn sums(&self) -> impl Iterator<Item = Figures> + '_ {
        self.scripts.iter().map(|threads| threads.iter().copied().sum())
    }

    /// The figures of all scripts.
    #[must_use]
    pub fn total(&self) -> Figures {
        self.sums().sum()
    }

    /// Adds a line, if it is one of the next thread or of the next script.
    fn add(&mut self, place: [u32; 2], figures: Figures) -> Option<()> {
        let scripts = self.scripts.len();
        let threads = self.scripts.last().map_or(0, Vec::len);
        if place == [scripts + 1, 1].map(as_u32) {
            self.scripts.push(vec![]);
        } else if scripts == 0 || place != [scripts, threads + 1].map(as_u32) {
            return None;
        }
        self.scripts.last_mut()?.push(figures);
        Some(())
    }
}

impl FromStr for Report {
    type Err = NotAReport;

    fn from_str(text: &str) -> Result<Report, NotAReport> {
        let no = |reason| Err(NotAReport { reason });
        if text == "unreadable\n" {
            return no("its scripts were unreadable");
        }
        let mut lines = text.split_terminator('\n');
        if lines.next() != Some(COLUMNS) || !text.ends_with('\n') {
            return no("its heading is another one, or its last line has no end");
        }
        let mut report = Report::default();
        while let Some(line) = lines.next() {
            let Some((place, figures)) = row(line) else { return no("a line has other figures") };
            if place == [0, 0] {
                return match lines.next() {
                    None if figures == report.total() => Ok(report),
                    None => no("the total is not the sum of its lines"),
                    Some(_) => no("lines follow the total"),
                };
            }
            if report.add(place, figures).is_none() {
                return no("a line is not of the next thread or script");
            }
        }
        no("it has no total")
    }
}

/// The script and the thread of a line, 0 and 0 for the total, and its figures, if the last two
/// follow from the others.
fn row(line: &str) -> Option<([u32; 2], Figures)> {
    let numbers: Vec<u32> = line.split(' ').map(number).collect::<Option<_>>()?;
    let (&place, numbers) = numbers.split_first_chunk()?;
    let (&accesses, numbers) = numbers.split_first_chunk()?;
    let (&failed, numbers) = numbers.split_first()?;
    let (&operations, quotient_and_rest) = numbers.split_first_chunk()?;
    let figures = Figures { accesses, failed, operations };
    let is_one = place.iter().all(|&number| number <= MOST)
        && failed <= figures.updates()
        && quotient_and_rest == figures.accesses_per_operation();
    is_one.then_some((place, figures))
}

fn as_u32(count: usize) -> u32 {
    u32::try_from(count).expect("a small number")
}

/// A number as it is printed: no sign, no leading zero.
fn number(field: &str) -> Option<u32> {
    let number: u32 = field.parse().ok()?;
    (number <= GREATEST_FIGURE && number.to_string() == field).then_some(number)
}

/// Why a text is no report.
#[derive(Clone, Copy, Debug, PartialEq, Eq)]
pub struct NotAReport {
    reason: &'static str,
}

impl fmt::Display for NotAReport {
    fn fmt(&self, f: &mut fmt::Formatter<'_>) -> fmt::Result {
        write!(f, "no report: {}", self.reason)
    }
}

impl Error for NotAReport {}

#[cfg(test)]
mod tests {
    use super::*;

    /// The report of two scripts, the first of two threads.
    const REPORT: &str = "\
script thread node depth cas dcas dcss hand failed put take list empty whole rest
1 1 5 2 4 0 0 0 1 1 1 0 0 5 1
1 2 2 1 1 0 0 0 0 1 0 0 0 4 0
2 1 0 1 0 0 0 0 0 0 0 0 0 0 0
0 0 7 4 5 0 0 0 1 2 1 0 0 5 1
";

    fn reason(text: &str) -> &'static str {
        text.parse::<Report>().expect_err(text).reason
    }

    #[test]
    fn a_report_has_the_figures_of_each_thread_and_their_sums() {
        let report: Report = REPORT.parse().unwrap();
        assert_eq!(report.scripts.iter().map(Vec::len).collect::<Vec<_>>(), [2, 1]);
        assert_eq!(report.scripts[0][1].accesses, [2, 1, 1, 0, 0, 0]);
        let first = Figures { accesses: [7, 3, 5, 0, 0, 0], failed: 1, operations: [2, 1, 0, 0] };
        let second = Figures { accesses: [0, 1, 0, 0, 0, 0], ..Figures::default() };
        assert!(report.sums().eq([first, second]));
        assert_eq!((first.all_accesses(), first.all_operations()), (15, 3));
    }

    #[test]
    fn a_report_of_no_script_is_one() {
        let text = format!("{COLUMNS}\n0 0 0 0 0 0 0 0 0 0 0 0 0 0 0\n");
        assert_eq!(text.parse(), Ok(Report::default()));
    }

    #[test]
    fn what_has_another_form_is_refused() {
        assert_eq!(reason("unreadable\n"), "its scripts were unreadable");
        for text in ["", "\n", "unreadable", &REPORT[1..], &REPORT[..REPORT.len() - 1]] {
            assert!(reason(text).starts_with("its heading"), "{text}");
        }
        for (good, bad) in [
            ("1 1 5", "1 1 05"),
            ("1 1 5", "1 1 +5"),
            ("1 1 5", "1 1  5"),
            ("1 1 5", "1 1"),
            ("1 1 5", "1 1 5 0"),
            ("1 1 5", "1 1 x"),
            ("1 1 5", "1 1 60001"),
            ("4 0\n", "4 0 \n"),
            ("4 0\n", "4 0\r\n"),
            ("0 0 5 1\n1 2", "0 0 5 2\n1 2"),
            ("0 0 0 1 1 1", "0 0 0 5 1 1"),
            ("2 1 0 1", "65 1 0 1"),
        ] {
            assert!(REPORT.contains(good), "{good}");
            assert_eq!(reason(&REPORT.replacen(good, bad, 1)), "a line has other figures", "{bad}");
        }
    }

    #[test]
    fn lines_in_another_order_are_refused() {
        for (good, bad) in
            [("\n1 1", "\n2 1"), ("\n1 2", "\n1 3"), ("\n2 1", "\n2 2"), ("\n2 1", "\n3 1")]
        {
            let text = REPORT.replacen(good, bad, 1);
            assert_eq!(reason(&text), "a line is not of the next thread or script", "{bad}");
        }
        let (before, total) = REPORT.split_at(REPORT.find("0 0 7").unwrap());
        assert_eq!(reason(before), "it has no total");
        assert_eq!(reason(&(REPORT.to_owned() + total)), "lines follow the total");
        let other = REPORT.replace("0 0 7 4 5", "0 0 7 5 4");
        assert_eq!(reason(&other), "the total is not the sum of its lines");
    }

    /// No byte can be left out, nor the report be cut short.
    #[test]
    fn no_part_of_a_report_is_one() {
        for at in 0..REPORT.len() {
            assert!(REPORT[..at].parse::<Report>().is_err(), "cut at {at}");
            let without = format!("{}{}", &REPORT[..at], &REPORT[at + 1..]);
            assert!(without.parse::<Report>().is_err(), "without byte {at}");
        }
    }
}
