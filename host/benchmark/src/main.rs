//! How fast the proved library is beside the plain Rust implementation, both in this one program:
//! ratios, and times for orientation.

mod heap;
mod measure;
mod native;
mod play;
mod record;
mod work;

use checks::cut::line_count;
use checks::ending_scripts::{long_scripts, LONG};
use measure::{measure, share, Times, ROUNDS};
use mound::Shape;
use work::{Work, PAIRS};

const SMALL: Shape = Shape { depth: 4, cells: 8, threads: 4, threshold: 2 };
const LARGE: Shape = Shape { threshold: 2, ..Shape::LARGEST };

/// A shape with a cell for each of the most threads.
const CROWDED: Shape = Shape { depth: 7, cells: 64, threads: 64, threshold: 2 };

const TURNS: &str = "
A turn in a run. The share is that of the turns that make an access; the others are idle, or
withdrawn. Puts that find no leaf go round all leaves for ever, each of which holds a lesser item; no
calls lead to such a region. A put that walks is always given the first leaf, in a tree as full as it
gets, H 1: it tries half of the leaves, and is inserted in the last of these. With single permissions
those who put may not take and those who take may not put.";

const PAIRS_OF_CALLS: &str = "
A put and a take by one thread, T 4, half of the cells in use: four calls, each run with just the
turns that it takes. Beside them a push and a pop of a Mutex<BinaryHeap> with as many items.";

const LISTS: &str = "
A list of all items at the root, and as many takes of one item, by one thread, T 4; as many items of
greater keys stand below. Accesses and times are for one item. The list is two calls, each take two,
each run with just the turns that it takes.";

const CHECKS: &str = "
A check at the largest shape, D 12, C 2,048, T 64, of 24,834 words: a yes, and refusals by the first
word out of range. The share is that of the library's time for a yes.";

const PERMITS: &str = "
A permit to the last thread: a check of the region and one word. The share is that of a permit in
relation to a check, both by the library.";

const GROWTH: &str = "
How cost grows with D, T 4: a check looks at the whole region, a turn at one place of it. The turn
is one of 4,096 in a run of puts that find no leaf, all of them accesses.";

const CONVERSIONS: &str = "
A conversion of a region of the old form: a check of it, and each byte of the new one. The share is
that of a conversion in relation to a check of the new region, both by the library.";

const RECORDS: &str = "
A check of records from a simulated run of 8 threads, puts, takes and empties: accepted, and refused
for the kind of the first record. The share is that of a check in relation to one of all 1,024
records, both by the library.";

const CUTS: &str = "
A script of 5,000 lines cut down to those that its last line's refusal needs: that a thread is busy,
or that no cell is free. Lines that are left behind the opening; times are for a line of the script,
all passes included.";

fn main() {
    println!("The proved library beside the plain Rust implementation.");
    if cfg!(debug_assertions) {
        println!("The plain Rust is a DEBUG build: these ratios mean nothing. Use --release.");
    } else {
        println!("Both are release builds, run in turn in this one process on the same bytes.");
    }
    println!("Nanoseconds: medians of {ROUNDS} rounds, or of fewer long ones. Ratio: library /");
    println!("plain, the median of the rounds' own. Regions are set up anew before each, untimed.");
    turns();
    pairs();
    lists();
    checks();
    permits();
    conversions();
    growth();
    records();
    cuts();
}

/// A turn, in long runs and in runs of one.
fn turns() {
    println!("{TURNS}");
    println!("{:<42}{:>6}{:>7}{:>9}{:>9}{:>8}", "", "turns", "share", "library", "plain", "ratio");
    let crossing = Work::crossing_operations;
    let single = Work::crossing_by_single_permissions;
    let endless = |shape| Work::endless_puts(shape, 4096);
    // The turns until all operations are answered.
    let [small, large] = [SMALL, LARGE].map(|shape| crossing(shape, 4096).accesses);
    row("D 4 T 4: puts that find no leaf", 4096, &endless(SMALL));
    walking_row("D 4 T 4: a put that walks to a free leaf", SMALL);
    row("D 4 T 4: 2 puts and 2 takes, then idle", 4096, &crossing(SMALL, 4096));
    row("D 4 T 4: 2 puts and 2 takes", small, &crossing(SMALL, small));
    row("D 4 T 4: the same, single permissions", small, &single(SMALL, small));
    row("D 4 T 4: 2 puts and 2 takes", 1, &crossing(SMALL, small).one_turn_a_run());
    let list = Work::turns_of_a_list(of_depth(10), 256);
    row("D 10 T 4: a list of 256 items", list.turns, &list);
    row("D 12 T 64: puts that find no leaf", 4096, &endless(LARGE));
    walking_row("D 12 T 64: a put that walks to a free leaf", LARGE);
    row("D 12 T 64: 32 puts and 32 takes", large, &crossing(LARGE, large));
    row("D 12 T 64: the same, single permissions", large, &single(LARGE, large));
    row("D 12 T 64: 32 puts and 32 takes", 1, &crossing(LARGE, 64).one_turn_a_run());
    let withdrawn = Work::withdrawn_operations(CROWDED);
    row("D 7 T 64: 32 puts and 32 takes, withdrawn", withdrawn.turns, &withdrawn);
}

fn walking_row(name: &str, shape: Shape) {
    let work = Work::walking_put(Shape { threshold: 1, ..shape });
    row(name, work.turns, &work);
}

fn row(name: &str, turns: u32, work: &Work) {
    let Times { library, plain, ratio } = measure(work, work.turns);
    let share = f64::from(work.accesses) / f64::from(work.turns);
    println!("{name:<42}{turns:>6}{share:>7.2}{library:>9.1}{plain:>9.1}{ratio:>8.2}");
}

/// A put and a take, each begun and then run until it is answered.
fn pairs() {
    println!("{PAIRS_OF_CALLS}");
    println!(
        "{:>4}{:>8}{:>10}{:>10}{:>10}{:>8}{:>8}",
        "D", "items", "accesses", "library", "plain", "ratio", "heap"
    );
    for depth in [2, 4, 8, 12] {
        let shape = of_depth(depth);
        let items = shape.cells / 2;
        let work = Work::pairs(shape, items);
        let accesses = f64::from(work.accesses) / f64::from(PAIRS);
        let Times { library, plain, ratio } = measure(&work, PAIRS);
        let heap = heap::pair(items);
        println!(
            "{depth:>4}{items:>8}{accesses:>10.1}{library:>10.0}{plain:>10.0}{ratio:>8.2}{heap:>8.0}"
        );
    }
}

/// A list of all items at the root, beside takes of them one by one.
fn lists() {
    println!("{LISTS}");
    println!(
        "{:>4}{:>8}{:>10}{:>10}{:>10}{:>10}{:>8}",
        "D", "items", "", "accesses", "library", "plain", "ratio"
    );
    for (depth, items) in [(6, 16), (10, 256)] {
        let shape = of_depth(depth);
        let works = [("list", Work::list(shape, items)), ("takes", Work::takes(shape, items))];
        for (name, work) in works {
            let accesses = f64::from(work.accesses) / f64::from(items);
            let Times { library, plain, ratio } = measure(&work, items);
            println!(
                "{depth:>4}{items:>8}{name:>10}{accesses:>10.1}{library:>10.1}{plain:>10.1}{ratio:>8.2}"
            );
        }
    }
}

/// Checks at the largest shape: a yes, and refusals by where the first bad word stands.
fn checks() {
    println!("{CHECKS}");
    println!(
        "{:<42}{:>12}{:>9}{:>9}{:>8}{:>8}",
        "", "words before", "library", "plain", "ratio", "share"
    );
    let shape = Shape::LARGEST;
    let yes = Work::checks(shape, 20);
    check_row("no bad word: a yes", yes.start.len() / 4, &yes, &yes);
    for (name, words_before) in bad_words(shape) {
        // The sooner a check ends, the more of them are timed together.
        let checks = 400_000 / (words_before + 20);
        let work = Work::checks(shape, checks).with_bad_word(words_before);
        check_row(name, words_before, &work, &yes);
    }
}

/// The first word, and a word of the middle record of each part, with the number of words before
/// it: 6 of the heading, 4 of each node, 3 of each cell, 36 of each thread's record.
fn bad_words(shape: Shape) -> [(&'static str, usize); 4] {
    let [cells, threads] = [shape.cells, shape.threads].map(|count| count as usize);
    let nodes = (1 << shape.depth) - 1;
    let first_node = 6;
    let first_cell = first_node + 4 * nodes;
    let first_thread = first_cell + 3 * cells;
    [
        ("the first word", 0),
        ("in the middle of the nodes", first_node + 4 * (nodes / 2)),
        // A cell's tag: its first word, the key, has no range.
        ("in the middle of the cells", first_cell + 3 * (cells / 2) + 1),
        ("in the middle of the threads' records", first_thread + 36 * (threads / 2)),
    ]
}

fn check_row(name: &str, words_before: usize, work: &Work, yes: &Work) {
    let Times { library, plain, ratio } = measure(work, work.call_count());
    let share = share(work, yes);
    println!("{name:<42}{words_before:>12}{library:>9.1}{plain:>9.1}{ratio:>8.2}{share:>8.4}");
}

/// Permits beside checks.
fn permits() {
    println!("{PERMITS}");
    beside_checks(|shape| Work::permits(shape, 20));
}

/// Conversions beside checks.
fn conversions() {
    println!("{CONVERSIONS}");
    beside_checks(|shape| Work::conversions(shape, 20));
}

/// Calls on a region of a small shape and of a large one, beside checks of such a region.
fn beside_checks(work: impl Fn(Shape) -> Work) {
    println!(
        "{:>4}{:>4}{:>9}{:>10}{:>10}{:>8}{:>8}",
        "D", "T", "bytes", "library", "plain", "ratio", "share"
    );
    for shape in [SMALL, LARGE] {
        let work = work(shape);
        let Times { library, plain, ratio } = measure(&work, work.call_count());
        let share = share(&work, &Work::checks(shape, 20));
        let Shape { depth, threads, .. } = shape;
        println!(
            "{depth:>4}{threads:>4}{:>9}{library:>10.1}{plain:>10.1}{ratio:>8.2}{share:>8.2}",
            work.start.len()
        );
    }
}

/// A check and a turn by the greatest depth.
fn growth() {
    println!("{GROWTH}");
    println!(
        "{:>4}{:>9}{:>12}{:>10}{:>8}{:>12}{:>10}{:>8}",
        "D", "bytes", "check: lib.", "plain", "ratio", "turn: lib.", "plain", "ratio"
    );
    for depth in [4, 6, 8, 10, 12] {
        let shape = of_depth(depth);
        let checks = Work::checks(shape, 100);
        let turns = Work::endless_puts(shape, 4096);
        let check = measure(&checks, 100);
        let turn = measure(&turns, turns.turns);
        println!(
            "{depth:>4}{:>9}{:>12.1}{:>10.1}{:>8.2}{:>12.1}{:>10.1}{:>8.2}",
            checks.start.len(),
            check.library,
            check.plain,
            check.ratio,
            turn.library,
            turn.plain,
            turn.ratio
        );
    }
}

/// Checks of records by their number, and one that ends at the first of them.
fn records() {
    println!("{RECORDS}");
    println!(
        "{:>8}{:>9}{:>11}{:>10}{:>10}{:>8}{:>9}",
        "records", "bytes", "", "library", "plain", "ratio", "share"
    );
    let most = Work::records(1024, 10);
    for operations in [16, 64, 256, 1024] {
        // Checks of few records are timed together.
        let work = Work::records(operations, 10_240 / operations as usize);
        records_row("accepted", operations, &work, &most);
    }
    records_row("refused", 1024, &Work::records(1024, 10_240).with_bad_word(0), &most);
}

fn records_row(name: &str, operations: u32, work: &Work, most: &Work) {
    let Times { library, plain, ratio } = measure(work, work.call_count());
    let share = share(work, most);
    println!(
        "{operations:>8}{:>9}{name:>11}{library:>10.1}{plain:>10.1}{ratio:>8.2}{share:>9.4}",
        work.start.len()
    );
}

/// Long scripts cut down.
fn cuts() {
    println!("{CUTS}");
    println!("{:<42}{:>6}{:>6}{:>9}{:>9}{:>8}", "", "lines", "left", "library", "plain", "ratio");
    for script in long_scripts() {
        let mut out = vec![0; script.text.len()];
        let length = plain::cut(script.text.as_bytes(), script.number, &mut out);
        let left = line_count(&out[..length.expect("its last line shows it")]);
        let Times { library, plain, ratio } = measure(&Work::cut(&script), LONG);
        println!("{:<42}{LONG:>6}{left:>6}{library:>9.1}{plain:>9.1}{ratio:>8.2}", script.name);
    }
}

fn of_depth(depth: u32) -> Shape {
    Shape { depth, cells: 1 << (depth - 1), threads: 4, threshold: 2 }
}
