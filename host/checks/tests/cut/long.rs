//! Scripts of many lines: those that the benchmark measures, of 5,000 lines, the last of which shows
//! the refusal; and some of which every line is needed.

use checks::cut::line_count;
use checks::ending_scripts::{filling, long_scripts, LongScript, LONG};
use checks::made_scripts::LARGEST;
use mound::Shape;
use plain::script::MOST_BYTES;

use crate::both::{cut, cut_as_claimed};

#[test]
fn long_scripts_are_cut_down_to_a_few_lines_and_a_full_queue_to_more() {
    let kept = long_scripts().map(|LongScript { name, number, text }| {
        assert_eq!(line_count(text.as_bytes()), LONG as usize, "{name}");
        assert!(text.len() <= MOST_BYTES, "{name}");
        line_count(&cut_as_claimed(text.as_bytes(), number))
    });
    assert_eq!(kept, [2, 2, 921]);
}

/// The longest of them has 5,439 lines and 59,912 bytes.
#[test]
fn a_script_of_which_every_line_is_needed_stays_as_it_is() {
    for (cells, threshold) in [(1, 1), (24, 16), (60, 4)] {
        let script = filling(Shape { cells, threshold, ..LARGEST });
        assert_eq!(cut_as_claimed(script.as_bytes(), 10), script.as_bytes());
    }
    let longest = filling(Shape { cells: 122, threshold: 4, ..LARGEST });
    assert_eq!((line_count(longest.as_bytes()), longest.len()), (5439, 59_912));
    assert!(cut(longest.as_bytes(), 10).as_deref() == Ok(longest.as_bytes()));
}
