//! Check: the two fields whose range depends on others, tries and the waiting levels.

use checks::fields::{Words, NODE, PLACE, TRIES, WAITING};
use mound::Shape;

use crate::both;

/// A laid-out region with these words of one thread's record set.
fn with_thread_words(shape: Shape, thread: u32, set: &[(usize, u32)]) -> Vec<u8> {
    let mut region = Words::laid_out(shape);
    let record = region.thread(thread);
    for &(word, value) in set {
        region.words[record + word] = value;
    }
    region.bytes()
}

#[test]
fn tries_stay_below_the_threshold_at_place_2_alone() {
    for threshold in 1..=16 {
        let shape = Shape { depth: 3, cells: 4, threads: 2, threshold };
        for place in 0..=20 {
            for tries in 0..=18 {
                let greatest = if place == 2 { threshold - 1 } else { threshold };
                let region = with_thread_words(shape, 2, &[(PLACE, place), (TRIES, tries)]);
                let readable = place <= 19 && tries <= greatest;
                assert_eq!(both::is_readable(&region), readable, "{tries} at {place}");
            }
        }
    }
}

/// Places 17 to 19 are no mending places, though their numbers are above those.
fn is_mending(place: u32) -> bool {
    (11..=16).contains(&place)
}

/// Each single mark, for the first and the last node of each level, at each place.
#[test]
fn a_level_waits_at_a_mending_place_above_the_node_alone() {
    for depth in [1, 2, 3, 7, 12] {
        let shape = Shape { depth, cells: 1, threads: 1, threshold: 1 };
        for place in 0..=19 {
            for level in 1..=depth {
                for node in [1 << (level - 1), (1 << level) - 1] {
                    for waiting in 1..=32 {
                        let marks = 1 << (waiting - 1);
                        let set = [(PLACE, place), (NODE, node), (WAITING, marks)];
                        let region = with_thread_words(shape, 1, &set);
                        let readable = is_mending(place) && waiting < level;
                        assert_eq!(both::is_readable(&region), readable, "{set:?}");
                    }
                }
            }
        }
    }
}

/// Each set of marks for each node of a small tree, node 0 and a node past the end among them.
#[test]
fn every_set_of_marks_in_a_small_tree() {
    let shape = Shape { depth: 4, cells: 8, threads: 3, threshold: 2 };
    for place in 0..=19 {
        for (level, node) in (0..=16u32).map(|node| (32 - node.leading_zeros(), node)) {
            for marks in 0..=32 {
                let set = [(PLACE, place), (NODE, node), (WAITING, marks)];
                let region = with_thread_words(shape, 2, &set);
                let above = is_mending(place) && level >= 1 && marks < 1 << (level - 1);
                let readable = node <= 15 && (marks == 0 || above);
                assert_eq!(both::is_readable(&region), readable, "{set:?}");
            }
        }
    }
}

#[test]
fn nothing_waits_at_node_0() {
    for place in 0..=19 {
        for marks in (0..32).map(|bit| 1 << bit).chain([3, u32::MAX]) {
            let set = [(PLACE, place), (WAITING, marks)];
            assert!(!both::is_readable(&with_thread_words(Shape::LARGEST, 64, &set)), "{set:?}");
        }
    }
}
