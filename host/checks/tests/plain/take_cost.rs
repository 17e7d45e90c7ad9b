//! The figure of a take on regions that no layout and no calls have made.

use checks::fields::{Words, FIRST_FREE_CELL, PRESENT_DEPTH};
use checks::queue::{Queue, SMALL};
use checks::random::Random;
use mound::Refusal;

/// Lists that are circular or share cells, dirty nodes, keys out of range: there is a
/// figure, and it is one that request 3 names.
#[test]
fn of_any_readable_region() {
    let random = &mut Random::new(85);
    for _ in 0..20_000 {
        let shape = random.shape(7);
        let region = Words::any_readable(random, shape);
        let depth = region.words[PRESENT_DEPTH];
        let mut bytes = region.bytes();
        let cost = plain::take_cost(&mut bytes).expect("a readable region");
        assert!(cost == 1 || cost == 5 * depth || (1..depth).any(|level| cost == 5 * level + 2));
        assert!(bytes == region.bytes());
    }
}

#[test]
fn of_a_region_that_is_not_readable() {
    let mut queue = Queue::open_to_all(SMALL);
    queue.set_word(PRESENT_DEPTH, 3);
    assert_eq!(plain::take_cost(&mut queue.bytes), Err(Refusal::Unreadable));
    assert_eq!(plain::take_cost(&mut []), Err(Refusal::Unreadable));
}

/// Why the figure supposes a region that was laid out. Here the root's head stands at the head of
/// node 2 as well: E2 frees it, so that node 2's value falls from 5 to 0, and the list does not
/// stay at the root but goes down to level 2.
#[test]
fn of_a_cell_in_two_lists() {
    let mut queue = Queue::open_to_all(SMALL);
    queue.set_word(PRESENT_DEPTH, 2);
    queue.set_word(FIRST_FREE_CELL, 0);
    for node in [1, 2] {
        queue.set_words(queue.node_at(node), [1, 0, 0, 0]);
    }
    queue.set_words(queue.cell_at(1), [5, 0, 2]);
    queue.set_words(queue.cell_at(2), [3, 0, 0]);
    assert_eq!(plain::check(&queue.bytes), Ok(()));
    assert_eq!(queue.take_cost(), 7);
    assert_eq!(queue.accesses_of_a_take_alone(1), 10);
}
