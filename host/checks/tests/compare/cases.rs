//! The cases of document 01, from A to M, and those of request 3. Those of request 1 are in
//! `lists.rs`, those of request 2 in `items.rs`, those of request 5 in `permits.rs`, those of
//! request 8 in `leaves_tried.rs`, those of request 9 in `native_records/cases.rs`.

use checks::fields::{place, FIRST_FREE_CELL, PRESENT_DEPTH};
use checks::queue::{Item, Queue, SMALL};
use checks::random::Random;
use mound::Answer::{self, Empty, Idle, Inserted, Moved, Took};
use mound::{Served, Shape};

use crate::both::{self, Ran};
use crate::runs::run_turns;

const TOOK_5: Answer = Took { key: 5, tag: 0 };

/// A queue on which each call is made by the library and by the plain implementation.
pub struct Case {
    pub queue: Queue,
    random: Random,
}

impl Case {
    /// An empty queue.
    pub fn laid_out(shape: Shape, permissions: &[u8]) -> Case {
        let mut random = Random::new(1);
        let mut bytes = random.bytes(shape.byte_len().expect("a shape in range"));
        assert_eq!(both::layout(&mut random, &mut bytes, shape, permissions), 0);
        Case { queue: Queue { bytes }, random }
    }

    /// An empty queue of the cases' shape.
    pub fn fresh() -> Case {
        Case::laid_out(SMALL, &[3, 3])
    }

    /// A queue as it stands.
    pub fn of(queue: Queue) -> Case {
        Case { queue, random: Random::new(2) }
    }

    /// One that holds key 5 at its root.
    fn with_root_5() -> Case {
        let mut case = Case::fresh();
        assert_eq!(case.put(1, 5), 0);
        assert_eq!(case.turns(&[1; 4]), [Moved, Moved, Moved, Inserted]);
        case
    }

    /// One of depth 3 at most, in which thread 1 has put these keys with choices 0, 1, 2 and 3.
    fn holding(keys: [u32; 4]) -> Case {
        let shape = Shape { depth: 3, cells: 4, ..SMALL };
        Case::of(Queue::open_to_all(shape).holding(&keys.map(|key| (key, 0))))
    }

    /// Begins a put with tag 0.
    fn put(&mut self, thread: u32, key: u32) -> u32 {
        self.put_item(thread, (key, 0))
    }

    pub fn put_item(&mut self, thread: u32, (key, tag): Item) -> u32 {
        both::put(&mut self.random, &mut self.queue.bytes, thread, key, tag)
    }

    pub fn take(&mut self, thread: u32) -> u32 {
        both::take(&mut self.random, &mut self.queue.bytes, thread)
    }

    pub fn list(&mut self, thread: u32) -> u32 {
        both::list(&mut self.random, &mut self.queue.bytes, thread)
    }

    pub fn permit(&mut self, thread: u32, permission: u32) -> u32 {
        both::permit(&mut self.random, &mut self.queue.bytes, thread, permission)
    }

    pub fn run(&mut self, turns: &[(u32, u32)], limit: u32) -> Ran {
        run_turns(&mut self.random, &mut self.queue, turns, limit)
    }

    /// The keys of these nodes' lists.
    fn keys<const N: usize>(&self, nodes: [u32; N]) -> [Vec<u32>; N] {
        let key = |cell| self.queue.cell(cell)[0];
        nodes.map(|node| self.queue.list_of(node).map(key).collect())
    }

    /// Runs a turn of each of these threads, with choice 0.
    pub fn turns(&mut self, threads: &[u32]) -> Vec<Answer> {
        let turns: Vec<(u32, u32)> = threads.iter().map(|&thread| (thread, 0)).collect();
        self.run(&turns, u32::MAX).answers
    }
}

/// A take's figure, the accesses that it makes while no other thread moves, and its answer.
pub fn take_alone(mut case: Case) -> (u32, u32, Answer) {
    let figure = case.queue.take_cost();
    assert_eq!(case.take(1), 0);
    let ran = case.run(&[(1, 0); 20], u32::MAX);
    let accesses = ran.result.expect("a readable region").accesses;
    (figure, accesses, ran.answers[accesses as usize - 1])
}

/// Lays out a slice of that length, permissions 3.
fn layout(length: usize, shape: Shape) -> u32 {
    both::layout(&mut Random::new(1), &mut vec![0xa5; length], shape, &[3, 3])
}

#[test]
fn case_a_needs_384_bytes() {
    assert_eq!(layout(384, SMALL), 0);
    assert_eq!(layout(380, SMALL), 2);
}

#[test]
fn case_b_has_at_most_two_cells_at_depth_2_and_no_depth_13() {
    assert_eq!(layout(384, Shape { cells: 2, ..SMALL }), 0);
    assert_eq!(layout(384, Shape { cells: 3, ..SMALL }), 1);
    assert_eq!(layout(396, Shape { cells: 3, ..SMALL }), 1);
    assert_eq!(layout(384, Shape { depth: 13, ..SMALL }), 1);
}

#[test]
fn case_c_the_greatest_key() {
    assert_eq!(Case::fresh().put(1, 4_294_967_294), 0);
    assert_eq!(Case::fresh().put(1, 4_294_967_295), 4);
}

#[test]
fn case_d_permission_0() {
    let mut case = Case::laid_out(SMALL, &[0, 3]);
    let before = case.queue.clone();
    assert_eq!(case.put(1, 5), 8);
    assert_eq!([case.take(1), case.list(1)], [8, 8]);
    assert_eq!(case.turns(&[1]), [Idle]);
    assert!(case.queue == before);
}

#[test]
fn cases_e_f_and_g_a_put_and_two_takes() {
    let mut case = Case::fresh();
    assert_eq!(case.put(1, 5), 0);
    assert_eq!(case.turns(&[1; 4]), [Moved, Moved, Moved, Inserted]);
    assert_eq!(case.queue.node(1), [1, 0, 1, 0]);
    assert_eq!(case.queue.cell(1), [5, 0, 0]);
    assert_eq!(case.queue.word(FIRST_FREE_CELL), 2);

    assert_eq!(case.take(1), 0);
    assert_eq!(case.turns(&[1; 5]), [Moved, Moved, Moved, Moved, TOOK_5]);
    // An update each by I6, E2 and M6, and the cell is as it was laid out.
    assert_eq!(case.queue.node(1), [0, 0, 3, 0]);
    case.queue.set_words(case.queue.node_at(1), [0, 0, 0, 0]);
    assert!(case.queue == Case::fresh().queue);

    assert_eq!(case.take(1), 0);
    assert_eq!(case.turns(&[1]), [Empty]);
    assert!(case.queue == Case::fresh().queue);
}

#[test]
fn case_h_a_put_that_grows_the_tree() {
    for choice in [0, 1, u32::MAX] {
        let mut case = Case::with_root_5();
        assert_eq!(case.queue.word(PRESENT_DEPTH), 1);
        assert_eq!(case.put(1, 7), 0);
        let answers = case.run(&[(1, choice); 9], u32::MAX).answers;
        assert_eq!(answers[..8], [Moved; 8]);
        assert_eq!(answers[8], Inserted);
        assert_eq!(case.queue.word(PRESENT_DEPTH), 2);
        assert_eq!(case.queue.node(2 + choice % 2), [2, 0, 1, 0]);
    }
}

#[test]
fn case_i_a_put_crosses_a_take() {
    let mut case = Case::with_root_5();
    assert_eq!([case.take(1), case.put(2, 3)], [0, 0]);
    let mut whole = Case::of(case.queue.clone());
    assert_eq!(case.turns(&[1, 2, 2, 2, 2]), [Moved, Moved, Moved, Moved, Inserted]);
    assert_eq!(case.queue.place(1), place::E2);
    assert_eq!(case.turns(&[1]), [Moved]);
    assert_eq!(case.queue.place(1), place::E1);
    let took_3 = Took { key: 3, tag: 0 };
    assert_eq!(case.turns(&[1; 5]), [Moved, Moved, Moved, Moved, took_3]);
    assert_eq!(case.queue.items(), [(5, 0)]);

    assert_eq!(whole.turns(&[1, 2, 2, 2, 2, 1, 1, 1, 1, 1, 1]).last(), Some(&took_3));
    assert!(whole.queue == case.queue);
}

#[test]
fn case_j_the_later_take_answers_first() {
    let mut case = Case::with_root_5();
    assert_eq!([case.take(1), case.take(2)], [0, 0]);
    let answers = [Moved, Moved, Moved, Moved, Moved, Moved, Empty, Moved, TOOK_5];
    assert_eq!(case.turns(&[1, 1, 2, 2, 2, 2, 2, 1, 1]), answers);
}

#[test]
fn case_k_a_cell_is_free_again_at_e2() {
    let mut case = Case::laid_out(Shape { depth: 1, cells: 1, ..SMALL }, &[3, 3]);
    assert_eq!([case.put(1, 5), case.put(2, 6)], [0, 10]);
    assert_eq!(case.turns(&[1; 4]).last(), Some(&Inserted));
    assert_eq!([case.put(2, 6), case.take(1)], [10, 0]);
    assert_eq!(case.turns(&[1]), [Moved]);
    assert_eq!(case.put(2, 6), 10);
    assert_eq!(case.turns(&[1]), [Moved]);
    assert_eq!(case.put(2, 6), 0);
    assert_eq!(case.turns(&[1; 3]), [Moved, Moved, TOOK_5]);
}

#[test]
fn case_l_a_busy_thread() {
    let mut case = Case::fresh();
    assert_eq!([case.put(1, 5), case.put(1, 6)], [0, 9]);
    assert_eq!([case.take(1), case.take(2)], [9, 0]);
}

#[test]
fn case_m_a_limit_of_0() {
    let mut case = Case::with_root_5();
    assert_eq!(case.take(1), 0);
    let before = case.queue.clone();
    let none = Ran { result: Ok(Served { turns: 0, accesses: 0 }), answers: vec![] };
    assert_eq!(case.run(&[(1, 0)], 0), none);
    assert!(case.queue == before);
}

#[test]
fn request_3_an_empty_root_costs_1() {
    assert_eq!(take_alone(Case::fresh()), (1, 1, Empty));
}

#[test]
fn request_3_level_1_at_depth_1_costs_5() {
    assert_eq!(take_alone(Case::with_root_5()), (5, 5, TOOK_5));
}

/// The rest of the root's list stays: its first key is 6, and neither child has a lesser one.
#[test]
fn request_3_level_1_at_depth_2_costs_7() {
    let case = Case::holding([7, 6, 5, 6]);
    assert_eq!(case.queue.word(PRESENT_DEPTH), 2);
    assert_eq!(case.keys([1, 2, 3]), [vec![5, 6, 7], vec![], vec![6]]);
    assert_eq!(take_alone(case), (7, 7, TOOK_5));
}

/// The empty rest goes to the left of two equal children, below which there is nothing.
#[test]
fn request_3_level_2_at_depth_3_costs_12() {
    let case = Case::holding([5, 7, 7, 8]);
    assert_eq!(case.queue.word(PRESENT_DEPTH), 3);
    assert_eq!(case.keys([1, 2, 3, 7]), [[5], [7], [7], [8]]);
    assert_eq!(take_alone(case), (12, 12, TOOK_5));
}

/// The empty rest goes to the right twice.
#[test]
fn request_3_level_3_at_depth_3_costs_15() {
    let case = Case::holding([5, 7, 9, 8]);
    assert_eq!(case.queue.word(PRESENT_DEPTH), 3);
    assert_eq!(case.keys([1, 2, 3, 7]), [[5], [9], [7], [8]]);
    assert_eq!(take_alone(case), (15, 15, TOOK_5));
}
