//! The cases of request 8: which leaf a put tries at the greatest depth. Then I2 with every leaf
//! word, in regions of every kind.

use checks::fields::place::{I1, I2, I3, I4, I5, I6, I7, I8, M6};
use checks::fields::{
    Words, COPIES, D, HI, KEY, LEAF, LO, NODE, PERMISSION, PLACE, PRESENT_DEPTH, TAG, TRIES,
    WAITING,
};
use checks::leaves;
use checks::queue::{Item, Queue, SMALL};
use checks::random::Random;
use checks::values::is_less;
use mound::Answer::{self, Inserted, Moved};
use mound::Shape;

use crate::cases::Case;

/// The fields of a put that a turn at I1 or I2 sets.
const OF_A_TRY: [usize; 4] = [PLACE, D, LEAF, TRIES];

/// Serves a turn of thread 2 with each of these choices, which moves it on, and gives the fields of
/// a try after each.
fn tries<const N: usize>(case: &mut Case, choices: [u32; N]) -> [[u32; 4]; N] {
    choices.map(|choice| {
        assert_eq!(case.run(&[(2, choice)], u32::MAX).answers, [Moved]);
        OF_A_TRY.map(|field| case.queue.field(2, field))
    })
}

/// What thread 2 answers in this many turns with that choice.
fn turns(case: &mut Case, choice: u32, turns: usize) -> Vec<Answer> {
    case.run(&vec![(2, choice); turns], u32::MAX).answers
}

/// A queue of depth 2 with key 7 in that leaf under an empty root, which a take of thread 1 has
/// left dirty. Thread 2 has begun a put of key 9, so that no cell is free.
fn with_key_7_in(leaf: u32, threshold: u32) -> Case {
    let mut case = Case::laid_out(Shape { threshold, ..SMALL }, &[3, 3]);
    for key in [5, 7] {
        assert_eq!(case.put_item(1, (key, 0)), 0);
        let answers = case.run(&[(1, leaf); 12], u32::MAX).answers;
        assert!(answers.contains(&Inserted));
    }
    assert_eq!(case.take(1), 0);
    assert_eq!(case.turns(&[1; 2]), [Moved; 2]);
    assert_eq!([1, leaf].map(|node| case.queue.value_of(node)), [None, Some((7, 0))]);
    assert_eq!(case.put_item(2, (9, 0)), 0);
    case
}

/// The choice names leaf 2 at every turn, or leaf 3; the first try fails, and the next one reads
/// the other leaf: after the last, the first.
#[test]
fn a_choice_that_always_names_the_occupied_leaf() {
    for (occupied, free) in [(2, 3), (3, 2)] {
        let mut case = with_key_7_in(occupied, 1);
        let after_each_turn = [[I2, 2, 0, 0], [I1, 2, free, 1], [I2, 2, free, 0], [I3, 2, free, 0]];
        assert_eq!(tries(&mut case, [occupied; 4]), after_each_turn);
        // The root is empty: I3, I5, I6.
        assert_eq!(turns(&mut case, occupied, 3), [Moved, Moved, Inserted]);
        assert_eq!(case.queue.value_of(1), Some((9, 0)));
    }
}

/// The second try of the same visit to I1.
#[test]
fn the_next_leaf_within_a_threshold_of_2() {
    for (occupied, free) in [(2, 3), (3, 2)] {
        let mut case = with_key_7_in(occupied, 2);
        let after_each_turn = [[I2, 2, 0, 0], [I2, 2, free, 1], [I3, 2, free, 1]];
        assert_eq!(tries(&mut case, [occupied; 3]), after_each_turn);
        assert_eq!(turns(&mut case, occupied, 3), [Moved, Moved, Inserted]);
    }
}

/// A queue of depth 4 with rising keys at the root and in its left half, but for leaf 11: leaves 8,
/// 9 and 10 are occupied. Thread 2 has begun a put of a greater key.
fn with_three_occupied_leaves(threshold: u32) -> Case {
    let shape = Shape { depth: 4, cells: 8, threads: 2, threshold };
    let mut queue = Queue::open_to_all(shape);
    for (key, choice) in [(1, 0), (2, 0), (3, 0), (4, 1), (5, 0), (6, 1), (7, 2)] {
        assert_eq!(queue.put(1, key, 0), Ok(()));
        let mut answers = (0..40).map(|_| queue.turn(1, choice));
        assert!(answers.any(|answer| answer == Inserted));
    }
    let keys = [1, 2, 4, 5, 8, 9, 10].map(|node| queue.value_of(node));
    assert_eq!(keys, [1, 2, 3, 4, 5, 6, 7].map(|key| Some((key, 0))));
    let mut case = Case::of(queue);
    assert_eq!(case.put_item(2, (9, 0)), 0);
    case
}

/// The leaf word goes from leaf to leaf, with a visit to I1 after each try, after two or after
/// none; the choices, which name occupied leaves, count no more.
#[test]
fn a_walk_through_visits_to_i1() {
    let mut case = with_three_occupied_leaves(1);
    let words = tries(&mut case, [0, 0, 1, 2, 0, 0, 1, 2]).map(|[place, _, leaf, _]| [place, leaf]);
    let due = [[I2, 0], [I1, 9], [I2, 9], [I1, 10], [I2, 10], [I1, 11], [I2, 11], [I3, 11]];
    assert_eq!(words, due);
    // Levels 1 to 4: node 2 and node 5 hold lesser keys.
    assert_eq!(turns(&mut case, 0, 5), [Moved, Moved, Moved, Moved, Inserted]);
    assert_eq!(case.queue.value_of(11), Some((9, 0)));

    let mut case = with_three_occupied_leaves(2);
    let words = tries(&mut case, [0, 0, 0, 0, 0, 0]).map(|[place, _, leaf, _]| [place, leaf]);
    assert_eq!(words, [[I2, 0], [I2, 9], [I1, 10], [I2, 10], [I2, 11], [I3, 11]]);

    let mut case = with_three_occupied_leaves(16);
    let words = tries(&mut case, [0, 0, 0, 0, 0]).map(|[_, _, leaf, tries]| [leaf, tries]);
    assert_eq!(words, [[0, 0], [9, 1], [10, 2], [11, 3], [11, 3]]);
}

/// From leaf 9 on, and from a leaf that is free: the choice of the first try counts.
#[test]
fn the_first_choice_counts() {
    for (choice, failed) in [(1, 2), (2, 1), (3, 0), (4, 0), (7, 0), (8, 3), (u32::MAX, 0)] {
        let mut case = with_three_occupied_leaves(1);
        assert_eq!(turns(&mut case, choice, 1), [Moved]);
        for _ in 0..failed {
            assert_eq!(tries(&mut case, [choice, 0]).map(|[place, ..]| place), [I1, I2]);
        }
        let leaf = if failed == 0 { 8 + choice % 8 } else { 11 };
        assert_eq!(tries(&mut case, [choice]), [[I3, 4, leaf, 0]]);
    }
}

/// A put has found leaf 5 free and stands before I8 when a take gives node 2, its parent, another
/// list. The choice would name leaf 4, which holds a lesser key; leaf 5 is tried again.
#[test]
fn a_leaf_found_is_tried_again_after_a_failed_update() {
    let shape = Shape { depth: 3, cells: 4, ..SMALL };
    let mut queue = Queue::open_to_all(shape);
    for key in [5, 7, 8] {
        assert_eq!(queue.put(1, key, 0), Ok(()));
        assert_eq!(queue.turns(&[1; 9]).iter().filter(|&&answer| answer == Inserted).count(), 1);
    }
    assert_eq!([1, 2, 4].map(|node| queue.value_of(node)), [5, 7, 8].map(|key| Some((key, 0))));
    let mut case = Case::of(queue);
    assert_eq!([case.put_item(2, (20, 0)), case.take(1)], [0, 0]);
    let places = tries(&mut case, [1; 5]).map(|[place, _, leaf, _]| [place, leaf]);
    assert_eq!(places, [[I2, 0], [I3, 5], [I5, 5], [I7, 5], [I8, 5]]);
    // E1, E2, M1 to M5: node 2 gets the root's empty list.
    assert_eq!(case.turns(&[1; 7]), [Moved; 7]);
    let places = tries(&mut case, [0; 3]).map(|[place, _, leaf, _]| [place, leaf]);
    assert_eq!(places, [[I1, 5], [I2, 5], [I3, 5]]);
    // Node 2 is empty and the root's key less: I3 twice, I5, I7, I8.
    assert_eq!(turns(&mut case, 0, 5), [Moved, Moved, Moved, Moved, Inserted]);
    assert_eq!(case.queue.value_of(2), Some((20, 0)));
}

/// Leaf 2 was tried at depth 2, then the tree grows: the choice counts at depth 3.
#[test]
fn a_leaf_of_a_lower_depth_does_not_count() {
    for choice in [0, 1, 2, 3, u32::MAX] {
        let shape = Shape { depth: 3, cells: 4, ..SMALL };
        let mut case = Case::of(Queue::open_to_all(shape).holding(&[(5, 0)]));
        assert_eq!(case.put_item(1, (7, 0)), 0);
        assert_eq!(case.turns(&[1; 9]).last(), Some(&Inserted));
        assert_eq!(case.queue.value_of(2), Some((7, 0)));

        assert_eq!(case.put_item(2, (9, 0)), 0);
        let after_each_turn = [[I2, 2, 0, 0], [I4, 2, 2, 1], [I1, 2, 2, 1], [I2, 3, 2, 0]];
        assert_eq!(tries(&mut case, [0; 4]), after_each_turn);
        assert_eq!(tries(&mut case, [choice]), [[I3, 3, 4 + choice % 4, 0]]);
    }
}

/// At depth 2 of 3 leaf 2 is read as often as the choice names it, and leaf 3 when it names that.
#[test]
fn below_the_greatest_depth_the_choice_counts_at_every_try() {
    let shape = Shape { depth: 3, cells: 4, threshold: 4, ..SMALL };
    let mut case = Case::of(Queue::open_to_all(shape));
    for (key, turns) in [(5, 4), (7, 12)] {
        assert_eq!(case.put_item(1, (key, 0)), 0);
        assert_eq!(case.turns(&vec![1; turns]).last(), Some(&Inserted));
    }
    assert_eq!(case.queue.value_of(2), Some((7, 0)));
    assert_eq!(case.put_item(2, (9, 0)), 0);
    let after_each_turn =
        [[I2, 2, 0, 0], [I2, 2, 2, 1], [I2, 2, 2, 2], [I2, 2, 2, 3], [I3, 2, 3, 3]];
    assert_eq!(tries(&mut case, [0, 0, 2, u32::MAX - 1, u32::MAX]), after_each_turn);
}

/// The root is the only leaf, and empty where a put has the only cell. It is tried again after an
/// update that fails, since thread 1 has mended the root.
#[test]
fn at_depth_1() {
    let mut case = Case::laid_out(Shape { depth: 1, cells: 1, ..SMALL }, &[3, 3]);
    assert_eq!(case.put_item(1, (5, 0)), 0);
    assert_eq!(case.turns(&[1; 4]).last(), Some(&Inserted));
    assert_eq!(case.take(1), 0);
    assert_eq!(case.turns(&[1; 4]), [Moved; 4]);
    assert_eq!(case.queue.place(1), M6);
    assert_eq!(case.put_item(2, (9, 0)), 0);
    let after_each_turn = [[I2, 1, 0, 0], [I5, 1, 1, 0], [I6, 1, 1, 0]];
    assert_eq!(tries(&mut case, [u32::MAX, 7, 0]), after_each_turn);
    assert_eq!(case.turns(&[1]), [Answer::Took { key: 5, tag: 0 }]);
    let after_each_turn = [[I1, 1, 1, 0], [I2, 1, 1, 0], [I5, 1, 1, 0], [I6, 1, 1, 0]];
    assert_eq!(tries(&mut case, [3; 4]), after_each_turn);
    assert_eq!(turns(&mut case, 3, 1), [Inserted]);
}

/// Any readable region of that shape, in which thread 1 stands at I2 with this d and leaf word.
fn with_leaf_word(random: &mut Random, shape: Shape, d: u32, word: u32) -> Queue {
    let mut queue = Queue { bytes: Words::any_readable(random, shape).bytes() };
    let (key, tag) = (random.among(1..=u32::MAX - 1), random.among(0..=65_535));
    let tries = random.among_or_extreme(0..=shape.threshold - 1);
    let fields = [(PERMISSION, 3), (PLACE, I2), (KEY, key), (TAG, tag), (D, d), (LEAF, word)];
    for (field, value) in fields.into_iter().chain([(TRIES, tries), (WAITING, 0)]) {
        queue.set_field(1, field, value);
    }
    queue
}

/// Values of the leaf to be read: empty, less than the item, equal, and greater.
fn values_beside((key, tag): Item) -> [Option<Item>; 5] {
    [None, Some((key - 1, 65_535)), Some((0, 0)), Some((key, tag)), Some((u32::MAX, 0))]
}

/// The queue after the turn, word by word, from the text: thread 1 has tried this leaf.
fn tried(queue: &Queue, leaf: u32) -> Queue {
    let Shape { depth, threshold, .. } = queue.shape();
    let [key, tag, d, tries] = [KEY, TAG, D, TRIES].map(|field| queue.field(1, field));
    let failed = is_less(queue.value_of(leaf), (key, tag));
    let next = if d == depth { leaves::next(leaf) } else { leaf };
    let at_threshold = if d == depth { I1 } else { I4 };
    let fields = match (failed, d) {
        (true, _) if tries + 1 < threshold => vec![(PLACE, I2), (TRIES, tries + 1), (LEAF, next)],
        (true, _) => vec![(PLACE, at_threshold), (TRIES, tries + 1), (LEAF, next)],
        (false, 1) => vec![(PLACE, I5), (LEAF, 1), (LO, 1), (HI, 1), (NODE, 1)],
        (false, _) => vec![(PLACE, I3), (LEAF, leaf), (LO, 1), (HI, d)],
    };
    let mut after = queue.clone();
    for (word, copied) in queue.read(leaf).into_iter().enumerate() {
        after.set_field(1, COPIES[0] + word, copied);
    }
    for (field, value) in fields {
        after.set_field(1, field, value);
    }
    after
}

/// A turn at I2 with this choice, by both, on each value of the leaf that it has to read.
fn try_each_value(random: &mut Random, queue: &Queue, choice: u32) {
    let [key, tag, d, word] = [KEY, TAG, D, LEAF].map(|field| queue.field(1, field));
    let depth = queue.shape().depth;
    let is_told = d == depth && (1 << (depth - 1)..1 << depth).contains(&word);
    let leaf = if is_told { word } else { leaves::picked(d, choice) };
    for value in values_beside((key, tag)) {
        let mut queue = queue.clone();
        let cell = random.among(1..=queue.shape().cells);
        let first_cell = if value.is_some() { cell } else { 0 };
        queue.set_word(queue.node_at(leaf), first_cell);
        if let Some((key, tag)) = value {
            queue.set_words(queue.cell_at(cell), [key, tag, 0]);
        }
        let due = tried(&queue, leaf);
        let mut case = Case::of(queue);
        assert_eq!(case.run(&[(1, choice)], 1).answers, [Moved]);
        assert!(
            case.queue == due,
            "d {d} of {depth}, leaf word {word}, choice {choice}: {value:?}"
        );
    }
}

/// 0, small ones, the greatest, and any.
fn choices(random: &mut Random, depth: u32) -> [u32; 6] {
    let small = random.among(1..=1 << depth);
    [0, 1, small, 1 << 31, u32::MAX, random.among(0..=u32::MAX)]
}

#[test]
fn every_leaf_word_at_every_depth_of_small_trees() {
    let random = &mut Random::new(140);
    for depth in 1..=5 {
        for (d, word) in (1..=depth).flat_map(|d| (0..1 << depth).map(move |word| (d, word))) {
            let shape = Shape {
                depth,
                cells: 1 << (depth - 1),
                threads: 2,
                threshold: random.among(1..=3),
            };
            for choice in choices(random, depth) {
                let queue = with_leaf_word(random, shape, d, word);
                try_each_value(random, &queue, choice);
            }
        }
    }
}

/// At the largest shape: 0, the last node of each level and the first, and the leaves beside the
/// first, the middle and the last one.
#[test]
fn telling_leaf_words_at_depth_12() {
    let random = &mut Random::new(141);
    let ends = (1..=12).flat_map(|level| [1 << (level - 1), (1 << level) - 1]);
    let beside = [2048, 3072, 4095].into_iter().flat_map(|leaf: u32| [leaf - 1, leaf, leaf + 1]);
    let words = ends.chain(beside.filter(|&leaf| leaf < 4096)).chain([0]);
    let shape = Shape { threads: 2, threshold: 2, ..Shape::LARGEST };
    for word in words {
        let d = random.one_of(&[12, 12, 12, 11, 1]);
        let queue = with_leaf_word(random, shape, d, word);
        for choice in choices(random, 12) {
            try_each_value(random, &queue, choice);
        }
    }
}

/// Where every leaf holds a lesser key, which only a region that was never laid out does, a put
/// walks round them all again and again.
#[test]
fn a_walk_that_never_ends() {
    for (depth, threshold) in [(1, 1), (1, 3), (2, 1), (3, 2), (4, 16)] {
        let mut queue = Queue::open_to_all(Shape { depth, cells: 1, threads: 2, threshold });
        queue.set_word(PRESENT_DEPTH, depth);
        let leaves = 1 << (depth - 1);
        for leaf in leaves..2 * leaves {
            queue.set_words(queue.node_at(leaf), [1, 0, 0, 0]);
        }
        for (field, value) in [(PLACE, I1), (KEY, 7)] {
            queue.set_field(2, field, value);
        }
        let mut case = Case::of(queue);
        let mut due = leaves + 1 % leaves;
        for _ in 0..3 * leaves {
            while case.queue.place(2) == I1 {
                assert_eq!(turns(&mut case, 0, 1), [Moved]);
            }
            let [[place, d, leaf, _]] = tries(&mut case, [0]);
            assert!([I1, I2].contains(&place));
            assert_eq!([d, leaf], [depth, due]);
            due = leaves::next(due);
        }
    }
}
