//! Request 8's promise: from a laid-out region, a put begun at the greatest depth D is inserted
//! within 2^D + 7 accesses while nobody else moves, whatever the choices; nodes may be dirty. By
//! both implementations, and with just as many accesses as the tree makes it need.

use std::iter::successors;

use checks::leaves;
use checks::queue::{Item, Queue};
use checks::random::Random;
use checks::values::is_less;
use mound::Answer::{Inserted, Moved};
use mound::Shape;

use crate::any_call;
use crate::both;
use crate::runs::{run_turns, schedule};
use crate::tally::{LeafWord, Tally};

/// Greater than every other item here.
const GREATEST: Item = (u32::MAX - 1, 65_535);

/// A queue whose tree becomes as deep and as full as it can: keys rise, as times do, and choices
/// are poor.
struct Crowd {
    queue: Queue,
    key: u32,
    choice: u32,
}

impl Crowd {
    /// An empty queue with a cell for each leaf.
    fn laid_out(random: &mut Random, depth: u32) -> Crowd {
        let threads = random.one_of(&[2, 3, 4, 8]);
        let threshold = random.one_of(&[1, 1, 1, 2, 3, 16]);
        let shape = Shape { depth, cells: 1 << (depth - 1), threads, threshold };
        let choice = random.one_of(&[0, 0, 1, u32::MAX, 1 << (depth / 2)]);
        Crowd { queue: Queue::open_to_all(shape), key: 0, choice }
    }

    /// A beginning or a permit, then turns of any threads, which stop anywhere.
    fn go_on(&mut self, random: &mut Random, tally: &mut Tally) {
        let threads = self.queue.shape().threads;
        let (thread, tag) = (random.among(1..=threads), random.among(0..=3));
        let region = &mut self.queue.bytes;
        match random.among(0..=15) {
            0 => drop(both::list(random, region, thread)),
            1..=3 => drop(both::take(random, region, thread)),
            4 => drop(any_call::permit(random, region, threads)),
            _ => drop(both::put(random, region, thread, self.key, tag)),
        }
        self.key += random.among(0..=1);
        let before = self.queue.clone();
        let turns = self.turns(random);
        let ran = run_turns(random, &mut self.queue, &turns, u32::MAX);
        tally.add_tries(before, &schedule(&turns), &ran);
    }

    /// Some turns, half of them of one thread, most of them with the poor choice.
    fn turns(&self, random: &mut Random) -> Vec<(u32, u32)> {
        let threads = self.queue.shape().threads;
        let one = random.among(1..=threads);
        let turn = |_| {
            let any = random.among(1..=threads);
            let any_choice = random.among_or_extreme(0..=u32::MAX);
            let choices = [self.choice, self.choice, self.choice, any_choice];
            (random.one_of(&[one, any]), random.one_of(&choices))
        };
        (0..self.key % 41).map(turn).collect()
    }

    /// The most accesses of a put by this thread alone, over adverse choices.
    fn most_of_a_put(&self, random: &mut Random, thread: u32) -> u32 {
        let item = random.one_of(&[GREATEST, GREATEST, (self.key / 2, 0)]);
        let choices = adverse_choices(random, &self.queue, item);
        let accesses =
            choices.iter().map(|choices| put_alone(random, &self.queue, thread, item, choices));
        accesses.max().expect("some choices")
    }
}

/// The leaves from this one on, after the last the first, up to one that is not less than the item.
fn leaves_to_try(queue: &Queue, item: Item, first: u32) -> Vec<u32> {
    let all = successors(Some(first), |&leaf| Some(leaves::next(leaf)));
    let failed = all.clone().take_while(|&leaf| is_less(queue.value_of(leaf), item)).count();
    all.take(failed + 1).collect()
}

/// The accesses of the binary search from a leaf, I3, and of the update at the node that it finds:
/// I5 and I6 at the root, I5, I7 and I8 at another.
#[allow(clippy::manual_midpoint, reason = "as the papers write it; levels are at most 12")]
fn accesses_from(queue: &Queue, item: Item, leaf: u32) -> u32 {
    let (mut lo, mut hi, mut searches) = (1, queue.shape().depth, 0);
    while lo < hi {
        let middle = (lo + hi) / 2;
        let ancestor = leaf >> (queue.shape().depth - middle);
        if is_less(queue.value_of(ancestor), item) {
            lo = middle + 1;
        } else {
            hi = middle;
        }
        searches += 1;
    }
    searches + if hi == 1 { 2 } else { 3 }
}

/// The accesses of a put of this item whose first try reads this leaf, while nobody else moves: I1
/// before the first try and after every H failed ones, the tries, and what follows from the last.
fn figure(queue: &Queue, item: Item, first: u32) -> u32 {
    let leaves = leaves_to_try(queue, item, first);
    let tries = leaves.len() as u32;
    let visits = 1 + (tries - 1) / queue.shape().threshold;
    visits + tries + accesses_from(queue, item, leaves[leaves.len() - 1])
}

/// Begins a put and serves turns of its thread alone, with these choices again and again. Its
/// accesses are as many as its figure, and within the ceiling.
fn put_alone(random: &mut Random, before: &Queue, thread: u32, item: Item, choices: &[u32]) -> u32 {
    let depth = before.shape().depth;
    let mut queue = before.clone();
    assert!(queue.is_of_greatest_depth());
    assert_eq!(both::put(random, &mut queue.bytes, thread, item.0, item.1), 0);
    let turns: Vec<(u32, u32)> = (0..leaves::most_accesses(depth))
        .map(|turn| (thread, choices[turn as usize % choices.len()]))
        .collect();
    let mut answers = vec![];
    for turns in turns.chunks(4096) {
        answers.extend(run_turns(random, &mut queue, turns, u32::MAX).answers);
    }
    let moved = answers.iter().take_while(|&&answer| answer == Moved).count();
    assert_eq!(answers.get(moved), Some(&Inserted), "no end in {} turns", answers.len());
    let accesses = moved as u32 + 1;
    // The first turn is I1's, the second the first try.
    let first = leaves::picked(depth, choices[1 % choices.len()]);
    assert_eq!(accesses, figure(before, item, first), "{item:?} from leaf {first}");
    accesses
}

/// Choices that a put may get: for all turns the leaf from which most leaves are tried, occupied
/// leaves alone, always the same, and any.
fn adverse_choices(random: &mut Random, queue: &Queue, item: Item) -> Vec<Vec<u32>> {
    let leaves = 1 << (queue.shape().depth - 1);
    let all = leaves..2 * leaves;
    let worst = all.clone().max_by_key(|&leaf| leaves_to_try(queue, item, leaf).len());
    let mut occupied: Vec<u32> = all.filter(|&leaf| is_less(queue.value_of(leaf), item)).collect();
    if occupied.is_empty() {
        occupied.push(0);
    }
    let any = (0..7).map(|_| random.among_or_extreme(0..=u32::MAX)).collect();
    vec![vec![worst.expect("a leaf")], occupied, vec![random.one_of(&[0, 1, u32::MAX])], any]
}

/// The most accesses that came up, for D 1 to 8, are 4, 7, 11, 15, 21, 30, 53 and 80; the ceilings
/// are 9, 11, 15, 23, 39, 71, 135 and 263.
#[test]
#[cfg_attr(debug_assertions, ignore = "slow without --release")]
fn puts_alone_in_crowded_trees() {
    let random = &mut Random::new(150);
    let mut tally = Tally::with_tries();
    let mut most = [0; 8];
    let mut with_dirty_nodes = 0;
    for round in 0..320 {
        let depth = 1 + round % 8;
        let mut crowd = Crowd::laid_out(random, depth);
        for _ in 0..60 + 4 * crowd.queue.shape().cells {
            crowd.go_on(random, &mut tally);
            let may_put: Vec<u32> = crowd.queue.may_put().collect();
            if !crowd.queue.is_of_greatest_depth() || may_put.is_empty() {
                continue;
            }
            let thread = random.one_of(&may_put);
            let accesses = crowd.most_of_a_put(random, thread);
            let most = &mut most[depth as usize - 1];
            *most = accesses.max(*most);
            with_dirty_nodes += u32::from(!crowd.queue.all_clean());
        }
    }
    assert_eq!(most, [4, 7, 11, 15, 21, 30, 53, 80]);
    assert!(with_dirty_nodes >= 5000, "only {with_dirty_nodes} of trees with dirty nodes");
    // Others have to fill a leaf after a put has grown the tree.
    tally.has_all_tries_but(&[(LeafWord::OfLowerDepth, true)], 2);
}

/// A queue as full as it gets while a put can begin, with as many leaves occupied as can be while
/// all nodes are clean: rising keys at the root and in its left half, but for the last leaf of
/// that.
fn with_full_left_half(shape: Shape) -> Queue {
    let mut queue = Queue::open_to_all(shape);
    let mut machine = queue.machine();
    let left_half = (2..=shape.depth).flat_map(|level| 1 << (level - 1)..3 << (level - 2));
    for (key, node) in (1..shape.cells).zip([1].into_iter().chain(left_half)) {
        assert_eq!(machine.put(1, key, 0), Ok(()));
        // A node's number picks it among the leaves of its level; the first of a level comes up
        // when the first of the level above is occupied.
        while machine.turn(1, node) == Moved {}
    }
    queue
}

/// The same with that last leaf occupied as well, and the root empty and dirty, since a take by
/// thread 1 has stopped there.
fn with_left_half_under_empty_root(shape: Shape) -> Queue {
    let mut queue = with_full_left_half(shape);
    let last = (3 << (shape.depth - 2)) - 1;
    assert_eq!(queue.put(1, shape.cells, 0), Ok(()));
    while queue.turn(1, last) == Moved {}
    assert_eq!(queue.take(1), Ok(()));
    assert_eq!(queue.turns(&[1; 2]), [Moved; 2]);
    assert_eq!((queue.value_of(last), queue.value_of(1)), (Some((shape.cells, 0)), None));
    queue
}

/// As many I3 as a search makes that goes down, or up, between all levels.
fn searches(depth: u32, goes_down: bool) -> u32 {
    let levels_left = |levels: &u32| {
        let upper = levels.div_ceil(2);
        (*levels > 1).then_some(if goes_down { levels - upper } else { upper })
    };
    successors(Some(depth), levels_left).count() as u32 - 1
}

/// With one try a visit to I1, half of the leaves cost two accesses each: in all 2^(D−1) and a few,
/// at D 12 2,054 and 2,056, where the ceiling is 4,103. No test has seen more. There would have to
/// be more empty nodes above occupied leaves, and each of them is a take that has stopped.
#[test]
fn puts_alone_in_trees_as_full_as_they_get() {
    let random = &mut Random::new(151);
    for depth in 3..=12 {
        let shape = Shape { depth, cells: 1 << (depth - 1), threads: 2, threshold: 1 };
        let half = 1 << (depth - 1);
        for choices in [&[0][..], &[half], &[9, 0, 3, u32::MAX]] {
            let queue = with_full_left_half(shape);
            let accesses = put_alone(random, &queue, 2, GREATEST, choices);
            assert_eq!(accesses, half + searches(depth, true) + 3);
            let queue = with_left_half_under_empty_root(shape);
            let accesses = put_alone(random, &queue, 2, GREATEST, choices);
            assert_eq!(accesses, half + searches(depth, false) + 4);
        }
    }
}

/// With more tries a visit there are fewer visits.
#[test]
fn puts_alone_with_every_threshold() {
    let random = &mut Random::new(152);
    for threshold in 1..=16 {
        let shape = Shape { depth: 8, cells: 128, threads: 2, threshold };
        let queue = with_full_left_half(shape);
        for choices in adverse_choices(random, &queue, GREATEST) {
            put_alone(random, &queue, 2, GREATEST, &choices);
        }
        // 64 tries, the I1 before them and between them, three I3, I5, I7 and I8.
        let accesses = put_alone(random, &queue, 2, GREATEST, &[0]);
        assert_eq!(accesses, 64 + 1 + 63 / threshold + 6);
    }
}
