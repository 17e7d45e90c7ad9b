//! Works made by playing them once on the plain implementation, so that each run has the turns that
//! its operations take.

use mound::{Answer, Permission, Shape};

use crate::play::{Call, Item};
use crate::work::Work;

/// Numbers that are the same in each run of the program: a linear congruential generator.
pub struct Random {
    state: u64,
    /// The key of the last item.
    key: u32,
}

impl Random {
    pub fn new() -> Random {
        Random { state: 1, key: 0 }
    }

    /// Any number but the greatest, which is no key.
    pub fn next(&mut self) -> u32 {
        self.state = self.state.wrapping_mul(6_364_136_223_846_793_005).wrapping_add(1);
        ((self.state >> 32) as u32).min(u32::MAX - 1)
    }

    /// Any item. One in four has the key of the item before it, as timers for one second have.
    pub fn next_item(&mut self) -> Item {
        let same_key = self.next().is_multiple_of(4);
        if !same_key {
            self.key = self.next();
        }
        (self.key, self.next() & 0xffff)
    }
}

/// The greatest item.
const GREATEST: Item = (u32::MAX - 1, 0xffff);

/// Bytes of a node: first cell, dirty, and two words of its counter.
const NODE: usize = 16;

/// Where the first leaf stands in a region: before it are the heading, 6 words, and the nodes above
/// it.
fn first_leaf_at(shape: Shape) -> usize {
    let nodes_before = (1 << (shape.depth - 1)) - 1;
    4 * 6 + NODE * nodes_before
}

/// A region, and the calls made on it so far.
pub struct Recorder {
    region: Vec<u8>,
    shape: Shape,
    random: Random,
    work: Work,
}

impl Recorder {
    /// A queue that holds this many random items.
    pub fn holding(shape: Shape, items: u32) -> Recorder {
        let mut recorder = Recorder::laid_out(shape);
        for _ in 0..items {
            recorder.put_and_run();
        }
        recorder.started()
    }

    /// A queue of the greatest depth in which each leaf holds an item of a small key. It is the
    /// same cell in all of them, which no calls lead to: they would leave a put a free leaf.
    pub fn with_occupied_leaves(shape: Shape) -> Recorder {
        let mut recorder = Recorder::laid_out(shape);
        for key in 1..=shape.depth {
            recorder.put_by_choice_and_run((key, 0), 0);
        }
        let (_, first_leaf_on) = recorder.region.split_at_mut(first_leaf_at(shape));
        let leaves = first_leaf_on[..NODE << (shape.depth - 1)].chunks_exact_mut(NODE);
        leaves.for_each(|leaf| leaf[..4].copy_from_slice(&shape.depth.to_le_bytes()));
        recorder.started()
    }

    /// A queue as full as it gets while a put can begin, with as many leaves occupied as calls lead
    /// to while all nodes are clean: the root and its left half hold the keys 1, 2, .., all but the
    /// last leaf of that half.
    pub fn with_full_left_half(shape: Shape) -> Recorder {
        let mut recorder = Recorder::laid_out(shape);
        let left_half = (2..=shape.depth).flat_map(|level| 1 << (level - 1)..3 << (level - 2));
        for (key, node) in (1..shape.cells).zip([1].into_iter().chain(left_half)) {
            recorder.put_by_choice_and_run((key, 0), node);
        }
        recorder.started()
    }

    /// A queue that holds as many items as it has cells: these many in the root's list, of the keys
    /// 1, 2, .., and the others, of greater keys, below.
    pub fn with_list_at_root(shape: Shape, items: u32) -> Recorder {
        let mut recorder = Recorder::laid_out(shape);
        // A key above all before it goes below them, one below them to the root.
        for key in (items..=shape.cells).chain((1..items).rev()) {
            recorder.put_item_and_run((key, 0));
        }
        recorder.started()
    }

    fn laid_out(shape: Shape) -> Recorder {
        let mut region = vec![0; shape.byte_len().expect("a shape in range")];
        let permissions = vec![Permission::PUT_AND_TAKE.value(); shape.threads as usize];
        plain::layout(&mut region, shape, &permissions).expect("its length");
        Recorder { region, shape, random: Random::new(), work: Work::default() }
    }

    /// The same region; what is recorded starts here.
    pub fn started(mut self) -> Recorder {
        self.work = Work { start: self.region.clone(), ..Work::default() };
        self
    }

    pub fn work(self) -> Work {
        self.work
    }

    /// Begins a take with every second thread, from thread 1 on, and a put with each other one.
    pub fn begin_takes_and_puts(&mut self) {
        for thread in 1..=self.shape.threads {
            if thread % 2 == 1 {
                self.take(thread);
            } else {
                let item = self.random.next_item();
                self.put(thread, item);
            }
        }
    }

    /// Leaves each thread the permission that it needs for this alone: takes with every second
    /// thread, from thread 1 on, and puts with each other one.
    pub fn permit_takes_and_puts(&mut self) {
        for thread in 1..=self.shape.threads {
            let takes = thread % 2 == 1;
            self.permit(thread, if takes { Permission::TAKE } else { Permission::PUT });
        }
    }

    /// Takes the permissions of all threads away.
    pub fn permit_nothing(&mut self) {
        for thread in 1..=self.shape.threads {
            self.permit(thread, Permission::NONE);
        }
    }

    /// Begins a put of the greatest item with every thread.
    pub fn begin_greatest_puts(&mut self) {
        for thread in 1..=self.shape.threads {
            self.put(thread, GREATEST);
        }
    }

    /// Puts the greatest item by thread 1, its choices always the first leaf; what is recorded is
    /// the run.
    pub fn run_greatest_put(mut self) -> Recorder {
        self.put(1, GREATEST);
        let mut recorder = self.started();
        recorder.run_until_inserted(0);
        recorder
    }

    /// Runs this many turns of threads drawn from those that are not answered, or from all when
    /// none is left.
    pub fn run_crossing(&mut self, turns: u32) {
        let all: Vec<u32> = (1..=self.shape.threads).collect();
        let mut busy = all.clone();
        let end = self.work.turns + turns;
        self.run_until(|recorder| {
            let among = if busy.is_empty() { &all } else { &busy };
            let thread = among[recorder.random.next() as usize % among.len()];
            let choice = recorder.random.next();
            if recorder.turn(thread, choice) != Answer::Moved {
                busy.retain(|&other| other != thread);
            }
            recorder.work.turns == end
        });
    }

    /// Runs this many turns of all threads, one after the other, each with choice 0.
    pub fn run_in_turn(&mut self, turns: u32) {
        let end = self.work.turns + turns;
        self.run_until(|recorder| {
            recorder.turn(recorder.work.turns % recorder.shape.threads + 1, 0);
            recorder.work.turns == end
        });
    }

    /// Puts a random item by thread 1.
    pub fn put_and_run(&mut self) {
        let item = self.random.next_item();
        self.put_item_and_run(item);
    }

    fn put_item_and_run(&mut self, item: Item) {
        self.put(1, item);
        self.run_until(|recorder| {
            let choice = recorder.random.next();
            recorder.turn(1, choice) == Answer::Inserted
        });
    }

    /// Puts an item by thread 1, with this choice at all turns.
    fn put_by_choice_and_run(&mut self, item: Item, choice: u32) {
        self.put(1, item);
        self.run_until_inserted(choice);
    }

    fn run_until_inserted(&mut self, choice: u32) {
        self.run_until(|recorder| recorder.turn(1, choice) == Answer::Inserted);
    }

    /// Takes an item by thread 1.
    pub fn take_and_run(&mut self) {
        self.take(1);
        self.run_until_taken(1);
    }

    /// Runs turns of thread 1 until it has answered this many items.
    pub fn run_until_taken(&mut self, items: u32) {
        let mut taken = 0;
        self.run_until(|recorder| {
            taken += u32::from(matches!(recorder.turn(1, 0), Answer::Took { .. }));
            taken == items
        });
    }

    /// Begins a list by thread 1.
    pub fn list(&mut self) {
        plain::list(&mut self.region, 1).expect("it is idle");
        self.work.calls.push(Call::List { thread: 1 });
    }

    fn put(&mut self, thread: u32, item @ (key, tag): Item) {
        plain::put(&mut self.region, thread, key, tag).expect("it is idle and a cell is free");
        self.work.calls.push(Call::Put { thread, item });
    }

    fn take(&mut self, thread: u32) {
        plain::take(&mut self.region, thread).expect("it is idle");
        self.work.calls.push(Call::Take { thread });
    }

    pub fn permit(&mut self, thread: u32, permission: Permission) {
        let permission = permission.into();
        plain::permit(&mut self.region, thread, permission).expect("it is there");
        self.work.calls.push(Call::Permit { thread, permission });
    }

    /// Makes one run of turns, until the last is told.
    fn run_until(&mut self, mut is_last_turn: impl FnMut(&mut Recorder) -> bool) {
        let first = self.work.turns as usize;
        while !is_last_turn(self) {}
        self.work.calls.push(Call::Run(first..self.work.turns as usize));
    }

    fn turn(&mut self, thread: u32, choice: u32) -> Answer {
        let answer = plain::turn(&mut self.region, thread, choice);
        self.work.schedule.extend([thread, choice].into_iter().flat_map(u32::to_le_bytes));
        self.work.turns += 1;
        self.work.answer_bytes += 12;
        self.work.accesses += u32::from(answer.is_access());
        answer
    }
}
