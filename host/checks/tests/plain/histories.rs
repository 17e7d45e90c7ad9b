//! Long random histories of laid-out regions, beside the plain bag.

use std::ops::RangeInclusive;

use checks::fields::PRESENT_DEPTH;
use checks::leaves::Try;
use checks::queue::{Call, Queue};
use checks::random::Random;
use mound::{Answer, Refusal};

use crate::ledger::{Ledger, Order};

/// A queue with its ledger, and the range from which keys are drawn; it may rise from put to put,
/// as times do, so that the tree grows deep. Choices are drawn from few, so that leaves are
/// occupied, or from all.
struct History {
    queue: Queue,
    ledger: Ledger,
    keys: RangeInclusive<u32>,
    rise: u32,
    choices: RangeInclusive<u32>,
    /// How many turns were withdrawn.
    withdrawn: u32,
    /// How many tries at the greatest depth failed.
    failed_tries: u32,
}

impl History {
    /// An empty queue, its last thread with an empty permission list, which it keeps.
    fn start(random: &mut Random) -> History {
        let shape = random.crowded_shape(2..=16);
        let mut permissions: Vec<u8> =
            (1..shape.threads).map(|_| random.one_of(&[0, 1, 2, 3, 3, 3, 3])).collect();
        permissions.push(0);
        let queue = Queue::laid_out(shape, &permissions);
        let ledger = Ledger::of(&queue, Order::Deciding);
        let keys = 0..=random.one_of(&[0, 3, 20, 4_294_000_000]);
        let rise = random.one_of(&[0, 0, 1, 5]);
        let choices = 0..=random.one_of(&[0, 1, u32::MAX]);
        History { queue, ledger, keys, rise, choices, withdrawn: 0, failed_tries: 0 }
    }

    /// A call of some thread, or turns of it, or both. Some calls are refused for one of its
    /// states. Now and then that thread, or another, gets another permission.
    fn go_on(&mut self, random: &mut Random) {
        let threads = self.queue.shape().threads;
        let thread = random.among(1..=threads);
        if random.among(0..=3) == 0 {
            let item = (random.among(self.keys.clone()), random.among_or_extreme(0..=65_535));
            self.keys = self.keys.start() + self.rise..=self.keys.end() + self.rise;
            let call = match random.among(0..=11) {
                0 => Call::List,
                1..=3 => Call::Take,
                _ => Call::Put(item),
            };
            self.begin(thread, call);
        }
        if random.among(0..=19) == 0 {
            let any = random.among(0..=threads);
            let to = random.one_of(&[any, thread, thread, thread]);
            if to != threads {
                self.permit(to, random.one_of(&[0, 1, 2, 3, 3, 3, 3, 3, 3, 4]));
            }
        }
        for _ in 0..random.one_of(&[0, 1, 1, 1, 2, 5, 20]) {
            self.turn(thread, random.among(self.choices.clone()));
        }
    }

    fn begin(&mut self, thread: u32, call: Call) {
        let before = self.queue.clone();
        let result = self.queue.begin(thread, call);
        let played = self.ledger.called(thread, call, result, (&before, &self.queue));
        let agreed = played.and_then(|()| self.ledger.look_at(&self.queue));
        assert_eq!(agreed, Ok(()), "{call:?} of thread {thread}");
    }

    fn permit(&mut self, thread: u32, permission: u32) {
        let before = self.queue.clone();
        let result = self.queue.permit(thread, permission);
        let played = self.ledger.permitted(thread, permission, result, (&before, &self.queue));
        let agreed = played.and_then(|()| self.ledger.look_at(&self.queue));
        assert_eq!(agreed, Ok(()), "permit of {permission} to thread {thread}");
    }

    fn turn(&mut self, thread: u32, choice: u32) {
        let before = self.queue.clone();
        let answer = self.queue.turn(thread, choice);
        let played = self.ledger.turned(thread, choice, answer, (&before, &self.queue));
        let agreed = played.and_then(|()| self.ledger.look_at(&self.queue));
        assert_eq!(agreed, Ok(()), "turn of thread {thread} with choice {choice}: {answer:?}");
        self.withdrawn += u32::from(answer == Answer::Withdrawn);
        let tried = Try::of(thread, &before, &self.queue);
        self.failed_tries += u32::from(tried.is_some_and(|tried| tried.failed));
    }
}

#[test]
fn agree_with_the_bag() {
    let random = &mut Random::new(70);
    let (mut withdrawn, mut failed_tries) = (0, 0);
    for _ in 0..300 {
        let mut history = History::start(random);
        for _ in 0..1000 {
            history.go_on(random);
        }
        withdrawn += history.withdrawn;
        failed_tries += history.failed_tries;
    }
    assert!(withdrawn >= 500, "only {withdrawn} turns were withdrawn");
    assert!(failed_tries >= 500, "only {failed_tries} tries at the greatest depth failed");
}

/// A thread that was laid out so, and each other one that lists nothing at the moment.
#[test]
fn an_idle_thread_that_lists_nothing_changes_nothing() {
    let random = &mut Random::new(71);
    for _ in 0..100 {
        let mut history = History::start(random);
        for _ in 0..100 {
            history.go_on(random);
            let mut queue = history.queue.clone();
            let idle_without_list: Vec<u32> = queue.idle_without_list().collect();
            assert_eq!(idle_without_list.last(), Some(&queue.shape().threads));
            for thread in idle_without_list {
                assert_eq!(queue.put(thread, 1, 2), Err(Refusal::Permission));
                assert_eq!(queue.take(thread), Err(Refusal::Permission));
                assert_eq!(queue.list(thread), Err(Refusal::Permission));
                assert_eq!(queue.turn(thread, random.among(0..=u32::MAX)), Answer::Idle);
                assert!(queue == history.queue);
            }
        }
    }
}

/// With all nodes clean and no other thread moving, a take costs its figure. The greatest at depth
/// d is 5 × d.
#[test]
fn a_take_alone_costs_its_figure() {
    let random = &mut Random::new(72);
    let mut most_at_depth = [0; 7];
    for _ in 0..200 {
        let mut history = History::start(random);
        for _ in 0..1000 {
            history.go_on(random);
            let queue = &history.queue;
            if let (true, Some(thread)) = (queue.all_clean(), queue.may_take().next()) {
                let accesses = queue.accesses_of_a_take_alone(thread);
                assert_eq!(accesses, queue.take_cost());
                let most = &mut most_at_depth[queue.word(PRESENT_DEPTH) as usize - 1];
                *most = accesses.max(*most);
            }
        }
    }
    assert_eq!(most_at_depth, [5, 10, 15, 20, 25, 30, 35]);
}
