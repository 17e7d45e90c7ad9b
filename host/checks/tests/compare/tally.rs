//! How often each outcome comes up in a test, so that the test can show that each one did.

use std::collections::BTreeMap;

use checks::fields::{place, D, LEAF};
use checks::queue::Queue;
use mound::{Answer, Refusal};

use crate::both::Ran;

/// The outcome of a call or of a served turn. Numbers are refusals, 0 for none.
#[derive(Clone, Copy, Debug, PartialEq, Eq, PartialOrd, Ord)]
pub enum Outcome {
    Layout(u32),
    Put(u32),
    Take(u32),
    List(u32),
    Permit(u32),
    Check(u32),
    Run(u32),
    /// A turn that was not refused, by its answer's code.
    Turn(u32),
    RefusedTurn(u32),
    /// A check of records, 255 for a no.
    Records(u32),
}

/// A kind of try at the greatest depth, request 8.
#[derive(Clone, Copy, Debug, PartialEq, Eq, PartialOrd, Ord)]
struct Try {
    leaf_word: LeafWord,
    choice: Choice,
    failed: bool,
}

/// What the leaf word holds before a try: 0, a node of a lower depth, or the leaf to be read.
#[derive(Clone, Copy, Debug, PartialEq, Eq, PartialOrd, Ord)]
pub enum LeafWord {
    None,
    OfLowerDepth,
    FirstLeaf,
    MiddleLeaf,
    LastLeaf,
}

/// A choice: 0, another that is less than the number of nodes, 4,294,967,295, or any other.
#[derive(Clone, Copy, Debug, PartialEq, Eq, PartialOrd, Ord)]
enum Choice {
    Least,
    Small,
    Greatest,
    Other,
}

impl Try {
    const LEAF_WORDS: [LeafWord; 5] = {
        use LeafWord::*;
        [None, OfLowerDepth, FirstLeaf, MiddleLeaf, LastLeaf]
    };
    const CHOICES: [Choice; 4] = [Choice::Least, Choice::Small, Choice::Greatest, Choice::Other];

    /// All kinds, in order.
    fn all() -> impl Iterator<Item = Try> {
        Try::LEAF_WORDS.into_iter().flat_map(|leaf_word| {
            Try::CHOICES.into_iter().flat_map(move |choice| {
                [false, true].map(|failed| Try { leaf_word, choice, failed })
            })
        })
    }

    /// The try that a turn with this choice was, given the queue before and after it.
    fn of(thread: u32, choice: u32, before: &Queue, after: &Queue) -> Option<Try> {
        let depth = before.shape().depth;
        if before.place(thread) != place::I2 || before.field(thread, D) != depth {
            return None;
        }
        let (first, last) = (1 << (depth - 1), (1 << depth) - 1);
        let leaf_word = match before.field(thread, LEAF) {
            0 => LeafWord::None,
            word if word < first => LeafWord::OfLowerDepth,
            word if word == first => LeafWord::FirstLeaf,
            word if word == last => LeafWord::LastLeaf,
            _ => LeafWord::MiddleLeaf,
        };
        let choice = match choice {
            0 => Choice::Least,
            u32::MAX => Choice::Greatest,
            _ if choice <= last => Choice::Small,
            _ => Choice::Other,
        };
        let failed = matches!(after.place(thread), place::I1 | place::I2);
        Some(Try { leaf_word, choice, failed })
    }
}

#[derive(Default)]
pub struct Tally {
    counts: BTreeMap<Outcome, u32>,
    /// The tries at the greatest depth, where they are counted.
    tries: Option<BTreeMap<Try, u32>>,
}

impl Tally {
    /// A tally that counts tries, too.
    pub fn with_tries() -> Tally {
        Tally { tries: Some(BTreeMap::new()), ..Tally::default() }
    }

    pub fn add(&mut self, outcome: Outcome) {
        *self.counts.entry(outcome).or_default() += 1;
    }

    /// Adds a run and its turns.
    pub fn add_run(&mut self, ran: &Ran) {
        self.add(Outcome::Run(ran.result.map_or_else(Refusal::number, |_| 0)));
        for answer in &ran.answers {
            self.add(match answer {
                Answer::Refused(refusal) => Outcome::RefusedTurn(refusal.number()),
                _ => Outcome::Turn(answer.words()[0]),
            });
        }
    }

    /// Adds the tries at the greatest depth of a run on this queue, whose turns the plain
    /// implementation serves once more, one by one.
    pub fn add_tries(&mut self, mut queue: Queue, schedule: &[u8], ran: &Ran) {
        let Some(tries) = &mut self.tries else {
            return;
        };
        let (turns, _) = schedule.as_chunks::<4>().0.as_chunks();
        for (turn, due) in turns.iter().zip(&ran.answers) {
            let [thread, choice] = turn.map(u32::from_le_bytes);
            let before = queue.clone();
            assert_eq!(queue.turn(thread, choice), *due);
            if *due == Answer::Moved {
                if let Some(kind) = Try::of(thread, choice, &before, &queue) {
                    *tries.entry(kind).or_default() += 1;
                }
            }
        }
    }

    /// Tries at the greatest depth of every kind have come up, each so often at least; but for
    /// those with this leaf word and this ending, failed or not.
    pub fn has_all_tries_but(&self, rare: &[(LeafWord, bool)], least: u32) {
        let tries = self.tries.as_ref().expect("they are counted");
        println!("{tries:?}");
        let due = Try::all().filter(|kind| !rare.contains(&(kind.leaf_word, kind.failed)));
        for kind in due {
            let count = tries.get(&kind).copied().unwrap_or(0);
            assert!(count >= least, "{kind:?} came up {count} times");
        }
    }

    /// These outcomes have come up and no others, each so often at least.
    pub fn has_just(&self, outcomes: &[Outcome], least: u32) {
        println!("{:?}", self.counts);
        let seen: Vec<Outcome> = self.counts.keys().copied().collect();
        let mut due = outcomes.to_vec();
        due.sort_unstable();
        assert_eq!(seen, due);
        let rare = self.counts.iter().find(|&(_, &count)| count < least);
        assert_eq!(rare, None, "came up less than {least} times");
    }
}
