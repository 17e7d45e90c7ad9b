//! Document 01's mistakes with good looks, that of comparing keys alone, and those of lists, of
//! permissions and of leaves, made from outside the machine: each is an edit of the bytes around a
//! call, after which the machine does what a mistaken one would do.

use checks::fields::{
    place, Field, Words, AFTER, D, FIRST_FREE_CELL, LEAF, OWN_CELL, PERMISSION, PLACE,
};
use checks::leaves;
use checks::queue::{Call, Queue};
use mound::{Answer, Refusal};

use crate::ledger::Order;

#[derive(Clone, Copy, Debug, PartialEq)]
pub enum Mistake {
    /// Reading permission 0 as everything.
    EmptyListGrantsAll,
    /// Ordering operations by answer rather than deciding access. Here it is not the machine that
    /// is mistaken but the bag beside it.
    OrderedByAnswer,
    /// Comparing the list (and the dirty bit) but not the counter.
    CounterNotCompared,
    /// Dropping I8's test of the parent.
    ParentNotTested,
    /// Freeing a cell at the answer instead of E2.
    FreedAtAnswer,
    /// Comparing keys alone at these places, where request 2 compares items. At I2 and I3 the bag
    /// cannot tell: I5 compares with the node once more.
    KeysAlone { at: &'static [u32] },
    /// A mistake in request 1's places.
    OfList(ListMistake),
    /// A mistake in request 5's rule.
    OfPermission(PermissionMistake),
    /// A mistake in request 8's rule.
    OfLeaf(LeafMistake),
}

#[derive(Clone, Copy, Debug, PartialEq)]
pub enum ListMistake {
    /// 17 mends a dirty root with E1's after.
    BackToE1,
    /// 18 leaves the root clean.
    RootLeftClean,
    /// 18 frees the list's cells, as E2 frees its head's.
    FreedAt18,
    /// The items are handed out at once after 18, and the root is not mended.
    NotMended,
    /// Every after but 0 returns as 1 does.
    AfterReadAsBit,
    /// 19 hands out the second item in hand before the first.
    SecondHandedOutFirst,
    /// 19 leaves out the second item in hand.
    SecondLeftOut,
    /// Whoever answers took goes idle.
    IdleByAnswer,
}

#[derive(Clone, Copy, Debug, PartialEq)]
pub enum PermissionMistake {
    /// The permission is looked at when an operation begins, and at no turn.
    OnceBegunGoesOn,
    /// It is looked at only by the updates that decide, at I6, I8, E2 and 18.
    LookedAtByUpdatesAlone,
    /// A thread that may do anything goes on with whatever it does.
    AnyPermissionWillDo,
    /// The access is made before the permission is looked at.
    LookedAtAfterTheAccess,
    /// Mending and hand-outs look at it, too.
    LookedAtEverywhere,
    /// A withdrawn put's cell is not freed.
    CellKept,
    /// It is freed with its item in it.
    CellNotWiped,
    /// A withdrawn thread stays where it stands.
    PlaceKept,
    /// A permit to a busy thread is refused.
    BusyRefused,
    /// A permit ends the operation that it leaves without permission.
    WithdrawnByThePermit,
}

/// What is mistaken about the leaf that a put tries; but for the last one, at the greatest depth.
#[derive(Clone, Copy, Debug, PartialEq)]
pub enum LeafMistake {
    /// The choice counts at every try, as before the request.
    ChoiceAlwaysCounts,
    /// A visit to I1 clears the leaf word, so that the choice counts once a visit.
    ClearedByI1,
    /// A failed try leaves the leaf that it has read.
    NeverMovesOn,
    /// After the last leaf comes the last again.
    StaysAtLast,
    /// What comes next is told by the leaf word before the try, not by the leaf read.
    NextAfterLeafWord,
    /// The next leaf comes after a try that succeeded, too, once the put has to start again.
    MovesOnAfterSuccess,
    /// A leaf word left over from a lower depth counts, and not the choice.
    LowerLevelCounts,
    /// Below the greatest depth, too, the leaf word counts where it is a leaf of level d.
    CountsAtLowerDepth,
}

/// The machine, with a mistake or without.
#[derive(Clone, Copy)]
pub struct Machine {
    pub mistake: Option<Mistake>,
}

impl Machine {
    /// When its takes are played on the bag.
    pub fn order(self) -> Order {
        match self.mistake {
            Some(Mistake::OrderedByAnswer) => Order::Answering,
            _ => Order::Deciding,
        }
    }

    pub fn begin(self, queue: &mut Queue, thread: u32, call: Call) -> Result<(), Refusal> {
        let permission = queue.field(thread, PERMISSION);
        let misread = permission == 0 && self.mistake == Some(Mistake::EmptyListGrantsAll);
        queue.set_field(thread, PERMISSION, if misread { 3 } else { permission });
        let result = queue.begin(thread, call);
        queue.set_field(thread, PERMISSION, permission);
        result
    }

    pub fn permit(self, queue: &mut Queue, thread: u32, permission: u32) -> Result<(), Refusal> {
        let is_busy = queue.place(thread) != place::IDLE;
        match self.mistake {
            Some(Mistake::OfPermission(PermissionMistake::BusyRefused)) if is_busy => {
                return Err(Refusal::Busy);
            }
            Some(Mistake::OfPermission(PermissionMistake::WithdrawnByThePermit)) => {
                queue.permit(thread, permission)?;
                if queue.lacks_permission(thread) {
                    *queue = queue.withdrawn(thread).expect("a put has a cell");
                }
                return Ok(());
            }
            _ => {}
        }
        queue.permit(thread, permission)
    }

    pub fn turn(self, queue: &mut Queue, thread: u32, choice: u32) -> Answer {
        match self.mistake {
            Some(Mistake::CounterNotCompared) => {
                for (copy, node) in queue.compared(thread) {
                    queue.set_counter(copy, queue.counter(node));
                }
            }
            Some(Mistake::ParentNotTested) if queue.place(thread) == place::I8 => {
                let (copy, parent) = queue.compared(thread)[1];
                queue.set_words(copy, queue.node(parent));
            }
            Some(Mistake::FreedAtAnswer) => return turn_that_frees_late(queue, thread, choice),
            Some(Mistake::KeysAlone { at }) if at.contains(&queue.place(thread)) => {
                return turn_that_sees_no_tags(queue, thread, choice);
            }
            Some(Mistake::OfList(mistake)) => {
                return turn_of_a_mistaken_list(mistake, queue, thread, choice);
            }
            Some(Mistake::OfPermission(mistake)) => {
                return turn_by_a_mistaken_permission(mistake, queue, thread, choice);
            }
            Some(Mistake::OfLeaf(mistake)) => {
                return turn_with_a_mistaken_leaf(mistake, queue, thread, choice);
            }
            _ => {}
        }
        queue.turn(thread, choice)
    }
}

fn turn_of_a_mistaken_list(
    mistake: ListMistake,
    queue: &mut Queue,
    thread: u32,
    choice: u32,
) -> Answer {
    let (place, after) = (queue.place(thread), queue.field(thread, AFTER));
    let in_hand: Vec<u32> = queue.held_by(thread).collect();
    match (mistake, place, &in_hand[..]) {
        (ListMistake::NotMended, place::M1, _) if after == 3 => {
            queue.set_field(thread, PLACE, place::P19);
        }
        (ListMistake::AfterReadAsBit, ..) => queue.set_field(thread, AFTER, after.min(1)),
        (ListMistake::SecondHandedOutFirst, place::P19, &[first, second, ..]) => {
            let [rest, of_first] = [second, first].map(|cell| queue.cell_at(cell) + 2);
            queue.set_word(of_first, queue.word(rest));
            queue.set_word(rest, first);
            queue.set_field(thread, OWN_CELL, second);
        }
        (ListMistake::SecondLeftOut, place::P19, &[first, second, ..]) => {
            queue.set_word(queue.cell_at(first) + 2, queue.cell(second)[2]);
        }
        _ => {}
    }

    let answer = queue.turn(thread, choice);
    match (mistake, place, queue.place(thread)) {
        (ListMistake::BackToE1, place::P17, place::M1) => queue.set_field(thread, AFTER, 0),
        (ListMistake::RootLeftClean, place::P18, place::M1) => {
            queue.set_word(queue.node_at(1) + 1, 0);
        }
        (ListMistake::FreedAt18, place::P18, place::M1) => {
            let last = queue.held_by(thread).last().expect("a list has removed something");
            queue.set_word(queue.cell_at(last) + 2, queue.word(FIRST_FREE_CELL));
            queue.set_word(FIRST_FREE_CELL, queue.field(thread, OWN_CELL));
        }
        (ListMistake::IdleByAnswer, place::P19, _) => {
            queue.go_idle(thread);
        }
        _ => {}
    }
    answer
}

fn turn_by_a_mistaken_permission(
    mistake: PermissionMistake,
    queue: &mut Queue,
    thread: u32,
    choice: u32,
) -> Answer {
    use PermissionMistake::*;
    let before = queue.clone();
    let (place, permission) = (queue.place(thread), queue.field(thread, PERMISSION));
    let lacks = queue.lacks_permission(thread);
    let decides = [place::I6, place::I8, place::E2, place::P18].contains(&place);
    match mistake {
        OnceBegunGoesOn => return turn_with_all_permissions(queue, thread, choice),
        LookedAtByUpdatesAlone if !decides => {
            return turn_with_all_permissions(queue, thread, choice);
        }
        AnyPermissionWillDo if permission != 0 => {
            return turn_with_all_permissions(queue, thread, choice);
        }
        LookedAtAfterTheAccess if lacks => {
            turn_with_all_permissions(queue, thread, choice);
            *queue = queue.withdrawn(thread).expect("a put has a cell");
            return Answer::Withdrawn;
        }
        LookedAtEverywhere if place >= place::M1 && permission & 2 == 0 => {
            queue.go_idle(thread);
            return Answer::Withdrawn;
        }
        _ => {}
    }

    let answer = queue.turn(thread, choice);
    let own_cell = before.field(thread, OWN_CELL);
    match (mistake, answer, own_cell) {
        (CellKept, Answer::Withdrawn, 1..) => {
            queue.set_words(queue.cell_at(own_cell), before.cell(own_cell));
            queue.set_word(FIRST_FREE_CELL, before.word(FIRST_FREE_CELL));
        }
        (CellNotWiped, Answer::Withdrawn, 1..) => {
            let ([key, tag, _], [_, _, next]) = (before.cell(own_cell), queue.cell(own_cell));
            queue.set_words(queue.cell_at(own_cell), [key, tag, next]);
        }
        (PlaceKept, Answer::Withdrawn, _) => queue.set_field(thread, PLACE, place),
        _ => {}
    }
    answer
}

fn turn_with_a_mistaken_leaf(
    mistake: LeafMistake,
    queue: &mut Queue,
    thread: u32,
    choice: u32,
) -> Answer {
    use LeafMistake::*;
    let [place, d, word] = [PLACE, D, LEAF].map(|field| queue.field(thread, field));
    let depth = queue.shape().depth;
    let (first, last) = (1 << (depth - 1), (1 << depth) - 1);
    let is_try = place == place::I2 && d == depth;
    let is_lower_try = place == place::I2 && d < depth;
    // A leaf's own number, as a choice, picks that leaf.
    let mut choice = choice;
    match mistake {
        ChoiceAlwaysCounts if is_try => queue.set_field(thread, LEAF, 0),
        LowerLevelCounts if is_try && (1..first).contains(&word) => choice = word,
        CountsAtLowerDepth if is_lower_try && leaves::picked(d, word) == word => choice = word,
        _ => {}
    }

    let answer = queue.turn(thread, choice);
    let [next_place, next_word] = [PLACE, LEAF].map(|field| queue.field(thread, field));
    let failed = is_try && matches!(next_place, place::I1 | place::I2);
    let starts_again = (place::I5..=place::I8).contains(&place) && next_place == place::I1;
    match mistake {
        ClearedByI1 if place == place::I1 => queue.set_field(thread, LEAF, 0),
        NeverMovesOn if failed => {
            let read = if next_word == first { last } else { next_word - 1 };
            queue.set_field(thread, LEAF, read);
        }
        StaysAtLast if failed && next_word == first => queue.set_field(thread, LEAF, last),
        NextAfterLeafWord if failed && word < first => queue.set_field(thread, LEAF, word + 1),
        MovesOnAfterSuccess if starts_again && first <= word => {
            queue.set_field(thread, LEAF, leaves::next(word));
        }
        _ => {}
    }
    answer
}

/// A turn by a thread that is taken to have both permissions.
fn turn_with_all_permissions(queue: &mut Queue, thread: u32, choice: u32) -> Answer {
    let permission = queue.field(thread, PERMISSION);
    queue.set_field(thread, PERMISSION, 3);
    let answer = queue.turn(thread, choice);
    queue.set_field(thread, PERMISSION, permission);
    answer
}

/// A turn that keeps the cell of a successful E2 as the thread's own cell and frees it at the
/// answer.
fn turn_that_frees_late(queue: &mut Queue, thread: u32, choice: u32) -> Answer {
    let kept = queue.field(thread, OWN_CELL);
    let at_e2 = queue.place(thread) == place::E2;
    let answer = queue.turn(thread, choice);
    let first_free = queue.word(FIRST_FREE_CELL);
    if at_e2 && queue.place(thread) == place::M1 {
        let [_, _, next] = queue.cell(first_free);
        queue.set_word(FIRST_FREE_CELL, next);
        queue.set_field(thread, OWN_CELL, first_free);
    }
    if matches!(answer, Answer::Took { .. }) {
        queue.set_words(queue.cell_at(kept), [0, 0, first_free]);
        queue.set_word(FIRST_FREE_CELL, kept);
    }
    answer
}

/// A turn among tags that are all 0; then each tag is what the turn would have left. No place that
/// compares values answers a tag.
fn turn_that_sees_no_tags(queue: &mut Queue, thread: u32, choice: u32) -> Answer {
    let mut seeing = queue.clone();
    seeing.turn(thread, choice);
    let region = Words::of(&queue.bytes);
    let tags = (4..region.words.len()).filter(|&at| region.field(at) == Field::Tag);
    tags.clone().for_each(|at| queue.set_word(at, 0));
    let answer = queue.turn(thread, choice);
    tags.for_each(|at| queue.set_word(at, seeing.word(at)));
    answer
}
