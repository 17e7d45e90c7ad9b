//! Demand 3 as a test, with request 1's lists, request 2's order and request 5's permissions: the
//! plain bag of items, told the calls and the turns of a queue. Also the account of cells, what a
//! take costs, request 3, and the leaves that a put tries, request 8.

use std::{mem, slice};

use checks::fields::{place, LEAF, PERMISSION, PRESENT_DEPTH};
use checks::leaves;
use checks::queue::{Call, Item, Queue};
use checks::values::is_less;
use mound::{Answer, Refusal};

/// What the queue did that the bag does not do, a cell that is not accounted for, a take that costs
/// something else than its figure, or a put that tries another leaf or takes too long.
#[derive(Clone, Copy, Debug, PartialEq)]
pub enum Disagreement {
    /// An operation began, or was refused, otherwise than it should have been.
    Beginning { got: Result<(), Refusal>, due: Result<(), Refusal> },
    /// A turn was refused, which no turn is on a laid-out region whose counters are small.
    RefusedTurn(Refusal),
    /// A refused call or an idle turn changed the region.
    ChangedInVain,
    /// An idle thread that lists nothing changed the region.
    EmptyListActed,
    /// A permission was set, or refused, otherwise than it should have been.
    Permit { got: Result<(), Refusal>, due: Result<(), Refusal> },
    /// A permit changed something else than that permission.
    PermitChangedMore,
    /// A thread's permission is not what was last set.
    OtherPermission { thread: u32 },
    /// An operation took effect without its permission just before.
    DecidedWithoutPermission,
    /// A turn went on without the permission that its place needs.
    NotWithdrawn,
    /// A turn was withdrawn that has its permission, or whose place needs none.
    WithdrawnInVain,
    /// An answer or a deciding access that does not belong to the thread's operation.
    NoSuchOperation,
    /// 'Empty' while the bag holds something.
    EmptyAnswer,
    /// An item was taken that the bag does not hold.
    NotHeld(Item),
    /// An item was taken first while the bag holds a lesser one.
    NotLeast(Item),
    /// Another item was answered than the next of those removed.
    OtherAnswer { got: Item, due: Item },
    /// The tree does not hold what the bag holds.
    OtherTree,
    /// A thread is idle before its operation has ended, or is not idle then.
    OtherIdleness { thread: u32 },
    /// A thread holds other items than that of its put or those of its list that it still owes.
    OtherHand { thread: u32 },
    /// A cell is neither in the tree nor held nor free, or it is twice in these.
    OtherCells,
    /// A free cell has a key or a tag.
    FreeCellNotWiped,
    /// A node is dirty while no operation is under way.
    DirtyAtRest,
    /// A take alone would make another number of accesses than its figure says.
    OtherCost { thread: u32, got: u32, due: u32 },
    /// A try did not read this leaf, which was its turn.
    OtherLeaf { thread: u32, due: u32 },
    /// A put begun at the greatest depth is not inserted within its ceiling, though nobody else
    /// moves.
    PutTakesTooLong { thread: u32 },
    /// Request 9's check does not accept the records of the history.
    RecordsNotAccepted,
}

/// A thread's operation, as far as the bag is told.
#[derive(Clone, PartialEq, Eq, Hash)]
enum Operation {
    None,
    Put(Put),
    Take,
    List,
    /// A take or a list that has decided.
    Owes(Owed),
}

/// A put: its item, and by its history the leaf that it is to try.
#[derive(Clone, PartialEq, Eq, Hash)]
struct Put {
    item: Item,
    /// The depth that its last I1 has read; 0 before the first.
    d: u32,
    /// The leaf that the next try at the greatest depth is to read, whatever the choice; none where
    /// there was no such try.
    next_leaf: Option<u32>,
}

impl Put {
    fn begun(item: Item) -> Put {
        Put { item, d: 0, next_leaf: None }
    }

    /// Plays a turn that has moved the put. Below the greatest depth the choice counts at every
    /// try. At it, "the choice counts only at the first try since the put began"; after one that
    /// failed comes the next leaf, after one that did not the same leaf again.
    fn moved(
        &mut self,
        thread: u32,
        choice: u32,
        (before, after): (&Queue, &Queue),
    ) -> Result<(), Disagreement> {
        match before.place(thread) {
            place::I1 => self.d = before.word(PRESENT_DEPTH),
            place::I2 => {
                let at_greatest_depth = self.d == before.shape().depth;
                let told = self.next_leaf.filter(|_| at_greatest_depth);
                let leaf = told.unwrap_or(leaves::picked(self.d, choice));
                let failed = is_less(before.value_of(leaf), self.item);
                if !has_tried(thread, leaf, failed, (before, after)) {
                    return Err(Disagreement::OtherLeaf { thread, due: leaf });
                }
                if at_greatest_depth {
                    self.next_leaf = Some(if failed { leaves::next(leaf) } else { leaf });
                }
            }
            _ => {}
        }
        Ok(())
    }
}

/// Whether a turn at I2 has read this leaf: the first copy is that of the leaf, and where the try
/// has not failed, this is the leaf whose ancestors are searched.
fn has_tried(thread: u32, leaf: u32, failed: bool, (before, after): (&Queue, &Queue)) -> bool {
    after.copy(thread, 0) == before.read(leaf) && (failed || after.field(thread, LEAF) == leaf)
}

/// Items that one access has removed and that are to be answered, in this order: one by a take,
/// whose cell is free, or those of a list, whose cells are in the thread's hand.
#[derive(Clone, PartialEq, Eq, Hash)]
struct Owed {
    items: Vec<Item>,
    in_hand: bool,
}

impl Operation {
    /// The items in the cells that the thread holds.
    fn held(&self) -> &[Item] {
        match self {
            Operation::Put(put) => slice::from_ref(&put.item),
            Operation::Owes(Owed { items, in_hand: true }) => items,
            _ => &[],
        }
    }
}

/// The moment at which a take or a list is played on the bag.
#[derive(Clone, Copy, PartialEq, Eq, Hash)]
pub enum Order {
    /// At its deciding access, as document 01 says.
    Deciding,
    /// At its answers: one of document 01's mistakes with good looks.
    Answering,
}

/// The bag and each thread's operation.
#[derive(Clone, PartialEq, Eq, Hash)]
pub struct Ledger {
    order: Order,
    /// The items in the bag, sorted by key, then by tag.
    bag: Vec<Item>,
    operations: Vec<Operation>,
    /// Each thread's permission, as it was last set.
    permissions: Vec<u32>,
}

impl Ledger {
    /// The ledger of a queue at rest.
    pub fn of(queue: &Queue, order: Order) -> Ledger {
        let threads = queue.shape().threads;
        let operations = vec![Operation::None; threads as usize];
        let permissions = (1..=threads).map(|thread| queue.field(thread, PERMISSION)).collect();
        Ledger { order, bag: queue.items(), operations, permissions }
    }

    /// Whether the thread is between a beginning and its end.
    pub fn is_busy(&self, thread: u32) -> bool {
        self.operations[thread as usize - 1] != Operation::None
    }

    /// The threads with a put of which no turn has been served.
    pub fn with_begun_puts(&self) -> impl Iterator<Item = u32> + '_ {
        let begun = |operation: &Operation| matches!(operation, Operation::Put(Put { d: 0, .. }));
        (1..).zip(&self.operations).filter(move |(_, operation)| begun(operation)).map(|(t, _)| t)
    }

    /// Plays a beginning, given its result and the queue before and after it.
    pub fn called(
        &mut self,
        thread: u32,
        call: Call,
        got: Result<(), Refusal>,
        (before, after): (&Queue, &Queue),
    ) -> Result<(), Disagreement> {
        self.look_at_changes(thread, got.is_err(), (before, after))?;
        let due = self.due(thread, call, before);
        if got != due {
            return Err(Disagreement::Beginning { got, due });
        }
        if got.is_ok() {
            self.operations[thread as usize - 1] = match call {
                Call::Put(item) => Operation::Put(Put::begun(item)),
                Call::Take => Operation::Take,
                Call::List => Operation::List,
            };
        }
        Ok(())
    }

    /// Plays a permit, given its result and the queue before and after it.
    pub fn permitted(
        &mut self,
        thread: u32,
        permission: u32,
        got: Result<(), Refusal>,
        (before, after): (&Queue, &Queue),
    ) -> Result<(), Disagreement> {
        let due = match (thread, permission) {
            _ if !(1..=before.shape().threads).contains(&thread) => Err(Refusal::Thread),
            (_, 0..=3) => Ok(()),
            _ => Err(Refusal::Shape),
        };
        if got != due {
            return Err(Disagreement::Permit { got, due });
        }
        let mut changed = before.clone();
        if got.is_ok() {
            changed.set_field(thread, PERMISSION, permission);
            self.permissions[thread as usize - 1] = permission;
        }
        if *after == changed {
            Ok(())
        } else {
            Err(Disagreement::PermitChangedMore)
        }
    }

    /// Plays a turn with this choice, given its answer and the queue before and after it.
    pub fn turned(
        &mut self,
        thread: u32,
        choice: u32,
        answer: Answer,
        (before, after): (&Queue, &Queue),
    ) -> Result<(), Disagreement> {
        self.look_at_changes(thread, answer == Answer::Idle, (before, after))?;
        let removed = removed(thread, (before, after));
        self.look_at_permission(thread, answer, removed.is_some(), before)?;
        if let (Operation::Put(put), Answer::Moved) =
            (&mut self.operations[thread as usize - 1], answer)
        {
            put.moved(thread, choice, (before, after))?;
        }
        let operation = mem::replace(&mut self.operations[thread as usize - 1], Operation::None);
        self.operations[thread as usize - 1] = self.played(operation, answer, removed)?;
        Ok(())
    }

    /// The thread's operation after a turn that has been played on the bag.
    fn played(
        &mut self,
        operation: Operation,
        answer: Answer,
        removed: Option<Owed>,
    ) -> Result<Operation, Disagreement> {
        match (operation, answer, removed) {
            (_, Answer::Refused(refusal), _) => Err(Disagreement::RefusedTurn(refusal)),
            (Operation::None, Answer::Idle, None) => Ok(Operation::None),
            (Operation::None, ..) => Err(Disagreement::NoSuchOperation),
            (operation, Answer::Moved, None) => Ok(operation),
            (Operation::Put(_) | Operation::Take | Operation::List, Answer::Withdrawn, None) => {
                Ok(Operation::None)
            }
            (Operation::Put(Put { item, .. }), Answer::Inserted, None) => {
                let at = self.bag.partition_point(|&held| held < item);
                self.bag.insert(at, item);
                Ok(Operation::None)
            }
            (Operation::Take | Operation::List, Answer::Empty, None) => {
                if self.bag.is_empty() {
                    Ok(Operation::None)
                } else {
                    Err(Disagreement::EmptyAnswer)
                }
            }
            (Operation::Take, Answer::Moved, Some(owed @ Owed { in_hand: false, .. }))
            | (Operation::List, Answer::Moved, Some(owed @ Owed { in_hand: true, .. })) => {
                self.remove(&owed.items, Order::Deciding)?;
                Ok(Operation::Owes(owed))
            }
            (Operation::Owes(mut owed), Answer::Took { key, tag }, None) => {
                let due = owed.items.remove(0);
                if due != (key, tag) {
                    return Err(Disagreement::OtherAnswer { got: (key, tag), due });
                }
                self.remove(&[due], Order::Answering)?;
                Ok(if owed.items.is_empty() { Operation::None } else { Operation::Owes(owed) })
            }
            _ => Err(Disagreement::NoSuchOperation),
        }
    }

    /// One copy of each of these items leaves the bag, if this is the ledger's moment for it. The
    /// first is to be the least of all.
    fn remove(&mut self, items: &[Item], moment: Order) -> Result<(), Disagreement> {
        if moment != self.order {
            return Ok(());
        }
        let least_before = self.bag.first().copied();
        for &item in items {
            let at = self.bag.binary_search(&item).map_err(|_| Disagreement::NotHeld(item))?;
            self.bag.remove(at);
        }
        match items {
            [first, ..] if Some(*first) != least_before => Err(Disagreement::NotLeast(*first)),
            _ => Ok(()),
        }
    }

    /// What a beginning is to result in, by permission, operation and the cells in use: those in
    /// the tree and those held by puts and lists.
    fn due(&self, thread: u32, call: Call, queue: &Queue) -> Result<(), Refusal> {
        let is_put = matches!(call, Call::Put(_));
        let needed = if is_put { 1 } else { 2 };
        let held: usize = self.operations.iter().map(|operation| operation.held().len()).sum();
        let cells_used = queue.tree().count() + held;
        if self.permissions[thread as usize - 1] & needed == 0 {
            Err(Refusal::Permission)
        } else if self.is_busy(thread) {
            Err(Refusal::Busy)
        } else if is_put && cells_used == queue.shape().cells as usize {
            Err(Refusal::NoFreeCell)
        } else {
            Ok(())
        }
    }

    /// What takes effect has its permission just before. A turn of an operation that has not taken
    /// effect is withdrawn exactly where it lacks it; while it mends, which helps others, it needs
    /// none.
    fn look_at_permission(
        &self,
        thread: u32,
        answer: Answer,
        removed: bool,
        before: &Queue,
    ) -> Result<(), Disagreement> {
        let needed = match self.operations[thread as usize - 1] {
            Operation::Put(_) => Some(1),
            Operation::Take | Operation::List => Some(2),
            Operation::None | Operation::Owes(_) => None,
        };
        let permission = self.permissions[thread as usize - 1];
        let lacks = needed.is_some_and(|needed| permission & needed == 0);
        let mends = (place::M1..=place::M6).contains(&before.place(thread));
        if lacks && (removed || matches!(answer, Answer::Inserted | Answer::Empty)) {
            return Err(Disagreement::DecidedWithoutPermission);
        }
        match (answer == Answer::Withdrawn, lacks && !mends) {
            (true, false) => Err(Disagreement::WithdrawnInVain),
            (false, true) => Err(Disagreement::NotWithdrawn),
            _ => Ok(()),
        }
    }

    fn look_at_changes(
        &self,
        thread: u32,
        in_vain: bool,
        (before, after): (&Queue, &Queue),
    ) -> Result<(), Disagreement> {
        if before == after {
            Ok(())
        } else if self.permissions[thread as usize - 1] == 0 && !self.is_busy(thread) {
            Err(Disagreement::EmptyListActed)
        } else if in_vain {
            Err(Disagreement::ChangedInVain)
        } else {
            Ok(())
        }
    }

    /// What holds at every moment: the tree holds what the bag holds, unless the bag is behind by
    /// its order; each thread has the permission that was set, is idle or not, and holds cells, as
    /// its operation has it; each cell is in the tree, held or free, once, and the free ones are
    /// wiped; and where nothing is under way, all nodes are clean.
    pub fn look_at(&self, queue: &Queue) -> Result<(), Disagreement> {
        if self.order == Order::Deciding && self.bag != queue.items() {
            return Err(Disagreement::OtherTree);
        }
        let mut cells: Vec<u32> = queue.tree().chain(queue.free()).collect();
        for (thread, operation) in (1..).zip(&self.operations) {
            if queue.field(thread, PERMISSION) != self.permissions[thread as usize - 1] {
                return Err(Disagreement::OtherPermission { thread });
            }
            if (queue.place(thread) == place::IDLE) != (*operation == Operation::None) {
                return Err(Disagreement::OtherIdleness { thread });
            }
            let held: Vec<u32> = queue.held_by(thread).collect();
            if !held.iter().map(|&cell| queue.item(cell)).eq(operation.held().iter().copied()) {
                return Err(Disagreement::OtherHand { thread });
            }
            cells.extend(held);
        }
        cells.sort_unstable();
        if !cells.into_iter().eq(1..=queue.shape().cells) {
            return Err(Disagreement::OtherCells);
        }
        if queue.free().any(|cell| queue.item(cell) != (0, 0)) {
            return Err(Disagreement::FreeCellNotWiped);
        }
        let at_rest = self.operations.iter().all(|operation| *operation == Operation::None);
        if at_rest && !queue.all_clean() {
            return Err(Disagreement::DirtyAtRest);
        }
        Ok(())
    }
}

/// What a turn of this thread has removed: an E2 that succeeds, which goes to M1, the root's head
/// just before, an 18 the root's list.
fn removed(thread: u32, (before, after): (&Queue, &Queue)) -> Option<Owed> {
    let (most, in_hand) = match (before.place(thread), after.place(thread)) {
        (place::E2, place::M1) => (1, false),
        (place::P18, place::M1) => (usize::MAX, true),
        _ => return None,
    };
    let items: Vec<Item> = before.list_of(1).map(|cell| before.item(cell)).take(most).collect();
    (!items.is_empty()).then_some(Owed { items, in_hand })
}

/// With all nodes clean, a take alone makes the accesses of its figure, whichever thread begins it.
pub fn look_at_takes(queue: &Queue) -> Result<(), Disagreement> {
    if !queue.all_clean() {
        return Ok(());
    }
    let due = queue.take_cost();
    for thread in queue.may_take() {
        let got = queue.accesses_of_a_take_alone(thread);
        if got != due {
            return Err(Disagreement::OtherCost { thread, got, due });
        }
    }
    Ok(())
}
