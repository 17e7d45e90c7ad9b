//! The cases of request 5: permissions set, operations withdrawn, and what has decided. Then turns
//! of threads with every permission at every place, in regions of every kind.

use std::collections::BTreeMap;

use checks::fields::place::{E1, E2, GREATEST, I1, I2, I3, I4, I5, I6, I7, I8, IDLE, M1, P17, P18};
use checks::fields::{Words, OWN_CELL, PERMISSION, PLACE, TRIES, WAITING};
use checks::queue::{Queue, SMALL};
use checks::random::Random;
use mound::Answer::{self, Idle, Inserted, Moved, Refused, Withdrawn};
use mound::{Refusal, Served, Shape};

use crate::any_region::any_region;
use crate::both;
use crate::cases::Case;
use crate::items::{answered, put, took, with_root, TAG_2, TAG_9};
use crate::runs::run_turns;

/// Permissions: none, put alone, take alone, both.
const NONE: u32 = 0;
const PUT: u32 = 1;
const TAKE: u32 = 2;
const BOTH: u32 = 3;

/// Case a.
#[test]
fn a_put_is_withdrawn_and_its_cell_is_the_next_put_s() {
    let mut case = Case::laid_out(Shape { depth: 1, cells: 1, ..SMALL }, &[3, 3]);
    let before = case.queue.clone();
    assert_eq!([case.put_item(1, TAG_9), case.put_item(2, TAG_2)], [0, 10]);
    assert_eq!(case.permit(1, TAKE), 0);
    assert_eq!(case.turns(&[1]), [Withdrawn]);
    assert_eq!(case.permit(1, BOTH), 0);
    assert!(case.queue == before);

    assert_eq!(case.put_item(2, TAG_2), 0);
    assert_eq!(case.queue.field(2, OWN_CELL), 1);
    assert_eq!(answered(&mut case, 2, 4), Inserted);
    assert_eq!(case.queue.items(), [TAG_2]);
}

/// At each of the four turns of a put at the root, and of the nine of a put that grows the tree.
#[test]
fn a_put_is_withdrawn_at_any_of_its_turns() {
    for (case, turns) in [(Case::fresh as fn() -> Case, 4), (|| with_root(TAG_2), 9)] {
        for made in 0..turns {
            let mut case = case();
            let (items, free) = (case.queue.items(), case.queue.free().collect::<Vec<u32>>());
            assert_eq!(case.put_item(1, TAG_9), 0);
            assert_eq!(case.turns(&vec![1; made]), vec![Moved; made]);
            assert_eq!(case.permit(1, NONE), 0);
            assert_eq!(case.turns(&[1, 1]), [Withdrawn, Idle]);
            assert_eq!(case.queue.items(), items);
            assert!(case.queue.free().eq(free));
            assert_eq!(case.put_item(2, TAG_9), 0);
        }
    }
}

/// Case b, and the same of a list.
#[test]
fn a_take_is_withdrawn_at_e2_and_the_item_is_still_there() {
    for (begin, place) in [(Case::take as fn(&mut Case, u32) -> u32, E2), (Case::list, P18)] {
        let mut case = with_root(TAG_9);
        let before = case.queue.clone();
        assert_eq!(begin(&mut case, 1), 0);
        assert_eq!(case.turns(&[1]), [Moved]);
        assert_eq!(case.queue.place(1), place);
        assert_eq!(case.permit(1, PUT), 0);
        assert_eq!(case.turns(&[1, 1]), [Withdrawn, Idle]);
        assert_eq!(case.permit(1, BOTH), 0);
        assert!(case.queue == before);
        assert_eq!(begin(&mut case, 2), 0);
        let answers = case.turns(&[2; 6]);
        assert!(answers.contains(&took(TAG_9)));
    }
}

/// At E1 and 17, where nothing is read, not even that the queue is empty.
#[test]
fn a_take_is_withdrawn_at_its_first_turn() {
    for begin in [Case::take, Case::list] {
        let mut case = Case::fresh();
        assert_eq!([begin(&mut case, 1), case.permit(1, PUT)], [0, 0]);
        assert_eq!(case.turns(&[1]), [Withdrawn]);
        assert_eq!(case.queue.place(1), IDLE);
    }
}

/// Case c: mending and the answer do not look at the permission.
#[test]
fn a_take_past_e2_answers_took_all_the_same() {
    let mut case = with_root(TAG_9);
    assert_eq!(case.take(1), 0);
    assert_eq!(case.turns(&[1; 2]), [Moved; 2]);
    assert_eq!([case.queue.place(1), case.permit(1, NONE)], [M1, 0]);
    assert_eq!(case.turns(&[1; 4]), [Moved, Moved, took(TAG_9), Idle]);
    assert_eq!(case.take(1), 8);
}

/// The same of a list: its hand-outs do not look at it either.
#[test]
fn a_list_past_18_hands_out_all_the_same() {
    let mut case = with_root(TAG_9);
    put(&mut case, TAG_2, 4);
    assert_eq!(case.list(1), 0);
    assert_eq!(case.turns(&[1; 2]), [Moved; 2]);
    assert_eq!([case.queue.place(1), case.permit(1, NONE)], [M1, 0]);
    assert_eq!(case.turns(&[1; 4]), [Moved, Moved, Moved, took(TAG_2)]);
    assert_eq!(case.turns(&[1; 2]), [took(TAG_9), Idle]);
}

/// Another take has left the root dirty: it is mended first, and E1 or 17 then withdraws.
#[test]
fn a_mending_that_goes_back_is_withdrawn_there() {
    for (begin, place) in [(Case::take as fn(&mut Case, u32) -> u32, E1), (Case::list, P17)] {
        let mut case = with_root(TAG_9);
        assert_eq!([case.take(2), begin(&mut case, 1)], [0, 0]);
        assert_eq!(case.turns(&[2, 2, 1]), [Moved; 3]);
        assert_eq!([case.queue.place(1), case.permit(1, PUT)], [M1, 0]);
        // M1, M2, M6.
        assert_eq!(case.turns(&[1; 3]), [Moved; 3]);
        assert_eq!(case.queue.place(1), place);
        assert!(case.queue.all_clean());
        assert_eq!(case.turns(&[1, 1]), [Withdrawn, Idle]);
        assert_eq!(case.turns(&[2; 2]), [Moved, took(TAG_9)]);
    }
}

/// Case d.
#[test]
fn an_operation_goes_on_if_its_permission_is_back_before_its_next_turn() {
    let mut case = Case::fresh();
    assert_eq!(case.put_item(1, TAG_9), 0);
    for _ in 0..3 {
        assert_eq!([case.permit(1, NONE), case.permit(1, PUT)], [0, 0]);
        assert_eq!(case.turns(&[1]), [Moved]);
    }
    assert_eq!([case.permit(1, NONE), case.permit(1, PUT)], [0, 0]);
    assert_eq!(case.turns(&[1]), [Inserted]);
    assert_eq!([case.take(1), case.permit(1, TAKE), case.take(1)], [8, 0, 0]);
    assert_eq!([case.permit(1, NONE), case.permit(1, TAKE)], [0, 0]);
    assert_eq!(case.turns(&[1; 5]), [Moved, Moved, Moved, Moved, took(TAG_9)]);
}

/// Each operation looks at its own kind alone, and at its own thread's.
#[test]
fn the_other_permission_is_not_looked_at() {
    let mut case = with_root(TAG_9);
    assert_eq!([case.take(1), case.put_item(2, TAG_2)], [0, 0]);
    assert_eq!([case.permit(1, TAKE), case.permit(2, PUT)], [0, 0]);
    assert_eq!(case.turns(&[1, 2, 2, 2, 2]), [Moved, Moved, Moved, Moved, Inserted]);
    assert_eq!(case.permit(2, NONE), 0);
    assert_eq!(case.turns(&[1; 6]), [Moved, Moved, Moved, Moved, Moved, took(TAG_2)]);
}

/// Case e, in a region whose other refusals are those of every call: 7, 3, then 1.
#[test]
fn a_permission_of_4_is_1_and_thread_0_is_3_before_it() {
    for permission in [4, 5, 255, 256, 1 << 31, u32::MAX] {
        let mut case = Case::fresh();
        assert_eq!(case.permit(1, permission), 1);
        assert_eq!([0, 3, 65, u32::MAX].map(|thread| case.permit(thread, permission)), [3; 4]);
        assert_eq!([0, 3, 65, u32::MAX].map(|thread| case.permit(thread, BOTH)), [3; 4]);
        assert!(case.queue == Case::fresh().queue);
        case.queue.set_field(2, PERMISSION, 4);
        for (thread, permission) in [(1, BOTH), (1, permission), (0, BOTH), (0, permission)] {
            assert_eq!(case.permit(thread, permission), 7);
        }
    }
}

/// Withdrawn turns are answered and served, but are no accesses, and the run goes on.
#[test]
fn a_withdrawn_turn_is_served_and_no_access() {
    let begun = || {
        let mut case = with_root(TAG_9);
        assert_eq!([case.put_item(1, TAG_2), case.take(2), case.permit(1, NONE)], [0; 3]);
        case
    };
    let turns = [(2, 0), (1, 0), (2, 0), (1, 0), (2, 0), (2, 0), (2, 0)];
    let answers = [Moved, Withdrawn, Moved, Idle, Moved, Moved, took(TAG_9)];
    for (limit, served) in [(0, 0), (1, 1), (2, 3), (3, 5), (4, 6), (5, 7), (u32::MAX, 7)] {
        let ran = begun().run(&turns, limit);
        assert_eq!(ran.result, Ok(Served { turns: served, accesses: limit.min(5) }));
        assert_eq!(ran.answers, answers[..served as usize]);
    }
}

/// A permission is one word of the record, whoever has it and whatever the thread does.
#[test]
fn every_thread_and_permission_in_any_readable_region() {
    let random = &mut Random::new(130);
    for _ in 0..600 {
        let shape = random.shape(5);
        let region = Words::any_readable(random, shape);
        let threads = [0, 1, shape.threads, shape.threads + 1, 65, 1 << 31, u32::MAX];
        for thread in threads {
            for permission in [0, 1, 2, 3, 4, 5, 256, (1 << 16) + 1, 1 << 31, u32::MAX] {
                let mut left = region.bytes();
                let number = both::permit(random, &mut left, thread, permission);
                let due = match (thread, permission) {
                    _ if !(1..=shape.threads).contains(&thread) => 3,
                    (_, 0..=3) => 0,
                    _ => 1,
                };
                assert_eq!(number, due, "{permission} to thread {thread}");
                if number == 0 {
                    let changed = region.with(region.thread(thread) + PERMISSION, permission);
                    assert!(left == changed.bytes(), "{permission} to thread {thread}");
                }
            }
        }
    }
}

/// How a turn ends at a place that needs a permission.
#[derive(Clone, Copy, Debug, PartialEq, Eq, PartialOrd, Ord)]
enum Ending {
    /// The permission is there: as always.
    Permitted,
    Withdrawn,
    /// Withdrawn, though with the permission it would be refused 11.
    WithdrawnBefore11,
    /// Refused 7, as with the permission.
    Refused7,
    /// Refused 7, since there is no own cell to free.
    NoOwnCell,
}

/// What a turn of this thread is to answer and to leave, by the answer and the queue that it would
/// have with every permission.
fn due(queue: &Queue, thread: u32, choice: u32) -> (Ending, Answer, Queue) {
    const REFUSED_7: Answer = Refused(Refusal::Unreadable);
    let mut with_all = queue.clone();
    with_all.set_field(thread, PERMISSION, BOTH);
    let answer = with_all.turn(thread, choice);
    with_all.set_field(thread, PERMISSION, queue.field(thread, PERMISSION));
    match (queue.lacks_permission(thread), answer, queue.withdrawn(thread)) {
        (false, ..) => (Ending::Permitted, answer, with_all),
        (true, REFUSED_7, _) => (Ending::Refused7, REFUSED_7, queue.clone()),
        (true, _, None) => (Ending::NoOwnCell, REFUSED_7, queue.clone()),
        (true, Refused(_), Some(after)) => (Ending::WithdrawnBefore11, Withdrawn, after),
        (true, _, Some(after)) => (Ending::Withdrawn, Withdrawn, after),
    }
}

/// The endings at the places that need a permission, where it lacks: what an access names may be
/// missing at all but I1, E1 and 17; a put without an own cell is refused at I6 and I8 in any case.
const ENDINGS: [(u32, &[Ending]); 12] = {
    use Ending::{NoOwnCell, Refused7, Withdrawn, WithdrawnBefore11};
    [
        (I1, &[Withdrawn, NoOwnCell]),
        (I2, &[Withdrawn, Refused7, NoOwnCell]),
        (I3, &[Withdrawn, Refused7, NoOwnCell]),
        (I4, &[Withdrawn, Refused7, NoOwnCell]),
        (I5, &[Withdrawn, Refused7, NoOwnCell]),
        (I6, &[Withdrawn, WithdrawnBefore11, Refused7]),
        (I7, &[Withdrawn, Refused7, NoOwnCell]),
        (I8, &[Withdrawn, WithdrawnBefore11, Refused7]),
        (E1, &[Withdrawn]),
        (E2, &[Withdrawn, WithdrawnBefore11, Refused7]),
        (P17, &[Withdrawn]),
        (P18, &[Withdrawn, WithdrawnBefore11, Refused7]),
    ]
};

/// Any readable region with thread 1 at that place, half of the time with copies that equal their
/// nodes.
fn with_thread_at(random: &mut Random, place: u32) -> Queue {
    let mut queue = any_region(random);
    let tries = queue.field(1, TRIES).min(queue.shape().threshold - 1);
    for (field, value) in [(PLACE, place), (TRIES, tries), (WAITING, 0)] {
        queue.set_field(1, field, value);
    }
    if random.among(0..=1) == 0 {
        queue.match_copies(1);
    }
    queue
}

/// Each ending comes up at each place that can have it, and at no other place.
#[test]
fn turns_at_every_place_with_every_permission() {
    let random = &mut Random::new(131);
    let mut came_up = BTreeMap::<(u32, Ending), u32>::new();
    for place in IDLE..=GREATEST {
        for _ in 0..4000 {
            let mut queue = with_thread_at(random, place);
            let permission = random.among(0..=3);
            assert_eq!(both::permit(random, &mut queue.bytes, 1, permission), 0);
            let choice = random.among_or_extreme(0..=u32::MAX);
            let (ending, answer, after) = due(&queue, 1, choice);
            let ran = run_turns(random, &mut queue, &[(1, choice)], 1);
            assert_eq!(ran.answers, [answer], "at {place} with permission {permission}");
            assert!(queue == after, "at {place} with permission {permission}: {answer:?}");
            *came_up.entry((place, ending)).or_default() += 1;
        }
    }
    println!("{came_up:?}");
    let lacking = ENDINGS.iter().flat_map(|&(place, ends)| ends.iter().map(move |&e| (place, e)));
    let permitted = (IDLE..=GREATEST).map(|place| (place, Ending::Permitted));
    let mut all: Vec<(u32, Ending)> = lacking.chain(permitted).collect();
    all.sort_unstable();
    assert!(came_up.keys().copied().eq(all), "other endings came up");
    let rare = came_up.iter().find(|&(_, &times)| times < 20);
    assert_eq!(rare, None, "came up less than 20 times");
}
