//! Beginning a put, a take or a list, and setting a permission: the refusals in order, and each
//! word afterwards.

use checks::beginnings::with_every_set_of_reasons;
use checks::fields::{place, Words, FIRST_FREE_CELL, KEY, OWN_CELL, PERMISSION, PLACE, TAG};
use checks::queue::{Call, Queue};
use checks::random::Random;

#[test]
fn the_first_reason_in_order_refuses() {
    for beginning in with_every_set_of_reasons() {
        let before = Queue { bytes: beginning.region.clone() };
        let put = Call::Put((beginning.key, beginning.tag));
        let [take, list] = [Call::Take, Call::List].map(|call| (call, beginning.take));
        for (call, due) in [(put, beginning.put), take, list] {
            let mut after = before.clone();
            assert_eq!(after.begin(beginning.thread, call), due);
            assert_eq!(after == before, due.is_err());
        }
        for (permission, due) in beginning.permits() {
            let mut after = before.clone();
            assert_eq!(after.permit(beginning.thread, permission), due);
            assert!(after == before || due.is_ok());
        }
    }
}

/// Each permission grants what it lists.
#[test]
fn a_permission_grants_what_it_lists() {
    for (permission, may_put, may_take) in
        [(0, false, false), (1, true, false), (2, false, true), (3, true, true)]
    {
        for (call, may_begin) in
            [(Call::Put((5, 0)), may_put), (Call::Take, may_take), (Call::List, may_take)]
        {
            let mut queue = Queue::laid_out(checks::queue::SMALL, &[permission; 2]);
            assert_eq!(queue.begin(1, call).is_ok(), may_begin);
        }
    }
}

/// Any readable region in which thread 1 may begin.
fn ready(random: &mut Random) -> Queue {
    let shape = random.shape(5);
    let mut queue = Queue { bytes: Words::any_readable(random, shape).bytes() };
    queue.set_word(FIRST_FREE_CELL, random.among(1..=shape.cells));
    queue.set_field(1, PERMISSION, 3);
    queue.set_field(1, PLACE, place::IDLE);
    queue.set_field(1, checks::fields::WAITING, 0);
    queue
}

#[test]
fn a_put_takes_the_first_free_cell() {
    let random = &mut Random::new(80);
    for _ in 0..5000 {
        let mut queue = ready(random);
        let (key, tag) = (random.among(0..=u32::MAX - 1), random.among(0..=65_535));
        let mut due = queue.clone();
        let own_cell = due.word(FIRST_FREE_CELL);
        due.set_word(FIRST_FREE_CELL, due.cell(own_cell)[2]);
        due.set_words(due.cell_at(own_cell), [key, tag, 0]);
        for (field, value) in [(PLACE, place::I1), (KEY, key), (TAG, tag), (OWN_CELL, own_cell)] {
            due.set_field(1, field, value);
        }
        assert_eq!(queue.put(1, key, tag), Ok(()));
        assert!(queue == due);
    }
}

#[test]
fn a_take_or_a_list_sets_the_place_alone() {
    let random = &mut Random::new(81);
    for _ in 0..5000 {
        let mut queue = ready(random);
        let mut due = queue.clone();
        let (call, place) = random.one_of(&[(Call::Take, place::E1), (Call::List, place::P17)]);
        due.set_field(1, PLACE, place);
        assert_eq!(queue.begin(1, call), Ok(()));
        assert!(queue == due);
    }
}

#[test]
fn a_permit_sets_the_permission_alone() {
    let random = &mut Random::new(82);
    for _ in 0..5000 {
        let shape = random.shape(5);
        let mut queue = Queue { bytes: Words::any_readable(random, shape).bytes() };
        let thread = random.among(1..=shape.threads);
        for permission in 0..=3 {
            let mut due = queue.clone();
            due.set_field(thread, PERMISSION, permission);
            assert_eq!(queue.permit(thread, permission), Ok(()));
            assert!(queue == due);
        }
    }
}
