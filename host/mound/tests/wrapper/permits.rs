//! Permissions set while threads are busy or idle: the cases of request 5.

use mound::{calls, Answer, Permission, Refusal, Region, Served, Shape, Turn};

use crate::{BOTH, SHAPE};

/// An empty queue with a cell alone, and two threads that may put and take.
const ONE_CELL: Shape = Shape { depth: 1, cells: 1, ..SHAPE };

fn laid_out(bytes: &mut Vec<u8>, shape: Shape) -> Result<Region<'_>, Refusal> {
    bytes.resize(shape.byte_len()?, 0);
    Region::layout(bytes, shape, &BOTH)
}

/// What a thread answers in this many turns.
fn turns(region: &mut Region, thread: u32, turns: usize) -> Result<Vec<Answer>, Refusal> {
    Ok(region.run(vec![Turn { thread, choice: 0 }; turns], u32::MAX)?.answers().collect())
}

/// A queue that holds key 5 with tag 9.
fn holding(bytes: &mut Vec<u8>) -> Result<Region<'_>, Refusal> {
    let mut region = laid_out(bytes, SHAPE)?;
    region.put(1, 5, 9)?;
    assert_eq!(turns(&mut region, 1, 4)?.last(), Some(&Answer::Inserted));
    Ok(region)
}

const TOOK: Answer = Answer::Took { key: 5, tag: 9 };

/// The beginning of a take or of a list.
type Begin = fn(&mut Region, u32) -> Result<(), Refusal>;
const TAKING: [Begin; 2] =
    [|region, thread| region.take(thread), |region, thread| region.list(thread)];

#[test]
fn case_a_a_withdrawn_put_s_cell_is_another_s() -> Result<(), Refusal> {
    let mut bytes = vec![];
    let mut region = laid_out(&mut bytes, ONE_CELL)?;
    region.put(1, 5, 9)?;
    assert_eq!(region.put(2, 6, 9), Err(Refusal::NoFreeCell));
    region.permit(1, Permission::NONE)?;
    assert_eq!(turns(&mut region, 1, 2)?, [Answer::Withdrawn, Answer::Idle]);
    assert_eq!(region.put(1, 5, 9), Err(Refusal::Permission));
    region.put(2, 6, 9)?;
    assert_eq!(turns(&mut region, 2, 4)?.last(), Some(&Answer::Inserted));
    Ok(())
}

#[test]
fn case_b_a_take_withdrawn_at_e2_leaves_the_item() -> Result<(), Refusal> {
    for begin in TAKING {
        let mut bytes = vec![];
        let mut region = holding(&mut bytes)?;
        begin(&mut region, 1)?;
        assert_eq!(turns(&mut region, 1, 1)?, [Answer::Moved]);
        region.permit(1, Permission::PUT)?;
        assert_eq!(turns(&mut region, 1, 1)?, [Answer::Withdrawn]);
        begin(&mut region, 2)?;
        assert!(turns(&mut region, 2, 6)?.contains(&TOOK));
    }
    Ok(())
}

#[test]
fn case_c_a_take_past_e2_answers_all_the_same() -> Result<(), Refusal> {
    for begin in TAKING {
        let mut bytes = vec![];
        let mut region = holding(&mut bytes)?;
        begin(&mut region, 1)?;
        assert_eq!(turns(&mut region, 1, 2)?, [Answer::Moved; 2]);
        region.permit(1, Permission::NONE)?;
        assert!(turns(&mut region, 1, 4)?.contains(&TOOK));
        assert_eq!(begin(&mut region, 1), Err(Refusal::Permission));
    }
    Ok(())
}

#[test]
fn case_d_a_permission_that_is_back_in_time() -> Result<(), Refusal> {
    let mut bytes = vec![];
    let mut region = laid_out(&mut bytes, SHAPE)?;
    region.put(1, 5, 9)?;
    for answer in [Answer::Moved, Answer::Moved, Answer::Moved, Answer::Inserted] {
        region.permit(1, Permission::TAKE)?;
        region.permit(1, Permission::PUT)?;
        assert_eq!(turns(&mut region, 1, 1)?, [answer]);
    }
    Ok(())
}

/// A value above 3 is no `Permission`; the library refuses it as 1, and thread 0 as 3 before it.
#[test]
fn case_e_refusals_in_their_order() -> Result<(), Refusal> {
    let mut bytes = vec![];
    let mut region = laid_out(&mut bytes, SHAPE)?;
    for thread in [0, 3, u32::MAX] {
        assert_eq!(region.permit(thread, Permission::PUT), Err(Refusal::Thread));
    }
    assert_eq!(Permission::try_from(4_u32), Err(Refusal::Shape));
    let before = bytes.clone();
    let refused = [(1, 4), (1, u32::MAX), (0, 4), (3, 4)];
    let numbers = refused.map(|(thread, value)| calls::permit(&mut bytes, thread, value));
    assert_eq!(numbers, [1, 1, 3, 3]);
    assert_eq!(bytes, before);
    let (unreadable, _) = bytes.split_at_mut(380);
    assert_eq!(calls::permit(unreadable, 0, 4), 7);
    Ok(())
}

/// Each value for each thread, and no other byte.
#[test]
fn a_permission_is_one_word() -> Result<(), Refusal> {
    let mut bytes = vec![];
    let mut region = holding(&mut bytes)?;
    region.take(1)?;
    let mut due = region.as_bytes().to_vec();
    for value in [0_u8, 1, 2, 3] {
        for thread in [1, 2] {
            region.permit(thread, value.try_into()?)?;
            due[96 + 144 * (thread as usize - 1)..][0] = value;
            assert_eq!(region.as_bytes(), due);
        }
    }
    assert_eq!(region.check(), Ok(()));
    Ok(())
}

/// Of a run's turns a withdrawn one is served but makes no access, and the next ones come.
#[test]
fn a_run_goes_on_after_a_withdrawn_turn() -> Result<(), Refusal> {
    let mut bytes = vec![];
    let mut region = holding(&mut bytes)?;
    region.put(1, 4, 9)?;
    region.take(2)?;
    region.permit(1, Permission::NONE)?;
    let run = region.run([2, 1, 2, 1].map(|thread| Turn { thread, choice: 0 }), 2)?;
    assert_eq!(run.served(), Served { turns: 3, accesses: 2 });
    assert!(run.answers().eq([Answer::Moved, Answer::Withdrawn, Answer::Moved]));
    Ok(())
}
