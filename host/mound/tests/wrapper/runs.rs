//! Runs: turns in, answers out.

use mound::{Answer, NotAnAnswer, Permission, Refusal, Region, Run, Served, Shape, Turn};

use crate::{BOTH, SHAPE};

/// A turn of each of these threads, with choice 0.
fn turns_of<const N: usize>(threads: [u32; N]) -> [Turn; N] {
    threads.map(|thread| Turn { thread, choice: 0 })
}

/// A region in which thread 1 has begun a put of key 5 and tag 9.
fn putting(bytes: &mut Vec<u8>) -> Result<Region<'_>, Refusal> {
    bytes.resize(SHAPE.byte_len()?, 0);
    let mut region = Region::layout(bytes, SHAPE, &BOTH)?;
    region.put(1, 5, 9)?;
    Ok(region)
}

#[test]
fn turns_come_as_an_array_a_slice_or_an_iterator() -> Result<(), Refusal> {
    let mut bytes = vec![];
    let mut region = putting(&mut bytes)?;
    let turns = turns_of([1, 2]);
    assert!(region.run(turns, u32::MAX)?.answers().eq([Answer::Moved, Answer::Idle]));
    assert!(region.run(&turns[..], u32::MAX)?.answers().eq([Answer::Moved, Answer::Idle]));
    assert!(region.run(turns.iter().rev(), u32::MAX)?.answers().eq([Answer::Idle, Answer::Moved]));
    let one = std::iter::once(Turn { thread: 1, choice: 7 });
    assert!(region.run(one, u32::MAX)?.answers().eq([Answer::Inserted]));
    assert_eq!(region.run([] as [Turn; 0], u32::MAX)?.answers().len(), 0);
    Ok(())
}

#[test]
fn a_run_has_an_answer_for_each_turn_served() -> Result<(), Refusal> {
    let mut bytes = vec![];
    let mut region = putting(&mut bytes)?;
    region.take(2)?;
    let run = region.run(turns_of([1, 2, 3, 2, 1]), 3)?;
    assert_eq!(run.served(), Served { turns: 5, accesses: 3 });
    let no_thread = Answer::Refused(Refusal::Thread);
    let answers = [Answer::Moved, Answer::Empty, no_thread, Answer::Idle, Answer::Moved];
    assert!(run.answers().eq(answers));
    assert_eq!(run.answers().len(), 5);
    assert!(run.answers().rev().eq(answers.into_iter().rev()));
    assert!(format!("{run:?}").contains("Moved, Empty, Refused(Thread), Idle, Moved"));

    let run = region.run(turns_of([1, 1, 1]), 0)?;
    assert_eq!((run.served(), run.answers().len()), (Served::default(), 0));
    let run = region.run(turns_of([1, 1, 1]), 2)?;
    assert_eq!(run.served(), Served { turns: 2, accesses: 2 });
    assert_eq!(run.answers().last(), Some(Answer::Inserted));
    Ok(())
}

#[test]
fn a_run_has_at_most_4096_turns() -> Result<(), Refusal> {
    let mut bytes = vec![];
    let mut region = putting(&mut bytes)?;
    let turn = Turn { thread: 1, choice: 0 };
    let before = region.as_bytes().to_vec();
    assert_eq!(region.run([turn; 4097], u32::MAX).err(), Some(Refusal::Schedule));
    assert_eq!(region.run(std::iter::repeat(turn), 1).err(), Some(Refusal::Schedule));
    assert_eq!(region.as_bytes(), before);
    let run = region.run([turn; Turn::MOST], u32::MAX)?;
    assert_eq!(run.served(), Served { turns: 4096, accesses: 4 });
    Ok(())
}

#[test]
fn a_run_is_used_again() -> Result<(), Refusal> {
    let mut bytes = vec![];
    let mut region = putting(&mut bytes)?;
    let mut run = Run::default();
    assert_eq!(run.answers().len(), 0);
    let served = region.run_into(&mut run, turns_of([2, 2, 2, 1]), u32::MAX)?;
    assert_eq!((served, run.served()), (Served { turns: 4, accesses: 1 }, served));
    region.run_into(&mut run, turns_of([1]), u32::MAX)?;
    assert!(run.answers().eq([Answer::Moved]));
    let refused = region.run_into(&mut run, [Turn { thread: 1, choice: 0 }; 4097], u32::MAX);
    assert_eq!(refused, Err(Refusal::Schedule));
    assert_eq!((run.served(), run.answers().len()), (Served::default(), 0));
    region.run_into(&mut run, turns_of([1, 1, 1]), u32::MAX)?;
    assert!(run.answers().eq([Answer::Moved, Answer::Inserted, Answer::Idle]));
    Ok(())
}

#[test]
fn every_answer_has_words_of_its_own() {
    let refusals = (1..=12).map(|number| Refusal::try_from(number).expect("a refusal"));
    let refused = refusals.map(Answer::Refused);
    let took = [(0, 0), (5, 9), (u32::MAX, u32::MAX)].map(|(key, tag)| Answer::Took { key, tag });
    let others = [Answer::Moved, Answer::Idle, Answer::Inserted, Answer::Empty, Answer::Withdrawn];
    for answer in refused.chain(took).chain(others) {
        assert_eq!(Answer::try_from(answer.words()), Ok(answer));
        assert_eq!(<[u32; 3]>::from(answer), answer.words());
    }
    let unused = [0, 1, 2, 4, 6].into_iter().flat_map(|code| [[code, 1, 0], [code, 0, 1]]);
    let no_refusal = [[5, 0, 0], [5, 13, 0], [5, u32::MAX, 0], [5, 3, 1]];
    for words in unused.chain(no_refusal).chain([[7, 0, 0], [u32::MAX; 3]]) {
        assert_eq!(Answer::try_from(words), Err(NotAnAnswer(words)));
    }
}

#[test]
fn answers_come_from_both_ends_and_know_their_number() -> Result<(), Refusal> {
    let mut bytes = vec![];
    let mut region = putting(&mut bytes)?;
    let run = region.run(turns_of([2, 1, 3, 1]), u32::MAX)?;
    let all = [Answer::Idle, Answer::Moved, Answer::Refused(Refusal::Thread), Answer::Moved];
    assert!((&run).into_iter().eq(all));

    let mut answers = run.answers();
    assert_eq!((answers.next(), answers.next_back()), (Some(all[0]), Some(all[3])));
    assert_eq!((answers.len(), answers.size_hint()), (2, (2, Some(2))));
    assert_eq!(format!("{answers:?}"), "[Moved, Refused(Thread)]");
    let again = answers.clone();
    assert_eq!((answers.nth(1), answers.next(), answers.next_back()), (Some(all[2]), None, None));
    assert_eq!((again.clone().count(), again.clone().last()), (2, Some(all[2])));
    assert_eq!(again.rev().nth(1), Some(all[1]));
    assert_eq!(run.answers().nth_back(3), Some(all[0]));
    Ok(())
}

#[test]
fn answers_and_shapes_are_printed_in_plain_words() {
    let refused = Answer::Refused(Refusal::Thread);
    let took = Answer::Took { key: 5, tag: 9 };
    let others = [Answer::Moved, Answer::Idle, Answer::Inserted, Answer::Empty, Answer::Withdrawn];
    assert_eq!(
        others.map(|answer| answer.to_string()),
        ["moved", "idle", "inserted", "empty", "withdrawn"]
    );
    assert_eq!(took.to_string(), "took key 5 tag 9");
    assert_eq!(refused.to_string(), "refused 3: there is no such thread");
    assert_eq!(NotAnAnswer([7, 0, 1]).to_string(), "no answer has the words 7, 0, 1");
    assert_eq!(SHAPE.to_string(), "depth 2, cells 2, threads 2, threshold 1");
    let permissions = [0_u8, 1, 2, 3].map(|value| Permission::try_from(value).expect("at most 3"));
    assert_eq!(permissions.map(|one| one.to_string()), ["none", "put", "take", "put and take"]);
}

/// Each put is always given the first leaf, and keys rise, so that it is soon occupied.
#[test]
fn puts_with_one_choice_use_every_cell() -> Result<(), Refusal> {
    let shape = Shape { depth: 6, cells: 32, ..SHAPE };
    let mut bytes = vec![0; shape.byte_len()?];
    let mut region = Region::layout(&mut bytes, shape, &BOTH)?;
    for key in 0..shape.cells {
        region.put(1, key, 0)?;
        let run = region.run([Turn { thread: 1, choice: 0 }; 64 + 7], u32::MAX)?;
        assert!(run.answers().any(|answer| answer == Answer::Inserted), "{key} was not inserted");
    }
    assert_eq!(region.put(1, 0, 0), Err(Refusal::NoFreeCell));
    Ok(())
}

/// A region in which eight threads have put 800 items, each thread its next one as soon as it was
/// idle; and the items in their order. No two of them are equal.
fn with_800_items(bytes: &mut Vec<u8>) -> Result<(Region<'_>, Vec<(u32, u32)>), Refusal> {
    let shape = Shape { depth: 11, cells: 1024, threads: 8, threshold: 2 };
    bytes.resize(shape.byte_len()?, 0);
    let mut region = Region::layout(bytes, shape, &[Permission::PUT_AND_TAKE; 8])?;
    let mut items: Vec<(u32, u32)> =
        (0..800u32).map(|n| (n.wrapping_mul(2_654_435_761) >> 24, n * 77 % 800)).collect();
    let turns: Vec<Turn> =
        (0..64u32).map(|n| Turn { thread: n % 8 + 1, choice: n.wrapping_mul(40_503) }).collect();

    let mut run = Run::default();
    let (mut idle, mut inserted) = ((1..=8).collect::<Vec<u32>>(), 0);
    let mut waiting = items.iter();
    while inserted < items.len() {
        for thread in idle.drain(..) {
            if let Some(&(key, tag)) = waiting.next() {
                region.put(thread, key, tag)?;
            }
        }
        region.run_into(&mut run, &turns, u32::MAX)?;
        let ended = turns.iter().zip(run.answers()).filter(|(_, a)| *a == Answer::Inserted);
        idle.extend(ended.map(|(turn, _)| turn.thread));
        inserted += idle.len();
    }

    items.sort_unstable();
    Ok((region, items))
}

/// They come out in the order of their keys, and those of one key in the order of their tags.
#[test]
fn wake_ups_come_out_in_order() -> Result<(), Refusal> {
    let (mut bytes, mut run) = (vec![], Run::default());
    let (mut region, items) = with_800_items(&mut bytes)?;
    for (key, tag) in items {
        region.take(3)?;
        region.run_into(&mut run, [Turn { thread: 3, choice: 0 }; 5 * 11], u32::MAX)?;
        let took = Answer::Took { key, tag };
        assert!(run.answers().any(|answer| answer == took), "{key} {tag} did not come");
    }
    Ok(())
}

/// Lists by one thread take all items as well: each list's come in their order, and the first of
/// them is the least that was left.
#[test]
fn lists_come_out_as_sorted_batches() -> Result<(), Refusal> {
    let (mut bytes, mut run) = (vec![], Run::default());
    let (mut region, mut left) = with_800_items(&mut bytes)?;
    let mut batches = 0;
    while !left.is_empty() {
        region.list(3)?;
        region.run_into(&mut run, [Turn { thread: 3, choice: 0 }; 1000], u32::MAX)?;
        let items = run.answers().filter_map(|answer| match answer {
            Answer::Took { key, tag } => Some((key, tag)),
            _ => None,
        });
        let batch: Vec<(u32, u32)> = items.collect();
        assert!(batch.is_sorted());
        assert_eq!(batch.first(), left.first());
        assert_eq!(run.answers().last(), Some(Answer::Idle));
        left.retain(|item| batch.binary_search(item).is_err());
        batches += 1;
    }
    assert!(batches < 800, "no list had two items");
    region.list(3)?;
    let run = region.run([Turn { thread: 3, choice: 0 }], u32::MAX)?;
    assert!(run.answers().eq([Answer::Empty]));
    Ok(())
}
