//! Regions of the old form, as a program carries them over.

use mound::{calls, Answer, Damage, Permission, Refusal, Region, Shape, Turn};

use crate::{BOTH, SHAPE};

/// A region of the old form in which thread 2 has begun a take, and the first of its turns has read
/// the root: it holds key 5, tag 9, in cell 1, and the other cell is free.
fn in_the_middle_of_a_take() -> Vec<u8> {
    let mut words = vec![0_u32; 87];
    words[..6].copy_from_slice(&[2, 2, 2, 1, 1, 2]);
    let root = [1, 0, 7];
    words[6..9].copy_from_slice(&root);
    words[15..18].copy_from_slice(&[5, 9, 0]);
    let [first_thread, second_thread] = [21, 54];
    words[first_thread] = 3;
    words[second_thread] = 3;
    words[second_thread + 1] = 10; // E2
    words[second_thread + 15..][..3].copy_from_slice(&root);
    words[second_thread + 18..][..3].copy_from_slice(&[5, 9, 0]);
    words.into_iter().flat_map(u32::to_le_bytes).collect()
}

#[test]
fn a_take_goes_on_where_it_stood() -> Result<(), Refusal> {
    let old = in_the_middle_of_a_take();
    assert_eq!((old.len(), SHAPE.old_byte_len()), (348, Ok(348)));
    let shape = Shape::of_region(&old)?;
    assert_eq!(shape, SHAPE);

    let mut bytes = vec![0xff; shape.byte_len()?];
    let mut region = Region::convert(&old, &mut bytes)?;
    assert_eq!((region.check(), region.shape()), (Ok(()), SHAPE));
    assert_eq!((region.is_idle(1), region.is_idle(2)), (Ok(true), Ok(false)));
    assert_eq!(region.permission(2), Ok(Permission::PUT_AND_TAKE));
    let run = region.run([Turn { thread: 2, choice: 0 }; 4], u32::MAX)?;
    assert_eq!(run.answers().last(), Some(Answer::Took { key: 5, tag: 9 }));
    assert_eq!(old, in_the_middle_of_a_take());
    Ok(())
}

#[test]
fn a_refused_conversion_says_why_and_lends_the_bytes_back() {
    let old = in_the_middle_of_a_take();
    let mut bytes = vec![7; 384];
    let mut refused = |old: &[u8], length: usize| Region::convert(old, &mut bytes[..length]).err();
    for length in [0, 348, 380, 383] {
        assert_eq!(refused(&old, length), Some(Refusal::RegionLength));
    }
    let mut damaged = old.clone();
    damaged[347] = 1;
    for unreadable in [&old[..344], &damaged, &[]] {
        assert_eq!(refused(unreadable, 384), Some(Refusal::Unreadable));
        assert_eq!(refused(unreadable, 380), Some(Refusal::Unreadable));
    }
    assert_eq!(bytes, vec![7; 384]);
}

/// A region of the one form is none of the other, though both have the same first words.
#[test]
fn the_forms_are_not_read_as_each_other() -> Result<(), Refusal> {
    let mut old = in_the_middle_of_a_take();
    let damage = Region::open(&mut old).unwrap_err();
    assert_eq!(damage, Damage::Length { found: 348, due: 384..=384 });

    let mut bytes = vec![0; SHAPE.byte_len()?];
    Region::layout(&mut bytes, SHAPE, &BOTH)?;
    assert_eq!(Shape::of_region(&bytes), Shape::of_region(&old));
    assert_eq!(calls::convert(&bytes, &mut [0; 384]), Refusal::Unreadable.number());
    Ok(())
}

#[test]
fn a_shape_is_told_by_four_words_in_range() {
    let old = in_the_middle_of_a_take();
    assert_eq!(Shape::of_region(&old[..16]), Ok(SHAPE));
    assert_eq!(Shape::of_region(&old[..15]), Err(Refusal::Unreadable));
    for (word, value) in [(0, 0), (0, 13), (1, 3), (2, 65), (3, 17)] {
        let mut changed = old.clone();
        changed[4 * word] = value;
        assert_eq!(Shape::of_region(&changed), Err(Refusal::Unreadable));
    }
}

#[test]
fn the_old_lengths() {
    let smallest = Shape { depth: 1, cells: 1, threads: 1, threshold: 1 };
    assert_eq!([smallest, Shape::LARGEST].map(Shape::old_byte_len), [Ok(180), Ok(82_188)]);
    assert_eq!(Shape { depth: 13, ..SHAPE }.old_byte_len(), Err(Refusal::Shape));
}
