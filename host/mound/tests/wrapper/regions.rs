//! Regions, shapes, permissions and refusals.

use mound::{Answer, Damage, NotARefusal, Permission, Refusal, Region, Shape, Turn};

use crate::{BOTH, SHAPE};

#[test]
fn a_region_is_laid_out_given_back_and_opened_again() -> Result<(), Refusal> {
    let mut bytes = vec![0xff; SHAPE.byte_len()?];
    let region = Region::layout(&mut bytes, SHAPE, &BOTH)?;
    assert_eq!(region.check(), Ok(()));
    assert_eq!(region.as_bytes().len(), 384);
    assert!(format!("{region:?}").contains("depth: 2"));

    let lent = region.into_bytes();
    let region = Region::open(lent)?;
    assert_eq!(region.shape(), SHAPE);
    Ok(())
}

#[test]
fn a_refused_layout_says_why_and_lends_the_bytes_back() {
    let mut bytes = vec![7; 384];
    let mut refused = |shape, permissions: &[Permission]| {
        Region::layout(&mut bytes, shape, permissions).unwrap_err()
    };
    assert_eq!(refused(Shape { cells: 3, ..SHAPE }, &BOTH), Refusal::Shape);
    assert_eq!(refused(SHAPE, &BOTH[..1]), Refusal::Shape);
    assert_eq!(refused(SHAPE, &[Permission::NONE; 3]), Refusal::Shape);
    for count in [0, 63, 65, 66, 1000] {
        let too_many_or_few = vec![Permission::NONE; count];
        assert_eq!(refused(Shape { threads: 64, ..SHAPE }, &too_many_or_few), Refusal::Shape);
    }
    assert_eq!(refused(Shape { cells: 1, ..SHAPE }, &BOTH), Refusal::RegionLength);
    assert_eq!(bytes, vec![7; 384]);
}

#[test]
fn damaged_bytes_are_not_opened() {
    let mut bytes = vec![0; 384];
    Region::layout(&mut bytes, SHAPE, &BOTH).expect("a good layout");
    bytes[383] = 1;
    let refused = |bytes: &mut [u8]| Region::open(bytes).unwrap_err().to_string();
    assert_eq!(
        refused(&mut bytes),
        "word 95: the head's next in node copy 3 of thread 2 is 16777216, not 0 to 2"
    );
    assert_eq!(refused(&mut bytes[..380]), "the length in bytes is 380, not 384");
    assert_eq!(refused(&mut []), "the length in bytes is 0, not 196 to 99336");
}

/// A thread is idle when its operation has ended: of a list, when the last item has been answered.
#[test]
fn a_region_tells_who_is_idle() -> Result<(), Refusal> {
    let mut bytes = vec![0; SHAPE.byte_len()?];
    let mut region = Region::layout(&mut bytes, SHAPE, &BOTH)?;
    for tag in [9, 2] {
        region.put(2, 5, tag)?;
        assert_eq!((region.is_idle(1)?, region.is_idle(2)?), (true, false));
        region.run([Turn { thread: 2, choice: 0 }; 4], u32::MAX)?;
        assert!(region.is_idle(2)?);
    }
    region.list(2)?;
    let mut answered = vec![];
    while !region.is_idle(2)? {
        let run = region.run([Turn { thread: 2, choice: 0 }], u32::MAX)?;
        answered.extend(&run);
    }
    let [first, last] = [2, 9].map(|tag| Answer::Took { key: 5, tag });
    assert_eq!(answered[5..], [first, last]);
    assert_eq!([region.is_idle(0), region.is_idle(3)], [Err(Refusal::Thread); 2]);
    Ok(())
}

#[test]
fn a_region_tells_permissions() -> Result<(), Refusal> {
    let mut bytes = vec![0; SHAPE.byte_len()?];
    let mut region = Region::layout(&mut bytes, SHAPE, &[Permission::PUT, Permission::NONE])?;
    assert_eq!(region.permission(1), Ok(Permission::PUT));
    assert_eq!(region.permission(2), Ok(Permission::NONE));
    region.permit(2, Permission::TAKE)?;
    assert_eq!(region.permission(1), Ok(Permission::PUT));
    assert_eq!(region.permission(2), Ok(Permission::TAKE));
    assert_eq!([region.permission(0), region.permission(3)], [Err(Refusal::Thread); 2]);
    Ok(())
}

#[test]
fn each_thread_gets_its_own_permission() -> Result<(), Refusal> {
    let all = [Permission::NONE, Permission::PUT, Permission::TAKE, Permission::PUT_AND_TAKE];
    let shape = Shape { threads: 4, ..SHAPE };
    let mut bytes = vec![0; shape.byte_len()?];
    let region = Region::layout(&mut bytes, shape, &all)?;
    let records = region.as_bytes()[96..].chunks_exact(144);
    assert!(records.map(|record| record[0]).eq(0..4));
    Ok(())
}

#[test]
fn the_largest_shape_has_99_336_bytes() {
    assert_eq!(Shape::LARGEST.byte_len(), Ok(99_336));
    assert_eq!(Shape { depth: 13, ..Shape::LARGEST }.byte_len(), Err(Refusal::Shape));
    assert_eq!(Shape { depth: 0, ..SHAPE }.byte_len(), Err(Refusal::Shape));
    assert_eq!(Shape { depth: u32::MAX, ..SHAPE }.byte_len(), Err(Refusal::Shape));
}

#[test]
fn the_refusals_are_numbered_1_to_12() {
    for number in 1..=12 {
        let refusal = Refusal::try_from(number).expect("a refusal has that number");
        assert_eq!((refusal.number(), u32::from(refusal)), (number, number));
        assert!(refusal.to_string().starts_with(&format!("refused {number}: ")));
    }
    for number in [0, 13, 255, u32::MAX] {
        assert_eq!(Refusal::try_from(number), Err(NotARefusal(number)));
    }
    assert_eq!(NotARefusal(13).to_string(), "no refusal has the number 13");
}

#[test]
fn refusals_and_damage_are_errors_that_a_program_can_pass_on() {
    fn put(bytes: &mut [u8], thread: u32) -> Result<(), Box<dyn std::error::Error>> {
        Ok(Region::open(bytes)?.put(thread, 5, 9)?)
    }
    fn take(bytes: &mut [u8], thread: u32) -> Result<(), Refusal> {
        Region::open(bytes)?.take(thread)
    }
    let mut bytes = [0; 384];
    assert!(put(&mut bytes, 3).unwrap_err().is::<Damage>());
    assert_eq!(take(&mut bytes, 3), Err(Refusal::Unreadable));
    Region::layout(&mut bytes, SHAPE, &BOTH).expect("a good layout");
    assert!(put(&mut bytes, 3).unwrap_err().is::<Refusal>());
    assert_eq!(take(&mut bytes, 3), Err(Refusal::Thread));
}

#[test]
fn permissions_have_the_values_0_to_3() {
    let of_bytes = (0..=255_u8).filter_map(|value| Permission::try_from(value).ok());
    assert!(of_bytes.map(u8::from).eq(0..=3));
    let of_words = (0..=300_u32).chain([1 << 8, 1 << 31, u32::MAX]);
    let of_words = of_words.filter_map(|value| Permission::try_from(value).ok());
    assert!(of_words.map(u32::from).eq(0..=3));
    assert_eq!(Permission::try_from(4_u8), Err(Refusal::Shape));
    assert_eq!(Permission::try_from(256_u32), Err(Refusal::Shape));
    assert_eq!(Permission::default(), Permission::NONE);
    assert!(!Permission::NONE.may_put() && !Permission::NONE.may_take());
    assert!(Permission::TAKE.may_take() && !Permission::TAKE.may_put());
    assert!(Permission::PUT_AND_TAKE.may_put() && Permission::PUT_AND_TAKE.may_take());
}

#[test]
fn operations_begin_or_say_why_not() -> Result<(), Refusal> {
    let mut bytes = vec![0; SHAPE.byte_len()?];
    let mut region = Region::layout(&mut bytes, SHAPE, &[Permission::PUT, Permission::TAKE])?;
    assert_eq!(region.put(3, 5, 9), Err(Refusal::Thread));
    assert_eq!(region.put(1, u32::MAX, 9), Err(Refusal::Item));
    assert_eq!(region.put(2, 5, 9), Err(Refusal::Permission));
    assert_eq!(region.take(1), Err(Refusal::Permission));
    assert_eq!(region.list(3), Err(Refusal::Thread));
    assert_eq!(region.list(1), Err(Refusal::Permission));
    region.put(1, 5, 9)?;
    region.take(2)?;
    assert_eq!(region.put(1, 5, 9), Err(Refusal::Busy));
    assert_eq!(region.take(2), Err(Refusal::Busy));
    assert_eq!(region.list(2), Err(Refusal::Busy));
    region.run([Turn { thread: 2, choice: 0 }], u32::MAX)?;
    region.list(2)?;
    assert_eq!([region.take(2), region.list(2)], [Err(Refusal::Busy); 2]);
    assert_eq!(region.check(), Ok(()));
    Ok(())
}
