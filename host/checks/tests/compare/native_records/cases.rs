//! The cases of request 9, worked out by hand, and others on the ends of its sentences.

use checks::native::{RecordWords, KEY, KIND, TAG, THREAD};
use checks::random::Random;

use super::{put, record, take, ACCEPTED, EMPTY, REFUSED, REJECTED};
use crate::both;

fn check(records: &[RecordWords]) -> u32 {
    super::check(&mut Random::new(1), records)
}

/// The records, and the same in the other order, in which they must get the same answer.
fn check_either_way(records: [RecordWords; 2]) -> u32 {
    let [one, other] = records;
    let number = check(&[one, other]);
    assert_eq!(check(&[other, one]), number);
    number
}

#[test]
fn case_a_no_record() {
    assert_eq!(check(&[]), ACCEPTED);
}

#[test]
fn case_b_one_put() {
    assert_eq!(check(&[record(1, [1, 2], 1, put((5, 0)))]), ACCEPTED);
    for position in [0, 2, u32::MAX] {
        assert_eq!(check(&[record(1, [1, 2], position, put((5, 0)))]), REJECTED);
    }
}

/// The take overlaps its put; it cannot come before it.
#[test]
fn case_c_a_put_and_its_take() {
    let records = |put_at, take_at| {
        [record(1, [1, 4], put_at, put((5, 0))), record(2, [2, 3], take_at, take((5, 0)))]
    };
    assert_eq!(check_either_way(records(1, 2)), ACCEPTED);
    assert_eq!(check_either_way(records(2, 1)), REJECTED);
}

/// An empty comes before a put only if they overlap.
#[test]
fn case_d_a_put_and_an_empty() {
    let records = |put_times, empty_times| {
        [record(1, put_times, 2, put((5, 0))), record(2, empty_times, 1, EMPTY)]
    };
    assert_eq!(check_either_way(records([1, 2], [3, 4])), REJECTED);
    assert_eq!(check_either_way(records([1, 4], [2, 3])), ACCEPTED);
    // Answered in the moment in which the other begins is not before it.
    assert_eq!(check_either_way(records([1, 3], [3, 4])), ACCEPTED);
    assert_eq!(check_either_way(records([3, 4], [1, 2])), ACCEPTED);
}

/// An empty after the put, by position.
#[test]
fn an_empty_while_an_item_is_there() {
    let records = [record(1, [1, 4], 1, put((5, 0))), record(2, [2, 3], 2, EMPTY)];
    assert_eq!(check_either_way(records), REJECTED);
}

#[test]
fn case_e_the_smaller_tag_first() {
    let records = |taken| {
        [
            record(1, [1, 2], 1, put((5, 1))),
            record(1, [3, 4], 2, put((5, 0))),
            record(1, [5, 6], 3, take(taken)),
        ]
    };
    assert_eq!(check(&records((5, 1))), REJECTED);
    assert_eq!(check(&records((5, 0))), ACCEPTED);
    // Neither a smaller key alone nor an item that was not put.
    for item in [(4, 0), (5, 2), (0, 5), (6, 0)] {
        assert_eq!(check(&records(item)), REJECTED);
    }
}

/// The key counts before the tag, and all of its bits.
#[test]
fn the_smaller_key_first() {
    let (greatest, less) = ((u32::MAX - 1, 0), (65_536, 65_535));
    let records = |first, second| {
        [
            record(1, [1, 2], 1, put(greatest)),
            record(1, [3, 4], 2, put(less)),
            record(1, [5, 6], 3, take(first)),
            record(1, [7, 8], 4, take(second)),
            record(1, [9, 10], 5, EMPTY),
        ]
    };
    assert_eq!(check(&records(less, greatest)), ACCEPTED);
    assert_eq!(check(&records(greatest, less)), REJECTED);
    assert_eq!(check(&records(less, less)), REJECTED);
}

/// Equal items leave one by one.
#[test]
fn an_item_put_twice() {
    let records = [
        record(1, [1, 2], 1, put((5, 0))),
        record(2, [1, 2], 2, put((5, 0))),
        record(1, [3, 4], 3, take((5, 0))),
        record(2, [3, 4], 4, take((5, 0))),
        record(1, [5, 6], 5, EMPTY),
    ];
    for length in 0..=5 {
        assert_eq!(check(&records[..length]), ACCEPTED);
    }
    let third = record(1, [5, 6], 5, take((5, 0)));
    assert_eq!(check(&[records[0], records[1], records[2], records[3], third]), REJECTED);
}

#[test]
fn case_f_two_operations_of_a_thread_that_overlap() {
    let records =
        |thread, times| [record(1, [1, 3], 1, put((5, 0))), record(thread, times, 2, take((5, 0)))];
    for times in [[2, 4], [1, 3], [0, 9], [2, 3]] {
        assert_eq!(check_either_way(records(1, times)), REJECTED);
        assert_eq!(check_either_way(records(2, times)), ACCEPTED);
    }
    // It begins in the moment of the other's answer, which is not after it.
    assert_eq!(check_either_way(records(1, [3, 4])), REJECTED);
    assert_eq!(check_either_way(records(2, [3, 4])), ACCEPTED);
    assert_eq!(check_either_way(records(1, [4, 5])), ACCEPTED);
}

/// The times go as far as words do.
#[test]
fn the_first_and_the_last_moment() {
    let one = |times| check(&[record(64, times, 1, put((0, 0)))]);
    assert_eq!([[0, 1], [0, u32::MAX], [u32::MAX - 1, u32::MAX]].map(one), [ACCEPTED; 3]);
    let not_before = [[0, 0], [1, 0], [u32::MAX, u32::MAX], [u32::MAX, 0], [7, 7]];
    assert_eq!(not_before.map(one), [REJECTED; 5]);
    let records = |thread, times| {
        [record(64, [0, 1], 1, put((0, 0))), record(thread, times, 2, take((0, 0)))]
    };
    assert_eq!(check_either_way(records(64, [1, u32::MAX])), REJECTED);
    assert_eq!(check_either_way(records(64, [2, u32::MAX])), ACCEPTED);
    assert_eq!(check_either_way(records(1, [0, u32::MAX])), ACCEPTED);
}

#[test]
fn positions_with_gaps_and_repeats() {
    let number = |positions: [u32; 3]| {
        let puts = [1, 2, 3].map(|thread| record(thread, [1, 2], 0, put((5, thread))));
        let records = std::array::from_fn::<_, 3, _>(|index| {
            let [kind, thread, begin, answer, _, key, tag] = puts[index];
            [kind, thread, begin, answer, positions[index], key, tag]
        });
        check(&records)
    };
    for positions in [[1, 2, 3], [3, 1, 2], [2, 3, 1], [3, 2, 1]] {
        assert_eq!(number(positions), ACCEPTED);
    }
    for positions in
        [[1, 2, 2], [1, 1, 3], [0, 1, 2], [2, 3, 4], [1, 2, u32::MAX], [1, 2, 4], [1, 2, 1 << 16]]
    {
        assert_eq!(number(positions), REJECTED);
    }
}

#[test]
fn case_g_refusals() {
    let good = record(1, [1, 2], 1, put((5, 0)));
    let bytes = [good.map(u32::to_le_bytes), good.map(u32::to_le_bytes)];
    let bytes = bytes.as_flattened().as_flattened();
    for length in [1, 27, 29, 55] {
        assert_eq!(both::check_records(&mut Random::new(1), &bytes[..length]), REFUSED);
    }
    let bad = [(KIND, 0), (KIND, 4), (THREAD, 65), (THREAD, 0), (TAG, 65_536), (KEY, u32::MAX)];
    for (word, value) in bad {
        let mut bad = good;
        bad[word] = value;
        assert_eq!(check(&[bad]), REFUSED);
    }
    for item in [(0, 1), (1, 0)] {
        assert_eq!(check(&[record(1, [1, 2], 1, (3, item))]), REFUSED);
    }
}
