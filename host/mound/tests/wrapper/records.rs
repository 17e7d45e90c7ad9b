//! Records of a queue that runs on several cores: the cases of request 9, and what a recorder uses.

use mound::{calls, check_records, Operation, Record, Refusal, Verdict};

const PUT: Record = Record {
    operation: Operation::Put { key: 5, tag: 0 },
    thread: 1,
    begin: 1,
    answer: 4,
    position: 1,
};
const TAKE: Record = Record {
    operation: Operation::Take { key: 5, tag: 0 },
    thread: 2,
    begin: 2,
    answer: 3,
    position: 2,
};

fn check(records: &[Record]) -> Result<Verdict, Refusal> {
    let bytes: Vec<u8> = records.iter().flat_map(|record| record.to_bytes()).collect();
    check_records(&bytes)
}

/// The same records, with the positions 1, 2, .. in their order.
fn by_position<const N: usize>(records: [Record; N]) -> [Record; N] {
    let mut positions = 1..;
    records.map(|record| Record { position: positions.next().expect("no end"), ..record })
}

#[test]
fn case_a_no_record_is_accepted() {
    assert_eq!(check_records(&[]), Ok(Verdict::Accepted));
}

#[test]
fn case_b_one_put() {
    assert_eq!(check(&[Record { answer: 2, ..PUT }]), Ok(Verdict::Accepted));
}

#[test]
fn case_c_a_take_that_overlaps_its_put() {
    assert_eq!(check(&[PUT, TAKE]), Ok(Verdict::Accepted));
    assert_eq!(check(&[TAKE, PUT]), Ok(Verdict::Accepted));
    assert_eq!(check(&by_position([TAKE, PUT])), Ok(Verdict::Rejected));
}

#[test]
fn case_d_an_empty_before_a_put() {
    let empty = Record { operation: Operation::Empty, ..TAKE };
    assert_eq!(check(&by_position([empty, PUT])), Ok(Verdict::Accepted));
    let too_late = [Record { begin: 3, answer: 4, ..empty }, Record { answer: 2, ..PUT }];
    assert_eq!(check(&by_position(too_late)), Ok(Verdict::Rejected));
}

#[test]
fn case_e_the_smaller_tag_first() {
    for (tag, verdict) in [(0, Verdict::Accepted), (1, Verdict::Rejected)] {
        let one = Record { operation: Operation::Put { key: 5, tag: 1 }, thread: 3, ..PUT };
        let take = Record { operation: Operation::Take { key: 5, tag }, ..TAKE };
        assert_eq!(check(&by_position([one, PUT, take])), Ok(verdict));
    }
}

#[test]
fn case_f_a_thread_with_two_operations_at_once() {
    assert_eq!(check(&[PUT, Record { thread: 1, ..TAKE }]), Ok(Verdict::Rejected));
}

#[test]
fn case_g_refusals() {
    let bytes = [PUT, TAKE].map(Record::to_bytes);
    for length in [27, 29, 55] {
        assert_eq!(check_records(&bytes.as_flattened()[..length]), Err(Refusal::Records));
    }
    assert_eq!(check(&[Record { thread: 65, ..PUT }]), Err(Refusal::Records));
    for (key, tag) in [(5, 65_536), (u32::MAX, 0)] {
        let record = Record { operation: Operation::Put { key, tag }, ..PUT };
        assert_eq!(check(&[record]), Err(Refusal::Records));
    }
    let number = |words: [u32; 7]| calls::records(words.map(u32::to_le_bytes).as_flattened());
    assert_eq!([0, 1, 3, 4].map(|kind| number([kind, 1, 1, 2, 1, 0, 0])), [12, 0, 0, 12]);
    assert_eq!([2, 3].map(|kind| number([kind, 1, 1, 2, 1, 0, 1])), [255, 12]);
}

#[test]
fn at_most_1024_records() {
    let put = |at: u32| Record { begin: 2 * at, answer: 2 * at + 1, position: at, ..PUT };
    let records: Vec<Record> = (1..=1025).map(put).collect();
    assert_eq!(check(&records[..Record::MOST]), Ok(Verdict::Accepted));
    assert_eq!(check(&records), Err(Refusal::Records));
    assert_eq!(Record::MOST, 1024);
}

/// One record with each word at values in and out of its range: the words are a record's exactly if
/// the library does not refuse them.
#[test]
fn records_are_what_the_library_can_read() {
    let (mut read, mut refused) = (0, 0);
    let threads = [0, 1, 64, 65, u32::MAX];
    let keys = [0, 1, u32::MAX - 1, u32::MAX];
    let tags = [0, 1, 65_535, 65_536, u32::MAX];
    for kind in [0, 1, 2, 3, 4, 256, u32::MAX] {
        for thread in threads {
            for (key, tag) in keys.into_iter().flat_map(|key| tags.map(|tag| (key, tag))) {
                let words = [kind, thread, 7, 9, 1, key, tag];
                let bytes = words.map(u32::to_le_bytes);
                let is_refused = calls::records(bytes.as_flattened()) == 12;
                if let Ok(record) = Record::try_from(words) {
                    assert!(!is_refused, "{record} is refused");
                    assert_eq!(record.words(), words);
                    assert_eq!(record.to_bytes(), bytes.as_flattened());
                    assert_eq!(Record::try_from(record.to_bytes()), Ok(record));
                    read += 1;
                } else {
                    assert!(is_refused, "{words:?} are not refused");
                    refused += 1;
                }
            }
        }
    }
    // Puts and takes by two threads with three keys and three tags; empties by two threads.
    assert_eq!((read, refused), (38, 662));
}

#[test]
fn records_and_verdicts_are_printed_in_plain_words() {
    assert_eq!(PUT.to_string(), "position 1: put key 5 tag 0 by thread 1 from 1 to 4");
    assert_eq!(Operation::Empty.to_string(), "empty");
    assert_eq!(TAKE.operation.to_string(), "take key 5 tag 0");
    assert_eq!(
        [Verdict::Accepted, Verdict::Rejected].map(|verdict| verdict.to_string()),
        ["accepted", "rejected"]
    );
    assert!(Refusal::Records.to_string().starts_with("refused 12: the records are not whole"));
}
