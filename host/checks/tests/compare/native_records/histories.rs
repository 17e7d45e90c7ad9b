//! The records of histories are accepted, at whatever moment a history stops and in whatever order
//! they are written.

use std::collections::BTreeMap;

use checks::native::{shuffle, RecordWords, ANSWER, BEGIN, KIND, POSITION};
use checks::queue::Call;
use checks::random::Random;
use mound::{Record, Shape};

use super::history::{History, MOST_TURNS};
use super::{check, ACCEPTED};

/// How often something was seen in the histories.
#[derive(Default)]
struct Seen {
    counts: BTreeMap<&'static str, usize>,
}

impl Seen {
    fn add(&mut self, what: &'static str, count: usize) {
        *self.counts.entry(what).or_default() += count;
    }

    /// Checks the records of a history that stops now.
    fn check(&mut self, random: &mut Random, history: &History) {
        let mut records = history.records();
        shuffle(random, &mut records);
        assert_eq!(check(random, &records), ACCEPTED, "{:?} {records:?}", history.queue.shape());
        self.add("checks", 1);
        self.add("records checked", records.len());
        self.add("decided and not answered", history.recorder.unanswered());
        self.add("begun and not decided", history.undecided());
    }

    /// Checks a history in the end.
    fn check_whole(&mut self, random: &mut Random, history: &History) {
        self.check(random, history);
        self.add("refused calls", history.refused);
        self.add("withdrawn operations", history.withdrawn);
        let records = history.records();
        for (kind, what) in [(1, "puts"), (2, "takes"), (3, "empties")] {
            self.add(what, records.iter().filter(|record| record[KIND] == kind).count());
        }
        self.add_pairs(&records);
    }

    fn add_pairs(&mut self, records: &[RecordWords]) {
        let pairs = records.iter().flat_map(|one| records.iter().map(move |other| (one, other)));
        for (one, other) in pairs.filter(|(one, other)| one[BEGIN] < other[BEGIN]) {
            let decides_first = one[POSITION] < other[POSITION];
            let answered_first = one[ANSWER] < other[ANSWER];
            self.add("pairs that overlap", usize::from(other[BEGIN] < one[ANSWER]));
            self.add("later begun, decided first", usize::from(!decides_first));
            let by_take = !decides_first && other[KIND] == 2;
            self.add("takes later begun, decided first", usize::from(by_take));
            let in_another_order = decides_first != answered_first;
            self.add("decided and answered in another order", usize::from(in_another_order));
        }
    }

    /// Each of these was seen so often at least.
    fn has(&self, least: &[(&str, usize)]) {
        println!("{:?}", self.counts);
        for &(what, least) in least {
            assert!(self.counts[what] >= least, "{what}: {}", self.counts[what]);
        }
    }
}

/// Case J, worked out by hand, and a put that is withdrawn.
#[test]
fn case_j() {
    let random = &mut Random::new(200);
    let shape = Shape { depth: 1, cells: 1, threads: 2, threshold: 1 };
    let history = &mut History::laid_out(random, shape, &[3, 3]);
    let run = |history: &mut History, random: &mut Random, threads: &[u32]| {
        let words = threads.iter().flat_map(|&thread| [thread, 0]);
        let schedule: Vec<u8> = words.flat_map(u32::to_le_bytes).collect();
        history.run(random, &schedule, u32::MAX);
    };
    // The put begins at moment 1, and its turns at I1, I2, I5 and I6 are the moments 2 to 5.
    history.begin(random, 1, Call::Put((5, 6)));
    run(history, random, &[1; 4]);
    // Thread 1's turns at E1 and E2 are the moments 9 and 10; thread 2 mends and finds nothing.
    history.begin(random, 1, Call::Take);
    history.begin(random, 2, Call::Take);
    run(history, random, &[1, 1, 2, 2, 2, 2, 2]);
    let [put, empty] = [[1, 1, 1, 5, 1, 5, 6], [3, 2, 8, 15, 3, 0, 0]];
    // The run is moment 16.
    assert_eq!(history.records(), [put, [2, 1, 7, 17, 2, 5, 6], empty]);
    Seen::default().check(random, history);

    // The root is clean: M1 and M2, and no more.
    run(history, random, &[1, 1]);
    let records = [put, [2, 1, 7, 18, 2, 5, 6], empty];
    assert_eq!(history.records(), records);
    history.begin(random, 2, Call::Put((7, 8)));
    history.permit(random, 2, 0);
    run(history, random, &[2]);
    history.begin(random, 2, Call::Take);
    assert_eq!([history.withdrawn, history.refused], [1, 1]);
    assert_eq!(history.records(), records);
    Seen::default().check(random, history);
}

/// What is under way then is in the records once it has decided.
#[test]
#[cfg_attr(debug_assertions, ignore = "slow without --release")]
fn stopped_anywhere() {
    let random = &mut Random::new(201);
    let mut seen = Seen::default();
    for _ in 0..1000 {
        let mut history = History::start(random);
        for _ in 0..random.among(0..=400) {
            history.go_on(random, MOST_TURNS);
            if random.among(0..=9) == 0 {
                seen.check(random, &history);
            }
        }
        seen.check_whole(random, &history);
    }
    seen.has(&[
        ("records checked", 200_000),
        ("decided and not answered", 5000),
        ("begun and not decided", 20_000),
        ("refused calls", 50_000),
        ("withdrawn operations", 200),
        ("puts", 5000),
        ("takes", 4000),
        ("empties", 5000),
        ("pairs that overlap", 20_000),
        ("later begun, decided first", 10_000),
        ("takes later begun, decided first", 2000),
        ("decided and answered in another order", 2000),
    ]);
}

/// Each turn decides at most once, so that there are 1,024 records in the end.
#[test]
#[cfg_attr(debug_assertions, ignore = "slow without --release")]
fn of_the_most_records() {
    let random = &mut Random::new(202);
    let mut seen = Seen::default();
    for _ in 0..10 {
        let mut history = History::start(random);
        loop {
            let records = history.records().len();
            if records == Record::MOST {
                break;
            }
            history.go_on(random, (Record::MOST - records) as u32);
        }
        seen.check_whole(random, &history);
    }
    seen.has(&[
        ("records checked", 10 * Record::MOST),
        ("decided and not answered", 10),
        ("begun and not decided", 30),
        ("withdrawn operations", 100),
        ("puts", 2000),
        ("takes", 2000),
        ("empties", 2000),
        ("pairs that overlap", 20_000),
        ("takes later begun, decided first", 2000),
    ]);
}
