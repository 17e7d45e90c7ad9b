//! The scripts of the documents' example in `docs/figures`: four workloads in which threads meet,
//! with the same lines at every threshold. The same scripts are made in each run.

use mound::Shape;

use crate::made_scripts::opening;
use crate::random::Random;

/// The thresholds that the example compares.
pub const THRESHOLDS: [u32; 4] = [1, 2, 4, 8];

/// What each thread begins in a round.
#[derive(Clone, Copy)]
enum Beginning {
    /// A put of a greater key than all before: in the tree it goes below them, which makes it grow.
    RisingPut,
    /// A put of a lesser key than all before: it goes to the root.
    FallingPut,
    Take,
    List,
}

impl Beginning {
    /// The line of a thread, the operations counted from 1.
    fn line(self, thread: u32, operation: u32) -> String {
        match self {
            Beginning::RisingPut => format!("put {thread} {operation} 0\n"),
            Beginning::FallingPut => format!("put {thread} {} 0\n", 100 - operation),
            Beginning::Take => format!("take {thread} 0 0\n"),
            Beginning::List => format!("list {thread} 0 0\n"),
        }
    }
}

/// So many times each thread begins an operation, and turns of any thread follow: so many for each
/// of them on average.
struct Rounds {
    times: u32,
    begins: Beginning,
    turns: u32,
}

/// Threads, and what they do.
struct Workload {
    threads: u32,
    rounds: &'static [Rounds],
}

/// There are turns enough: at each threshold every operation is answered.
const WORKLOADS: [Workload; 4] = [
    Workload {
        threads: 4,
        rounds: &[Rounds { times: 8, begins: Beginning::RisingPut, turns: 32 }],
    },
    Workload {
        threads: 16,
        rounds: &[Rounds { times: 2, begins: Beginning::RisingPut, turns: 52 }],
    },
    Workload {
        threads: 4,
        rounds: &[
            Rounds { times: 4, begins: Beginning::RisingPut, turns: 36 },
            Rounds { times: 2, begins: Beginning::Take, turns: 72 },
        ],
    },
    Workload {
        threads: 8,
        rounds: &[
            Rounds { times: 2, begins: Beginning::FallingPut, turns: 40 },
            Rounds { times: 1, begins: Beginning::List, turns: 60 },
        ],
    },
];

/// The scripts one behind the other, at this threshold.
pub fn scripts(threshold: u32) -> String {
    (1..).zip(&WORKLOADS).map(|(seed, workload)| script(seed, workload, threshold)).collect()
}

fn script(seed: u64, workload: &Workload, threshold: u32) -> String {
    let Workload { threads, rounds } = *workload;
    let mut random = Random::new(seed);
    let mut script = opening(Shape { depth: 6, cells: 32, threads, threshold }, 3);
    let mut begun = 0;
    for &Rounds { times, begins, turns } in rounds {
        for _ in 0..times {
            for thread in 1..=threads {
                begun += 1;
                script += &begins.line(thread, begun);
            }
            script.extend((0..turns * threads).map(|_| {
                let (thread, choice) = (random.among(1..=threads), random.among(0..=7));
                format!("turn {thread} {choice} 0\n")
            }));
        }
    }
    script + "\n"
}
