//! The search: breadth first over all states of a workload, so that a counterexample has as few
//! steps as any.

use std::collections::{BTreeSet, HashSet};
use std::hash::{BuildHasher, BuildHasherDefault, DefaultHasher};

use checks::fields::{place, D};
use checks::leaves::{self, Try};
use checks::queue::{Call, Item, Queue};
use checks::recorder::Recorder;
use mound::{Answer, Record, Refusal, Shape, Verdict};

use super::mistaken::Machine;
use crate::ledger::{look_at_takes, Disagreement, Ledger};

/// What the threads of a small queue are to do, each its calls one after the other.
#[derive(Clone, Debug)]
pub struct Workload {
    pub shape: Shape,
    pub permissions: Vec<u8>,
    /// The items that thread 1 has put in before.
    pub held: Vec<Item>,
    pub calls: Vec<Vec<Call>>,
    /// The permissions that the host sets, one after the other, each at any moment.
    pub permits: Vec<Permit>,
}

/// A permission for a thread.
#[derive(Clone, Copy, Debug, PartialEq)]
pub struct Permit {
    pub thread: u32,
    pub permission: u32,
}

/// One thing that can happen next.
#[derive(Clone, Copy, Debug, PartialEq)]
pub enum Step {
    Begin { thread: u32, call: Call },
    Turn { thread: u32, choice: u32 },
    Permit(Permit),
}

/// What a search found.
#[derive(Debug, Default)]
pub struct Explored {
    pub states: usize,
    /// The place before a turn and the place after it, for each turn of a busy thread that was not
    /// withdrawn.
    pub moves: BTreeSet<(u32, u32)>,
    /// The places of withdrawn turns.
    pub withdrawn_at: BTreeSet<u32>,
    /// The tries at the greatest depth.
    pub tries: BTreeSet<Try>,
    /// The most accesses of a put that was begun at the greatest depth and run alone.
    pub most_of_a_put: u32,
    /// The states of histories in which operations that overlap have decided.
    pub overlapping: usize,
}

impl Explored {
    /// Notes which way a turn went.
    fn note(&mut self, thread: u32, answer: Answer, before: &Queue, after: &Queue) {
        let place = before.place(thread);
        if answer == Answer::Withdrawn {
            self.withdrawn_at.insert(place);
        } else if place != place::IDLE {
            self.moves.insert((place, after.place(thread)));
            self.tries.extend(Try::of(thread, before, after));
        }
    }

    /// Adds what another search found.
    pub fn add(&mut self, other: Explored) {
        self.states += other.states;
        self.moves.extend(other.moves);
        self.withdrawn_at.extend(other.withdrawn_at);
        self.tries.extend(other.tries);
        self.most_of_a_put = self.most_of_a_put.max(other.most_of_a_put);
        self.overlapping += other.overlapping;
    }
}

/// The steps to a disagreement.
#[derive(Debug)]
pub struct Counterexample {
    pub steps: Vec<Step>,
    pub disagreement: Disagreement,
}

impl Counterexample {
    /// The history of these steps, made once more.
    pub fn recorded(&self, workload: &Workload, machine: Machine) -> Recorder {
        let State { mut queue, .. } = State::start(workload, machine);
        let mut recorder = Recorder::of_puts(&workload.held);
        for &step in &self.steps {
            let before = queue.clone();
            match step {
                Step::Begin { thread, call } => {
                    let result = machine.begin(&mut queue, thread, call);
                    recorder.called(thread, call, result.is_ok());
                }
                Step::Turn { thread, choice } => {
                    let answer = machine.turn(&mut queue, thread, choice);
                    recorder.turned(thread, answer, (&before, &queue));
                }
                Step::Permit(Permit { thread, permission }) => {
                    machine.permit(&mut queue, thread, permission).expect("permissions in range");
                    recorder.called_otherwise();
                }
            }
        }
        recorder
    }
}

#[derive(Clone, Hash)]
struct State {
    queue: Queue,
    ledger: Ledger,
    /// How many of its calls each thread has made, and how many permissions have been set.
    made: Vec<usize>,
    permits_made: usize,
    /// Where histories are told apart.
    recorder: Option<Recorder>,
}

impl State {
    /// The state in which nothing of the workload has happened.
    fn start(workload: &Workload, machine: Machine) -> State {
        let queue = Queue::laid_out(workload.shape, &workload.permissions).holding(&workload.held);
        let ledger = Ledger::of(&queue, machine.order());
        let made = vec![0; workload.calls.len()];
        State { queue, ledger, made, permits_made: 0, recorder: None }
    }
}

/// More states than any workload here has: a machine that never ends has no last state.
const MOST_STATES: usize = 10_000_000;

/// Goes through every state that the workload can reach. In each of them a take that makes no
/// mistake has to cost its figure, and a put begun at the greatest depth has to end in time.
pub fn explore(workload: &Workload, machine: Machine) -> Result<Explored, Counterexample> {
    explore_from(State::start(workload, machine), workload, machine)
}

/// Goes through every history of a workload without lists. At each of its moments request 9's check
/// has to accept the records. Histories are told apart by the order of what is recorded, so that
/// there are more states.
pub fn explore_histories(workload: &Workload) -> Result<Explored, Counterexample> {
    let machine = Machine { mistake: None };
    let recorder = Some(Recorder::of_puts(&workload.held));
    explore_from(State { recorder, ..State::start(workload, machine) }, workload, machine)
}

fn explore_from(
    start: State,
    workload: &Workload,
    machine: Machine,
) -> Result<Explored, Counterexample> {
    let mut explored = Explored::default();
    look_at(&start, machine, &mut explored)
        .map_err(|disagreement| Counterexample { steps: vec![], disagreement })?;

    let mut seen = HashSet::from([fingerprint(&start)]);
    // How each state after the first was reached: the number of the state before it, and the step.
    let mut reached = vec![];
    let mut frontier = vec![(0, start)];
    while !frontier.is_empty() {
        let mut next_frontier = vec![];
        for (number, state) in frontier {
            for step in steps(workload, &state) {
                let counterexample = |disagreement| {
                    let steps = path(&reached, number, step);
                    Counterexample { steps, disagreement }
                };
                let after = step_from(&state, machine, step, &mut explored);
                let after = after.map_err(counterexample)?;
                if seen.insert(fingerprint(&after)) {
                    look_at(&after, machine, &mut explored).map_err(counterexample)?;
                    reached.push((number, step));
                    next_frontier.push((reached.len(), after));
                }
            }
        }
        assert!(seen.len() < MOST_STATES, "no end of states in {workload:?}");
        frontier = next_frontier;
    }
    explored.states = seen.len();
    Ok(explored)
}

/// All that can happen next: a beginning or a turn of each thread, with every leaf choice, or the
/// next permit.
fn steps(workload: &Workload, state: &State) -> Vec<Step> {
    let mut steps = vec![];
    for (thread, (calls, &made)) in (1..).zip(workload.calls.iter().zip(&state.made)) {
        if let (false, Some(&call)) = (state.ledger.is_busy(thread), calls.get(made)) {
            steps.push(Step::Begin { thread, call });
        }
        let choices = match state.queue.place(thread) {
            place::I2 => 1 << (state.queue.field(thread, D) - 1),
            _ => 1,
        };
        steps.extend((0..choices).map(|choice| Step::Turn { thread, choice }));
    }
    steps.extend(workload.permits.get(state.permits_made).map(|&permit| Step::Permit(permit)));
    steps
}

/// What has to hold of a state by itself: of its history, where there is one, or of the queue. The
/// most accesses of a put are noted.
fn look_at(state: &State, machine: Machine, explored: &mut Explored) -> Result<(), Disagreement> {
    if let Some(recorder) = &state.recorder {
        return look_at_records(recorder, explored);
    }
    state.ledger.look_at(&state.queue)?;
    look_at_takes(&state.queue)?;
    if state.queue.is_of_greatest_depth() {
        let may_go_on = |&thread: &u32| !state.queue.lacks_permission(thread);
        for thread in state.ledger.with_begun_puts().filter(may_go_on) {
            let most = most_accesses_of_a_put(&state.queue, machine, thread)?;
            explored.most_of_a_put = explored.most_of_a_put.max(most);
        }
    }
    Ok(())
}

/// Request 9: the check accepts the records of a history. Overlaps are noted.
fn look_at_records(recorder: &Recorder, explored: &mut Explored) -> Result<(), Disagreement> {
    let records = recorder.records();
    explored.overlapping += usize::from(has_overlaps(&records));
    if is_accepted(&records) {
        Ok(())
    } else {
        Err(Disagreement::RecordsNotAccepted)
    }
}

/// Whether an operation begins, and another later, before the first is answered.
fn has_overlaps(records: &[Record]) -> bool {
    let begins_in = |one: &Record| {
        records.iter().any(|other| (one.begin + 1..one.answer).contains(&other.begin))
    };
    records.iter().any(begins_in)
}

/// Whether the plain checker accepts these records.
pub fn is_accepted(records: &[Record]) -> bool {
    let bytes: Vec<u8> = records.iter().flat_map(|record| record.to_bytes()).collect();
    plain::check_records(&bytes) == Ok(Verdict::Accepted)
}

/// Request 8's promise: a put begun at the greatest depth is inserted within its ceiling if nobody
/// else moves. It is run with each leaf as the choice of all turns, and with choices that rise.
fn most_accesses_of_a_put(
    queue: &Queue,
    machine: Machine,
    thread: u32,
) -> Result<u32, Disagreement> {
    let leaves = 1 << (queue.shape().depth - 1);
    let same = (0..leaves).map(|choice| accesses_of_a_put(queue, machine, thread, |_| choice));
    let rising = accesses_of_a_put(queue, machine, thread, |turn| turn);
    let all: Option<Vec<u32>> = same.chain([rising]).collect();
    let most = all.and_then(|all| all.into_iter().max());
    most.ok_or(Disagreement::PutTakesTooLong { thread })
}

/// The accesses of a begun put while nobody else moves, unless they are too many.
fn accesses_of_a_put(
    queue: &Queue,
    machine: Machine,
    thread: u32,
    choice: impl Fn(u32) -> u32,
) -> Option<u32> {
    let mut queue = queue.clone();
    let most = leaves::most_accesses(queue.shape().depth);
    let mut turns = (1..=most).map(|turn| (turn, machine.turn(&mut queue, thread, choice(turn))));
    let (accesses, answer) = turns.find(|&(_, answer)| answer != Answer::Moved)?;
    (answer == Answer::Inserted).then_some(accesses)
}

/// The state after a step, unless the bag disagrees. The way of a turn is noted.
fn step_from(
    state: &State,
    machine: Machine,
    step: Step,
    explored: &mut Explored,
) -> Result<State, Disagreement> {
    let State { mut queue, mut ledger, mut made, mut permits_made, mut recorder } = state.clone();
    match step {
        Step::Begin { thread, call } => {
            let result = machine.begin(&mut queue, thread, call);
            ledger.called(thread, call, result, (&state.queue, &queue))?;
            if let Some(recorder) = &mut recorder {
                recorder.called(thread, call, result.is_ok());
            }
            // A put that finds no cell is tried again later.
            if result != Err(Refusal::NoFreeCell) {
                made[thread as usize - 1] += 1;
            }
        }
        Step::Turn { thread, choice } => {
            let answer = machine.turn(&mut queue, thread, choice);
            let change = (&state.queue, &queue);
            ledger.turned(thread, choice, answer, change)?;
            if let Some(recorder) = &mut recorder {
                recorder.turned(thread, answer, change);
            }
            explored.note(thread, answer, &state.queue, &queue);
        }
        Step::Permit(Permit { thread, permission }) => {
            let result = machine.permit(&mut queue, thread, permission);
            ledger.permitted(thread, permission, result, (&state.queue, &queue))?;
            if let Some(recorder) = &mut recorder {
                recorder.called_otherwise();
            }
            permits_made += 1;
        }
    }
    Ok(State { queue, ledger, made, permits_made, recorder })
}

/// The steps to a state, and one more.
fn path(reached: &[(usize, Step)], mut number: usize, last: Step) -> Vec<Step> {
    let mut steps = vec![last];
    while number > 0 {
        let (before, step) = reached[number - 1];
        steps.push(step);
        number = before;
    }
    steps.reverse();
    steps
}

/// 64 bits that tell states apart. Among a million states, two that share theirs are as likely as 1
/// in 37 million.
fn fingerprint(state: &State) -> u64 {
    BuildHasherDefault::<DefaultHasher>::default().hash_one(state)
}
