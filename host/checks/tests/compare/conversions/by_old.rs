//! Calls on a region of the old form, by the plain implementation.

use checks::old_queue::OldQueue;

use crate::any_call::{Call, Run};
use crate::both::{answers_of, number_of, Ran};
use crate::tally::Outcome::{self, Check, List, Permit, Put, Take};

/// Makes the call.
pub fn call(old: &mut OldQueue, call: &Call) -> Outcome {
    let mut machine = old.machine();
    match *call {
        Call::Put { thread, key, tag } => Put(number_of(machine.put(thread, key, tag))),
        Call::Take { thread } => Take(number_of(machine.take(thread))),
        Call::List { thread } => List(number_of(machine.list(thread))),
        Call::Permit { thread, permission } => {
            Permit(number_of(machine.permit(thread, permission)))
        }
        // A region that is not readable is not opened.
        Call::Check => Check(0),
    }
}

/// Runs a schedule.
pub fn run(old: &mut OldQueue, run: &Run) -> Ran {
    let mut answers = vec![0; run.room];
    let result = old.machine().run(&run.schedule, run.limit, &mut answers);
    let turns = result.map_or(0, |served| served.turns as usize);
    Ran { result, answers: answers_of(&answers[..12 * turns]) }
}
