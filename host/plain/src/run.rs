//! A run: a list of turns, served up to a limit on accesses.

use mound::{Refusal, Served};

use crate::counter::Counter;
use crate::machine::Machine;
use crate::words::{word, WORD};

/// A turn is two words: thread and choice.
const TURN_BYTES: usize = 2 * WORD;
const MOST_TURNS: usize = 4096;

impl<C: Counter> Machine<'_, C> {
    /// Serves the turns of a schedule in order until it ends or the accesses made equal the limit,
    /// and writes three words for each served turn: those of its answer.
    ///
    /// # Errors
    ///
    /// In this order, and with no byte changed: [`Refusal::Schedule`], [`Refusal::AnswerLength`].
    pub fn run(
        &mut self,
        schedule: &[u8],
        limit: u32,
        answers: &mut [u8],
    ) -> Result<Served, Refusal> {
        let (turns, part_of_a_turn) = schedule.as_chunks::<TURN_BYTES>();
        if !part_of_a_turn.is_empty() || turns.len() > MOST_TURNS {
            return Err(Refusal::Schedule);
        }
        let (answers, _) = answers.as_chunks_mut::<WORD>().0.as_chunks_mut();
        if answers.len() < turns.len() {
            return Err(Refusal::AnswerLength);
        }

        let mut served = Served::default();
        for (turn, answer) in turns.iter().zip(answers) {
            if served.accesses == limit {
                break;
            }
            let answered = self.turn(word(turn, 0), word(turn, 1));
            *answer = answered.words().map(u32::to_le_bytes);
            served.turns += 1;
            served.accesses += u32::from(answered.is_access());
        }
        Ok(served)
    }
}
