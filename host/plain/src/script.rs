//! Scripts, read line by line, and the calls that their lines make: what the script program, the
//! figures over many scripts and the cut of a script have in common.

use mound::{Answer, Refusal, Shape};

use crate::machine::Machine;

/// The most bytes of a script, and of all scripts of a report together.
pub const MOST_BYTES: usize = 60_000;

const SHAPE_HEADING: &[u8] = b"depth cells threads threshold permission";
const LINE_HEADING: &[u8] = b"what thread a b";
const GREATEST_DEPTH: u32 = 8;

/// What a script's first three lines say.
#[derive(Clone, Copy)]
pub struct Opening {
    /// The shape of its queue, in range or not.
    pub shape: Shape,
    /// What every thread may do.
    pub permission: u32,
}

impl Opening {
    /// Reads both headings and the numbers between them; none where one of the lines cannot be
    /// read.
    pub fn read(rest: &mut &[u8]) -> Option<Opening> {
        next_line(rest).filter(|&line| line == SHAPE_HEADING)?;
        let [depth, cells, threads, threshold, permission] = numbers(next_line(rest)?)?;
        next_line(rest).filter(|&line| line == LINE_HEADING)?;
        Some(Opening { shape: Shape { depth, cells, threads, threshold }, permission })
    }

    /// The script's region as the layout leaves it.
    ///
    /// # Errors
    ///
    /// [`Refusal::Shape`] for a shape or a permission out of range; a script's queue has at most
    /// eight levels.
    pub fn lay_out(self) -> Result<Vec<u8>, Refusal> {
        let Opening { shape, permission } = self;
        let permission = u8::try_from(permission).map_err(|_| Refusal::Shape)?;
        if GREATEST_DEPTH < shape.depth {
            return Err(Refusal::Shape);
        }
        let mut region = vec![0; <Machine>::byte_len(shape)?];
        <Machine>::lay_out(&mut region, shape, &vec![permission; shape.threads as usize])?;
        Ok(region)
    }
}

/// A line behind the opening: a thread, and the call that it makes.
#[derive(Clone, Copy)]
pub struct Line {
    /// The thread, there or not.
    pub thread: u32,
    /// What the line calls.
    pub call: Call,
}

/// What a line calls.
#[derive(Clone, Copy)]
pub enum Call {
    /// A put of an item, its key and its tag.
    Put(u32, u32),
    /// A take.
    Take,
    /// A list.
    List,
    /// This permission is set.
    Permit(u32),
    /// A turn, with its choice.
    Turn(u32),
}

/// What a call did.
#[derive(Clone, Copy)]
pub enum Outcome {
    /// It began an operation.
    Begun,
    /// It set a permission.
    Set,
    /// It served a turn.
    Answered(Answer),
}

impl Line {
    /// The line that has this text, without its LF; none where it cannot be read.
    #[must_use]
    pub fn parse(text: &[u8]) -> Option<Line> {
        let space = text.iter().position(|&byte| byte == b' ')?;
        let [thread, a, b] = numbers(&text[space + 1..])?;
        let call = match (&text[..space], a, b) {
            (b"put", key, tag) => Call::Put(key, tag),
            (b"take", 0, 0) => Call::Take,
            (b"list", 0, 0) => Call::List,
            (b"permit", permission, 0) => Call::Permit(permission),
            (b"turn", choice, 0) => Call::Turn(choice),
            _ => return None,
        };
        Some(Line { thread, call })
    }

    /// Makes the line's call.
    ///
    /// # Errors
    ///
    /// Why the call is refused, or the turn.
    pub fn make(self, machine: &mut Machine) -> Result<Outcome, Refusal> {
        let Line { thread, call } = self;
        match call {
            Call::Put(key, tag) => machine.put(thread, key, tag).map(|()| Outcome::Begun),
            Call::Take => machine.take(thread).map(|()| Outcome::Begun),
            Call::List => machine.list(thread).map(|()| Outcome::Begun),
            Call::Permit(permission) => machine.permit(thread, permission).map(|()| Outcome::Set),
            Call::Turn(choice) => match machine.turn(thread, choice) {
                Answer::Refused(refusal) => Err(refusal),
                answer => Ok(Outcome::Answered(answer)),
            },
        }
    }
}

/// Reads the bytes up to the next LF, which must be there.
pub fn next_line<'a>(rest: &mut &'a [u8]) -> Option<&'a [u8]> {
    let end = rest.iter().position(|&byte| byte == b'\n')?;
    let line = &rest[..end];
    *rest = &rest[end + 1..];
    Some(line)
}

/// So many numbers, parted by single spaces.
fn numbers<const N: usize>(text: &[u8]) -> Option<[u32; N]> {
    let mut fields = text.split(|&byte| byte == b' ');
    let mut numbers = [0; N];
    for place in &mut numbers {
        *place = number(fields.next()?)?;
    }
    fields.next().is_none().then_some(numbers)
}

fn number(field: &[u8]) -> Option<u32> {
    if field.is_empty() || !field.iter().all(u8::is_ascii_digit) {
        return None;
    }
    std::str::from_utf8(field).ok()?.parse().ok()
}
