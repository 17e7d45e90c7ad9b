//! A script cut down, change request 14, made to be fast: all lines are read once, and a trial
//! starts from the region that the lines before the tried one leave.

use std::iter;
use std::ops::Range;

use mound::Refusal;

use crate::machine::Machine;
use crate::script::{next_line, Line, Opening, MOST_BYTES};

/// Cuts a script down to lines that show the refusal of this number, and of which none can be left
/// out without losing it; gives the length of what is written to the start of `out`.
///
/// # Errors
///
/// In this order, and with no byte changed: [`Refusal::RegionLength`] where `out` is shorter than
/// the script; [`Refusal::NotShown`] where a line cannot be read, or the number is not shown.
pub fn cut(script: &[u8], number: u32, out: &mut [u8]) -> Result<usize, Refusal> {
    if out.len() < script.len() {
        return Err(Refusal::RegionLength);
    }
    let Script { opening, opening_text, lines } = Script::read(script).ok_or(Refusal::NotShown)?;
    let kept = match opening.lay_out() {
        Ok(region) => cut_lines(lines, number, &region).ok_or(Refusal::NotShown)?,
        // It shows its number with no line at all.
        Err(refusal) if refusal.number() == number => vec![],
        Err(_) => return Err(Refusal::NotShown),
    };
    let mut length = 0;
    for text in iter::once(opening_text).chain(kept.iter().map(|line| line.text)) {
        out[length..][..text.len()].copy_from_slice(text);
        length += text.len();
    }
    Ok(length)
}

/// A script whose every line can be read.
struct Script<'a> {
    opening: Opening,
    opening_text: &'a [u8],
    lines: Vec<ScriptLine<'a>>,
}

/// A line, and its bytes with the LF.
#[derive(Clone, Copy)]
struct ScriptLine<'a> {
    line: Line,
    text: &'a [u8],
}

impl<'a> Script<'a> {
    fn read(script: &'a [u8]) -> Option<Script<'a>> {
        if MOST_BYTES < script.len() {
            return None;
        }
        let mut rest = script;
        let opening = Opening::read(&mut rest)?;
        let opening_text = &script[..script.len() - rest.len()];
        let mut lines = vec![];
        while !rest.is_empty() {
            let from_here = rest;
            let line = Line::parse(next_line(&mut rest)?)?;
            lines.push(ScriptLine { line, text: &from_here[..from_here.len() - rest.len()] });
        }
        Some(Script { opening, opening_text, lines })
    }
}

/// The lines that are left when a whole pass has removed none; none where the number is not shown.
fn cut_lines<'a>(
    mut lines: Vec<ScriptLine<'a>>,
    number: u32,
    laid_out: &[u8],
) -> Option<Vec<ScriptLine<'a>>> {
    loop {
        // The lines behind the first that shows the number go: that one is there while they are tried.
        let end = first_shown(&mut laid_out.to_vec(), &lines, number)? + 1;
        let region_bytes = laid_out.len();
        let mut pass = Pass { number, region_bytes, lines: &lines[..end], kept: vec![] };
        pass.try_lines(0..end, &mut with_room(laid_out, end));
        let mut kept = pass.kept;
        kept.reverse();
        if kept.len() == lines.len() {
            return Some(kept);
        }
        lines = kept;
    }
}

/// Which of these lines is the first to show the number.
fn first_shown<'a>(
    region: &mut [u8],
    lines: impl IntoIterator<Item = &'a ScriptLine<'a>>,
    number: u32,
) -> Option<usize> {
    let mut machine = <Machine>::of_readable(region);
    let shows = |refusal: Refusal| refusal.number() == number;
    lines.into_iter().position(|ScriptLine { line, .. }| line.make(&mut machine).is_err_and(shows))
}

/// The region, and behind it room for a copy each time that so many lines are halved.
fn with_room(laid_out: &[u8], lines: usize) -> Vec<u8> {
    let halvings = lines.next_power_of_two().ilog2() as usize;
    laid_out.repeat(halvings + 1)
}

/// A pass over lines of which the last is the first to show the number.
struct Pass<'p, 'a> {
    number: u32,
    region_bytes: usize,
    lines: &'p [ScriptLine<'a>],
    /// What is left of the lines that have been tried, the last one first.
    kept: Vec<ScriptLine<'a>>,
}

impl Pass<'_, '_> {
    /// Tries these lines, from the last to the first. The first of the regions is as the lines
    /// before them leave it; it is used up, and so is the room behind it.
    fn try_lines(&mut self, tried: Range<usize>, regions: &mut [u8]) {
        let (region, room) = regions.split_at_mut(self.region_bytes);
        if tried.len() == 1 {
            if first_shown(region, self.kept.iter().rev(), self.number).is_none() {
                self.kept.push(self.lines[tried.start]);
            }
            return;
        }
        let middle = usize::midpoint(tried.start, tried.end);
        let copy = &mut room[..self.region_bytes];
        copy.copy_from_slice(region);
        let shown = first_shown(copy, &self.lines[tried.start..middle], self.number);
        debug_assert!(shown.is_none(), "the last line is the first to show the number");
        self.try_lines(middle..tried.end, room);
        self.try_lines(tried.start..middle, regions);
    }
}
