//! A script cut down: cases of request 14, and what a program sees of them.

use mound::{calls, cut, Refusal, MOST_SCRIPT_BYTES};

/// The smallest queue, whose one thread may put and take.
const SMALLEST: &str = "depth cells threads threshold permission\n1 1 1 1 3\nwhat thread a b\n";

/// What is left of a script of these lines behind an opening.
fn kept(opening: &str, lines: &[&str], shown: Refusal) -> Result<String, Refusal> {
    let script = format!("{opening}{}\n", lines.join("\n"));
    let mut out = vec![b'x'; script.len()];
    let kept = cut(script.as_bytes(), shown, &mut out)?;
    let kept = String::from_utf8(kept.to_vec()).expect("lines of the script");
    let length = kept.len();
    assert!(out[length..].iter().all(|&byte| byte == b'x'), "bytes past it stay");
    Ok(kept)
}

/// The same, the opening not said again.
fn kept_lines(lines: &[&str], shown: Refusal) -> Vec<String> {
    let kept = kept(SMALLEST, lines, shown).expect("it is shown");
    let lines = kept.strip_prefix(SMALLEST).expect("the opening is kept");
    lines.lines().map(String::from).collect()
}

#[test]
fn case_a_a_busy_thread_needs_its_first_put_alone() {
    let lines = ["turn 1 0 0", "put 1 5 9", "turn 1 0 0", "put 1 6 9", "turn 1 0 0"];
    assert_eq!(kept_lines(&lines, Refusal::Busy), ["put 1 5 9", "put 1 6 9"]);
}

/// Without a turn the thread is busy, which is another refusal.
#[test]
fn case_b_a_full_queue_needs_every_turn() {
    let turn = "turn 1 0 0";
    let lines = ["put 1 5 9", turn, turn, turn, turn, "put 1 6 9"];
    assert_eq!(kept_lines(&lines, Refusal::NoFreeCell), lines);
}

/// The second permit is needed while the first one stands, and the first is tried after it.
#[test]
fn case_c_a_later_pass_removes_what_an_earlier_one_kept() {
    let lines = ["permit 1 0 0", "permit 1 3 0", "put 1 5 9", "list 1 0 0"];
    assert_eq!(kept_lines(&lines, Refusal::Busy), lines[2..]);
}

/// The last of three is tried first, so it goes; the first of them is left.
#[test]
fn case_d_of_lines_that_do_the_same_the_first_is_left() {
    let lines = ["put 2 5 9", "turn 0 0 0", "take 7 0 0"];
    assert_eq!(kept_lines(&lines, Refusal::Thread), lines[..1]);
}

#[test]
fn case_e_a_refused_layout_needs_no_line() {
    let opening = SMALLEST.replace("1 1 1 1 3", "9 1 1 1 3");
    assert_eq!(kept(&opening, &["put 1 5 9"], Refusal::Shape), Ok(opening.clone()));
    assert_eq!(kept(&opening, &["put 1 5 9"], Refusal::Thread), Err(Refusal::NotShown));
    // A line that is never run has to be one.
    assert_eq!(kept(&opening, &["put 1 5"], Refusal::Shape), Err(Refusal::NotShown));
}

#[test]
fn case_f_refusals() {
    let line = ["permit 1 4 0"];
    assert_eq!(kept_lines(&line, Refusal::Shape), line);
    for shown in [Refusal::Busy, Refusal::Unreadable, Refusal::NotShown] {
        assert_eq!(kept(SMALLEST, &line, shown), Err(Refusal::NotShown));
    }
    for unreadable in ["permit 1 4 1", "permit 1 4", "permit 1 4 0 ", ""] {
        let lines = [line[0], unreadable];
        assert_eq!(kept(SMALLEST, &lines, Refusal::Shape), Err(Refusal::NotShown));
    }
    assert_eq!(cut(b"", Refusal::Shape, &mut []), Err(Refusal::NotShown));
}

/// The slice's length is looked at first.
#[test]
fn a_slice_shorter_than_the_script_is_refused_before_all_else() {
    for script in [format!("{SMALLEST}permit 1 4 0\n"), String::from("no script")] {
        let mut out = vec![b'x'; script.len() - 1];
        let refused = cut(script.as_bytes(), Refusal::Shape, &mut out);
        assert_eq!(refused, Err(Refusal::RegionLength));
        assert!(out.iter().all(|&byte| byte == b'x'));
    }
}

#[test]
fn a_script_has_at_most_60_000_bytes() {
    assert_eq!(MOST_SCRIPT_BYTES, 60_000);
    let zeros = "0".repeat(MOST_SCRIPT_BYTES - SMALLEST.len() - "permit 1 4 \n".len());
    let line = format!("permit 1 4 {zeros}");
    assert_eq!(kept_lines(&[&line], Refusal::Shape), [&line[..]]);
    assert_eq!(kept(SMALLEST, &[&(line + "0")], Refusal::Shape), Err(Refusal::NotShown));
}

/// Numbers that are no refusal's can be asked for by the call alone.
#[test]
fn the_call_answers_refusal_and_length_in_one_number() {
    let script = format!("{SMALLEST}permit 1 4 0\n");
    let mut out = vec![0; script.len()];
    let answer = calls::cut(script.as_bytes(), 1, &mut out);
    assert_eq!([answer & 0xffff_ffff, answer >> 32], [0, script.len() as u64]);
    assert_eq!(out, script.as_bytes());
    for number in [0, 2, 16, 99, u32::MAX] {
        assert_eq!(calls::cut(script.as_bytes(), number, &mut out), 16);
    }
    assert_eq!(calls::cut(script.as_bytes(), 1, &mut out[1..]), 2);
}

#[test]
fn the_refusal_is_printed_in_plain_words() {
    assert_eq!(
        Refusal::NotShown.to_string(),
        "refused 16: the script has a line that cannot be read, or does not show the refusal"
    );
}
