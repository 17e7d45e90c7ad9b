//! What the tests give the program.

use checks::made_scripts::{any_line, opening, LONGEST_LINE, SMALLEST};
use checks::random::Random;
use mound::Shape;
use plain::script::MOST_BYTES;

/// A script with its empty line, whose threads may put and take. A line `turns 1 2 2` stands for a
/// turn of each of these threads, with choice 0.
pub fn script(shape: Shape, lines: &[&str]) -> String {
    let mut script = opening(shape, 3);
    for line in lines {
        if let Some(threads) = line.strip_prefix("turns ") {
            script.extend(threads.split(' ').map(|thread| format!("turn {thread} 0 0\n")));
        } else {
            script.extend([line, "\n"]);
        }
    }
    script + "\n"
}

/// Two small scripts with a line of each kind.
pub fn small() -> String {
    let one = script(SMALLEST, &["put 1 5 9", "turns 1 1 1 1", "take 1 0 0", "turns 1"]);
    let other = Shape { threads: 2, ..SMALLEST };
    one + &script(other, &["list 2 0 0", "turns 2", "permit 1 3 0"])
}

/// Up to 64 scripts that can be read, with as many bytes as there may be, or less.
pub fn any(random: &mut Random) -> Vec<String> {
    let count = random.among_or_extreme(0..=64) as usize;
    let mut scripts = vec![];
    let mut bytes = MOST_BYTES;
    for left in (1..=count).rev() {
        let share = u32::try_from(bytes / left).expect("small");
        let length = random.among_or_extreme(0..=share) as usize;
        let script = any_script(random, length);
        bytes -= script.len();
        scripts.push(script);
    }
    scripts
}

/// A script of about so many bytes and not of more, if its opening is shorter than that.
fn any_script(random: &mut Random, length: usize) -> String {
    let shape = match random.among(0..=4) {
        0 => random.shape(8),
        1 => random.crowded_shape(4..=12),
        _ => random.crowded_shape(1..=4),
    };
    let permission = random.one_of(&[0, 1, 2, 3, 3, 3, 3, 3, 3, 3]);
    let greatest_key = random.one_of(&[0, 5, 50, 50, u32::MAX - 1]);
    let mut script = opening(shape, permission);
    while script.len() + LONGEST_LINE < length {
        script += &any_line(random, shape.threads, greatest_key);
    }
    script + "\n"
}
