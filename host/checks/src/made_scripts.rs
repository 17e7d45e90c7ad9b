//! Scripts that tests make: of any lines, damaged, or of a given length; and what no script may have.

use mound::Shape;

use crate::random::Random;

/// The smallest shape of a script, and the largest.
pub const SMALLEST: Shape = Shape { depth: 1, cells: 1, threads: 1, threshold: 1 };
pub const LARGEST: Shape = Shape { depth: 8, cells: 128, threads: 64, threshold: 16 };

/// Shapes with permissions that a script's layout refuses.
pub const REFUSED: [(Shape, u32); 15] = [
    (Shape { depth: 0, ..SMALLEST }, 3),
    (Shape { depth: 9, ..LARGEST }, 3),
    (Shape { depth: 12, ..LARGEST }, 3),
    (Shape { depth: 13, ..LARGEST }, 3),
    (Shape { depth: u32::MAX, ..LARGEST }, 3),
    (Shape { cells: 0, ..SMALLEST }, 3),
    (Shape { cells: 2, ..SMALLEST }, 3),
    (Shape { cells: 129, ..LARGEST }, 3),
    (Shape { threads: 0, ..SMALLEST }, 3),
    (Shape { threads: 65, ..SMALLEST }, 3),
    (Shape { threshold: 0, ..SMALLEST }, 3),
    (Shape { threshold: 17, ..SMALLEST }, 3),
    (SMALLEST, 4),
    (SMALLEST, 256),
    (SMALLEST, u32::MAX),
];

/// Lines that are none of a script.
pub const BAD_LINES: [&str; 22] = [
    " ",
    "0",
    "put",
    "put 1 5",
    "put 1 5 9 9",
    "put 1 5 9 ",
    " put 1 5 9",
    "put  1 5 9",
    "put 1 5 9\r",
    "Put 1 5 9",
    "put 1 -5 9",
    "put 1 5 x",
    "put 1 4294967296 0",
    "turn 18446744073709551617 0 0",
    "turn 1 0 1",
    "take 1 1 0",
    "take 1 0 1",
    "list 1 0 1",
    "permit 1 3 1",
    "turns 1 0 0",
    "depth cells threads threshold permission",
    "what thread a b",
];

/// No line that is made here is longer.
pub const LONGEST_LINE: usize = "permit 65 4294967295 0\n".len();

/// A script's first three lines.
pub fn opening(shape: Shape, permission: u32) -> String {
    let Shape { depth, cells, threads, threshold } = shape;
    format!(
        "depth cells threads threshold permission\n\
         {depth} {cells} {threads} {threshold} {permission}\n\
         what thread a b\n"
    )
}

/// A line that can be read and, more often than not, does something in a queue of so many threads.
pub fn any_line(random: &mut Random, threads: u32, greatest_key: u32) -> String {
    let thread = match random.among(0..=19) {
        0 => random.one_of(&[0, threads + 1]),
        _ => random.among(1..=threads),
    };
    match random.among(0..=39) {
        0..=6 => {
            let (key, tag) = (random.among(0..=greatest_key), random.among(0..=9));
            format!("put {thread} {key} {tag}\n")
        }
        7 | 8 => format!("take {thread} 0 0\n"),
        9 => format!("list {thread} 0 0\n"),
        10 => {
            let permission = random.one_of(&[0, 1, 2, 3, 3, 3, 3, 4, u32::MAX]);
            format!("permit {thread} {permission} 0\n")
        }
        _ => format!("turn {thread} {} 0\n", random.among_or_extreme(0..=u32::MAX)),
    }
}

/// The text with a byte changed, left out or inserted, or cut short.
pub fn damaged(random: &mut Random, text: &str) -> Vec<u8> {
    let mut bytes = text.as_bytes().to_vec();
    let at = random.index(0..bytes.len());
    let byte = random.one_of(b" \n0159ptx\t\r-");
    match random.among(0..=3) {
        0 => bytes[at] = byte,
        1 => bytes.insert(at, byte),
        2 => drop(bytes.remove(at)),
        _ => bytes.truncate(at),
    }
    bytes
}

/// A script of this many bytes: the line again and again, the last one with leading zeros to fill.
pub fn of_length(length: usize, line: &str) -> String {
    let mut script = opening(SMALLEST, 3);
    while script.len() + 2 * line.len() <= length {
        script += line;
    }
    let zeros = length - script.len() - line.len();
    let word = line.find(' ').expect("a word comes first") + 1;
    script += &line[..word];
    script += &"0".repeat(zeros);
    script += &line[word..];
    assert_eq!(script.len(), length);
    script
}
