//! The examples of the documents do what the text says; README's Rust example is a doc test of the
//! crate `mound`.

use std::fs;
use std::process::Command;

use checks::program::{cut, figures, printed};
use mound::{Permission, Region, Shape, Turn};

use crate::repository::{blocks, path};

/// The queue that the reference has a picture of: each item with the choice for its put's turns.
fn pictured_queue() -> Vec<u8> {
    let shape = Shape { depth: 3, cells: 4, threads: 1, threshold: 1 };
    let mut bytes = vec![0; shape.byte_len().expect("a shape in range")];
    let mut region =
        Region::layout(&mut bytes, shape, &[Permission::PUT_AND_TAKE]).expect("laid out");
    for ((key, tag), choice) in [((5, 9), 0), ((7, 1), 0), ((5, 2), 0), ((9, 3), 3)] {
        region.put(1, key, tag).expect("a free cell");
        region.run([Turn { thread: 1, choice }; 9], u32::MAX).expect("a run");
    }
    bytes
}

/// In the picture `word 34   5 9 0` says what word 34 and the words behind it are.
#[test]
fn the_picture_of_a_queue_has_its_words() {
    let bytes = pictured_queue();
    let blocks = blocks("docs/REFERENCE.md", "text");
    let picture = blocks.iter().find(|block| block.contains("node 1: (5, 2) (5, 9)"));
    let mut compared = 0;
    for line in picture.expect("the picture is there").lines() {
        let (_, said) = line.split_once(" word ").expect("each line has words");
        let mut numbers = said.split_whitespace().map_while(|part| part.parse::<usize>().ok());
        let first = numbers.next().expect("the first word's index");
        for (word, number) in numbers.enumerate() {
            let there = bytes[4 * (first + word)..].first_chunk().expect("a word");
            assert_eq!(u32::from_le_bytes(*there) as usize, number, "{line}");
            compared += 1;
        }
    }
    assert_eq!((bytes.len(), compared), (328, 30));
}

/// Two scripts of the script program, one of the report, which ends in an empty line, and one that
/// is cut down, behind a number's line. What a program prints stands in the next block.
#[test]
fn the_scripts_of_the_reference_print_what_it_says() {
    let blocks = blocks("docs/REFERENCE.md", "text");
    let mut blocks = blocks.iter();
    let mut tried = [0, 0, 0];
    while let Some(block) = blocks.next() {
        let Some((before, _)) = block.split_once("depth cells") else { continue };
        let (program, index): (fn(&[u8]) -> String, usize) = match before {
            "" if block.ends_with("\n\n") => (figures, 1),
            "" => (printed, 0),
            _ if before.trim_end().parse::<u32>().is_ok() => (cut, 2),
            _ => continue,
        };
        assert_eq!(Some(&program(block.as_bytes())), blocks.next());
        tried[index] += 1;
    }
    assert_eq!(tried, [2, 1, 1]);
}

#[test]
fn the_c_example_of_the_readme_runs() {
    let blocks = blocks("README.md", "c");
    let [source] = &blocks[..] else { panic!("one example in C") };
    let [file, program] = ["target/readme.c", "target/readme"].map(path);
    fs::write(&file, source).expect("target can be written");
    let built = Command::new("cc")
        .args(["-std=c99", "-pedantic", "-Wall", "-Wextra", "-Werror", "-I"])
        .arg(path("include"))
        .arg(&file)
        .arg(path("target/staticlib/libmound.a"))
        .arg("-o")
        .arg(&program)
        .status();
    assert!(built.expect("the C compiler starts").success());
    let ran = Command::new(&program).output().expect("the example starts");
    assert!(ran.status.success());
    assert_eq!(ran.stdout, b"took key 5 tag 9\n");
}
