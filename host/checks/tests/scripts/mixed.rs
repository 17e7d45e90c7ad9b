//! Random scripts, whole and damaged, against the program in plain Rust.

use checks::made_scripts::{any_line, damaged, opening};
use checks::random::Random;
use checks::{program, script};
use mound::Shape;

/// A script of some lines, most of which do something.
fn script(random: &mut Random) -> String {
    let depth = random.among(1..=8);
    let shape = Shape {
        depth,
        cells: random.among(1..=1 << (depth - 1)),
        threads: random.among(1..=6),
        threshold: random.among(1..=3),
    };
    let permission = random.one_of(&[0, 1, 2, 3, 3, 3, 3, 3, 3, 4]);
    let greatest_key = random.one_of(&[0, 5, 50]);
    let mut script = opening(shape, permission);
    for _ in 0..random.among(0..=400) {
        script += &any_line(random, shape.threads, greatest_key);
    }
    script
}

#[test]
fn random_scripts_print_what_plain_rust_prints() {
    let mut random = Random::new(1);
    for _ in 0..400 {
        let script = script(&mut random);
        let expected = script::printed(script.as_bytes());
        assert_eq!(program::printed(script.as_bytes()), expected, "{script}");
    }
}

#[test]
fn damaged_scripts_print_what_plain_rust_prints() {
    let mut random = Random::new(2);
    for _ in 0..800 {
        let whole = script(&mut random);
        let script = damaged(&mut random, &whole);
        let shown = String::from_utf8_lossy(&script);
        assert_eq!(program::printed(&script), script::printed(&script), "{shown}");
    }
}
