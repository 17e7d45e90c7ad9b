//! The program: a line with the number and a script on its standard input, the script cut down on
//! its output.

use checks::cut::SHOWN;
use checks::ending_scripts::{any_ending_in, long_scripts, LongScript};
use checks::made_scripts::{damaged, of_length, opening, SMALLEST};
use checks::program;
use checks::random::Random;
use plain::script::MOST_BYTES;

use crate::both::cut;

const REFUSED_LINE: &str = "refused 16\n";

/// What the program prints for a number's line and a script, which is what the library writes.
fn printed(number: u32, script: &[u8]) -> String {
    let input = [format!("{number}\n").as_bytes(), script].concat();
    let printed = program::cut(&input);
    let expected = cut(script, number)
        .map_or(REFUSED_LINE.into(), |kept| String::from_utf8(kept).expect("lines of the script"));
    assert_eq!(printed, expected, "{}", String::from_utf8_lossy(&input));
    printed
}

/// A script whose last line shows 9.
fn busy() -> String {
    opening(SMALLEST, 3) + "put 1 5 9\nturn 1 0 0\nlist 1 0 0\n"
}

#[test]
fn scripts_are_printed_as_the_library_cuts_them() {
    let mut random = Random::new(9);
    for number in SHOWN {
        for _ in 0..10 {
            let script = any_ending_in(number, &mut random, 20..=200);
            for tried in SHOWN.into_iter().chain([0, 16, u32::MAX]) {
                printed(tried, script.as_bytes());
            }
            for _ in 0..5 {
                printed(number, &damaged(&mut random, &script));
            }
        }
    }
}

#[test]
fn long_scripts_are_printed_as_the_library_cuts_them() {
    for LongScript { number, text, .. } in long_scripts() {
        assert_ne!(printed(number, text.as_bytes()), REFUSED_LINE);
    }
    let most = of_length(MOST_BYTES, "turn 9 0 0\n");
    assert_ne!(printed(3, most.as_bytes()), REFUSED_LINE);
    assert_eq!(printed(u32::MAX, most.as_bytes()), REFUSED_LINE);
    for longer in [1, 2, 100, MOST_BYTES, 9 * MOST_BYTES] {
        let script = of_length(MOST_BYTES + longer, "turn 9 0 0\n");
        assert_eq!(printed(3, script.as_bytes()), REFUSED_LINE, "{longer}");
    }
}

#[test]
fn a_number_may_have_leading_zeros() {
    let script = busy();
    let expected = printed(9, script.as_bytes());
    assert_ne!(expected, REFUSED_LINE);
    for number in ["09", "0000000009", "000000000000000000009"] {
        assert_eq!(program::cut(format!("{number}\n{script}").as_bytes()), expected, "{number}");
    }
}

#[test]
fn a_number_that_cannot_be_read_is_refused() {
    let numbers = [
        "",
        " ",
        " 9",
        "9 ",
        "9 9",
        "+9",
        "-9",
        "9.0",
        "9\r",
        "\t9",
        "x",
        "nine",
        "4294967305",
        "18446744073709551625",
    ];
    let script = busy();
    for number in numbers {
        let input = format!("{number}\n{script}");
        assert_eq!(program::cut(input.as_bytes()), REFUSED_LINE, "{number:?}");
    }
    for input in [&script, &format!("9{script}"), &format!("9\n\n{script}"), "9\n", "9", "\n", ""] {
        assert_eq!(program::cut(input.as_bytes()), REFUSED_LINE, "{input:?}");
    }
}
