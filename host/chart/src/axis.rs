//! The upright axis: round numbers from 0 on.

/// An axis from 0 up to a round number.
#[derive(Clone, Copy, Debug, PartialEq, Eq)]
pub(crate) struct Axis {
    /// The distance of two numbers on it: 1, 2 or 5 with zeros behind it.
    step: u32,
    /// Its last number.
    pub end: u32,
}

impl Axis {
    /// The axis of at most five steps that reaches this number with the least step.
    pub fn reaching(greatest: u32) -> Axis {
        let powers = (0..).map(|zeros| 10_u32.pow(zeros));
        let mut steps = powers.flat_map(|power| [power, 2 * power, 5 * power]);
        let step = steps.find(|&step| greatest.div_ceil(step) <= 5).expect("steps have no end");
        Axis { step, end: step * greatest.div_ceil(step).max(1) }
    }

    /// Its numbers, from 0 to the end.
    pub fn numbers(self) -> impl Iterator<Item = u32> {
        (0..=self.end).step_by(self.step as usize)
    }
}

/// A number with a comma before each three digits but the first.
pub(crate) fn with_commas(number: u32) -> String {
    let digits = number.to_string();
    let mut text = String::new();
    for (at, digit) in digits.chars().enumerate() {
        if at > 0 && (digits.len() - at).is_multiple_of(3) {
            text.push(',');
        }
        text.push(digit);
    }
    text
}

#[cfg(test)]
mod tests {
    use super::*;

    #[test]
    fn an_axis_has_round_numbers() {
        for (greatest, step, end) in [
            (0, 1, 1),
            (1, 1, 1),
            (5, 1, 5),
            (6, 2, 6),
            (7, 2, 8),
            (11, 5, 15),
            (99, 20, 100),
            (100, 20, 100),
            (101, 50, 150),
            (1234, 500, 1500),
            (60_000, 20_000, 60_000),
        ] {
            assert_eq!(Axis::reaching(greatest), Axis { step, end }, "{greatest}");
        }
    }

    #[test]
    fn an_axis_reaches_every_number_in_few_steps() {
        for greatest in 0..=60_000 {
            let axis = Axis::reaching(greatest);
            let steps = axis.numbers().count() - 1;
            assert!(greatest <= axis.end && (1..=5).contains(&steps), "{greatest}: {axis:?}");
            assert!(axis.end <= greatest.max(1) + axis.step, "{greatest}: {axis:?}");
        }
        assert!(Axis::reaching(20).numbers().eq([0, 5, 10, 15, 20]));
    }

    #[test]
    fn commas_part_thousands() {
        for (number, text) in [(0, "0"), (999, "999"), (1000, "1,000"), (1_234_567, "1,234,567")] {
            assert_eq!(with_commas(number), text);
        }
    }
}
