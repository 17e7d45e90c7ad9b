//! Pictures, taken apart: each figure is a bar of its height, and nothing lies on anything else.

use chart::{draw, Figures, NotDrawable, Report, KINDS};

/// A box with what stands in it or what it is called.
#[derive(Debug)]
struct Shown {
    left: f64,
    top: f64,
    right: f64,
    bottom: f64,
    name: String,
}

impl Shown {
    fn lies_on(&self, other: &Shown) -> bool {
        // Numbers are written with one digit behind the point.
        let apart = |end: f64, start: f64| end <= start + 0.15;
        !(apart(self.right, other.left)
            || apart(other.right, self.left)
            || apart(self.bottom, other.top)
            || apart(other.bottom, self.top))
    }

    fn lies_in(&self, (width, height): (f64, f64)) -> bool {
        self.left >= 0.0 && self.top >= 0.0 && self.right <= width && self.bottom <= height
    }
}

/// An attribute of an element, the element a line.
fn attribute<'a>(element: &'a str, name: &str) -> &'a str {
    let start = element.find(&format!(" {name}=\"")).expect(name) + name.len() + 3;
    element[start..].split('"').next().expect("a part")
}

fn number(element: &str, name: &str) -> f64 {
    attribute(element, name).parse().expect("a number")
}

fn inside(element: &str, tag: &str) -> String {
    let start = element.rfind(&format!("<{tag}")).expect(tag);
    let content = element[start..].split('>').nth(1).expect("a part");
    content.split('<').next().expect("a part").to_owned()
}

/// The bars of a picture, those of the legend too.
fn bars(picture: &str) -> Vec<Shown> {
    let bar = |element: &str| {
        let (left, top) = (number(element, "x"), number(element, "y"));
        let (right, bottom) = (left + number(element, "width"), top + number(element, "height"));
        Shown { left, top, right, bottom, name: inside(element, "title") }
    };
    picture.lines().filter(|line| line.contains("<title>")).map(bar).collect()
}

/// The texts of a picture, each letter taken as wide as three fifths of its height.
fn texts(picture: &str) -> Vec<Shown> {
    let text = |element: &str| {
        let name = inside(element, "text");
        let (x, y, size) =
            (number(element, "x"), number(element, "y"), number(element, "font-size"));
        let width = 0.6 * size * f64::from(u32::try_from(name.chars().count()).expect("short"));
        let left = match attribute(element, "text-anchor") {
            "start" => x,
            "middle" => x - width / 2.0,
            _ => x - width,
        };
        Shown { left, top: y - 0.75 * size, right: left + width, bottom: y + 0.2 * size, name }
    };
    let texts = picture.lines().filter(|line| line.starts_with("<text"));
    texts.filter(|line| !line.contains("stroke")).map(text).collect()
}

fn size(picture: &str) -> (f64, f64) {
    let head = picture.lines().nth(1).expect("the second line");
    (number(head, "width"), number(head, "height"))
}

/// So many reports of so many scripts, with figures up to this one, many of them 0.
fn reports(count: u32, scripts: u32, greatest: u32) -> Vec<(String, Report)> {
    let mut state = 1;
    let mut any = |end: u32| {
        state = (state * 48_271_u64) % 2_147_483_647;
        u32::try_from(state % 3 * state % u64::from(end)).expect("less than the end")
    };
    let mut figures = || {
        let accesses = [greatest, greatest / 3 + 1, 9, 5, 9, 3].map(&mut any);
        let failed = any(accesses[2..5].iter().sum::<u32>() + 1);
        Figures { accesses, failed, operations: [30, 20, 3, 2].map(&mut any) }
    };
    let mut report = || Report { scripts: (0..scripts).map(|_| vec![figures()]).collect() };
    (0..count).map(|number| ((1 << number).to_string(), report())).collect()
}

#[test]
fn each_figure_is_a_bar_of_its_height() {
    let figures = |accesses, failed| Figures { accesses, failed, operations: [3, 0, 0, 1] };
    let one = [figures([20, 8, 6, 3, 2, 1], 5), Figures::default()];
    let other = [figures([40, 0, 0, 0, 0, 0], 0), figures([0; 6], 0)];
    let [one, other] =
        [one, other].map(|scripts| Report { scripts: scripts.map(|thread| vec![thread]).into() });
    let picture = draw(&[(String::from("1"), one), (String::from("x"), other)]).unwrap();
    // The axis ends at 40, 260 pixels over its base at 334.
    let found: Vec<(String, f64, f64)> = bars(&picture)
        .into_iter()
        .filter(|bar| bar.name.starts_with("script"))
        .map(|bar| (bar.name, bar.top, bar.bottom))
        .collect();
    let due = [
        ("1: 20 READ node", 204.0, 334.0),
        ("1: 8 READ depth", 152.0, 204.0),
        ("1: 6 CAS", 113.0, 152.0),
        ("1: 3 DCAS", 93.5, 113.0),
        ("1: 2 DCSS", 80.5, 93.5),
        ("1: 1 hand-out", 74.0, 80.5),
        ("1: 5 failed updates", 301.5, 334.0),
        ("x: 40 READ node", 74.0, 334.0),
    ];
    let due = due.map(|(name, top, bottom)| (format!("script 1, threshold {name}"), top, bottom));
    assert_eq!(found, due);
    // Ten accesses for each operation, in the bars of script 1, and none in one of script 2.
    let names: Vec<String> = texts(&picture).into_iter().map(|text| text.name).collect();
    let times = |name: &str| names.iter().filter(|&other| other == name).count();
    assert_eq!([times("10.0"), times("0.0"), times("x")], [2, 1, 2]);
    assert_eq!(["0", "10", "20", "30", "40"].map(times), [1; 5]);
}

#[test]
fn nothing_lies_on_anything_else_or_outside() {
    for count in [1, 2, 4, 9] {
        for scripts in [1, 2, 3, 5, 14, 64] {
            for greatest in [1, 40, 7000] {
                let picture = draw(&reports(count, scripts, greatest)).unwrap();
                let mut shown = bars(&picture);
                shown.extend(texts(&picture));
                let size = size(&picture);
                for (at, one) in shown.iter().enumerate() {
                    assert!(one.lies_in(size), "{one:?} of {count} reports, {scripts} scripts");
                    for other in &shown[..at] {
                        assert!(!one.lies_on(other), "{one:?} on {other:?}, {count}, {scripts}");
                    }
                }
            }
        }
    }
}

#[test]
fn every_script_and_every_label_is_named() {
    for scripts in [1, 7, 64] {
        let picture = draw(&reports(3, scripts, 40)).unwrap();
        let texts = texts(&picture);
        let is_named = |name: &str| texts.iter().any(|text| text.name == name);
        assert!((1..=scripts).all(|script| is_named(&script.to_string())), "{scripts}");
        assert!(["1", "2", "4", "accesses", "threshold", "script", "failed updates"]
            .into_iter()
            .chain(KINDS)
            .all(is_named));
    }
}

#[test]
fn labels_are_no_markup() {
    let mut reports = reports(1, 1, 40);
    reports[0].0 = String::from("</svg> & \"8\"");
    let picture = draw(&reports).unwrap();
    assert!(picture.contains(">&lt;/svg&gt; &amp; &quot;8&quot;</text>"));
    assert!(picture.contains("threshold &lt;/svg&gt; &amp; &quot;8&quot;: "));
    assert_eq!(picture.matches("</svg>").count(), 1);
}

#[test]
fn reports_of_no_script_or_of_different_scripts_are_not_drawn() {
    assert_eq!(draw(&[]), Err(NotDrawable::NoScript));
    assert_eq!(draw(&reports(2, 0, 40)), Err(NotDrawable::NoScript));
    let two_and_three = [reports(1, 2, 40), reports(1, 3, 40)].concat();
    assert_eq!(draw(&two_and_three), Err(NotDrawable::DifferentScripts(2, 3)));
    let two_and_none = [reports(1, 2, 40), reports(1, 0, 40)].concat();
    assert_eq!(draw(&two_and_none), Err(NotDrawable::DifferentScripts(2, 0)));
}
