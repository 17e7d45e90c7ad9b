//! Tables, header and crates.txt list what there is, with its numbers.

use checks::fields::place;
use mound::{Answer, Operation, Permission, Record, Refusal, Shape, Turn, MOST_SCRIPT_BYTES};

use crate::repository::text;

/// The refusals, by their numbers.
fn refusals() -> Vec<Refusal> {
    (0..256).filter_map(|number| Refusal::try_from(number).ok()).collect()
}

/// The answers, by their codes from 0; took and refused with any item and refusal.
fn answers() -> Vec<Answer> {
    (0..)
        .map_while(|code| {
            [[code, 0, 0], [code, 1, 0]].into_iter().find_map(|words| Answer::try_from(words).ok())
        })
        .collect()
}

/// A variant's name in capitals, its words parted by `_`.
fn capitals(variant: &str) -> String {
    let name = variant.split([' ', '(']).next().expect("a part");
    let mut capitals = String::new();
    for letter in name.chars() {
        if letter.is_uppercase() && !capitals.is_empty() {
            capitals.push('_');
        }
        capitals.extend(letter.to_uppercase());
    }
    capitals
}

/// The value that the header gives a constant of that name.
fn header_constant(name: &str) -> Option<u64> {
    let header = text("include/mound.h");
    let value = header.lines().find_map(|line| {
        let line = line.trim_start().trim_start_matches("#define ");
        let value = line.strip_prefix(name)?.strip_prefix([' ', '='])?;
        Some(value.trim_start_matches([' ', '=']).split([',', ' ', 'u']).next()?.to_owned())
    })?;
    value.trim().parse().ok()
}

/// The first cells of the rows of the table under a heading that start with a number or a name.
fn first_cells(document: &str, heading: &str) -> Vec<String> {
    let text = text(document);
    let section = text.split(&format!("\n{heading}\n")).nth(1).expect("the heading is there");
    let section = section.split("\n## ").next().expect("a part");
    let rows = section.lines().filter_map(|line| line.strip_prefix("| "));
    let cell = |row: &str| row.split(" |").next().expect("a part").replace('`', "");
    rows.map(cell).skip(1).collect()
}

/// The greatest number of a place, by their definition, where the last has it.
fn greatest_place() -> u32 {
    let definitions = text("crates/region/specs/Place.antt");
    let last = definitions.lines().rfind(|line| line.starts_with("place_number "));
    let number = last.and_then(|clause| clause.rsplit(" = ").next());
    number.and_then(|number| number.parse().ok()).expect("the last place has a number")
}

/// The exported calls, in the source's order.
fn exported() -> Vec<String> {
    let source = text("crates/mound_c/src/lib.rt");
    let name = |start: &str| start.split('(').next().expect("a part").to_owned();
    source.split("pub extern \"C\" fn ").skip(1).map(name).collect()
}

/// Each public function of a source up to its body, that is comment, head and clauses, without its attributes (what makes
/// it an export, how it is proved) and without layout.
fn promises(source: &str) -> Vec<String> {
    let source = text(source).replace("extern \"C\" ", "");
    let items = source.split("\n\n").filter(|item| item.contains("pub fn "));
    let promise = |item: &str| {
        let lines = item.split("\n{\n").next().expect("a part").lines();
        let lines = lines.filter(|line| !line.starts_with("#["));
        lines.flat_map(str::split_whitespace).collect::<String>().replace(",)", ")")
    };
    items.map(promise).collect()
}

#[test]
fn the_exports_promise_what_the_calls_do() {
    let exports = promises("crates/mound_c/src/lib.rt");
    assert_eq!(exports.len(), exported().len());
    assert_eq!(exports, promises("crates/mound/src/lib.rt"));
}

#[test]
fn the_header_has_every_refusal() {
    assert_eq!(header_constant("MOUND_DONE"), Some(0));
    for refusal in refusals() {
        let name = format!("MOUND_REFUSED_{}", capitals(&format!("{refusal:?}")));
        assert_eq!(header_constant(&name), Some(refusal.number().into()), "{name}");
    }
    assert_eq!(text("include/mound.h").matches("MOUND_REFUSED_").count(), refusals().len());
}

#[test]
fn the_header_has_every_answer() {
    for answer in answers() {
        let name = format!("MOUND_{}", capitals(&format!("{answer:?}")));
        assert_eq!(header_constant(&name), Some(answer.words()[0].into()), "{name}");
    }
}

#[test]
fn the_header_has_permissions_kinds_and_ranges() {
    let largest = Shape::LARGEST;
    let kind = |operation| {
        let record = Record { operation, thread: 1, begin: 1, answer: 2, position: 1 };
        u64::from(record.words()[0])
    };
    let constants = [
        ("MOUND_MAY_NOTHING", Permission::NONE.value().into()),
        ("MOUND_MAY_PUT", Permission::PUT.value().into()),
        ("MOUND_MAY_TAKE", Permission::TAKE.value().into()),
        ("MOUND_MAY_PUT_AND_TAKE", Permission::PUT_AND_TAKE.value().into()),
        ("MOUND_GREATEST_DEPTH", largest.depth.into()),
        ("MOUND_GREATEST_THREADS", largest.threads.into()),
        ("MOUND_GREATEST_THRESHOLD", largest.threshold.into()),
        ("MOUND_GREATEST_KEY", u64::from(u32::MAX) - 1),
        ("MOUND_GREATEST_TAG", u16::MAX.into()),
        ("MOUND_MOST_TURNS", Turn::MOST as u64),
        ("MOUND_MOST_RECORDS", Record::MOST as u64),
        ("MOUND_MOST_SCRIPT_BYTES", MOST_SCRIPT_BYTES as u64),
        ("MOUND_KIND_PUT", kind(Operation::Put { key: 0, tag: 0 })),
        ("MOUND_KIND_TAKE", kind(Operation::Take { key: 0, tag: 0 })),
        ("MOUND_KIND_EMPTY", kind(Operation::Empty)),
    ];
    for (name, value) in constants {
        assert_eq!(header_constant(name), Some(value), "{name}");
    }
}

#[test]
fn header_and_reference_have_every_call() {
    let [header, reference] = ["include/mound.h", "docs/REFERENCE.md"].map(text);
    let calls = exported();
    assert!(calls.len() >= 9, "{calls:?}");
    for call in calls {
        assert!(header.contains(&format!(" {call}(")), "include/mound.h lacks {call}");
        assert!(reference.contains(&format!("\n### {call}\n")), "docs/REFERENCE.md lacks {call}");
    }
}

/// No theorem on histories speaks of a call that they do not have.
#[test]
fn histories_have_every_call_on_a_region() {
    let definitions = text("crates/bag/specs/Calls.antt");
    let calls = definitions.split("pub data Call ").nth(1).expect("the calls of a history");
    let calls = calls.split("\n\n").next().expect("a part").lines().skip(1);
    let calls: Vec<&str> = calls.filter_map(|line| line.trim().split(" : ").next()).collect();
    let source = text("crates/mound/src/lib.rt");
    for name in exported() {
        let head = source.split(&format!("fn {name}(")).nth(1).expect("its head").trim_start();
        if head.starts_with("region: ") {
            assert!(calls.contains(&&name["mound_".len()..]), "histories lack {name}");
        }
    }
}

#[test]
fn the_reference_has_every_refusal_answer_and_place() {
    let rows = |heading| -> Vec<u32> {
        let cells = first_cells("docs/REFERENCE.md", heading);
        cells.iter().map(|cell| cell.parse().expect("a number")).collect()
    };
    let mut refused = rows("## The refusals");
    refused.dedup(); // 7 has two rows: of a call and of a turn
    assert!(refused.into_iter().eq(refusals().into_iter().map(u32::from)));
    assert!(rows("## The answers")
        .into_iter()
        .eq(answers().iter().map(|answer| answer.words()[0])));
    assert!(rows("## The places and the ways between them").into_iter().eq(1..=greatest_place()));
}

#[test]
fn the_tests_know_every_place() {
    assert_eq!(place::GREATEST, greatest_place());
}

#[test]
fn the_map_of_the_crates_has_the_order_of_crates_txt() {
    let listed = text("crates.txt");
    let listed = listed.lines().filter_map(|line| line.split_once(':')).map(|(name, _)| name);
    let listed = listed.filter(|name| !name.starts_with('#'));
    let listed: Vec<&str> = listed.map(|name| name.trim_end_matches(" staticlib")).collect();
    assert_eq!(first_cells("README.md", "## The crates"), listed);
}
