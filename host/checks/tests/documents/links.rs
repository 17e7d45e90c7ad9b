//! Links of the documents.

use crate::repository::{documents, path, text};

/// A link: the document that it stands in, its text, the file that it leads to, and the place there.
struct Link {
    document: String,
    text: String,
    file: String,
    place: Option<String>,
}

/// All links of a document, but for those in fenced blocks.
fn links(document: &str) -> Vec<Link> {
    let folder = document.rsplit_once('/').map_or("", |(folder, _)| folder);
    let whole = text(document);
    let prose: String = whole.split("\n```").step_by(2).collect();
    let mut found = vec![];
    for (at, _) in prose.match_indices("](") {
        let label = prose[..at].rsplit('[').next().expect("a part");
        let target = prose[at + 2..].split(')').next().expect("a part");
        let (file, place) = target
            .split_once('#')
            .map_or((target, None), |(file, place)| (file, Some(place.to_owned())));
        let file = match file {
            "" => document.to_owned(),
            _ if folder.is_empty() => file.to_owned(),
            _ => format!("{folder}/{file}"),
        };
        found.push(Link {
            document: document.to_owned(),
            text: label.replace('`', ""),
            file,
            place,
        });
    }
    found
}

fn all_links() -> Vec<Link> {
    documents().iter().flat_map(|document| links(document)).collect()
}

/// The number of the line that a link's place names, where it names one.
fn line_named(link: &Link) -> Option<usize> {
    link.place.as_deref()?.strip_prefix('L')?.parse().ok()
}

/// The name that a line of a source file defines, if it does.
fn defined(line: &str) -> Option<&str> {
    let before = ["abbrev", "unfoldable", "pub", "record", "data", "extern", "\"C\"", "fn"];
    line.split([' ', '(']).find(|part| !part.is_empty() && !before.contains(part))
}

/// A heading as the place that a link names.
fn slug(heading: &str) -> String {
    let kept = |c: &char| c.is_alphanumeric() || [' ', '-', '_'].contains(c);
    heading
        .trim_start_matches('#')
        .trim()
        .to_lowercase()
        .chars()
        .filter(kept)
        .collect::<String>()
        .replace(' ', "-")
}

#[test]
fn every_link_leads_to_a_file() {
    let links = all_links();
    assert!(links.len() > 50, "{} links", links.len());
    for link in links {
        assert!(path(&link.file).exists(), "{} links to {}", link.document, link.file);
    }
}

#[test]
fn every_name_links_to_the_line_that_states_it() {
    let mut stale = vec![];
    for link in all_links() {
        let Some(number) = line_named(&link) else { continue };
        let file = text(&link.file);
        let lines: Vec<&str> = file.lines().collect();
        let states = |line: &&str| defined(line) == Some(link.text.as_str());
        if !lines.get(number - 1).is_some_and(states) {
            let right = lines.iter().position(states).map(|index| index + 1);
            stale.push(format!(
                "{}: {} is at line {right:?} of {}, not at {number}",
                link.document, link.text, link.file
            ));
        }
    }
    assert!(stale.is_empty(), "{}", stale.join("\n"));
}

#[test]
fn every_heading_linked_to_is_there() {
    for link in all_links() {
        let Some(place) = link.place.as_deref().filter(|_| line_named(&link).is_none()) else {
            continue;
        };
        let file = text(&link.file);
        let mut headings = file.lines().filter(|line| line.starts_with('#')).map(slug);
        assert!(
            headings.any(|heading| heading == place),
            "{}: {}#{place}",
            link.document,
            link.file
        );
    }
}
