//! The links of the pages, README and those under docs/ and samples/, lead to files and to headings; the name that
//! stands before a link to a Rattle file is declared there; each promise names its statement and its proof;
//! docs/GATE.md names the must-fail edits, all of them and no others; README is short and shows the sample's report.

use crate::{page, rows};
use dock_tests::cases::{names, root};
use std::collections::BTreeSet;
use std::fs;
use std::path::{Path, PathBuf};

/// A link to a file of the repository: the name in backquotes right before it, if there is one, and the heading
/// that it leads to, if it names one.
struct Link {
    page: String,
    name: Option<String>,
    file: PathBuf,
    heading: String,
}

fn pages() -> Vec<String> {
    let folders = ["docs", "docs/landings"];
    let docs = folders.into_iter().flat_map(|folder| {
        names(&root().join(folder), "md").into_iter().map(move |name| format!("{folder}/{name}.md"))
    });
    ["README.md", "samples/README.md"].map(String::from).into_iter().chain(docs).collect()
}

fn text_of(file: &Path) -> String {
    fs::read_to_string(file).unwrap_or_else(|error| panic!("{}: {error}", file.display()))
}

fn links() -> Vec<Link> {
    pages().iter().flat_map(|page| links_of(page)).collect()
}

fn links_of(page: &str) -> Vec<Link> {
    let text = text_of(&root().join(page));
    let folder = root().join(page).parent().expect("a page stands in a folder").to_path_buf();
    text.match_indices("](")
        .map(|(at, _)| {
            let target = text[at + 2..].split(')').next().expect("a link must end");
            let (file, heading) = target.split_once('#').unwrap_or((target, ""));
            let line = heading.strip_prefix('L').is_some_and(|line| line.parse::<usize>().is_ok());
            assert!(!line, "{page}: {target} names a line, which moves");
            let start = text[..at].rfind('[').expect("a link must start");
            let file = if file.is_empty() { root().join(page) } else { folder.join(file) };
            let name = name_before(&text[..start]);
            Link { page: page.to_string(), name, file, heading: heading.to_string() }
        })
        .collect()
}

/// The name in backquotes that ends a text: a link follows after white space, a comma or a bracket.
fn name_before(text: &str) -> Option<String> {
    let quoted = text.trim_end_matches(|c: char| c.is_whitespace() || "(,".contains(c)).strip_suffix('`')?;
    quoted.rsplit(['`', ':']).next().map(String::from)
}

/// The name that a line of a Rattle or antt file declares.
fn declared(line: &str) -> Option<&str> {
    const MARKS: [&str; 12] = [
        "pub",
        "crate",
        "unfoldable",
        "abbrev",
        "extern",
        "\"C\"",
        "fn",
        "struct",
        "enum",
        "const",
        "record",
        "data",
    ];
    let mut words =
        line.split(|c: char| c.is_whitespace() || "():;{<".contains(c)).filter(|word| !word.is_empty());
    words.next().filter(|word| MARKS.contains(word))?;
    words.find(|word| !MARKS.contains(word))
}

/// Whether a file declares a name, or of `Record.field` the record and the field.
fn declares(text: &str, name: &str) -> bool {
    let (whole, field) = name.split_once('.').unwrap_or((name, ""));
    let start = format!("{field} :");
    let is_field = |line: &str| line.trim_start().trim_start_matches("pub ").starts_with(&start);
    text.lines().any(|line| declared(line) == Some(whole)) && (field.is_empty() || text.lines().any(is_field))
}

/// The name by which a link leads to a heading: "Two commands" is two-commands.
fn anchor(heading: &str) -> String {
    let kept = heading.chars().filter(|c| c.is_alphanumeric() || " -_".contains(*c));
    kept.collect::<String>().to_lowercase().replace(' ', "-")
}

#[test]
fn every_link_leads_to_a_file() {
    let links = links();
    assert!(links.len() > 200, "{} links", links.len());
    for link in links {
        assert!(link.file.exists(), "{}: {}", link.page, link.file.display());
    }
}

#[test]
fn a_link_to_a_heading_leads_to_one() {
    let mut found = 0;
    for Link { page, file, heading, .. } in links() {
        if heading.is_empty() {
            continue;
        }
        let text = text_of(&file);
        let headings = text.lines().filter(|line| line.starts_with('#'));
        let leads =
            headings.map(|line| anchor(line.trim_start_matches('#').trim())).any(|name| name == heading);
        assert!(leads, "{page}: {} has no heading {heading}", file.display());
        found += 1;
    }
    assert!(found > 4, "{found} headings");
}

#[test]
fn a_file_that_is_linked_declares_the_name_before_the_link() {
    let mut found = 0;
    for Link { page, name, file, .. } in links() {
        let Some(name) = name else { continue };
        if !file.extension().is_some_and(|ending| ending == "rt" || ending == "antt") {
            continue;
        }
        assert!(declares(&text_of(&file), &name), "{page}: {} does not declare {name}", file.display());
        found += 1;
    }
    assert!(found > 140, "{found} names");
}

/// The tables of docs/PROMISES.md say in plain words what is promised, and then where it is stated and proved.
#[test]
fn each_promise_names_its_statement_and_its_proof() {
    let page = page("docs/PROMISES.md");
    let mut found = 0;
    for part in page.split("| In plain words | Stated | Proved |\n").skip(1) {
        for row in rows(part.split("\n\n").next().expect("a table")) {
            let [words, stated, proved] = &row[..] else { panic!("{row:?}") };
            assert!(words.ends_with('.') && !words.contains("]("), "{words}");
            for (cell, folders) in [(stated, &["/specs/", "/src/", "/proofs/"][..]), (proved, &["/proofs"])] {
                let leads = cell.contains("](") && folders.iter().any(|folder| cell.contains(folder));
                assert!(leads, "{cell}, for {words}");
            }
            found += 1;
        }
    }
    assert!(found > 30, "{found} promises");
}

/// The must-fail edits, as docs/GATE.md names them: `narrow/one_round_only`.
fn edits() -> BTreeSet<String> {
    let crates = fs::read_dir(root().join("crates")).expect("crates/ must be listed");
    crates
        .map(|item| item.expect("a crate must be listed"))
        .filter(|item| item.path().join("must-fail").exists()) // base has no code
        .flat_map(|item| {
            let name = item.file_name().into_string().expect("a crate's name is a text");
            let edits = names(&item.path().join("must-fail"), "edit");
            edits.into_iter().map(move |edit| format!("{name}/{edit}"))
        })
        .collect()
}

#[test]
fn the_gates_page_names_every_edit_and_no_other() {
    let page = page("docs/GATE.md");
    let crates: Vec<String> =
        edits().iter().filter_map(|edit| Some(edit.split_once('/')?.0.to_string())).collect();
    let named = page
        .split('`')
        .filter(|word| word.split_once('/').is_some_and(|(name, _)| crates.iter().any(|c| c == name)))
        .map(String::from)
        .collect::<BTreeSet<_>>();
    assert_eq!(named, edits());
}

#[test]
fn the_report_that_readme_shows_is_the_samples() {
    let report = text_of(&root().join("samples/morning.report"));
    assert!(
        page("README.md").contains(&format!("```\n{report}```\n")),
        "README must show samples/morning.report"
    );
}

/// It shows the picture too, counts the sample days, leads to each demand's promises, and is read in some minutes.
#[test]
fn readme_is_for_a_newcomer() {
    let readme = page("README.md");
    for target in ["docs/morning.svg", "docs/FORMAT.md", "docs/REFUSALS.md", "samples/README.md"] {
        assert!(readme.contains(&format!("]({target})")), "{target}");
    }
    for demand in 1..=3 {
        assert!(readme.contains(&format!("](docs/PROMISES.md#demand-{demand})")), "demand {demand}");
    }
    let days = names(&root().join("samples"), "list").len();
    let days = ["three", "four", "five", "six", "seven", "eight", "nine"][days - 3];
    assert!(readme.contains(&format!("[samples](samples/README.md) has {days} days.")), "{days}");
    let words = readme.split_whitespace().count();
    assert!(words <= 1250, "{words} words");
}
