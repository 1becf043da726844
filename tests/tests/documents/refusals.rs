//! docs/REFUSALS.md has a section for each refusal, with what it carries, who gives it and what to do; and no public
//! function asks anything of its caller.

use crate::{in_one_line, page};
use dock_tests::cases::{names, root};
use dock_tests::commits;
use dock_tests::flat::SIZE;
use std::fs;

/// The number and the case of each refusal, from the definition: "code_of (BadMapByte at) = code 4 (at ∷ [])".
fn defined() -> Vec<(usize, String)> {
    let text = page("crates/list/specs/Refusals.antt");
    let lines = text.lines().filter_map(|line| line.strip_prefix("code_of ")?.split_once(" = code "));
    lines
        .map(|(case, code)| {
            let number = code.split(' ').next().and_then(|word| word.parse().ok()).expect("a number");
            (number, case.trim_start_matches('(').split([' ', ')']).next().expect("a case").to_string())
        })
        .collect()
}

/// The sections of the page that have a number: "## 4 `BadMapByte`: a map byte breaks its rules".
fn sections() -> Vec<(usize, String, String)> {
    let page = page("docs/REFUSALS.md");
    let parts = page.split("\n## ").skip(1);
    parts
        .filter_map(|part| {
            let (number, rest) = part.split_once(" `")?;
            let (case, text) = rest.split_once("`: ")?;
            Some((number.parse().ok()?, case.to_string(), text.to_string()))
        })
        .collect()
}

#[test]
fn each_refusal_has_its_section() {
    let sections = sections();
    let headings: Vec<_> = sections.iter().map(|(number, case, _)| (*number, case.clone())).collect();
    assert_eq!(headings, defined());
    let numbers: Vec<usize> = headings.iter().map(|(number, _)| *number).collect();
    assert_eq!(numbers, (1..numbers.len()).chain([100]).collect::<Vec<_>>());
    assert!(numbers.len() >= 20, "{numbers:?}");
}

#[test]
fn each_section_says_what_to_do() {
    for (number, case, text) in sections() {
        for part in ["- Means: ", "- Carries: ", "- Given by: ", "- What to do: "] {
            assert_eq!(text.matches(part).count(), 1, "{number} {case}: {part}");
        }
        let printed = text.contains(&format!("`refused {number} "));
        assert!(
            printed || [11, 12, 13, 17, 18, 19, 100].contains(&number),
            "{number} {case}: how the program prints it"
        );
        assert_ne!(printed, text.contains("never printed by the program"), "{number} {case}");
    }
}

#[test]
fn the_section_of_100_has_the_lengths_of_rows() {
    let sections = sections();
    let (_, _, text) = sections.iter().find(|(number, ..)| *number == 100).expect("a section");
    let text = in_one_line(text);
    for wanted in [
        format!("such a row: {SIZE} for a list, {} for a stamped day, 7 for an entry.", commits::SIZE),
        format!("- What to do: use rows of that many numbers. A list of {} is from before", SIZE - 1),
    ] {
        assert!(text.contains(&wanted), "{wanted}");
    }
}

/// "No public function has a `requires`, and each states its answer": from its signature to its body.
#[test]
fn no_public_function_asks_anything() {
    let mut found = 0;
    for item in fs::read_dir(root().join("crates")).expect("crates/ must be listed") {
        let folder = item.expect("a crate must be listed").path().join("src");
        for name in names(&folder, "rt") {
            let text = fs::read_to_string(folder.join(&name).with_extension("rt")).expect("a source");
            for (at, _) in text.match_indices("pub fn ").chain(text.match_indices("pub extern \"C\" fn ")) {
                let contract = text[at..].split("\n{").next().and_then(|part| part.split("\n    {").next());
                let contract = contract.expect("a signature");
                assert!(!contract.contains("requires "), "{name}: {contract}");
                assert!(contract.contains("ensures "), "{name}: {contract}");
                found += 1;
            }
        }
    }
    assert!(found > 30, "{found} functions");
}
