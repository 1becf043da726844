//! The picture of a planned day, docs/morning.svg, is the one of samples/morning, and README shows it.

use dock_tests::cases::root;
use dock_tests::picture;
use std::fs;

fn stored() -> String {
    fs::read_to_string(picture::file()).expect("the picture")
}

#[test]
fn the_picture_is_the_samples() {
    let way = "tools/build && cargo run --manifest-path tests/Cargo.toml --bin picture";
    assert!(
        stored() == picture::morning(),
        "docs/morning.svg is not of samples/morning; to write it anew: {way}"
    );
}

/// Each run of the report stands in the picture, in its words too.
#[test]
fn the_picture_has_every_run() {
    let report = fs::read_to_string(root().join("samples/morning.report")).expect("the report");
    let runs: Vec<Vec<&str>> = report
        .lines()
        .map(|line| line.split(' ').collect::<Vec<_>>())
        .filter(|fields| fields.len() == 3)
        .collect();
    assert_eq!(runs.len(), 6);
    let picture = stored();
    for run in runs {
        assert!(picture.contains(&format!(">{}–{}<", run[0], run[1])), "the bar of {run:?}");
        assert!(picture.contains(&format!("{} to {}", run[0], run[1])), "the words for {run:?}");
    }
}

#[test]
fn the_picture_has_a_title_and_fetches_nothing() {
    let picture = stored();
    for part in ["<title id=\"title\">", "<desc id=\"desc\">", "prefers-color-scheme: dark"] {
        assert!(picture.contains(part), "{part}");
    }
    for part in ["href", "url(", "@import", "<script", "<image"] {
        assert!(!picture.contains(part), "{part}");
    }
}
