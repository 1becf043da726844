//! What the definitions, proofs and code under crates/ import and name, file by file. "Settled windows, least ends and
//! greatest starts keep their values" (document 02): the files that define them never reach the one in which Jackson's
//! minute, its tie rule and the schedule are defined; nor do the steps of the law that a plan exists exactly when no
//! interval is overloaded, so that a rule for ties leaves them as they are.

use crate::page;
use dock_tests::cases::{names, root};
use std::collections::BTreeMap;

/// Where Jackson's minute, its tie rule and the schedule are defined.
const MINUTES: &str = "crates/jackson/specs/Minutes.antt";

/// The files that are met from one on, each with the one that imports it.
type Met = BTreeMap<String, String>;

/// All that a file imports, and what that imports, and so on.
fn met(from: &str, imports: impl Fn(&str) -> Vec<String>) -> Met {
    let mut met = Met::from([(from.to_string(), String::new())]);
    let mut waiting = vec![from.to_string()];
    while let Some(file) = waiting.pop() {
        for import in imports(&file) {
            if !met.contains_key(&import) {
                met.insert(import.clone(), file.clone());
                waiting.push(import);
            }
        }
    }
    met
}

/// The files between one that was met and the one from which all were.
fn way(met: &Met, file: &str) -> String {
    match &met[file][..] {
        "" => file.to_string(),
        by => format!("{} -> {file}", way(met, by)),
    }
}

/// The files of a folder that have this ending.
fn files(folder: &str, ending: &str) -> Vec<String> {
    names(&root().join(folder), ending).iter().map(|name| format!("{folder}/{name}.{ending}")).collect()
}

/// The definitions and proofs that a file imports, by lines "use Rattle.windows.specs.Windows.{Windows}" and
/// "ghost use ..". There is no other way to name another file, and each such line must lead to one, but for those of
/// the kit's library `std`. Modules of `specs.declared` are made from the code's types and import nothing.
#[track_caller]
fn definitions(file: &str) -> Vec<String> {
    let text = page(file);
    let lines = text.lines().filter(|line| line.contains("Rattle."));
    let modules = lines.map(|line| {
        let line = line.trim_start();
        assert_eq!(line.matches("Rattle.").count(), 1, "{file}: {line} is more than an import");
        let module = line.strip_prefix("ghost ").unwrap_or(line).strip_prefix("use Rattle.");
        module.unwrap_or_else(|| panic!("{file}: {line} is no import"))
    });
    modules.filter_map(|module| definition(file, module)).collect()
}

/// The file of a module "windows.specs.Windows.{Windows}".
#[track_caller]
fn definition(file: &str, import: &str) -> Option<String> {
    let module = import.split(".{").next().and_then(|part| part.split(" as ").next()).expect("a module");
    let (name, path) = module.split_once('.').expect("a crate and a path");
    if name == "std" || path.starts_with("specs.declared.") {
        return None;
    }
    let found = format!("crates/{name}/{}.antt", path.replace('.', "/"));
    assert!(root().join(&found).is_file(), "{file}: {import} leads to no file");
    Some(found)
}

/// The code that a file names: by lines "use crate::types::Day;", "use list::types::{DayList, Refusal};", "use
/// windows::mirrored;" and, in lib.rt, "pub use mirror::mirrored;", and where it is called, "list::check(list)".
#[track_caller]
fn code(file: &str) -> Vec<String> {
    let own = file.split('/').nth(1).expect("a crate");
    let text = page(file);
    let lines = text.lines().map(str::trim_start);
    let passed_over = ["//", "ghost ", "#["];
    let lines = lines.filter(|line| !passed_over.iter().any(|start| line.starts_with(start)));
    let named = lines.flat_map(|line| match line.strip_prefix("pub use ") {
        Some(import) => items(import).into_iter().map(|path| format!("crate::{path}")).collect(),
        None => line.strip_prefix("use ").map_or_else(|| paths(line), items),
    });
    named.map(|path| source(file, own, &path)).collect()
}

/// The items of an import: "list::types::DayList" and "list::types::Refusal" in "list::types::{DayList, Refusal};".
fn items(import: &str) -> Vec<String> {
    let import = import.trim_end_matches(';');
    let Some((path, names)) = import.split_once("::{") else { return vec![import.to_string()] };
    names.trim_end_matches('}').split(", ").map(|name| format!("{path}::{name}")).collect()
}

/// What the language has, whose functions no crate here declares.
const BUILT_IN: [&str; 6] = ["u8::", "u16::", "u32::", "u64::", "usize::", "std::"];

/// The paths in a line, "list::check" in "list::check(list)?;". Crates and modules begin with a small
/// letter, types do not, but for the language's own: "Kind::Whole" is none, nor is "usize::from".
fn paths(line: &str) -> Vec<String> {
    let words = line.split(|letter: char| !(letter.is_alphanumeric() || letter == '_' || letter == ':'));
    words
        .filter(|word| word.starts_with(char::is_lowercase) && word.contains("::"))
        .filter(|word| !BUILT_IN.iter().any(|built_in| word.starts_with(built_in)))
        .map(String::from)
        .collect()
}

/// The file that declares "crate::types::Day", "list::types::Refusal" or "windows::mirrored".
#[track_caller]
fn source(file: &str, own: &str, import: &str) -> String {
    let parts: Vec<&str> = import.split("::").collect();
    let name = if parts[0] == "crate" { own } else { parts[0] };
    let module = match parts[1..] {
        [module, _] => module.to_string(),
        [item] => exporting(name, item),
        _ => panic!("{file}: {import} is not understood"),
    };
    let found = format!("crates/{name}/src/{module}.rt");
    assert!(root().join(&found).is_file(), "{file}: {import} leads to no file");
    found
}

/// The module from which a crate exports an item: "pub use mirror::mirrored;", or lib.rt itself, with "pub fn
/// largest_first(".
#[track_caller]
fn exporting(name: &str, item: &str) -> String {
    let text = page(&format!("crates/{name}/src/lib.rt"));
    if text.contains(&format!("\npub fn {item}(")) {
        return "lib".to_string();
    }
    let mut exports = text.lines().filter_map(|line| line.strip_prefix("pub use ")).flat_map(items);
    let found = exports.find_map(|path| Some(path.strip_suffix(&format!("::{item}"))?.to_string()));
    found.unwrap_or_else(|| panic!("{name} exports no {item}"))
}

/// None of these files leads to the tie rule. More files than so many are met from all of them, their own among them.
#[track_caller]
fn never_reach_minutes(from: &[String], more_than: usize) {
    let mut all = Met::new();
    for file in from {
        let met = met(file, definitions);
        assert!(!met.contains_key(MINUTES), "{}", way(&met, MINUTES));
        all.extend(met);
    }
    assert!(all.len() > more_than, "{all:?}");
}

/// Every definition of narrowing, those of steps, rounds and settled windows among them.
#[test]
fn narrowing_is_defined_without_the_tie_rule() {
    never_reach_minutes(&files("crates/narrow/specs", "antt"), 12);
}

#[test]
fn bounds_are_defined_without_the_tie_rule() {
    never_reach_minutes(&["crates/bounds/specs/Ends.antt".to_string()], 4);
}

/// What the contracts of narrowing's code say.
#[test]
fn narrowings_code_promises_nothing_of_the_tie_rule() {
    never_reach_minutes(&files("crates/narrow/src", "rt"), 12);
}

/// "the narrower uses only the planner's promise that a plan exists exactly without overload": the code that narrows,
/// and that finds least ends and greatest starts, never calls Jackson's minute, nor the schedule that is made of it.
#[test]
fn code_of_windows_and_bounds_does_not_call_jacksons_minute() {
    let bounds = "crates/bounds/src/ends.rt".to_string();
    for file in files("crates/narrow/src", "rt").into_iter().chain([bounds]) {
        let met = met(&file, code);
        for planner in ["crates/jackson/src/minute.rt", "crates/jackson/src/fill.rt"] {
            assert!(!met.contains_key(planner), "{}", way(&met, planner));
        }
        let calls =
            met.keys().find(|file| [".minute(", "::minute("].iter().any(|call| page(file).contains(call)));
        assert_eq!(calls, None, "the method of a day is Jackson's minute");
    }
}

/// The steps of the law that a plan exists exactly when no interval is overloaded: they hold for every rule that takes
/// the smallest d, whatever it does with ties.
#[test]
fn the_steps_of_the_law_of_plans_know_no_tie_rule() {
    let windows = ["PlanWork", "Endpoints", "IntervalWork", "ShownInterval"];
    let windows = windows.map(|name| format!("crates/windows/proofs/{name}.antt"));
    let jackson = ["OneMinute", "RunningDays"];
    let jackson = jackson.map(|name| format!("crates/jackson/proofs/{name}.antt"));
    let files = [&windows[..], &jackson[..]].concat();
    never_reach_minutes(&files, 10);
}

/// The search is not blind: what speaks of plans leads to the tie rule, and their code calls Jackson's minute.
#[test]
fn plans_are_defined_proved_and_coded_with_the_tie_rule() {
    for file in ["crates/bounds/specs/ShownPlans.antt", "crates/jackson/proofs/Schedules.antt"] {
        let met = met(file, definitions);
        assert!(met.contains_key(MINUTES), "{file} leads to {met:?}");
    }
    let met = met("crates/bounds/src/shown.rt", code);
    assert!(met.contains_key("crates/jackson/src/fill.rt"), "{met:?}");
    assert!(page("crates/jackson/src/fill.rt").contains("use crate::types::Day;"));
    assert!(code("crates/narrow/src/rounds.rt").contains(&"crates/windows/src/interval.rt".to_string()));
}
