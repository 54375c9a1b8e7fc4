//! docs/DIFFERENCES.md itself: each of its traces is in the suite, its quotations
//! are the Rust's words, and every function of the Rust is on some list.

use crate::binary::output_for;
use oracle::record::Record;
use std::process::Command;

const DOCUMENT: &str = include_str!("../../../docs/DIFFERENCES.md");
const SUITE: &str = include_str!("differences.rs");
const SOURCE: &str = include_str!("../../src/storage/page_cache.rs");
/// The public calls of this cache.
const CALLS: &str = include_str!("../../../crates/page_cache/src/lib.rt");

/// Wherever the document has this trace, the next things in backticks are these.
#[track_caller]
pub fn document_has(trace: &str, lines: &[&str]) {
    let document = document();
    let mut found = false;
    for (at, _) in document.match_indices(trace) {
        let behind = &document[at + trace.len()..];
        if ![":", ".", " |"].iter().any(|end| behind.starts_with(end)) {
            // A longer trace.
            continue;
        }
        found = true;
        let quoted: Vec<_> = in_pairs_of('`', behind).take(lines.len()).collect();
        assert_eq!(quoted, lines, "behind {trace:?}");
    }
    assert!(found, "{trace:?} isn't there");
}

/// The records that tools/trace makes of a trace of the document.
#[track_caller]
pub fn records(trace: &str) -> Vec<Record> {
    let calls: Vec<_> = trace.split("; ").map(in_full).collect();
    let mut tool = Command::new(concat!(env!("CARGO_MANIFEST_DIR"), "/../tools/trace"));
    let output = output_for(tool.arg("encode"), calls.join("\n").as_bytes());
    assert!(output.status.success(), "{trace:?}: {output:?}");
    let records = output.stdout.chunks(Record::LENGTH);
    records
        .map(|bytes| Record::from_bytes(bytes.try_into().expect("a whole record")))
        .collect()
}

/// A call with what the document says of all pages: they are loaded, and the handle
/// is ten times the key.
fn in_full(call: &str) -> String {
    let mut full = call.to_owned();
    let (operation, rest) = call.split_once(' ').unwrap_or((call, ""));
    let inserts = ["insert", "force_insert", "force_upsert"].contains(&operation);
    if inserts && !rest.contains("handle=") {
        let key = rest.split(' ').next().expect("a first part");
        let key: u32 = key.parse().unwrap_or_else(|_| panic!("no key: {call}"));
        full += &format!(" handle={}", key * 10);
    }
    let says_loaded = rest.contains("loaded") || rest.contains("flags=");
    if (inserts || operation == "write_record") && !says_loaded {
        full += " loaded";
    }
    full
}

/// The document as one line. A trace may begin a sentence there.
fn document() -> String {
    one_line(DOCUMENT).replace("Create ", "create ")
}

fn one_line(text: &str) -> String {
    text.split_whitespace().collect::<Vec<_>>().join(" ")
}

/// What stands between each pair of these characters.
fn in_pairs_of(character: char, text: &str) -> impl Iterator<Item = &str> {
    text.split(character).skip(1).step_by(2)
}

/// A section of the document, without its heading.
fn section(heading: &str) -> &'static str {
    let (_, behind) = DOCUMENT
        .split_once(&format!("\n## {heading}\n"))
        .unwrap_or_else(|| panic!("no section {heading:?}"));
    behind.split("\n## ").next().expect("a first part")
}

#[test]
fn every_trace_is_in_the_suite() {
    let document = document();
    let traces = document
        .match_indices("create ")
        .filter_map(|(at, create)| {
            let trace = &document[at..];
            let is_call = trace[create.len()..].starts_with(|c: char| c.is_ascii_digit());
            let end = trace.find([':', '|', '.', '`']).unwrap_or(trace.len());
            is_call.then_some(trace[..end].trim_end())
        });
    let traces: Vec<_> = traces.collect();
    assert!(!traces.is_empty());
    for trace in traces {
        // One that is only made into records isn't compared with the document.
        let compared = SUITE
            .match_indices(&format!("\"{trace}\""))
            .any(|(at, _)| !SUITE[..at].trim_end().ends_with("records("));
        assert!(compared, "{trace:?}");
    }
}

#[test]
fn quotations_are_the_rusts_words() {
    let lines = SOURCE.lines().map(|line| {
        let line = line.trim_start();
        let comment = line.strip_prefix("///").or_else(|| line.strip_prefix("//"));
        comment.unwrap_or(line)
    });
    let source = one_line(&lines.collect::<Vec<_>>().join(" "));
    let text = one_line(section("Where the Rust's comments and its code disagree"));
    let quotations: Vec<_> = in_pairs_of('"', &text).collect();
    assert!(!quotations.is_empty());
    for quotation in quotations {
        assert!(source.contains(quotation), "{quotation:?}");
    }
}

/// The names that stand directly behind this in the source.
fn names_behind(words: &str) -> Vec<&'static str> {
    let behind = SOURCE.split(words).skip(1);
    let other = |c: char| !c.is_ascii_alphanumeric() && c != '_';
    let names = behind.map(|text| text.split(other).next().expect("a first part"));
    let names: Vec<_> = names.collect();
    assert!(!names.is_empty(), "nothing behind {words:?}");
    names
}

#[test]
fn every_function_is_a_call_or_left_out() {
    let mut names = names_behind("pub fn ");
    // `new` is creation, or makes a key.
    names.retain(|&name| name != "new");
    names.extend(names_behind("pub const "));
    names.extend(names_behind("#[cfg(test)]\n    fn "));
    names.extend(names_behind("expose_pub(as = \""));
    let left_out: Vec<_> = section("Left out")
        .lines()
        .filter_map(|line| line.strip_prefix("| ")?.split(" | ").next())
        .flat_map(|cell| in_pairs_of('`', cell))
        .collect();
    for name in names {
        let is_call = CALLS.contains(&format!("::{name};"));
        assert_ne!(is_call, left_out.contains(&name), "{name}");
    }
}
