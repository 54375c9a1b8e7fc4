//! Replay files, good and bad, through the built program.

use crate::binary::{oracle, output_of, run, run_with_input};
use crate::pool::{create, insert, lookup};
use oracle::record::Record;
use std::io::Read;
use std::process::{Output, Stdio};

const SAMPLE: &str = concat!(env!("CARGO_MANIFEST_DIR"), "/sample/records.bin");

fn bytes_of(records: &[Record]) -> Vec<u8> {
    records.iter().flat_map(Record::to_bytes).collect()
}

/// The run failed with a message and wrote exactly this before.
#[track_caller]
fn fails(output: Output, written: &str, message: &str) {
    assert_eq!(String::from_utf8_lossy(&output.stdout), written);
    let error = String::from_utf8_lossy(&output.stderr);
    assert!(error.contains(message), "{error}");
    assert!(!error.contains("panicked"), "{error}");
    assert_eq!(output.status.code(), Some(1));
}

#[test]
fn states_follow_answers_and_marks() {
    let input = bytes_of(&[lookup(5), create(2), insert(5), create(257)]);
    let lines = output_of(&["replay", "--state"], &input);
    let expected = "? no cache\n- no cache\n\
        0 0 0 0 - 0\n- 2 1 0 0\n\
        0 0 0 1 5 0\n- 2 1 1 1 5:50:0:0\n\
        ? capacity\n- 2 1 1 1 5:50:0:0\n";
    assert_eq!(String::from_utf8(lines).unwrap(), expected);
}

#[test]
fn a_file_gives_the_same_as_standard_input() {
    let records = std::fs::read(SAMPLE).expect("the sample is there");
    let from_file = output_of(&["replay", "--by-key", SAMPLE], &[]);
    assert_eq!(from_file, output_of(&["replay", "--by-key"], &records));
}

#[test]
fn a_short_last_record_is_bad() {
    let whole = bytes_of(&[create(2), insert(5)]);
    for length in 33..64 {
        let output = run_with_input(&["replay"], &whole[..length]);
        let message = format!("short: {} of 32 bytes", length - 32);
        fails(output, "0 0 0 0 - 0\nbad\n", &message);
    }
    let output = run_with_input(&["replay", "--state"], &whole[..1]);
    fails(output, "bad\n", "short: 1 of 32 bytes");
}

#[test]
fn nothing_at_all_is_refused() {
    fails(run(&["replay"]), "", "the input is empty");
    fails(run(&["replay", "/dev/null"]), "", "the input is empty");
}

#[test]
fn a_directory_is_refused() {
    let directory = env!("CARGO_MANIFEST_DIR");
    fails(run(&["replay", directory]), "", directory);
}

#[test]
fn a_missing_file_is_refused() {
    fails(run(&["replay", "no/such/file"]), "", "no/such/file");
}

/// A file that is removed again.
struct Scratch(std::path::PathBuf);

impl Scratch {
    fn new(name: &str, content: &[u8]) -> Self {
        let path = std::path::Path::new(env!("CARGO_TARGET_TMPDIR")).join(name);
        std::fs::write(&path, content).expect("it can be written");
        Self(path)
    }

    fn path(&self) -> &str {
        self.0.to_str().expect("the path is text")
    }
}

impl Drop for Scratch {
    fn drop(&mut self) {
        let _ = std::fs::remove_file(&self.0);
    }
}

#[test]
fn comparing_takes_right_output_and_refuses_wrong() {
    let right = output_of(&["replay", "--by-key", "--state", SAMPLE], &[]);
    let said = String::from_utf8(output_of(&["compare", SAMPLE], &right)).unwrap();
    assert!(said.contains("4000 compared exactly"), "{said}");
    let file = Scratch::new("right-output", &right);
    let of_file = output_of(&["compare", SAMPLE, file.path()], &[]);
    assert_eq!(String::from_utf8(of_file).unwrap(), said);

    let text = String::from_utf8(right).unwrap();
    let (first, rest) = text.split_once('\n').unwrap();
    let wrong = format!("1{first}\n{rest}");
    let output = run_with_input(&["compare", SAMPLE], wrong.as_bytes());
    fails(
        output,
        "",
        "oracle: record 1 differs: code\n  call     create ",
    );

    let answers = std::fs::read(SAMPLE.replace("records.bin", "answers.txt")).unwrap();
    output_of(&["compare", "--answers", SAMPLE], &answers);
    let output = run_with_input(&["compare", SAMPLE], &answers);
    fails(output, "", "record 1 differs: no state line");
}

#[test]
fn comparing_refuses_what_it_cannot_read() {
    fails(run(&["compare", "/dev/null"]), "", "the trace is empty");
    fails(run(&["compare", "no/such/file"]), "", "no/such/file");
    fails(
        run(&["compare", SAMPLE, "no/such/file"]),
        "",
        "no/such/file",
    );
    let directory = env!("CARGO_MANIFEST_DIR");
    fails(run(&["compare", directory]), "", "can't read the trace");
    fails(
        run(&["compare", SAMPLE, directory]),
        "",
        "can't read the output",
    );
}

#[test]
fn a_closed_output_ends_it_quietly() {
    let generate: [&str; 4] = ["generate", "exhaustive", "--length", "4"];
    let replay: [&str; 3] = ["replay", "--state", SAMPLE];
    for command in [generate.as_slice(), &replay] {
        let mut child = oracle()
            .args(command)
            .stdout(Stdio::piped())
            .stderr(Stdio::piped())
            .spawn()
            .expect("the program starts");
        let mut pipe = child.stdout.take().expect("it has an output");
        pipe.read_exact(&mut [0; 32]).expect("it writes something");
        drop(pipe);
        let output = child.wait_with_output().expect("it ends");
        assert!(output.stderr.is_empty(), "{command:?}: {output:?}");
        assert!(output.status.success(), "{command:?}: {output:?}");
    }
}

#[test]
fn a_wrong_command_line_gets_the_usage() {
    let commands: [&[&str]; 15] = [
        &[],
        &["reply"],
        &["generate"],
        &["replay", "--stat"],
        &["replay", "one", "two"],
        &["compare"],
        &["compare", "one", "two", "three"],
        &["compare", "--state", "one"],
        &["generate", "random", "--seed", "1"],
        &["generate", "random", "--seed", "x", "--records", "1"],
        &["generate", "random", "--seed"],
        &[
            "generate",
            "random",
            "--seed",
            "1",
            "--records",
            "1",
            "--marks",
            "101",
        ],
        &[
            "generate",
            "random",
            "--seed",
            "1",
            "--records",
            "1",
            "--marks",
            "1",
            "--exact",
        ],
        &["generate", "exhaustive", "--length", "9"],
        &[
            "generate",
            "exhaustive",
            "--length",
            "1",
            "--capacity",
            "257",
        ],
    ];
    for command in commands {
        let output = run(command);
        let error = String::from_utf8_lossy(&output.stderr);
        assert!(error.contains("usage: oracle"), "{command:?}: {error}");
        assert!(output.stdout.is_empty(), "{command:?}");
        assert_eq!(output.status.code(), Some(2), "{command:?}");
    }
    let help = String::from_utf8(output_of(&["help"], &[])).unwrap();
    assert!(help.starts_with("usage: oracle"));
}
