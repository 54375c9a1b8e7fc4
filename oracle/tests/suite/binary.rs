//! Runs the built program, or another one.

use std::io::Write;
use std::process::{Command, Output, Stdio};

pub fn oracle() -> Command {
    Command::new(env!("CARGO_BIN_EXE_oracle"))
}

pub fn run(arguments: &[&str]) -> Output {
    run_with_input(arguments, &[])
}

pub fn run_with_input(arguments: &[&str], input: &[u8]) -> Output {
    output_for(oracle().args(arguments), input)
}

/// What any program writes for this input.
pub fn output_for(program: &mut Command, input: &[u8]) -> Output {
    let mut child = program
        .stdin(Stdio::piped())
        .stdout(Stdio::piped())
        .stderr(Stdio::piped())
        .spawn()
        .expect("the program starts");
    let mut pipe = child.stdin.take().expect("it has an input");
    std::thread::scope(|scope| {
        // A program that doesn't read its input closes it early.
        scope.spawn(move || pipe.write_all(input).ok());
        child.wait_with_output().expect("it ends")
    })
}

/// What a run that has to succeed wrote.
#[track_caller]
pub fn output_of(arguments: &[&str], input: &[u8]) -> Vec<u8> {
    let output = run_with_input(arguments, input);
    assert!(output.status.success(), "{arguments:?}: {output:?}");
    assert!(output.stderr.is_empty(), "{arguments:?}: {output:?}");
    output.stdout
}
