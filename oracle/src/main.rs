//! The command `oracle`: usage, options and dispatch.

use oracle::compare::{compare, Form};
use oracle::driver::WalkOrder;
use oracle::generate::{exhaustive, random};
use oracle::read_ahead::ReadAhead;
use oracle::record::Record;
use oracle::replay::{replay, ReplayError};
use std::fs::File;
use std::io::{self, BufReader, BufWriter, Read, Write};
use std::process::ExitCode;

const USAGE: &str = "\
usage: oracle replay [--state] [--by-key] [FILE]
       oracle compare [--answers] TRACE [OUTPUT]
       oracle generate random --seed N --records N [--marks PERCENT] [--exact]
       oracle generate exhaustive --length N [--capacity N] [--exact]
       oracle help

replay     answers 32-byte records from FILE or standard input, a line each
  --state       adds a line with the whole state after each answer
  --by-key      lists what truncate, remove_frames and clear removed by key
compare    holds what a replay program wrote for TRACE, read from OUTPUT or
           standard input, to what the Rust does
  --answers     the program wrote only answers, no states (no --state)
generate   writes 32-byte records to standard output
  random        a random trace: the same seed gives the same records
  exhaustive    all sequences of N calls from a fixed alphabet, each after a
                creation (of capacity 2 unless --capacity says another)
  --marks       the share of records that the Rust isn't asked about (0 to 100)
  --exact       only records whose answers can't depend on the Rust's map order,
                and none that gets a mark
";

/// What ends the command early, each with its exit status.
enum Fault {
    /// The command line is wrong.
    Usage(String),
    /// The command couldn't do its work.
    Failed(String),
    /// Nobody reads the output any more.
    OutputClosed,
}

fn main() -> ExitCode {
    let arguments: Vec<String> = match std::env::args_os()
        .skip(1)
        .map(|argument| argument.into_string())
        .collect()
    {
        Ok(arguments) => arguments,
        Err(argument) => return report(Fault::Usage(format!("not UTF-8: {argument:?}"))),
    };
    match run(&arguments) {
        Ok(()) => ExitCode::SUCCESS,
        Err(fault) => report(fault),
    }
}

fn report(fault: Fault) -> ExitCode {
    match fault {
        Fault::Usage(message) => {
            complain(&format!("{message}\n{USAGE}"));
            ExitCode::from(2)
        }
        Fault::Failed(message) => {
            complain(&format!("{message}\n"));
            ExitCode::FAILURE
        }
        Fault::OutputClosed => ExitCode::SUCCESS,
    }
}

/// If nobody can be told, the exit status has to do.
fn complain(message: &str) {
    let _ = write!(io::stderr(), "oracle: {message}");
}

fn run(arguments: &[String]) -> Result<(), Fault> {
    let words: Vec<&str> = arguments.iter().map(String::as_str).collect();
    match words.as_slice() {
        ["replay", options @ ..] => run_replay(options),
        ["compare", options @ ..] => run_compare(options),
        ["generate", "random", options @ ..] => run_random(options),
        ["generate", "exhaustive", options @ ..] => run_exhaustive(options),
        ["help" | "--help" | "-h"] => io::stdout()
            .write_all(USAGE.as_bytes())
            .map_err(output_fault),
        [] => Err(Fault::Usage("no command".into())),
        _ => Err(Fault::Usage(format!(
            "unknown command: {}",
            words.join(" ")
        ))),
    }
}

fn run_replay(options: &[&str]) -> Result<(), Fault> {
    let mut order = WalkOrder::AsRemoved;
    let mut with_state = false;
    let mut file = None;
    for &option in options {
        match option {
            "--state" => with_state = true,
            "--by-key" => order = WalkOrder::ByKey,
            _ if option.starts_with('-') => return Err(unknown(option)),
            _ if file.is_some() => return Err(Fault::Usage(format!("a second file: {option}"))),
            _ => file = Some(option),
        }
    }
    let name = file.unwrap_or("standard input");
    let mut output = buffered_output();
    let result = match file {
        Some(path) => {
            let file = File::open(path).map_err(|error| failed(name, &error))?;
            replay(&mut BufReader::new(file), &mut output, order, with_state)
        }
        None => replay(&mut io::stdin().lock(), &mut output, order, with_state),
    };
    result.map_err(|error| match error {
        ReplayError::Write(error) => output_fault(error),
        fault => failed(name, &fault),
    })
}

fn run_compare(options: &[&str]) -> Result<(), Fault> {
    let mut form = Form::AnswersAndStates;
    let mut files = Vec::new();
    for &option in options {
        match option {
            "--answers" => form = Form::Answers,
            _ if option.starts_with('-') => return Err(unknown(option)),
            _ => files.push(option),
        }
    }
    let (trace, output) = match files.as_slice() {
        [trace] => (*trace, None),
        [trace, output] => (*trace, Some(*output)),
        _ => return Err(Fault::Usage("compare takes one or two files".into())),
    };
    let open = |path: &str| File::open(path).map_err(|error| failed(path, &error));
    let mut records = BufReader::new(ReadAhead::new(open(trace)?));
    let compared = match output {
        Some(path) => compare(&mut records, &mut buffered(open(path)?), form),
        None => compare(&mut records, &mut buffered(io::stdin().lock()), form),
    };
    let summary = compared.map_err(|failure| Fault::Failed(failure.to_string()))?;
    write!(io::stdout(), "{summary}").map_err(output_fault)
}

/// States are long lines.
fn buffered<R: Read>(input: R) -> BufReader<R> {
    BufReader::with_capacity(1 << 16, input)
}

fn run_random(options: &[&str]) -> Result<(), Fault> {
    let options = Options::parse(options, &["--seed", "--records", "--marks"])?;
    let plan = random::Plan {
        seed: options.required("--seed")?,
        marks_percent: options.up_to("--marks", 100)?.unwrap_or(0) as u32,
        exact: options.exact,
    };
    if plan.exact && plan.marks_percent > 0 {
        return Err(Fault::Usage("--exact leaves no room for --marks".into()));
    }
    let records = options.required("--records")?;
    let mut output = buffered_output();
    let mut trace = random::Trace::new(plan);
    for _ in 0..records {
        write_record(&mut output, &trace.next_record())?;
    }
    output.flush().map_err(output_fault)
}

fn run_exhaustive(options: &[&str]) -> Result<(), Fault> {
    let options = Options::parse(options, &["--length", "--capacity"])?;
    let plan = exhaustive::Plan {
        length: options
            .up_to("--length", exhaustive::MAX_LENGTH)?
            .ok_or_else(|| missing("--length"))?,
        capacity: options
            .up_to("--capacity", oracle::driver::SLOTS)?
            .unwrap_or(2),
        exact: options.exact,
    };
    let mut output = buffered_output();
    exhaustive::for_each_sequence(&plan, |sequence| {
        sequence
            .iter()
            .try_for_each(|record| write_record(&mut output, record))
    })?;
    output.flush().map_err(output_fault)
}

/// The options of `generate`: `--exact`, and names that each take a number.
struct Options {
    exact: bool,
    numbers: Vec<(String, u64)>,
}

impl Options {
    fn parse(options: &[&str], names: &[&str]) -> Result<Self, Fault> {
        let mut parsed = Self {
            exact: false,
            numbers: Vec::new(),
        };
        let mut words = options.iter();
        while let Some(&word) = words.next() {
            if word == "--exact" {
                parsed.exact = true;
            } else if names.contains(&word) {
                let value = words.next().copied().unwrap_or("nothing");
                let number = value.parse().map_err(|_| {
                    Fault::Usage(format!("{word} takes a whole number, not {value}"))
                })?;
                parsed.numbers.push((word.into(), number));
            } else {
                return Err(unknown(word));
            }
        }
        Ok(parsed)
    }

    /// The last one given counts.
    fn number(&self, name: &str) -> Option<u64> {
        let mut given = self.numbers.iter().rev();
        given.find(|(word, _)| word == name).map(|&(_, n)| n)
    }

    fn required(&self, name: &str) -> Result<u64, Fault> {
        self.number(name).ok_or_else(|| missing(name))
    }

    fn up_to(&self, name: &str, most: u64) -> Result<Option<u64>, Fault> {
        match self.number(name) {
            Some(number) if number > most => {
                Err(Fault::Usage(format!("{name} takes at most {most}")))
            }
            number => Ok(number),
        }
    }
}

fn buffered_output() -> BufWriter<io::StdoutLock<'static>> {
    BufWriter::with_capacity(1 << 16, io::stdout().lock())
}

fn write_record(output: &mut impl Write, record: &Record) -> Result<(), Fault> {
    output.write_all(&record.to_bytes()).map_err(output_fault)
}

fn missing(name: &str) -> Fault {
    Fault::Usage(format!("{name} is missing"))
}

fn unknown(option: &str) -> Fault {
    Fault::Usage(format!("unknown option: {option}"))
}

fn failed(name: &str, error: &dyn std::fmt::Display) -> Fault {
    Fault::Failed(format!("{name}: {error}"))
}

fn output_fault(error: io::Error) -> Fault {
    if error.kind() == io::ErrorKind::BrokenPipe {
        Fault::OutputClosed
    } else {
        failed("standard output", &error)
    }
}
