//! The replay program with the Rust inside: records in, one line each out.

use crate::answer::{State, NO_CACHE};
use crate::driver::{Driver, WalkOrder};
use crate::record::Record;
use std::fmt;
use std::io::{self, BufRead, Write};

/// Why a replay stopped before a good end.
#[derive(Debug)]
pub enum ReplayError {
    Empty,
    /// The last record has only this many bytes. The line `bad` stands for it.
    ShortRecord(usize),
    Read(io::Error),
    Write(io::Error),
}

impl fmt::Display for ReplayError {
    fn fmt(&self, message: &mut fmt::Formatter) -> fmt::Result {
        match self {
            ReplayError::Empty => write!(message, "no records: the input is empty"),
            ReplayError::ShortRecord(bytes) => write!(
                message,
                "the last record is short: {bytes} of {} bytes",
                Record::LENGTH
            ),
            ReplayError::Read(error) => write!(message, "can't read: {error}"),
            ReplayError::Write(error) => write!(message, "can't write: {error}"),
        }
    }
}

/// Writes a line for each record, followed by a state line if asked. What was
/// answered before a fault is written in any case.
pub fn replay(
    input: &mut impl BufRead,
    output: &mut impl Write,
    order: WalkOrder,
    with_state: bool,
) -> Result<(), ReplayError> {
    let end = write_lines(input, output, order, with_state);
    let flushed = output.flush().map_err(ReplayError::Write);
    end.and(flushed)
}

fn write_lines(
    input: &mut impl BufRead,
    output: &mut impl Write,
    order: WalkOrder,
    with_state: bool,
) -> Result<(), ReplayError> {
    let mut driver = Driver::new(order);
    let mut bytes = [0; Record::LENGTH];
    let mut lines = Vec::new();
    let mut empty = true;
    loop {
        match read_record(input, &mut bytes).map_err(ReplayError::Read)? {
            0 if empty => return Err(ReplayError::Empty),
            0 => return Ok(()),
            Record::LENGTH => empty = false,
            short => {
                writeln!(output, "bad").map_err(ReplayError::Write)?;
                return Err(ReplayError::ShortRecord(short));
            }
        }
        lines.clear();
        driver
            .apply(&Record::from_bytes(&bytes))
            .write_line(&mut lines);
        lines.push(b'\n');
        if with_state {
            write_state(driver.state().as_ref(), &mut lines);
            lines.push(b'\n');
        }
        output.write_all(&lines).map_err(ReplayError::Write)?;
    }
}

/// Writes the state line, without its end.
pub fn write_state(state: Option<&State>, line: &mut Vec<u8>) {
    match state {
        Some(state) => state.write_line(line),
        None => line.extend_from_slice(NO_CACHE.as_bytes()),
    }
}

/// Fills the record as far as the input goes and tells how many bytes there were.
pub fn read_record(
    input: &mut impl BufRead,
    record: &mut [u8; Record::LENGTH],
) -> io::Result<usize> {
    let mut filled = 0;
    while filled < Record::LENGTH {
        match input.read(&mut record[filled..]) {
            Ok(0) => break,
            Ok(count) => filled += count,
            Err(error) if error.kind() == io::ErrorKind::Interrupted => {}
            Err(error) => return Err(error),
        }
    }
    Ok(filled)
}
