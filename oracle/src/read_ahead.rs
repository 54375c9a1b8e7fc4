//! Reads an input on a thread of its own, as fast as it comes.
//!
//! A trace that `tee` gives both to the program and to the comparison must never
//! be held up here: the program may read far ahead before it writes a line, and
//! then each would wait for the other.

use std::io::{self, Read};
use std::sync::mpsc::{channel, Receiver, Sender};
use std::thread;

pub struct ReadAhead {
    chunks: Receiver<io::Result<Vec<u8>>>,
    chunk: Vec<u8>,
    /// Bytes of the chunk that were handed out.
    given: usize,
}

/// What a pipe holds, so that one read empties it.
const CHUNK: usize = 1 << 16;

impl ReadAhead {
    pub fn new(input: impl Read + Send + 'static) -> Self {
        let (sender, chunks) = channel();
        thread::spawn(move || send_all(input, &sender));
        Self {
            chunks,
            chunk: Vec::new(),
            given: 0,
        }
    }
}

/// Ends with the input, at its first fault, or when nobody reads any more.
fn send_all(mut input: impl Read, sender: &Sender<io::Result<Vec<u8>>>) {
    loop {
        let mut chunk = vec![0; CHUNK];
        let read = match input.read(&mut chunk) {
            Ok(0) => return,
            Ok(length) => {
                chunk.truncate(length);
                Ok(chunk)
            }
            Err(error) if error.kind() == io::ErrorKind::Interrupted => continue,
            Err(error) => Err(error),
        };
        let failed = read.is_err();
        if sender.send(read).is_err() || failed {
            return;
        }
    }
}

impl Read for ReadAhead {
    fn read(&mut self, buffer: &mut [u8]) -> io::Result<usize> {
        if self.given == self.chunk.len() {
            // A closed channel is the input's end.
            self.chunk = self.chunks.recv().unwrap_or_else(|_| Ok(Vec::new()))?;
            self.given = 0;
        }
        let length = buffer.len().min(self.chunk.len() - self.given);
        buffer[..length].copy_from_slice(&self.chunk[self.given..self.given + length]);
        self.given += length;
        Ok(length)
    }
}
