//! Standard input and output as streams. What is written goes out before the input is waited
//! for, so that a caller can also feed one record at a time and read its answer.

use std::io::{self, Read, Write};

/// Both streams with their buffers.
pub struct Stream<I: Read, O: Write> {
    input: I,
    output: O,
    buffer: Vec<u8>,
    /// The bytes of the buffer that have been handed out.
    taken: usize,
    written: Vec<u8>,
}

const CHUNK: usize = 1 << 16;

impl<I: Read, O: Write> Stream<I, O> {
    pub fn new(input: I, output: O) -> Self {
        Stream { input, output, buffer: Vec::new(), taken: 0, written: Vec::new() }
    }

    /// The next bytes, `length` of them, or as many as are left.
    pub fn take(&mut self, length: usize) -> io::Result<&[u8]> {
        while self.buffer.len() - self.taken < length {
            self.flush()?;
            self.buffer.drain(..self.taken);
            self.taken = 0;
            let start = self.buffer.len();
            self.buffer.resize(start + CHUNK, 0);
            let read = self.read_some(start)?;
            self.buffer.truncate(start + read);
            if read == 0 {
                break;
            }
        }
        let from = self.taken;
        self.taken = self.buffer.len().min(from + length);
        Ok(&self.buffer[from..self.taken])
    }

    fn read_some(&mut self, start: usize) -> io::Result<usize> {
        loop {
            match self.input.read(&mut self.buffer[start..]) {
                Err(error) if error.kind() == io::ErrorKind::Interrupted => continue,
                result => return result,
            }
        }
    }

    pub fn write(&mut self, bytes: &[u8]) -> io::Result<()> {
        self.written.extend_from_slice(bytes);
        if self.written.len() >= CHUNK { self.flush() } else { Ok(()) }
    }

    pub fn flush(&mut self) -> io::Result<()> {
        self.output.write_all(&self.written)?;
        self.written.clear();
        self.output.flush()
    }
}

/// The streams of this process.
pub fn standard() -> Stream<io::StdinLock<'static>, io::Stdout> {
    Stream::new(io::stdin().lock(), io::stdout())
}
