//! The bytes of a file or of a pipe, read as they are needed.

use std::io::{self, Read};

/// How much is asked of the source at a time.
const CHUNK: usize = 1 << 16;

/// A window on the bytes of a source. It holds what was asked for and not yet
/// passed over, so that a reader can look ahead and go back.
pub struct Input<R> {
    source: R,
    /// What the source is read into.
    chunk: Vec<u8>,
    held: Vec<u8>,
    /// Where in `held` the window starts.
    start: usize,
    /// The offset of the window in the source.
    offset: u64,
    is_over: bool,
}

impl<R: Read> Input<R> {
    pub fn new(source: R) -> Self {
        Input {
            source,
            chunk: vec![0; CHUNK],
            held: Vec::new(),
            start: 0,
            offset: 0,
            is_over: false,
        }
    }

    /// The offset of the window's first byte.
    pub fn offset(&self) -> u64 {
        self.offset
    }

    /// The bytes of the window.
    pub fn window(&self) -> &[u8] {
        &self.held[self.start..]
    }

    /// Reads until the window has so many bytes, or the source is over. Says
    /// how many of them there are.
    pub fn fill(&mut self, len: usize) -> io::Result<usize> {
        while self.window().len() < len && !self.is_over {
            self.more()?;
        }
        Ok(self.window().len().min(len))
    }

    /// Reads what the source has ready, and waits only where it has nothing.
    fn more(&mut self) -> io::Result<()> {
        self.held.drain(..self.start);
        self.start = 0;
        match self.source.read(&mut self.chunk) {
            Ok(0) => self.is_over = true,
            Ok(len) => self.held.extend_from_slice(&self.chunk[..len]),
            Err(error) if error.kind() == io::ErrorKind::Interrupted => (),
            Err(error) => {
                self.is_over = true;
                return Err(error);
            }
        }
        Ok(())
    }

    /// Moves the window on by bytes that it holds.
    pub fn pass(&mut self, len: usize) {
        debug_assert!(len <= self.window().len());
        self.start += len;
        self.offset += len as u64;
    }
}
