//! Standard output, and input that does not keep it waiting.

use std::cell::RefCell;
use std::io::{self, BufWriter, Read, StdoutLock, Write};
use std::rc::Rc;

/// Standard output, shared with what reads.
#[derive(Clone)]
pub struct Out(Rc<RefCell<BufWriter<StdoutLock<'static>>>>);

impl Out {
    pub fn new() -> Self {
        let out = BufWriter::new(io::stdout().lock());
        Out(Rc::new(RefCell::new(out)))
    }

    /// A source that is asked for more only after all that is printed is shown:
    /// it may be a pipe that is still open.
    pub fn before<R: Read>(&self, source: R) -> Shown<R> {
        let out = self.clone();
        Shown { out, source }
    }

    /// A message, after all that is printed so far, so that both are in order.
    pub fn complain(&mut self, message: &str) -> io::Result<()> {
        self.flush()?;
        let _ = writeln!(io::stderr(), "rtcpdump: {message}");
        Ok(())
    }
}

impl Write for Out {
    fn write(&mut self, data: &[u8]) -> io::Result<usize> {
        self.0.borrow_mut().write(data)
    }

    fn flush(&mut self) -> io::Result<()> {
        self.0.borrow_mut().flush()
    }
}

pub struct Shown<R> {
    out: Out,
    source: R,
}

impl<R: Read> Read for Shown<R> {
    fn read(&mut self, data: &mut [u8]) -> io::Result<usize> {
        // What cannot be written is seen at the next line that is printed.
        let _ = self.out.flush();
        self.source.read(data)
    }
}
