#![no_std]
//! Stand-in for `embedded-io`: the two stream traits and their errors.

/// Kinds of errors; nothing here tells them apart.
#[derive(Debug, Clone, Copy, PartialEq, Eq)]
pub enum ErrorKind {
    /// Any error.
    Other,
}

/// An error of a stream.
pub trait Error: core::fmt::Debug {
    /// Its kind.
    fn kind(&self) -> ErrorKind;
}

/// The error a stream's calls share.
pub trait ErrorType {
    /// The error.
    type Error: Error;
}

/// Why `read_exact` fell short.
#[derive(Debug, Clone, Copy, PartialEq, Eq)]
pub enum ReadExactError<E> {
    /// A read gave no byte.
    UnexpectedEof,
    /// A read failed.
    Other(E),
}

/// A blocking reader.
pub trait Read: ErrorType {
    /// Reads up to `buf.len()` bytes, at least one unless at the end.
    fn read(&mut self, buf: &mut [u8]) -> Result<usize, Self::Error>;

    /// Fills `buf`. What was read before a failure stays in it.
    fn read_exact(&mut self, mut buf: &mut [u8]) -> Result<(), ReadExactError<Self::Error>> {
        while !buf.is_empty() {
            match self.read(buf) {
                Ok(0) => break,
                Ok(n) => buf = &mut buf[n..],
                Err(e) => return Err(ReadExactError::Other(e)),
            }
        }
        if buf.is_empty() {
            Ok(())
        } else {
            Err(ReadExactError::UnexpectedEof)
        }
    }
}

/// A blocking writer.
pub trait Write: ErrorType {
    /// Writes at least one byte of `buf`.
    fn write(&mut self, buf: &[u8]) -> Result<usize, Self::Error>;

    /// Waits until everything written has left.
    fn flush(&mut self) -> Result<(), Self::Error>;

    /// Writes all of `buf`.
    fn write_all(&mut self, mut buf: &[u8]) -> Result<(), Self::Error> {
        while !buf.is_empty() {
            match self.write(buf) {
                Ok(0) => panic!("write() returned Ok(0)"),
                Ok(n) => buf = &buf[n..],
                Err(e) => return Err(e),
            }
        }
        Ok(())
    }
}
