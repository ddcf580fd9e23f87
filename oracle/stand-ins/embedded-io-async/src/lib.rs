#![no_std]
// The futures never leave one thread.
#![allow(async_fn_in_trait)]
//! Stand-in for `embedded-io-async`. The Rust's async readers must build;
//! the oracle never calls them.

pub use embedded_io::{Error, ErrorType, ReadExactError};

/// An async reader.
pub trait Read: ErrorType {
    /// Reads up to `buf.len()` bytes, at least one unless at the end.
    async fn read(&mut self, buf: &mut [u8]) -> Result<usize, Self::Error>;

    /// Fills `buf`.
    async fn read_exact(&mut self, mut buf: &mut [u8]) -> Result<(), ReadExactError<Self::Error>> {
        while !buf.is_empty() {
            match self.read(buf).await {
                Ok(0) => break,
                Ok(n) => buf = &mut buf[n..],
                Err(e) => return Err(ReadExactError::Other(e)),
            }
        }
        if buf.is_empty() {
            Ok(())
        } else {
            Err(ReadExactError::UnexpectedEof)
        }
    }
}

/// An async writer.
pub trait Write: ErrorType {
    /// Writes at least one byte of `buf`.
    async fn write(&mut self, buf: &[u8]) -> Result<usize, Self::Error>;

    /// Waits until everything written has left.
    async fn flush(&mut self) -> Result<(), Self::Error>;

    /// Writes all of `buf`.
    async fn write_all(&mut self, mut buf: &[u8]) -> Result<(), Self::Error> {
        while !buf.is_empty() {
            match self.write(buf).await {
                Ok(0) => panic!("write() returned Ok(0)"),
                Ok(n) => buf = &buf[n..],
                Err(e) => return Err(e),
            }
        }
        Ok(())
    }
}
