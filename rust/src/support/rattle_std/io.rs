//! Readers and writers, whose errors are small and are copied.

use super::alloc::AllocError;
use core::fmt::{self, Display, Formatter};

#[derive(Clone, Copy, Debug, PartialEq, Eq)]
pub enum ErrorKind {
    Interrupted,
    OutOfMemory,
    WriteZero,
    UnexpectedEof,
    TimedOut,
    WouldBlock,
    BrokenPipe,
    Other,
}

#[derive(Clone, Copy, Debug)]
pub struct Error {
    pub(crate) kind: ErrorKind,
    pub(crate) text: &'static str,
}

pub type Result<T> = core::result::Result<T, Error>;

impl Error {
    pub fn other(text: &'static str) -> Error {
        Error {
            kind: ErrorKind::Other,
            text,
        }
    }

    pub fn kind(&self) -> ErrorKind {
        self.kind
    }
}

impl From<ErrorKind> for Error {
    fn from(kind: ErrorKind) -> Error {
        let text = match kind {
            ErrorKind::Interrupted => "interrupted",
            ErrorKind::OutOfMemory => "out of memory",
            ErrorKind::WriteZero => "nothing was written",
            ErrorKind::UnexpectedEof => "unexpected end",
            ErrorKind::TimedOut => "timed out",
            ErrorKind::WouldBlock => "would block",
            ErrorKind::BrokenPipe => "broken pipe",
            ErrorKind::Other => "other error",
        };
        Error { kind, text }
    }
}

impl From<AllocError> for Error {
    fn from(_: AllocError) -> Error {
        ErrorKind::OutOfMemory.into()
    }
}

impl Display for Error {
    fn fmt(&self, f: &mut Formatter<'_>) -> fmt::Result {
        f.write_str(self.text)
    }
}

impl core::error::Error for Error {}

pub trait Read {
    fn read(&mut self, buffer: &mut [u8]) -> Result<usize>;
}

pub trait Write {
    fn write(&mut self, bytes: &[u8]) -> Result<usize>;

    fn flush(&mut self) -> Result<()>;
}

impl Read for &[u8] {
    fn read(&mut self, buffer: &mut [u8]) -> Result<usize> {
        let count = self.len().min(buffer.len());
        let (front, rest) = self.split_at(count);
        buffer[..count].copy_from_slice(front);
        *self = rest;
        Ok(count)
    }
}

impl Write for super::vec::Vec<u8> {
    fn write(&mut self, bytes: &[u8]) -> Result<usize> {
        self.extend_from_slice(bytes)?;
        Ok(bytes.len())
    }

    fn flush(&mut self) -> Result<()> {
        Ok(())
    }
}

/// A reader or a writer of Rust's library. It keeps the last error whole.
#[cfg(feature = "std")]
pub struct OfRust<T> {
    pub inner: T,
    pub error: Option<::std::io::Error>,
}

#[cfg(feature = "std")]
impl<T> OfRust<T> {
    pub fn new(inner: T) -> OfRust<T> {
        OfRust { inner, error: None }
    }

    fn keep(&mut self, error: ::std::io::Error) -> Error {
        let kind = match error.kind() {
            ::std::io::ErrorKind::Interrupted => ErrorKind::Interrupted,
            ::std::io::ErrorKind::OutOfMemory => ErrorKind::OutOfMemory,
            ::std::io::ErrorKind::WriteZero => ErrorKind::WriteZero,
            ::std::io::ErrorKind::UnexpectedEof => ErrorKind::UnexpectedEof,
            _ => ErrorKind::Other,
        };
        self.error = Some(error);
        kind.into()
    }
}

#[cfg(feature = "std")]
impl<T: ::std::io::Read> Read for OfRust<T> {
    fn read(&mut self, buffer: &mut [u8]) -> Result<usize> {
        self.inner.read(buffer).map_err(|error| self.keep(error))
    }
}

#[cfg(feature = "std")]
impl<T: ::std::io::Write> Write for OfRust<T> {
    fn write(&mut self, bytes: &[u8]) -> Result<usize> {
        self.inner.write(bytes).map_err(|error| self.keep(error))
    }

    fn flush(&mut self) -> Result<()> {
        self.inner.flush().map_err(|error| self.keep(error))
    }
}
