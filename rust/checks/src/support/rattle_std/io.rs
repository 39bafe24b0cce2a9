//! Readers and writers of tests.

pub use crate::support::package::rattle_std::io::*;

/// A reader over bytes.
pub struct Cursor<'a>(&'a [u8], u64);

impl<'a> Cursor<'a> {
    pub fn new(bytes: &'a [u8]) -> Cursor<'a> {
        Cursor(bytes, 0)
    }

    pub fn position(&self) -> u64 {
        self.1
    }
}

impl Read for Cursor<'_> {
    fn read(&mut self, buffer: &mut [u8]) -> Result<usize> {
        let count = self.0.read(buffer)?;
        self.1 += count as u64;
        Ok(count)
    }
}

/// Prints to standard output.
pub trait Print {
    fn println(&self, value: impl ::core::fmt::Display) -> Result<()>;
}

/// A reader that has no end.
pub struct Repeat(u8);

pub fn repeat(byte: u8) -> Repeat {
    Repeat(byte)
}

impl Read for Repeat {
    fn read(&mut self, buffer: &mut [u8]) -> Result<usize> {
        buffer.fill(self.0);
        Ok(buffer.len())
    }
}

impl Write for &mut [u8] {
    fn write(&mut self, bytes: &[u8]) -> Result<usize> {
        let count = self.len().min(bytes.len());
        let (front, rest) = ::core::mem::take(self).split_at_mut(count);
        front.copy_from_slice(&bytes[..count]);
        *self = rest;
        Ok(count)
    }

    fn flush(&mut self) -> Result<()> {
        Ok(())
    }
}

impl Error {
    pub fn new(kind: ErrorKind, text: &'static str) -> Error {
        Error { kind, text }
    }
}
