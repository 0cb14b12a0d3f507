//! Collects the text that is written, and writes it in large pieces.

use crate::digits::{put_address, put_decimal, MOST_DIGITS};
use std::fs::File;
use std::io::Write;

/// The bytes of text that are collected before they are written.
const ENOUGH: usize = 64 * 1024;

/// A write failed, so nothing more is written.
#[derive(Debug)]
pub struct WriteFailed;

pub type Written = Result<(), WriteFailed>;

/// Collects text, in memory alone or for a file.
pub struct Output {
    /// Bytes up to `length` are text; those behind it are room.
    bytes: Vec<u8>,
    length: usize,
    file: Option<File>,
}

impl Output {
    pub fn in_memory() -> Output {
        Output { bytes: Vec::new(), length: 0, file: None }
    }

    pub fn to(file: File) -> Output {
        Output { bytes: vec![0; ENOUGH + ENOUGH / 4], length: 0, file: Some(file) }
    }

    pub fn text(&self) -> &[u8] {
        &self.bytes[..self.length]
    }

    pub fn clear(&mut self) {
        self.length = 0;
    }

    /// Room for `bytes` bytes, of which `add` makes the first ones text.
    #[inline]
    pub fn room(&mut self, bytes: usize) -> &mut [u8] {
        if self.bytes.len() - self.length < bytes {
            self.grow(bytes);
        }
        &mut self.bytes[self.length..]
    }

    #[inline]
    pub fn add(&mut self, bytes: usize) {
        self.length += bytes;
    }

    #[cold]
    #[inline(never)]
    fn grow(&mut self, bytes: usize) {
        let length = (self.length + bytes).max(self.bytes.len() * 5 / 4).max(1024);
        self.bytes.resize(length, 0);
    }

    #[inline]
    pub fn bytes(&mut self, text: &[u8]) -> &mut Output {
        self.room(text.len())[..text.len()].copy_from_slice(text);
        self.length += text.len();
        self
    }

    #[inline]
    pub fn str(&mut self, text: &str) -> &mut Output {
        self.bytes(text.as_bytes())
    }

    #[inline]
    pub fn decimal(&mut self, number: u64) -> &mut Output {
        let digits = put_decimal(self.room(MOST_DIGITS), number);
        self.length += digits;
        self
    }

    /// A number with the words before it.
    #[inline]
    pub fn field(&mut self, name: &str, number: u64) -> &mut Output {
        self.str(name).decimal(number)
    }

    #[inline]
    pub fn address(&mut self, address: u64) -> &mut Output {
        let digits = put_address(self.room(MOST_DIGITS), address);
        self.length += digits;
        self
    }

    /// Writes the text if it is long enough.
    #[inline]
    pub fn settle(&mut self) -> Written {
        if self.length < ENOUGH || self.file.is_none() {
            return Ok(());
        }
        self.flush()
    }

    pub fn flush(&mut self) -> Written {
        let mut at = 0;
        while let (Some(file), true) = (&mut self.file, at < self.length) {
            match file.write(&self.bytes[at..self.length]) {
                Ok(0) | Err(_) => return Err(WriteFailed),
                Ok(bytes) => at += bytes,
            }
        }
        self.length = 0;
        Ok(())
    }
}
