//! What is written, by pieces.
use crate::read_spelling::digits;
use crate::read_words::Words;
use std::fs::File;
use std::io::{self, Write};
use std::os::fd::AsFd;

/// How many bytes wait at most.
const PIECE: usize = 65_536;

/// Standard output, and what waits to be written there.
pub struct Output {
    piece: Vec<u8>,
    length: usize,
    file: File,
    /// What happened to the pieces before.
    done: io::Result<()>,
}

impl Output {
    pub fn new() -> io::Result<Output> {
        let file = File::from(io::stdout().as_fd().try_clone_to_owned()?);
        Ok(Output { piece: vec![0; PIECE], length: 0, file, done: Ok(()) })
    }

    #[inline]
    pub fn put(&mut self, bytes: &[u8]) {
        match self.piece.get_mut(self.length..self.length + bytes.len()) {
            Some(room) => {
                room.copy_from_slice(bytes);
                self.length += bytes.len();
            }
            None => self.put_next(bytes),
        }
    }

    /// Puts the first bytes of eight.
    #[inline]
    pub fn put_some(&mut self, bytes: u64, count: usize) {
        match self.piece.get_mut(self.length..self.length + 8) {
            Some(room) => {
                room.copy_from_slice(&bytes.to_le_bytes());
                self.length += count;
            }
            None => self.put_next(&bytes.to_le_bytes()[..count]),
        }
    }

    /// Bytes for which there is no room: what waits is written, and they wait, or are written too.
    #[cold]
    fn put_next(&mut self, bytes: &[u8]) {
        self.write_piece();
        if bytes.len() > PIECE {
            self.write(bytes);
        } else {
            self.piece[..bytes.len()].copy_from_slice(bytes);
            self.length = bytes.len();
        }
    }

    fn write_piece(&mut self) {
        let (piece, length) = (std::mem::take(&mut self.piece), std::mem::take(&mut self.length));
        self.write(&piece[..length]);
        self.piece = piece;
    }

    fn write(&mut self, bytes: &[u8]) {
        if self.done.is_ok() {
            self.done = self.file.write_all(bytes);
        }
    }

    /// Whether all that was to be written until now could be.
    pub fn is_whole(&self) -> bool {
        self.done.is_ok()
    }

    pub fn finish(mut self) -> io::Result<()> {
        self.write_piece();
        self.done
    }

    #[inline]
    pub fn put_number(&mut self, number: u64) {
        if number < 10 {
            self.put(&[b'0' + number as u8]);
        } else {
            self.put(digits(number, &mut [0; 20]));
        }
    }

    pub fn put_integer(&mut self, number: i64) {
        if number < 0 {
            self.put(b"-");
        }
        self.put_number(number.unsigned_abs());
    }

    #[inline]
    pub fn put_word(&mut self, words: &Words, word: u32) {
        match words.head(word) {
            (head, length @ ..=8) => self.put_some(head, length),
            _ => self.put(words.word(word)),
        }
    }
}
