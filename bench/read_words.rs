//! The words of a file, each of which has a number, and the bytes of its strings.
use crate::read_text::{Fault, Read};
use std::num::NonZeroU32;

/// Where bytes stand: in the file, or behind it, among those that were made. No word and no string is first in a file.
#[derive(Clone, Copy)]
pub struct Place {
    from: NonZeroU32,
    length: u32,
}

impl Place {
    #[inline]
    pub fn new(from: usize, length: usize) -> Read<Place> {
        let from = u32::try_from(from).ok().and_then(NonZeroU32::new).ok_or(Fault)?;
        Ok(Place { from, length: length as u32 })
    }
}

/// A word, and what it named last of each kind: a place in the design's list, counted from one, or zero. It names something in the
/// contents that is read where that place is behind its beginning.
#[repr(align(32))]
pub struct Word {
    /// Its first eight bytes, or all of them and zeros.
    head: u64,
    place: Place,
    pub inst: u32,
    pub net: u32,
    pub port: u32,
    pub cell: u32,
}

/// The words of a file, and how they are found by their bytes.
pub struct Words<'a> {
    /// The bytes of the file, and those behind it that mean nothing.
    file: &'a [u8],
    made: Vec<u8>,
    words: Vec<Word>,
    /// The upper half of a word's hash, and its number counted from one; or zero. Half of the slots at least are free.
    slots: Vec<u64>,
    /// How far a hash is moved to the right to tell eight slots from others.
    shift: u32,
}

const FIRST_BITS: u32 = 12;
const UPPER: u64 = 0xffff_ffff_0000_0000;
const SEED: u64 = 0x9e37_79b9_7f4a_7c15;
const NEAR: u64 = 7;

fn mixed(state: u64, bytes: u64) -> u64 {
    let product = u128::from(state ^ bytes) * 0xa076_1d64_78bd_642f_u128;
    product as u64 ^ (product >> 64) as u64
}

fn eight(bytes: &[u8]) -> u64 {
    bytes.first_chunk().map_or(0, |bytes| u64::from_le_bytes(*bytes))
}

/// The hash of a word that begins with such a head. Words that differ in the last three bits alone, as most do that are numbered one after
/// another, have hashes that differ only there where these tell slots beside each other apart.
#[inline]
fn hash(head: u64, bytes: &[u8]) -> u64 {
    let last = bytes.len() - 1;
    let state = if last < 8 {
        mixed(SEED, head & !(NEAR << (8 * last)))
    } else {
        let parts = bytes[8..last].chunks_exact(8);
        let state = parts.fold(mixed(SEED, head), |state, part| mixed(state, eight(part)));
        mixed(state ^ last as u64, eight(&bytes[last - 7..]) & !(NEAR << 56))
    };
    state & !(NEAR << 32) | (u64::from(bytes[last]) & NEAR) << 32
}

/// The slot at which a hash begins to look, where it is moved so far to the right to tell eight slots from others.
#[inline]
fn slot_of(hash: u64, shift: u32) -> usize {
    (hash >> shift << 3 | hash >> 32 & NEAR) as usize
}

impl<'a> Words<'a> {
    pub fn new(file: &'a [u8]) -> Self {
        Words {
            file,
            made: Vec::new(),
            words: Vec::with_capacity(file.len() / 64),
            slots: vec![0; 1 << FIRST_BITS],
            shift: 67 - FIRST_BITS,
        }
    }

    #[inline]
    pub fn bytes(&self, place: Place) -> &[u8] {
        let (from, length) = (place.from.get() as usize, place.length as usize);
        match from.checked_sub(self.file.len()) {
            None => &self.file[from..from + length],
            Some(from) => &self.made[from..from + length],
        }
    }

    #[inline]
    pub fn word(&self, word: u32) -> &[u8] {
        self.bytes(self.words[word as usize].place)
    }

    /// The eight bytes with which a word begins, zeros behind a shorter one, and its length.
    #[inline]
    pub fn head(&self, word: u32) -> (u64, usize) {
        let word = &self.words[word as usize];
        (word.head, word.place.length as usize)
    }

    #[inline]
    pub fn at(&mut self, word: u32) -> &mut Word {
        &mut self.words[word as usize]
    }

    pub fn equal_in_any_case(&self, a: u32, b: u32) -> bool {
        a == b || self.word(a).eq_ignore_ascii_case(self.word(b))
    }

    /// Keeps bytes that do not stand in the file as they are wanted.
    pub fn keep(&mut self, parts: &[&[u8]]) -> Read<Place> {
        let (from, length) = (self.made.len(), parts.iter().map(|part| part.len()).sum());
        let place = Place::new(self.file.len() + from, length)?;
        parts.iter().for_each(|part| self.made.extend_from_slice(part));
        Ok(place)
    }

    /// The number of a word that stands in the file.
    #[inline]
    pub fn number(&mut self, place: Place) -> u32 {
        let from = place.from.get() as usize;
        let bytes = &self.file[from..from + place.length as usize];
        let head = eight(&self.file[from..]) & u64::MAX >> (64 - 8 * bytes.len().min(8));
        let hash = hash(head, bytes);
        match self.find(head, bytes, hash) {
            Ok(word) => word,
            Err(slot) => self.add(slot, Word { head, place, inst: 0, net: 0, port: 0, cell: 0 }, hash),
        }
    }

    /// The number of a word of these bytes and more, which may stand nowhere in the file.
    pub fn number_made(&mut self, bytes: &[u8]) -> Read<u32> {
        let mut first = [0; 8];
        first[..bytes.len().min(8)].copy_from_slice(&bytes[..bytes.len().min(8)]);
        let head = u64::from_le_bytes(first);
        let hash = hash(head, bytes);
        match self.find(head, bytes, hash) {
            Ok(word) => Ok(word),
            Err(slot) => {
                let place = self.keep(&[bytes])?;
                Ok(self.add(slot, Word { head, place, inst: 0, net: 0, port: 0, cell: 0 }, hash))
            }
        }
    }

    /// The word of these bytes, or the slot that it would have.
    #[inline]
    fn find(&self, head: u64, bytes: &[u8], hash: u64) -> Result<u32, usize> {
        let mut at = slot_of(hash, self.shift);
        loop {
            let slot = self.slots[at];
            if slot == 0 {
                return Err(at);
            }
            if (slot ^ hash) & UPPER == 0 {
                let number = slot as u32 - 1;
                let word = &self.words[number as usize];
                let alike = word.head == head && word.place.length as usize == bytes.len();
                if alike && (bytes.len() <= 8 || self.bytes(word.place) == bytes) {
                    return Ok(number);
                }
            }
            at = (at + 1) & (self.slots.len() - 1);
        }
    }

    fn add(&mut self, slot: usize, word: Word, hash: u64) -> u32 {
        self.words.push(word);
        let number = self.words.len() as u32;
        self.slots[slot] = hash & UPPER | u64::from(number);
        if self.words.len() * 2 > self.slots.len() {
            self.grow();
        }
        number - 1
    }

    fn grow(&mut self) {
        let count = self.slots.len() * 2;
        self.shift -= 1;
        for slot in std::mem::replace(&mut self.slots, vec![0; count]) {
            if slot != 0 {
                let mut at = slot_of(slot, self.shift);
                while self.slots[at] != 0 {
                    at = (at + 1) & (count - 1);
                }
                self.slots[at] = slot;
            }
        }
    }
}
