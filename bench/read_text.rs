//! The spelling of a file: parentheses, words, integers and strings, eight bytes at a time.
use crate::read_words::Place;

/// A fault of a file. It is where the text has been read to.
pub struct Fault;

pub type Read<T> = Result<T, Fault>;

/// A keyword or an enumeration word in any letter case: its bytes, each with the bit that makes a letter small. No two bytes of a word
/// become equal by this but the two cases of a letter.
#[derive(Clone, Copy, PartialEq, Eq)]
pub struct Key(u128);

pub const fn key(spelling: &[u8]) -> Key {
    let (mut bytes, mut at) = (0, spelling.len());
    while at > 0 {
        at -= 1;
        bytes = bytes << 8 | (spelling[at] | 0x20) as u128;
    }
    Key(bytes)
}

/// What a key is for a word longer than all keywords.
const NO_KEY: Key = Key(0);
const LONGEST_KEY: usize = 16;

/// How many bytes without a meaning have to stand behind a file, so that eight or sixteen of them can be looked at anywhere.
pub const BEHIND: usize = 32;

/// The deepest level of a form.
const MOST_LEVELS: u32 = 256;

/// A string as it was read: one whose bytes all stand for themselves and are plain is where it stands in the file.
pub enum Quoted {
    Plain(Place),
    Other(Vec<u8>),
}

const fn each(byte: u8) -> u64 {
    u64::from_le_bytes([byte; 8])
}

const HIGH: u64 = each(0x80);

/// The high bit of each byte that is at least a limit, where all bytes are below 128.
fn at_least(bytes: u64, limit: u8) -> u64 {
    bytes + each(0x80 - limit)
}

/// The high bit of each byte that is another one, where all bytes are below 128.
fn differ(bytes: u64, byte: u8) -> u64 {
    (bytes ^ each(byte)) + each(0x7f)
}

/// How many bytes stand before the first without its high bit.
fn leading(marks: u64) -> usize {
    (!marks & HIGH).trailing_zeros() as usize / 8
}

/// How many of eight bytes, from the first on, are letters, digits or `_`.
fn leading_names(bytes: u64) -> usize {
    let low = bytes & !HIGH;
    let small = low | each(0x20);
    let letters = at_least(small, b'a') & !at_least(small, b'z' + 1);
    let digits = at_least(low, b'0') & !at_least(low, b'9' + 1);
    leading((letters | digits | !differ(low, b'_')) & !bytes)
}

/// How many of eight bytes, from the first on, are plain in a string.
fn leading_plain(bytes: u64) -> usize {
    let low = bytes & !HIGH;
    leading(at_least(low, b' ') & !at_least(low, b'~' + 1) & differ(low, b'"') & differ(low, b'%') & !bytes)
}

fn is_space(byte: u8) -> bool {
    matches!(byte, b'\t' | b'\n' | 0x0c | b'\r' | b' ')
}

fn is_sign(byte: u8) -> bool {
    matches!(byte, b'&' | b'+' | b'-')
}

/// The byte that a code of an escape stands for.
fn coded(digits: &[u8]) -> Option<u8> {
    digits.iter().try_fold(0u8, |code, b| if b.is_ascii_digit() { code.checked_mul(10)?.checked_add(b - b'0') } else { None })
}

/// The bytes for which a string stands: between every other two `%` there are codes.
fn value(body: &[u8]) -> Option<Vec<u8>> {
    let mut value = Vec::with_capacity(body.len());
    let mut escaped = true;
    for part in body.split(|b| *b == b'%') {
        escaped = !escaped;
        if !escaped {
            value.extend_from_slice(part);
            continue;
        }
        for code in part.split(|b| is_space(*b)).filter(|code| !code.is_empty()) {
            value.push(coded(code)?);
        }
    }
    (!escaped).then_some(value)
}

/// A file on the way through it.
pub struct Text<'a> {
    /// The bytes of the file, and `BEHIND` zeros.
    bytes: &'a [u8],
    pub at: usize,
    /// How many forms are open.
    pub depth: u32,
}

impl<'a> Text<'a> {
    pub fn new(bytes: &'a [u8]) -> Self {
        Text { bytes, at: 0, depth: 0 }
    }

    #[inline]
    fn eight(&self, at: usize) -> u64 {
        u64::from_le_bytes(self.bytes[at..at + 8].try_into().unwrap_or_default())
    }

    /// Goes past white space. The byte there, which is zero at the end.
    #[inline]
    pub fn next(&mut self) -> u8 {
        let mut byte = self.bytes[self.at];
        if byte == b' ' {
            self.at += 1;
            byte = self.bytes[self.at];
        }
        if byte > b' ' {
            byte
        } else {
            self.after_spaces()
        }
    }

    fn after_spaces(&mut self) -> u8 {
        loop {
            let byte = self.bytes[self.at];
            if !is_space(byte) {
                return byte;
            }
            self.at += 1;
            self.at += (self.eight(self.at) ^ each(b' ')).trailing_zeros() as usize / 8;
        }
    }

    /// Whether nothing follows.
    pub fn ends(&mut self) -> bool {
        self.next() == 0 && self.at == self.bytes.len() - BEHIND
    }

    #[inline]
    pub fn open(&mut self) -> Read<()> {
        self.at += 1;
        self.depth += 1;
        if self.depth > MOST_LEVELS {
            return Err(Fault);
        }
        Ok(())
    }

    #[inline]
    pub fn close(&mut self) -> Read<()> {
        if self.next() != b')' {
            return Err(Fault);
        }
        self.at += 1;
        self.depth -= 1;
        Ok(())
    }

    /// The keyword of the next form within the one that is open, which else closes.
    #[inline]
    pub fn form(&mut self) -> Read<Option<Key>> {
        match self.next() {
            b'(' => {
                self.open()?;
                self.key().map(Some)
            }
            _ => self.close().map(|()| None),
        }
    }

    #[inline]
    pub fn form_of(&mut self, wanted: Key) -> Read<()> {
        if self.next() != b'(' {
            return Err(Fault);
        }
        self.open()?;
        if self.key()? != wanted {
            return Err(Fault);
        }
        Ok(())
    }

    #[inline]
    pub fn key(&mut self) -> Read<Key> {
        let (from, to) = self.span()?;
        if to - from > LONGEST_KEY {
            return Ok(NO_KEY);
        }
        let bytes = u128::from(self.eight(from)) | u128::from(self.eight(from + 8)) << 64;
        let small = bytes | u128::from_le_bytes([0x20; 16]);
        Ok(Key(small & u128::MAX >> (128 - 8 * (to - from))))
    }

    /// Where the name of the next word begins and ends, a first `&` not counted.
    #[inline]
    fn span(&mut self) -> Read<(usize, usize)> {
        let byte = self.next();
        if byte == b'&' {
            self.at += 1;
        } else if byte.is_ascii_digit() {
            return Err(Fault);
        }
        let from = self.at;
        let mut to = from;
        loop {
            let count = leading_names(self.eight(to));
            to += count;
            if count < 8 {
                break;
            }
        }
        self.at = to;
        if from == to || is_sign(self.bytes[to]) {
            return Err(Fault);
        }
        Ok((from, to))
    }

    #[inline]
    pub fn word(&mut self) -> Read<Place> {
        let (from, to) = self.span()?;
        Place::new(from, to - from)
    }

    /// A sign or none, and digits, within 64 bits.
    pub fn integer(&mut self) -> Read<i64> {
        let sign = self.next();
        self.at += usize::from(matches!(sign, b'+' | b'-'));
        let from = self.at;
        let mut below: i64 = 0;
        while self.bytes[self.at].is_ascii_digit() {
            let digit = i64::from(self.bytes[self.at] - b'0');
            below = below.checked_mul(10).and_then(|below| below.checked_sub(digit)).ok_or(Fault)?;
            self.at += 1;
        }
        let next = self.bytes[self.at];
        if self.at == from || is_sign(next) || next == b'_' || next.is_ascii_alphabetic() {
            return Err(Fault);
        }
        if sign == b'-' {
            Ok(below)
        } else {
            below.checked_neg().ok_or(Fault)
        }
    }

    #[inline]
    pub fn quoted(&mut self) -> Read<Quoted> {
        if self.next() != b'"' {
            return Err(Fault);
        }
        let from = self.at + 1;
        let mut to = from;
        loop {
            let count = leading_plain(self.eight(to));
            to += count;
            if count < 8 {
                break;
            }
        }
        if self.bytes[to] != b'"' {
            return self.other(from).map(Quoted::Other);
        }
        self.at = to + 1;
        Place::new(from, to - from).map(Quoted::Plain)
    }

    /// The bytes for which a string stands that has escapes or bytes that are not plain.
    #[cold]
    fn other(&mut self, from: usize) -> Read<Vec<u8>> {
        let rest = &self.bytes[from..self.bytes.len() - BEHIND];
        let length = rest.iter().position(|b| *b == b'"').ok_or(Fault)?;
        let value = value(&rest[..length]).ok_or(Fault)?;
        self.at = from + length + 1;
        Ok(value)
    }

    /// Goes on until no more forms are open than so many.
    pub fn skip_to(&mut self, depth: u32) -> Read<()> {
        while self.depth > depth {
            match self.next() {
                b'(' => self.open()?,
                b')' => self.close()?,
                b'"' => drop(self.quoted()?),
                b'0'..=b'9' | b'+' | b'-' => drop(self.integer()?),
                _ => drop(self.span()?),
            }
        }
        Ok(())
    }

    /// The form that is open is not looked into.
    pub fn skip(&mut self) -> Read<()> {
        self.skip_to(self.depth - 1)
    }
}
