//! The bytes of a file.
use crate::read_text::BEHIND;
use std::fs::File;
use std::io::{self, Read};

const MOST_BYTES: u64 = 134_217_728;

fn read(name: &str) -> io::Result<Vec<u8>> {
    let file = File::open(name)?;
    let mut bytes = Vec::with_capacity(file.metadata()?.len().min(MOST_BYTES + 1) as usize + 2 * BEHIND);
    file.take(MOST_BYTES + 1).read_to_end(&mut bytes)?;
    Ok(bytes)
}

/// The bytes of a file and `BEHIND` zeros, or the status with which the program ends without them.
pub fn bytes_of(name: &str) -> Result<Vec<u8>, u8> {
    let Ok(mut bytes) = read(name) else {
        eprintln!("{name}: missing");
        return Err(3);
    };
    if bytes.len() as u64 > MOST_BYTES {
        eprintln!("{name}: too large");
        return Err(8);
    }
    bytes.resize(bytes.len() + BEHIND, 0);
    Ok(bytes)
}
