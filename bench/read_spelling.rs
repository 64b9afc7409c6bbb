//! Numbers and strings as a file spells them.

/// The digits of a number, in a buffer for the longest one.
pub fn digits(number: u64, buffer: &mut [u8; 20]) -> &[u8] {
    let (mut at, mut rest) = (20, number);
    loop {
        at -= 1;
        buffer[at] = b'0' + (rest % 10) as u8;
        rest /= 10;
        if rest == 0 {
            return &buffer[at..];
        }
    }
}

fn is_plain(b: u8) -> bool {
    matches!(b, b' '..=b'~') && b != b'"' && b != b'%'
}

/// What stands between the quotes of a string: codes for each run of bytes that do not stand for themselves. Equal strings are spelled
/// alike.
pub fn spelled(text: &[u8]) -> Vec<u8> {
    let mut out = Vec::with_capacity(text.len());
    for run in text.chunk_by(|a, b| is_plain(*a) == is_plain(*b)) {
        if is_plain(run[0]) {
            out.extend_from_slice(run);
            continue;
        }
        for (at, code) in run.iter().enumerate() {
            out.push(if at == 0 { b'%' } else { b' ' });
            out.extend_from_slice(digits(u64::from(*code), &mut [0; 20]));
        }
        out.push(b'%');
    }
    out
}
