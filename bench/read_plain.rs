//! Reads an EDIF file of the profile, with all its checks, and writes its canonical text, as `netdb write` does:
//!
//!     read_plain write FILE
//!
//! With a fault in the file it prints where and ends with 6; with no such file it ends with 3, with one of more than 128
//! mebibytes with 8.
use std::process::ExitCode;

mod read_contents;
mod read_design;
mod read_file;
mod read_forms;
#[allow(dead_code)]
mod read_output;
mod read_spelling;
mod read_text;
mod read_words;
mod read_write;

fn main() -> ExitCode {
    let words: Vec<String> = std::env::args().collect();
    let ["write", name] = words[1..].iter().map(String::as_str).collect::<Vec<_>>()[..] else {
        eprintln!("usage: write F");
        return ExitCode::from(2);
    };
    let bytes = match read_file::bytes_of(name) {
        Ok(bytes) => bytes,
        Err(status) => return ExitCode::from(status),
    };
    let design = match read_forms::read(&bytes) {
        Ok(design) => design,
        Err(place) => {
            eprintln!("{name}: fault at {place}");
            return ExitCode::from(6);
        }
    };
    match read_write::write(&design) {
        Ok(()) => ExitCode::SUCCESS,
        Err(_) => ExitCode::from(5),
    }
}
