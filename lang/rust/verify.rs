//! verify SIGNATURE DOCUMENT PUBLICATIONS prints the second of an accepted signature, or the check that failed.
use std::{env, ffi::OsString, fs, io, io::Write, path::Path, process};

// If a file cannot be read or the line cannot be written, the status is 4, as with `ksi verify`. Status 1 means that a check failed.
fn of<T>(name: &OsString, read: io::Result<T>) -> T {
    read.unwrap_or_else(|error| {
        eprintln!("{}: {error}", Path::new(name).display());
        process::exit(4)
    })
}

fn read(name: &OsString) -> Vec<u8> {
    of(name, fs::read(name))
}

// The SHA-256 of a document of any size.
fn digest(name: &OsString) -> [u8; 32] {
    let mut hasher = ksi::Hasher::new();
    of(name, fs::File::open(name).and_then(|mut file| io::copy(&mut file, &mut hasher)));
    hasher.digest()
}

fn main() {
    // a file name may be any bytes
    let words: Vec<OsString> = env::args_os().skip(1).collect();
    let (signature, document, publications) = match words.as_slice() {
        [signature, document, publications] => (signature, document, publications),
        _ => process::exit(2),
    };
    let answer = ksi::verify(&read(signature), &digest(document), &read(publications));
    let written = match (answer.status, answer.file) {
        (0, _) => writeln!(io::stdout(), "accepted {}", answer.second),
        (1, _) => writeln!(io::stdout(), "refused V{}", answer.code),
        (_, 1) => writeln!(io::stdout(), "malformed 1 S{}", answer.code),
        _ => writeln!(io::stdout(), "malformed 3 Q{}", answer.code),
    };
    if let Err(error) = written {
        eprintln!("{error}");
        process::exit(4)
    }
    process::exit(answer.status as i32)
}
