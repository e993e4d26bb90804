//! Files: what is read, and what is written whole or not at all.
use crate::failure::{reason, Failure};
use std::ffi::OsString;
use std::fs::{self, File, OpenOptions};
use std::io::{self, Read, Write};
use std::path::{Path, PathBuf};
use std::process;

/// Standard input, and where something is made standard output.
pub const STANDARD: &str = "-";

/// The most that is read of a text or an image: far more than any that can be used has.
pub const MOST_TEXT: usize = 1 << 20;

/// The first bytes of a file, at most so many.
pub fn read(file: &str, most: usize) -> Result<Vec<u8>, Failure> {
    let mut bytes = Vec::new();
    let done = if file == STANDARD {
        io::stdin().lock().take(most as u64).read_to_end(&mut bytes)
    } else {
        File::open(file).and_then(|open| open.take(most as u64).read_to_end(&mut bytes))
    };
    match done {
        Ok(_) => Ok(bytes),
        Err(error) => Err(Failure::Bad(format!("{file} can't be read: {}", reason(&error)))),
    }
}

/// Numbers and white space, each number at most `largest`.
pub fn numbers(file: &str, largest: u16) -> Result<Vec<u16>, Failure> {
    let bytes = read(file, MOST_TEXT + 1)?;
    let bad = |what: String| Failure::Bad(format!("{file}: {what}"));
    if bytes.len() > MOST_TEXT {
        return Err(bad("it is too long for a row of numbers".into()));
    }
    let text = String::from_utf8(bytes).map_err(|_| bad("it isn't text".into()))?;
    let mut numbers = Vec::new();
    for (line, words) in text.lines().enumerate() {
        for word in words.split_whitespace() {
            let number = word.parse().ok().filter(|number| *number <= largest);
            numbers.push(number.ok_or_else(|| {
                bad(format!(
                    "line {}: '{}' is no number from 0 to {largest}",
                    line + 1,
                    shortened(word)
                ))
            })?);
        }
    }
    Ok(numbers)
}

/// The front of a word that may be long.
fn shortened(word: &str) -> String {
    let mut front: String = word.chars().take(20).collect();
    if front.len() < word.len() {
        front.push_str("..");
    }
    front
}

/// A row as text: numbers, and a new line behind each sixteenth.
pub fn as_text<T: ToString>(row: &[T]) -> String {
    let lines = row.chunks(16).map(|some| {
        let words: Vec<_> = some.iter().map(ToString::to_string).collect();
        words.join(" ") + "\n"
    });
    lines.collect()
}

/// What is to be written, and where; it becomes a file when all of it is written.
struct Staged {
    beside: PathBuf,
    to: PathBuf,
    shown: String,
}

/// Writes all files or none: each goes to a file beside its place, and these are renamed when all are whole.
pub fn write_all(files: &[(&str, &[u8])]) -> Result<(), Failure> {
    let mut staged = Vec::new();
    for (file, bytes) in files {
        match stage(file, bytes) {
            Ok(Some(one)) => staged.push(one),
            Ok(None) => {}
            Err(failure) => {
                drop_all(&staged);
                return Err(failure);
            }
        }
    }
    for one in &staged {
        if let Err(error) = fs::rename(&one.beside, &one.to) {
            drop_all(&staged);
            return Err(Failure::unwritten(&one.shown, &error));
        }
    }
    Ok(())
}

fn drop_all(staged: &[Staged]) {
    for one in staged {
        // It may have been renamed already; then nothing is left to take away.
        let _ = fs::remove_file(&one.beside);
    }
}

/// Writes a file beside its place. Standard output, and what is no plain file, as a device, is written to at once.
fn stage(file: &str, bytes: &[u8]) -> Result<Option<Staged>, Failure> {
    let failed = |error: io::Error| Failure::unwritten(file, &error);
    if file == STANDARD {
        print(bytes)?;
        return Ok(None);
    }
    // A link is followed, so that the file it leads to is replaced and not the link.
    let to = fs::canonicalize(file).unwrap_or_else(|_| PathBuf::from(file));
    if fs::metadata(&to).map_or(false, |found| !found.is_file()) {
        let mut open = OpenOptions::new().write(true).open(&to).map_err(failed)?;
        open.write_all(bytes).map_err(failed)?;
        return Ok(None);
    }
    let beside = beside(&to);
    let written = OpenOptions::new()
        .write(true)
        .create_new(true)
        .open(&beside)
        .and_then(|mut open| {
            open.write_all(bytes)?;
            open.sync_all()
        });
    if let Err(error) = written {
        if error.kind() != io::ErrorKind::AlreadyExists {
            let _ = fs::remove_file(&beside);
        }
        return Err(failed(error));
    }
    Ok(Some(Staged {
        beside,
        to,
        shown: file.into(),
    }))
}

/// A name of its own in the folder of a file.
fn beside(to: &Path) -> PathBuf {
    let mut name = OsString::from(".");
    name.push(to.file_name().unwrap_or_default());
    name.push(format!(".{}.new", process::id()));
    to.with_file_name(name)
}

/// Writes to standard output; a full disk or a reader that has gone is noticed.
pub fn print(bytes: &[u8]) -> Result<(), Failure> {
    let mut out = io::stdout().lock();
    let done = out.write_all(bytes).and_then(|()| out.flush());
    done.map_err(|error| Failure::unwritten("standard output", &error))
}

/// Nothing is changed in place: what is made may not be one of the files that are read, nor two of them one file.
pub fn apart(made: &[&str], read: &[&str]) -> Result<(), Failure> {
    let inputs = read.iter().filter(|file| **file == STANDARD).count();
    if inputs > 1 {
        return Err(Failure::Bad("standard input can be read once alone".into()));
    }
    for (at, file) in made.iter().enumerate() {
        let others = made[..at].iter().chain(if *file == STANDARD { &[] } else { read });
        for other in others {
            if one_file(file, other) {
                return Err(Failure::Bad(format!(
                    "{file} is also {other}: nothing is written in place"
                )));
            }
        }
    }
    Ok(())
}

/// Whether two names are of one plain file, by way of links too.
fn one_file(one: &str, other: &str) -> bool {
    if one == other {
        return true;
    }
    let plain = |file: &str| {
        let found = fs::metadata(file).ok()?;
        found.is_file().then(|| place(&found))
    };
    match (plain(one), plain(other)) {
        (Some(a), Some(b)) => a == b,
        _ => false,
    }
}

/// What a file is known by to the system.
fn place(found: &fs::Metadata) -> (u64, u64) {
    use std::os::unix::fs::MetadataExt;
    (found.dev(), found.ino())
}
