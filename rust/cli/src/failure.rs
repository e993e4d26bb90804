//! Why a command ends without its answer, and its status.
use crate::refusals::{self, Asked};
use std::io::{self, Write};
use zompelgors::Refusal;

/// What stands in the way of an answer.
#[derive(Debug)]
pub enum Failure {
    /// The library refuses what it is lent or asked.
    Refused(Refused),
    /// The call is wrong, or a file isn't what it should be.
    Bad(String),
    /// The answer or a file can't be written.
    Unwritten(String),
    /// Whoever read the answer has gone; nobody is left to be told.
    Gone,
}

/// A refusal, with the file that it is of and its sentence.
#[derive(Clone, Debug)]
pub struct Refused {
    pub file: String,
    pub refusal: Refusal,
    pub sentence: String,
}

impl Refused {
    /// The fields as the station's programs print them, and the sentence.
    pub fn line(&self) -> String {
        let Refusal {
            number,
            level,
            involution,
            dart,
        } = self.refusal;
        format!("refused {number} {level} {involution} {dart}: {}", self.sentence)
    }
}

impl Failure {
    /// The status with which the command ends.
    pub fn status(&self) -> u8 {
        match self {
            Failure::Refused(_) => 1,
            Failure::Bad(_) => 2,
            Failure::Unwritten(_) | Failure::Gone => 3,
        }
    }

    /// What is said on the error stream, if anything.
    pub fn line(&self) -> Option<String> {
        match self {
            Failure::Refused(refused) => Some(format!("{}: {}", refused.file, refused.line())),
            Failure::Bad(message) | Failure::Unwritten(message) => Some(message.clone()),
            Failure::Gone => None,
        }
    }

    /// Says it on the error stream.
    pub fn told(&self) {
        if let Some(line) = self.line() {
            tell(&format!("zompelgors: {line}\n"));
        }
    }

    /// A refusal of what a file holds, or of what was asked of it.
    pub fn refused(file: &str, refusal: Refusal, asked: &Asked) -> Failure {
        Failure::Refused(Refused {
            file: file.to_string(),
            refusal,
            sentence: refusals::sentence(&refusal, asked),
        })
    }

    /// A file that can't be written; a reader that has gone is none.
    pub fn unwritten(file: &str, error: &io::Error) -> Failure {
        match error.kind() {
            io::ErrorKind::BrokenPipe => Failure::Gone,
            _ => Failure::Unwritten(format!("{file} can't be written: {}", reason(error))),
        }
    }
}

/// Says something on the error stream. Where that can't be written either, the status is all that is left to tell it.
pub fn tell(words: &str) {
    let _ = io::stderr().write_all(words.as_bytes());
}

/// What the system says, without the number behind it.
pub fn reason(error: &io::Error) -> String {
    let text = error.to_string();
    match text.find(" (os error") {
        Some(end) => text[..end].to_lowercase(),
        None => text,
    }
}
