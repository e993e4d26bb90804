//! Takes a record, unfolds a level and prints its rows, -1 for a dart that is gone: `unfold RECORD LEVEL`. A refusal is
//! said in words. Status 0 printed, 1 refused, 2 the call is wrong, or something can't be read or written.
use std::io::{self, Write};
use std::{env, error::Error, fs, process::ExitCode};
use zompelgors::{Level, PyramidBuf, Refusal, ABSENT};

/// A level is digits alone and fits a byte; one above the height is refused by the library.
fn level_of(word: &str) -> Result<Level, String> {
    let digits = word.bytes().all(|b| b.is_ascii_digit());
    let level = word.parse().ok().filter(|_| digits).map(Level);
    level.ok_or_else(|| format!("'{word}' is no number from 0 to 255"))
}

fn unfold(record: &[u8], level: Level) -> Result<(), Box<dyn Error>> {
    let pyramid = PyramidBuf::from_record(record)?;
    let mut table = vec![0; pyramid.entries()];
    pyramid.lend().unfold(level, &mut table)?;
    let mut out = io::stdout().lock();
    for row in table.chunks(usize::from(pyramid.darts())) {
        let entry = |&d: &u16| if d == ABSENT { -1 } else { i32::from(d) };
        let said: Vec<String> = row.iter().map(|d| entry(d).to_string()).collect();
        writeln!(out, "{}", said.join(" "))?;
    }
    Ok(out.flush()?)
}

fn run(words: &[String]) -> Result<(), Box<dyn Error>> {
    match words {
        [_, path, level] => {
            let level = level_of(level)?;
            let record = fs::read(path).map_err(|error| format!("{path}: {error}"))?;
            unfold(&record, level)
        }
        _ => Err("give a record and a level".into()),
    }
}

fn main() -> ExitCode {
    let words: Vec<String> = env::args().collect();
    match run(&words) {
        Ok(()) => ExitCode::SUCCESS,
        Err(error) if error.is::<Refusal>() => {
            println!("{error}");
            ExitCode::FAILURE
        }
        Err(error) => {
            eprintln!("unfold: {error}");
            ExitCode::from(2)
        }
    }
}
