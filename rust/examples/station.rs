//! A station's day: takes a record, asks how its top level is linked and since when, counts its cells, adds a level by
//! marking and writes the pyramid back: `station RECORD NEW_RECORD`. A refusal is said in words, and nothing is written
//! then. Status 0 written, 1 refused, 2 the call is wrong, or something can't be read or written.
use std::io::{self, StdoutLock, Write};
use std::{env, error::Error, fs, process::ExitCode};
use zompelgors::{mark_cells, Dimension, Factor, Pyramid, PyramidBuf, Refusal, ABSENT, SUMS};

type Done<T> = Result<T, Box<dyn Error>>;

/// The neighbours of the lowest dart of the top level, which the table holds, with the reads of each and since when.
fn links(out: &mut StdoutLock, p: &Pyramid, table: &[u16]) -> Done<()> {
    let lowest = (0..p.darts).find(|&d| table[usize::from(d)] != ABSENT);
    if let Some(dart) = lowest {
        for i in 0..=p.n.0 {
            let l = p.read(p.h, Dimension(i), dart)?;
            let (neighbour, count, since) = (l.neighbour, l.count, l.since.0);
            writeln!(
                out,
                "link {dart} a{i} {neighbour} reads {count} since {since}"
            )?;
        }
    }
    Ok(())
}

/// The cells of each dimension of the top level, and their alternating sum; the table then holds that level. The sum is
/// the Euler number only while every cell is a ball.
fn census(out: &mut StdoutLock, p: &Pyramid, table: &mut [u16]) -> Done<()> {
    let (mut cells, mut sums) = ([[0; 5]; SUMS], [0; SUMS]);
    p.census(table, &mut cells, &mut sums)?;
    let (top, n) = (usize::from(p.h.0), usize::from(p.n.0));
    let counts: Vec<String> = cells[top][..=n].iter().map(u16::to_string).collect();
    let (counts, sum) = (counts.join(" "), sums[top]);
    writeln!(out, "census of level {top}: {counts}, sum {sum}")?;
    Ok(())
}

/// All but the last line; the new record.
fn day(out: &mut StdoutLock, record: &[u8]) -> Done<Vec<u8>> {
    let mut pyramid = PyramidBuf::from_record(record)?;
    let mut table = vec![0; pyramid.entries()];
    let below = pyramid.height();
    pyramid.lend().check(&mut table)?;
    links(out, &pyramid.lend(), &table)?;
    census(out, &pyramid.lend(), &mut table)?;
    let (n, darts) = (pyramid.n(), pyramid.darts());
    let mut marks = vec![0; usize::from(darts)];
    mark_cells(n, darts, &table, Dimension(0), &mut marks)?;
    let top = pyramid.add(&marks, &mut table)?.0;
    match pyramid.lend().decimation(&mut table, below)? {
        Factor::By(factor) => writeln!(out, "level {top} added, shrunk by {factor:.3}")?,
        Factor::Empty => writeln!(out, "level {top} added, and it has no dart")?,
    }
    census(out, &pyramid.lend(), &mut table)?;
    Ok(pyramid.to_record()?)
}

fn run(words: &[String]) -> Done<()> {
    match words {
        [_, from, to] => {
            let mut out = io::stdout().lock();
            let record = fs::read(from).map_err(|error| format!("{from}: {error}"))?;
            let bytes = day(&mut out, &record)?;
            fs::write(to, &bytes).map_err(|error| format!("{to}: {error}"))?;
            writeln!(out, "{} bytes written", bytes.len())?;
            Ok(out.flush()?)
        }
        _ => Err("give a record, and a name for the new one".into()),
    }
}

fn main() -> ExitCode {
    let words: Vec<String> = env::args().collect();
    match run(&words) {
        Ok(()) => ExitCode::SUCCESS,
        Err(error) if error.is::<Refusal>() => {
            println!("{error}");
            ExitCode::FAILURE
        }
        Err(error) => {
            eprintln!("station: {error}");
            ExitCode::from(2)
        }
    }
}
