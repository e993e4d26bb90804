//! Records: read from a file and checked, and written as the library writes them.
use crate::failure::Failure;
use crate::files;
use crate::refusals::Asked;
use zompelgors::{Level, Pyramid, PyramidBuf, MOST_RECORD};

/// A pyramid that was read from a file and accepted.
pub struct Loaded {
    pub file: String,
    pub pyramid: PyramidBuf,
}

impl Loaded {
    /// Reads a record; one that is longer than the largest is refused by its first byte too many.
    pub fn read(file: &str) -> Result<Loaded, Failure> {
        let bytes = files::read(file, MOST_RECORD + 1)?;
        match PyramidBuf::from_record(&bytes) {
            Ok(pyramid) => Ok(Loaded {
                file: file.into(),
                pyramid,
            }),
            Err(refusal) => Err(Failure::refused(file, refusal, &Asked::Record(bytes))),
        }
    }

    pub fn lend(&self) -> Pyramid<'_> {
        self.pyramid.lend()
    }

    /// A table for one of its levels.
    pub fn table(&self) -> Vec<u16> {
        vec![0; self.pyramid.entries()]
    }

    pub fn n(&self) -> u8 {
        self.lend().n.0
    }

    pub fn h(&self) -> u8 {
        self.lend().h.0
    }

    pub fn darts(&self) -> usize {
        usize::from(self.lend().darts)
    }

    pub fn levels(&self) -> impl Iterator<Item = Level> {
        (0..=self.h()).map(Level)
    }

    /// The darts that are on a level.
    pub fn survivors(&self, level: Level) -> Vec<u16> {
        let lent = self.lend();
        (0..lent.darts)
            .filter(|dart| lent.lambda[usize::from(*dart)] >= level.0)
            .collect()
    }

    /// A refusal of what was asked of this pyramid.
    pub fn refused<'a>(&'a self, asked: &'a Asked) -> impl Fn(zompelgors::Refusal) -> Failure + 'a {
        move |refusal| Failure::refused(&self.file, refusal, asked)
    }

    /// What is asked by a level alone.
    pub fn asked_level(&self) -> Asked {
        Asked::Level { h: self.h() }
    }
}

/// The record of a pyramid, as the library writes it.
pub fn record(file: &str, pyramid: &PyramidBuf) -> Result<Vec<u8>, Failure> {
    let mut bytes = vec![0; MOST_RECORD];
    let mut table = vec![0; pyramid.entries()];
    let length = pyramid
        .lend()
        .write(&mut table, &mut bytes)
        .map_err(|refusal| Failure::refused(file, refusal, &Asked::Base))?;
    bytes.truncate(length);
    Ok(bytes)
}
