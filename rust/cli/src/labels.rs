//! Labelled images: a PGM, or raw bytes of a size that is given.
use crate::failure::Failure;
use crate::files;
use crate::grid::Block;

/// A block of cells, and a label for each.
#[derive(Debug, PartialEq, Eq)]
pub struct Labels {
    pub block: Block,
    pub labels: Vec<u16>,
}

/// Reads labels; with a size the file is raw bytes, without one a PGM.
pub fn read(file: &str, size: Option<&[usize]>) -> Result<Labels, Failure> {
    // What is too large is said before anything is read.
    let block = size.map(Block::new).transpose()?;
    let bytes = files::read(file, files::MOST_TEXT)?;
    let found = match block {
        Some(block) => raw(block, &bytes),
        None => pgm(&bytes),
    };
    found.map_err(|failure| match failure {
        Failure::Bad(what) => Failure::Bad(format!("{file}: {what}")),
        other => other,
    })
}

fn bad<T>(what: impl Into<String>) -> Result<T, Failure> {
    Err(Failure::Bad(what.into()))
}

/// One byte a cell, the first axis running fastest.
fn raw(block: Block, bytes: &[u8]) -> Result<Labels, Failure> {
    if bytes.len() != block.cells() {
        return bad(format!(
            "it has {} bytes, and the size says {}",
            bytes.len(),
            block.cells()
        ));
    }
    let labels = bytes.iter().map(|byte| u16::from(*byte)).collect();
    Ok(Labels { block, labels })
}

/// A grey image as netpbm writes it: plain text (P2) or bytes (P5).
fn pgm(bytes: &[u8]) -> Result<Labels, Failure> {
    let mut header = Header { bytes, at: 2 };
    let plain = match bytes.get(..2) {
        Some(b"P2") => true,
        Some(b"P5") => false,
        _ => return bad("it is no PGM, which begins with P2 or P5 (raw bytes need --size)"),
    };
    let (width, height, largest) = (header.number()?, header.number()?, header.number()?);
    let block = Block::new(&[width, height])?;
    if largest == 0 || largest > 65_535 {
        return bad(format!("its largest grey is {largest}, and must be 1 to 65,535"));
    }
    let labels = if plain {
        header.plain(block.cells())?
    } else {
        header.packed(block.cells(), largest > 255)?
    };
    match labels.iter().find(|label| usize::from(**label) > largest) {
        Some(label) => bad(format!("a pixel is {label}, and the largest grey {largest}")),
        None => Ok(Labels { block, labels }),
    }
}

/// The numbers of a PGM, as they come.
struct Header<'a> {
    bytes: &'a [u8],
    at: usize,
}

impl Header<'_> {
    /// The next number, behind white space and comments.
    fn number(&mut self) -> Result<usize, Failure> {
        self.skip();
        let digits = self.bytes[self.at..].iter().take_while(|byte| byte.is_ascii_digit());
        let end = self.at + digits.count();
        let word = std::str::from_utf8(&self.bytes[self.at..end]).unwrap_or_default();
        self.at = end;
        match word.parse() {
            Ok(number) => Ok(number),
            Err(_) if word.is_empty() => bad(format!("a number is missing at byte {end}")),
            Err(_) => bad(format!("the number before byte {end} is too large")),
        }
    }

    fn skip(&mut self) {
        let mut comment = false;
        while let Some(byte) = self.bytes.get(self.at) {
            comment = if comment { *byte != b'\n' } else { *byte == b'#' };
            if !comment && !byte.is_ascii_whitespace() {
                return;
            }
            self.at += 1;
        }
    }

    fn plain(&mut self, cells: usize) -> Result<Vec<u16>, Failure> {
        let mut labels = Vec::with_capacity(cells);
        for _ in 0..cells {
            // Whatever doesn't fit is above the largest grey, and is said to be.
            labels.push(u16::try_from(self.number()?).unwrap_or(u16::MAX));
        }
        self.skip();
        if self.at < self.bytes.len() {
            return bad(format!("more follows its {cells} pixels"));
        }
        Ok(labels)
    }

    /// One byte a pixel or two, high byte first, behind one byte of white space.
    fn packed(&mut self, cells: usize, wide: bool) -> Result<Vec<u16>, Failure> {
        let body = self.bytes.get(self.at + 1..).unwrap_or_default();
        let each = if wide { 2 } else { 1 };
        if body.len() != cells * each {
            return bad(format!(
                "{} bytes of pixels are due, and {} are there",
                cells * each,
                body.len()
            ));
        }
        let joined = |bytes: &[u8]| bytes.iter().fold(0, |all, byte| all << 8 | u16::from(*byte));
        Ok(body.chunks(each).map(joined).collect())
    }
}
