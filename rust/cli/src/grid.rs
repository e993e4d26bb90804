//! The base of a block of pixels, voxels or 4D cells, open at its border.
use crate::failure::Failure;
use zompelgors::MOST_DARTS;

/// A block of cells: so many along each axis, the first axis running fastest.
#[derive(Clone, Debug, PartialEq, Eq)]
pub struct Block {
    sizes: Vec<usize>,
}

/// A dart of a cell: a corner of it, and the order in which the axes span edge, face and so on. The last axis is the one
/// across the side.
#[derive(Clone, Debug, PartialEq, Eq)]
struct Flag {
    corner: usize,
    order: Vec<usize>,
}

impl Block {
    /// A block of 1 to 4 axes that the darts suffice for; if not, why not.
    pub fn new(sizes: &[usize]) -> Result<Block, Failure> {
        if sizes.is_empty() || sizes.len() > 4 || sizes.contains(&0) {
            return Err(Failure::Bad(
                "a size has 1 to 4 numbers, each at least 1, as 4x4x5".into(),
            ));
        }
        let cells = sizes.iter().fold(1, |all: usize, size| all.saturating_mul(*size));
        let each = darts_of_cell(sizes.len());
        let most = MOST_DARTS / each;
        if cells > most {
            let cell = ["segments", "pixels", "voxels", "4D cells"][sizes.len() - 1];
            let shown: Vec<_> = sizes.iter().map(ToString::to_string).collect();
            return Err(Failure::Bad(format!(
                "{} are too many {cell}: a pyramid has at most {MOST_DARTS} darts, {each} for each, so at most {most}",
                shown.join("x")
            )));
        }
        Ok(Block { sizes: sizes.to_vec() })
    }

    /// The dimension, which is the number of axes.
    pub fn n(&self) -> usize {
        self.sizes.len()
    }

    pub fn cells(&self) -> usize {
        self.sizes.iter().product()
    }

    pub fn darts(&self) -> usize {
        self.cells() * darts_of_cell(self.n())
    }

    /// The cell that a dart is of.
    pub fn cell_of(&self, dart: usize) -> usize {
        dart / darts_of_cell(self.n())
    }

    /// The cell beside a cell, by one step up or down an axis, if the block has one.
    fn beside(&self, cell: usize, axis: usize, up: bool) -> Option<usize> {
        let stride: usize = self.sizes[..axis].iter().product();
        let place = cell / stride % self.sizes[axis];
        match up {
            true if place + 1 < self.sizes[axis] => Some(cell + stride),
            false if place > 0 => Some(cell - stride),
            _ => None,
        }
    }

    /// The rows of the base, row 0 first.
    pub fn rows(&self) -> Vec<u16> {
        let flags = flags(self.n());
        let mut rows = Vec::with_capacity((self.n() + 1) * self.darts());
        for i in 0..=self.n() {
            for dart in 0..self.darts() {
                rows.push(self.neighbour(&flags, i, dart) as u16);
            }
        }
        rows
    }

    /// a_0 goes to the other end of the edge, a_i to the other i-cell of the same cell, a_n across the side.
    fn neighbour(&self, flags: &[Flag], i: usize, dart: usize) -> usize {
        let (cell, flag) = (dart / flags.len(), &flags[dart % flags.len()]);
        if i == self.n() {
            let axis = flag.order[i - 1];
            let across = self.beside(cell, axis, flag.corner >> axis & 1 == 1);
            return across.map_or(dart, |other| other * flags.len() + number(flags, &flag.flipped(axis)));
        }
        let other = if i == 0 {
            flag.flipped(flag.order[0])
        } else {
            flag.swapped(i)
        };
        cell * flags.len() + number(flags, &other)
    }
}

impl Flag {
    /// The same at the corner on the other end of an axis.
    fn flipped(&self, axis: usize) -> Flag {
        Flag {
            corner: self.corner ^ (1 << axis),
            order: self.order.clone(),
        }
    }

    /// Another i-cell between the same cells below and above it.
    fn swapped(&self, i: usize) -> Flag {
        let mut order = self.order.clone();
        order.swap(i - 1, i);
        Flag {
            corner: self.corner,
            order,
        }
    }
}

/// 2 to the n corners times n! orders: 2, 8, 48, 384.
pub fn darts_of_cell(n: usize) -> usize {
    (1..=n).product::<usize>() << n
}

/// All orders of the first n axes, in rising order.
fn orders(n: usize) -> Vec<Vec<usize>> {
    let mut found = vec![Vec::new()];
    for _ in 0..n {
        let longer = |order: &Vec<usize>| {
            let free = (0..n).filter(|axis| !order.contains(axis));
            free.map(|axis| [&order[..], &[axis]].concat()).collect::<Vec<_>>()
        };
        found = found.iter().flat_map(longer).collect();
    }
    found
}

/// The darts of one cell, in the order of their numbers: by corner, then by order.
fn flags(n: usize) -> Vec<Flag> {
    let at = |corner: usize| orders(n).into_iter().map(move |order| Flag { corner, order });
    (0..1 << n).flat_map(at).collect()
}

/// The number of a flag: its orders lie together behind those of the corners before it.
fn number(flags: &[Flag], flag: &Flag) -> usize {
    let each = flags.iter().take_while(|other| other.corner == 0).count();
    let within = flags[..each].iter().position(|other| other.order == flag.order);
    flag.corner * each + within.unwrap_or(0)
}

/// Sizes as they are written: 4x4x5.
pub fn sizes(words: &str) -> Result<Vec<usize>, String> {
    let parse = |word: &str| {
        word.parse()
            .map_err(|_| "a size is numbers with x between, as 4x4x5".to_string())
    };
    words.split('x').map(parse).collect()
}
