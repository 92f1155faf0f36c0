//! Bodies: whatever has sides, solid cells and skips.

use std::cell::Cell as Counter;

#[derive(Clone, Copy)]
pub enum Axis {
    X,
    Y,
    Z,
}

#[derive(Clone, Copy)]
pub struct Cell {
    pub x: u16,
    pub y: u16,
    pub z: u16,
}

pub trait Body {
    fn side(&self, axis: Axis) -> u16;

    /// Whether a cell is solid; outside the frame none is.
    fn is_solid(&self, cell: Cell) -> bool;

    /// A plane past the given one up to which all sections are equal.
    fn skip(&self, axis: Axis, plane: u16) -> u16;
}

/// A grid of cells packed into words, row by row along z.
pub struct PackedGrid<'a> {
    sides: [u16; 3],
    words: &'a [u64],
}

impl<'a> PackedGrid<'a> {
    pub fn new(sides: [u16; 3], words: &'a [u64]) -> PackedGrid<'a> {
        PackedGrid { sides, words }
    }

    fn row_words(&self) -> usize {
        usize::from(self.sides[2]).div_ceil(64)
    }

    /// The first plane across z from `from` on at which a row changes, or `limit`.
    fn row_change(row: &[u64], from: u16, limit: u16) -> u16 {
        let mut at = from;
        while at < limit {
            let w = usize::from(at / 64);
            let before = if w == 0 { 0 } else { row[w - 1] >> 63 };
            let changes = row[w] ^ (row[w] << 1 | before);
            let zeros = (changes >> (at % 64)).trailing_zeros() as u16;
            if zeros < 64 {
                return limit.min(at + zeros);
            }
            at = (at / 64 + 1) * 64;
        }
        limit
    }
}

impl Body for PackedGrid<'_> {
    fn side(&self, axis: Axis) -> u16 {
        self.sides[axis as usize]
    }

    fn is_solid(&self, cell: Cell) -> bool {
        let [side_x, side_y, side_z] = self.sides;
        if cell.x >= side_x || cell.y >= side_y || cell.z >= side_z {
            return false;
        }
        let row = usize::from(cell.x) * usize::from(side_y) + usize::from(cell.y);
        let word = self.words[row * self.row_words() + usize::from(cell.z / 64)];
        word >> (cell.z % 64) & 1 == 1
    }

    fn skip(&self, axis: Axis, plane: u16) -> u16 {
        let side = self.side(axis);
        if side <= plane {
            return side;
        }
        match axis {
            Axis::X | Axis::Y => plane + 1,
            Axis::Z => {
                let mut next = side;
                for row in self.words.chunks_exact(self.row_words()) {
                    if next == plane + 1 {
                        break;
                    }
                    next = PackedGrid::row_change(row, plane + 1, next);
                }
                next
            }
        }
    }
}

/// A body that counts the questions about its cells.
pub struct Counted<B> {
    body: B,
    questions: Counter<u64>,
}

impl<B> Counted<B> {
    pub fn new(body: B) -> Counted<B> {
        Counted {
            body,
            questions: Counter::new(0),
        }
    }

    pub fn questions(&self) -> u64 {
        self.questions.get()
    }
}

impl<B: Body> Body for Counted<B> {
    fn side(&self, axis: Axis) -> u16 {
        self.body.side(axis)
    }

    fn is_solid(&self, cell: Cell) -> bool {
        self.questions.set(self.questions.get() + 1);
        self.body.is_solid(cell)
    }

    fn skip(&self, axis: Axis, plane: u16) -> u16 {
        self.body.skip(axis, plane)
    }
}
