//! Named bodies: read from a job, or piled on bodies named before.

use std::collections::BTreeMap;
use std::rc::Rc;

use super::cut::CellBox;
use super::{parse_signed, split_words, Block, Frame, Malformed, Parser, Place, Refusal};

/// Most boxes of a list that count.
const MAX_LISTED_BOXES: usize = 65_536;
/// Most boxes a job may give to one list.
const MAX_BOX_LINES: u64 = 1_000_000;
/// Longest shift along an axis, forward and backward.
const MAX_SHIFT: i64 = 1024;

pub type Name = Vec<u8>;

/// What each name stands for.
pub type Bodies = BTreeMap<Name, Rc<Block>>;

/// How two bodies make one.
#[derive(Clone, Copy, Debug)]
pub enum Pair {
    Union,
    Meet,
    Less,
    Either,
}

impl Pair {
    fn from_name(name: &[u8]) -> Option<Pair> {
        match name {
            b"union" => Some(Pair::Union),
            b"meet" => Some(Pair::Meet),
            b"less" => Some(Pair::Less),
            b"either" => Some(Pair::Either),
            _ => None,
        }
    }

    /// Whether a cell is solid, from the two bodies' cells.
    fn is_solid(self, first: bool, second: bool) -> bool {
        match self {
            Pair::Union => first || second,
            Pair::Meet => first && second,
            Pair::Less => first && !second,
            Pair::Either => first != second,
        }
    }

    /// The pair in the frame of the first body.
    fn of(self, first: &Block, second: &Block) -> Block {
        Block::of_cells(first.frame, |cell| {
            self.is_solid(first.is_solid(cell), second.is_solid(cell))
        })
    }
}

impl Block {
    /// The cells of the first boxes that lie in the frame. All boxes have to be
    /// lawful.
    fn from_boxes(frame: Frame, bounds: &[[u64; 6]]) -> Result<Block, Refusal> {
        let mut boxes = Vec::new();
        for &bounds in bounds {
            boxes.push(CellBox::new(bounds)?);
        }
        let mut block = Block::of_cells(frame, |_| false);
        for cell_box in boxes.iter().take(MAX_LISTED_BOXES) {
            block.fill(cell_box);
        }
        Ok(block)
    }

    /// Makes the cells of a box solid where they lie in the frame.
    fn fill(&mut self, cell_box: &CellBox) {
        let frame = self.frame;
        let within = |axis: usize| {
            let end = cell_box.high[axis].min(frame.sides[axis]);
            cell_box.low[axis]..end
        };
        for i in within(0) {
            for j in within(1) {
                for k in within(2) {
                    self.solid[frame.rank([i, j, k])] = true;
                }
            }
        }
    }

    fn turned(&self) -> Block {
        Block::of_cells(self.frame, |cell| !self.is_solid(cell))
    }

    fn moved(&self, shift: [i64; 3]) -> Result<Block, Refusal> {
        let allowed = -MAX_SHIFT..=MAX_SHIFT;
        if shift.iter().any(|steps| !allowed.contains(steps)) {
            return Err(Refusal::ShiftRange);
        }
        Ok(Block::of_cells(self.frame, |cell| {
            less(cell, shift).is_some_and(|below| self.is_solid(below))
        }))
    }
}

/// The cell less the shift, unless it comes to lie before the first cells.
fn less(cell: Place, shift: [i64; 3]) -> Option<Place> {
    let mut below = [0; 3];
    for axis in 0..3 {
        below[axis] = usize::try_from(cell[axis] as i64 - shift[axis]).ok()?;
    }
    Some(below)
}

/// How a named body is made.
#[derive(Debug)]
pub enum Making {
    Scan(Block),
    Grid(Frame, Vec<u64>),
    Boxes(Frame, Vec<[u64; 6]>),
    Pair(Pair, Name, Name),
    Turned(Name),
    Moved(Name, [i64; 3]),
}

impl Making {
    /// Whether the job itself has the cells.
    pub fn is_read(&self) -> bool {
        matches!(self, Making::Scan(_) | Making::Grid(..) | Making::Boxes(..))
    }

    /// The body; none where a name that it builds on stands for nothing.
    pub fn make(self, bodies: &Bodies) -> Option<Result<Block, Refusal>> {
        Some(match self {
            Making::Scan(block) => Ok(block),
            Making::Grid(frame, words) => Block::from_grid(frame, &words),
            Making::Boxes(frame, bounds) => Block::from_boxes(frame, &bounds),
            Making::Pair(pair, first, second) => {
                Ok(pair.of(bodies.get(&first)?, bodies.get(&second)?))
            }
            Making::Turned(below) => Ok(bodies.get(&below)?.turned()),
            Making::Moved(below, shift) => bodies.get(&below)?.moved(shift),
        })
    }
}

impl Parser<'_> {
    /// What follows the name of a body.
    pub fn making(&mut self, words: &[&[u8]]) -> Result<Making, Malformed> {
        match words {
            [b"scan"] => Ok(Making::Scan(self.scan()?)),
            [b"grid", length] => {
                let (frame, words) = self.grid(length)?;
                Ok(Making::Grid(frame, words))
            }
            [b"boxes", length] => self.boxes(length),
            [b"=", b"turned", below] => Ok(Making::Turned(below.to_vec())),
            [b"=", b"moved", below, x, y, z] => {
                let shift = [self.signed(x)?, self.signed(y)?, self.signed(z)?];
                Ok(Making::Moved(below.to_vec(), shift))
            }
            [b"=", pair, first, second] => {
                let pair = Pair::from_name(pair);
                let pair = pair.ok_or_else(|| self.lines.fault("unknown pile"))?;
                Ok(Making::Pair(pair, first.to_vec(), second.to_vec()))
            }
            _ => Err(self.lines.fault("unknown kind of body")),
        }
    }

    fn signed(&self, word: &[u8]) -> Result<i64, Malformed> {
        parse_signed(word).ok_or_else(|| {
            let word = String::from_utf8_lossy(word);
            self.lines
                .fault(format!("`{word}` is no signed number of 64 bits"))
        })
    }

    fn boxes(&mut self, length: &[u8]) -> Result<Making, Malformed> {
        let frame = self.frame_in_force()?;
        let length = self.number_up_to(MAX_BOX_LINES, length)?;
        let mut boxes = Vec::new();
        for _ in 0..length {
            let line = self.lines.require("box")?;
            let words = split_words(line);
            if words.len() != 6 {
                return Err(self.lines.fault("box line is not six numbers"));
            }
            let mut bounds = [0; 6];
            for (bound, word) in bounds.iter_mut().zip(words) {
                *bound = self.number(word)?;
            }
            boxes.push(bounds);
        }
        Ok(Making::Boxes(frame, boxes))
    }
}
