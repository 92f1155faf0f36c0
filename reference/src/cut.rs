//! Cuts of a block into boxes, and questions about the boxes of a cut.

use std::fmt;

use super::{Block, Place, Refusal, MAX_SIDE};

/// Most boxes a table can hold, whatever its length.
pub const MAX_BOXES: usize = 65_536;

/// Neighbouring positions from `from` up to but not including `to`.
#[derive(Clone, Copy, Debug, PartialEq, Eq, PartialOrd, Ord)]
struct Stretch {
    from: usize,
    to: usize,
}

impl Stretch {
    /// Whether a position lies in both.
    fn meets(self, other: Stretch) -> bool {
        (self.from..self.to).any(|position| (other.from..other.to).contains(&position))
    }
}

/// The axes that A, B and C stand for.
#[derive(Clone, Copy, Debug)]
pub struct Order {
    axes: [usize; 3],
}

impl Order {
    pub fn from_name(name: &[u8]) -> Option<Order> {
        let axes = match name {
            b"XYZ" => [0, 1, 2],
            b"XZY" => [0, 2, 1],
            b"YXZ" => [1, 0, 2],
            b"YZX" => [1, 2, 0],
            b"ZXY" => [2, 0, 1],
            b"ZYX" => [2, 1, 0],
            _ => return None,
        };
        Some(Order { axes })
    }

    /// The place with these coordinates on A, B and C.
    fn place(self, abc: [usize; 3]) -> Place {
        let mut place = [0; 3];
        for letter in 0..3 {
            place[self.axes[letter]] = abc[letter];
        }
        place
    }

    /// The coordinates of a place on A, B and C.
    fn abc(self, place: Place) -> [usize; 3] {
        self.axes.map(|axis| place[axis])
    }
}

impl fmt::Display for Order {
    fn fmt(&self, f: &mut fmt::Formatter) -> fmt::Result {
        for axis in self.axes {
            f.write_str(["X", "Y", "Z"][axis])?;
        }
        Ok(())
    }
}

/// All cells from a lower point to an upper point.
#[derive(Clone, Copy, Debug, PartialEq)]
pub struct CellBox {
    pub low: Place,
    pub high: Place,
}

impl CellBox {
    /// What a box table holds before anything is written to it.
    pub const UNIT: CellBox = CellBox {
        low: [0; 3],
        high: [1; 3],
    };

    /// The box with these lower x, y and z and upper x, y and z.
    pub fn new(bounds: [u64; 6]) -> Result<CellBox, Refusal> {
        let [i, j, k, x, y, z] = bounds;
        let (low, high) = ([i, j, k], [x, y, z]);
        if (0..3).any(|axis| low[axis] >= high[axis] || high[axis] > MAX_SIDE) {
            return Err(Refusal::BoxBounds);
        }
        Ok(CellBox {
            low: low.map(|bound| bound as usize),
            high: high.map(|bound| bound as usize),
        })
    }

    fn stretch(&self, axis: usize) -> Stretch {
        Stretch {
            from: self.low[axis],
            to: self.high[axis],
        }
    }

    fn cells(&self) -> usize {
        (0..3)
            .map(|axis| self.high[axis] - self.low[axis])
            .product()
    }

    pub fn holds(&self, cell: [u64; 3]) -> bool {
        (0..3)
            .all(|axis| self.low[axis] as u64 <= cell[axis] && cell[axis] < self.high[axis] as u64)
    }
}

impl fmt::Display for CellBox {
    fn fmt(&self, f: &mut fmt::Formatter) -> fmt::Result {
        let ([i, j, k], [x, y, z]) = (self.low, self.high);
        write!(f, "({i} {j} {k})-({x} {y} {z})")
    }
}

/// Where equal things are at neighbouring positions: each thing with its
/// longest stretches.
fn stretches<T: Ord + Copy>(mut things: Vec<(T, usize)>) -> Vec<(T, Stretch)> {
    things.sort_unstable();
    let mut stretches: Vec<(T, Stretch)> = Vec::new();
    for (thing, at) in things {
        match stretches.last_mut() {
            Some((same, stretch)) if *same == thing && stretch.to == at => stretch.to += 1,
            _ => stretches.push((
                thing,
                Stretch {
                    from: at,
                    to: at + 1,
                },
            )),
        }
    }
    stretches
}

/// A block seen along A, B and C.
struct View<'a> {
    block: &'a Block,
    order: Order,
}

impl View<'_> {
    fn sides(&self) -> [usize; 3] {
        self.order.abc(self.block.frame.sides)
    }

    /// The runs of the row at a and b.
    fn runs(&self, a: usize, b: usize) -> Vec<Stretch> {
        let [_, _, side_c] = self.sides();
        let solid = (0..side_c).filter(|&c| self.block.is_solid(self.order.place([a, b, c])));
        let runs = stretches(solid.map(|c| ((), c)).collect());
        runs.into_iter().map(|((), run)| run).collect()
    }

    /// The plates of the layer at a, each as its run and its rows.
    fn plates(&self, a: usize) -> Vec<(Stretch, Stretch)> {
        let [_, side_b, _] = self.sides();
        let mut runs = Vec::new();
        for b in 0..side_b {
            runs.extend(self.runs(a, b).into_iter().map(|run| (run, b)));
        }
        stretches(runs)
    }

    /// All boxes in the order of their numbers.
    fn boxes(&self) -> Vec<CellBox> {
        let [side_a, _, _] = self.sides();
        let mut plates = Vec::new();
        for a in 0..side_a {
            plates.extend(self.plates(a).into_iter().map(|plate| (plate, a)));
        }
        let mut boxes = Vec::new();
        for ((run, rows), layers) in stretches(plates) {
            boxes.push(CellBox {
                low: self.order.place([layers.from, rows.from, run.from]),
                high: self.order.place([layers.to, rows.to, run.to]),
            });
        }
        boxes.sort_unstable_by_key(|cell_box| self.order.abc(cell_box.low));
        boxes
    }
}

/// Boxes of a block in the order of their numbers.
pub fn boxes(block: &Block, order: Order) -> Vec<CellBox> {
    View { block, order }.boxes()
}

/// The side of a box on which a neighbour lies.
#[derive(Clone, Copy, Debug)]
pub struct Sense {
    /// 0 along A, 1 along B.
    letter: usize,
    up: bool,
}

impl Sense {
    pub fn from_name(name: &[u8]) -> Option<Sense> {
        let (letter, up) = match name {
            b"A+" => (0, true),
            b"A-" => (0, false),
            b"B+" => (1, true),
            b"B-" => (1, false),
            _ => return None,
        };
        Some(Sense { letter, up })
    }
}

/// A granted cut. Its boxes are the first records of the box table. The piece
/// numbers of the records show in no answer and are left out.
#[derive(Debug)]
pub struct Cut {
    order: Order,
    pub boxes: usize,
}

impl Cut {
    /// Writes the boxes to the front of the table, as many as it can hold.
    pub fn new(block: &Block, order: Order, table: &mut [CellBox]) -> Result<Cut, Refusal> {
        let boxes = boxes(block, order);
        let capacity = capacity(table);
        for (record, &cell_box) in table[..capacity].iter_mut().zip(&boxes) {
            *record = cell_box;
        }
        if boxes.len() > capacity {
            return Err(Refusal::BoxTable);
        }
        Ok(Cut {
            order,
            boxes: boxes.len(),
        })
    }

    /// The records of the cut.
    fn records<'a>(&self, table: &'a [CellBox]) -> Result<&'a [CellBox], Refusal> {
        table.get(..self.boxes).ok_or(Refusal::ShortBoxTable)
    }

    pub fn volume(&self, table: &[CellBox]) -> Result<usize, Refusal> {
        let records = self.records(table)?;
        Ok(records.iter().map(CellBox::cells).sum())
    }

    /// The number of the first box that holds a cell.
    pub fn find(&self, table: &[CellBox], cell: [u64; 3]) -> Result<Option<usize>, Refusal> {
        let records = self.records(table)?;
        Ok((1..=self.boxes).find(|number| records[number - 1].holds(cell)))
    }

    /// The first neighbour of a box whose number is above another number.
    pub fn neighbour(
        &self,
        table: &[CellBox],
        (number, sense, above): (u64, Sense, u64),
    ) -> Result<Option<usize>, Refusal> {
        let records = self.records(table)?;
        if number == 0 || number > self.boxes as u64 {
            return Err(Refusal::BoxNumber);
        }
        let cell_box = &records[number as usize - 1];
        Ok((1..=self.boxes).find(|&other| {
            other as u64 > above && self.are_neighbours(cell_box, sense, &records[other - 1])
        }))
    }

    /// Whether the second box lies against the first in this sense.
    fn are_neighbours(&self, first: &CellBox, sense: Sense, second: &CellBox) -> bool {
        let axis = self.order.axes[sense.letter];
        let touch = if sense.up {
            first.high[axis] == second.low[axis]
        } else {
            second.high[axis] == first.low[axis]
        };
        touch
            && (0..3)
                .filter(|&other| other != axis)
                .all(|other| first.stretch(other).meets(second.stretch(other)))
    }
}

/// Boxes that a table has room for.
pub fn capacity(table: &[CellBox]) -> usize {
    table.len().min(MAX_BOXES)
}
