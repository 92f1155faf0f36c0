//! Parts shared by the generators of jobs.

use std::fmt::{self, Display, Write};

mod boxes;
mod foam;

pub use boxes::{boxes, ORDERS};
pub use foam::foam;

/// Three coordinates of a cell, or three sides.
pub type Place = [usize; 3];

/// Splitmix generator: the same seed always gives the same numbers.
pub struct Random {
    state: u64,
}

impl Random {
    pub fn new(seed: u64) -> Random {
        Random { state: seed }
    }

    pub fn word(&mut self) -> u64 {
        self.state = self.state.wrapping_add(0x9e37_79b9_7f4a_7c15);
        let mut word = self.state;
        word = (word ^ (word >> 30)).wrapping_mul(0xbf58_476d_1ce4_e5b9);
        word = (word ^ (word >> 27)).wrapping_mul(0x94d0_49bb_1331_11eb);
        word ^ (word >> 31)
    }

    /// A number from `least` to `most`, both included.
    pub fn between(&mut self, least: usize, most: usize) -> usize {
        let choices = (most - least + 1) as u64;
        least + (self.word() % choices) as usize
    }

    pub fn percent(&mut self, chance: usize) -> bool {
        self.between(0, 99) < chance
    }
}

/// Solid cells within given sides.
pub struct Shape {
    sides: Place,
    solid: Vec<bool>,
}

impl Shape {
    pub fn empty(sides: Place) -> Shape {
        Shape {
            sides,
            solid: vec![false; sides.iter().product()],
        }
    }

    pub fn full(sides: Place) -> Shape {
        Shape {
            sides,
            solid: vec![true; sides.iter().product()],
        }
    }

    /// Each cell solid with the same chance.
    pub fn random(sides: Place, percent: usize, random: &mut Random) -> Shape {
        let mut shape = Shape::empty(sides);
        for cell in &mut shape.solid {
            *cell = random.percent(percent);
        }
        shape
    }

    pub fn sides(&self) -> Place {
        self.sides
    }

    fn rank(&self, [i, j, k]: Place) -> usize {
        let [_, side_y, side_z] = self.sides;
        (i * side_y + j) * side_z + k
    }

    pub fn is_solid(&self, cell: Place) -> bool {
        self.solid[self.rank(cell)]
    }

    pub fn set(&mut self, cell: Place, solid: bool) {
        let rank = self.rank(cell);
        self.solid[rank] = solid;
    }

    /// Changes each cell of the box from `low` up to but not including `high`.
    pub fn change_box(&mut self, low: Place, high: Place, change: impl Fn(bool) -> bool) {
        for i in low[0]..high[0] {
            for j in low[1]..high[1] {
                for k in low[2]..high[2] {
                    self.set([i, j, k], change(self.is_solid([i, j, k])));
                }
            }
        }
    }

    /// Changes each cell by its place.
    pub fn change_cells(&mut self, change: impl Fn(Place, bool) -> bool) {
        let [side_x, side_y, side_z] = self.sides;
        for i in 0..side_x {
            for j in 0..side_y {
                for k in 0..side_z {
                    self.set([i, j, k], change([i, j, k], self.is_solid([i, j, k])));
                }
            }
        }
    }

    /// Cells that share i and j, row after row.
    fn rows(&self) -> impl Iterator<Item = &[bool]> {
        self.solid.chunks(self.sides[2])
    }

    /// The packed grid, with bits past the last side taken from `junk`.
    pub fn words(&self, mut junk: impl FnMut() -> u64) -> Vec<u64> {
        let mut words = Vec::new();
        for row in self.rows() {
            for cells in row.chunks(64) {
                let mut word = junk();
                for (bit, &solid) in cells.iter().enumerate() {
                    word = word & !(1 << bit) | u64::from(solid) << bit;
                }
                words.push(word);
            }
        }
        words
    }
}

/// The text of a job.
#[derive(Default)]
pub struct Job {
    text: String,
}

impl Job {
    pub fn new() -> Job {
        Job::default()
    }

    /// Text as it is, line ends included.
    pub fn raw(&mut self, text: &str) {
        self.text.push_str(text);
    }

    pub fn line(&mut self, line: impl Display) {
        writeln!(self.text, "{line}").expect("a string takes any text");
    }

    pub fn frame(&mut self, [x, y, z]: Place) {
        self.line(format_args!("frame {x} {y} {z}"));
    }

    pub fn table(&mut self, length: usize) {
        self.line(format_args!("table corners {length}"));
    }

    pub fn box_table(&mut self, length: usize) {
        self.line(format_args!("table boxes {length}"));
    }

    pub fn scan(&mut self, shape: &Shape) {
        self.line("scan");
        self.rows(shape);
    }

    fn rows(&mut self, shape: &Shape) {
        for row in shape.rows() {
            self.text
                .extend(row.iter().map(|&solid| if solid { '#' } else { '.' }));
            self.text.push('\n');
        }
    }

    pub fn grid(&mut self, words: &[u64]) {
        self.line(format_args!("grid {}", words.len()));
        self.lines(words);
    }

    fn lines(&mut self, lines: &[impl Display]) {
        for line in lines {
            self.line(line);
        }
    }

    pub fn body_scan(&mut self, name: &str, shape: &Shape) {
        self.line(format_args!("body {name} scan"));
        self.rows(shape);
    }

    pub fn body_grid(&mut self, name: &str, words: &[u64]) {
        self.line(format_args!("body {name} grid {}", words.len()));
        self.lines(words);
    }

    /// A list of boxes, each with its lower and its upper point.
    pub fn body_boxes<N: Display>(&mut self, name: &str, boxes: &[[N; 6]]) {
        self.line(format_args!("body {name} boxes {}", boxes.len()));
        for [i, j, k, x, y, z] in boxes {
            self.line(format_args!("{i} {j} {k} {x} {y} {z}"));
        }
    }

    /// A body piled on others, as in `union A B`.
    pub fn pile(&mut self, name: &str, making: impl Display) {
        self.line(format_args!("body {name} = {making}"));
    }

    pub fn moved<N: Display>(&mut self, name: &str, below: &str, [x, y, z]: [N; 3]) {
        self.pile(name, format_args!("moved {below} {x} {y} {z}"));
    }

    pub fn use_body(&mut self, name: &str) {
        self.line(format_args!("use {name}"));
    }

    pub fn count(&mut self) {
        self.line("count");
    }

    pub fn corners(&mut self) {
        self.line("corners");
    }

    pub fn cut(&mut self, order: &str) {
        self.line(format_args!("cut {order}"));
    }

    pub fn inspect(&mut self, order: &str) {
        self.line(format_args!("inspect {order}"));
    }

    pub fn volume(&mut self) {
        self.line("volume");
    }

    pub fn find<N: Display>(&mut self, [x, y, z]: [N; 3]) {
        self.line(format_args!("find {x} {y} {z}"));
    }

    pub fn neighbour(&mut self, number: impl Display, sense: &str, above: impl Display) {
        self.line(format_args!("neighbour {number} {sense} {above}"));
    }

    pub fn reopen(&mut self) {
        self.line("reopen");
    }

    pub fn ask_both(&mut self) {
        self.count();
        self.corners();
    }

    /// A frame with the shape scanned in it, and what it holds.
    pub fn scan_case(&mut self, shape: &Shape) {
        self.frame(shape.sides());
        self.scan(shape);
        self.ask_both();
    }

    /// A frame with the shape as a grid in it, and what it holds.
    pub fn grid_case(&mut self, shape: &Shape, junk: impl FnMut() -> u64) {
        self.frame(shape.sides());
        self.grid(&shape.words(junk));
        self.ask_both();
    }
}

impl Display for Job {
    fn fmt(&self, f: &mut fmt::Formatter) -> fmt::Result {
        f.write_str(&self.text)
    }
}
