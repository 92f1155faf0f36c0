//! Reference for jobs on blocks of cells: reads a job from standard input and
//! prints its answers. Everything is worked out cell by cell from the
//! definitions.

use std::error::Error;
use std::fmt;
use std::io::{self, BufWriter, Read, Write};
use std::process::ExitCode;
use std::rc::Rc;

use bodies::{Bodies, Making, Name};
use cut::{CellBox, Cut, Order, Sense};

mod bodies;
mod cut;
#[cfg(test)]
mod tests;

/// Longest side of a frame.
const MAX_SIDE: u64 = 1024;
/// Most corners a table can hold, whatever its length.
const MAX_CORNERS: usize = 65_536;
/// Longest table a job may ask for.
const MAX_TABLE_LENGTH: u64 = 1_000_000;
/// Most words a job may give to one grid.
const MAX_GRID_WORDS: u64 = 16_777_216;
/// Cells in one word of a grid.
const WORD_BITS: usize = 64;

/// Three coordinates, of a cell or of a point.
type Place = [usize; 3];

#[derive(Clone, Copy, Debug, PartialEq)]
enum Refusal {
    FrameSide,
    BoxBounds,
    ShiftRange,
    CornerTable,
    GridWords,
    BoxTable,
    ShortBoxTable,
    BoxNumber,
}

impl Refusal {
    fn number(self) -> u32 {
        match self {
            Refusal::FrameSide => 1,
            Refusal::BoxBounds => 2,
            Refusal::ShiftRange => 3,
            Refusal::CornerTable => 9,
            Refusal::GridWords => 10,
            Refusal::BoxTable => 11,
            Refusal::ShortBoxTable => 12,
            Refusal::BoxNumber => 14,
        }
    }
}

#[derive(Clone, Copy, Debug, PartialEq)]
struct Frame {
    sides: [usize; 3],
}

impl Frame {
    fn new(sides: [u64; 3]) -> Result<Frame, Refusal> {
        if sides.iter().any(|side| !(1..=MAX_SIDE).contains(side)) {
            return Err(Refusal::FrameSide);
        }
        Ok(Frame {
            sides: sides.map(|side| side as usize),
        })
    }

    fn cells(&self) -> usize {
        self.sides.iter().product()
    }

    fn has_cell(&self, cell: Place) -> bool {
        (0..3).all(|axis| cell[axis] < self.sides[axis])
    }

    /// Rank of a cell among all cells, rising by x, then y, then z.
    fn rank(&self, [i, j, k]: Place) -> usize {
        let [_, side_y, side_z] = self.sides;
        (i * side_y + j) * side_z + k
    }

    /// Words a grid spends on the cells that share i and j.
    fn words_per_row(&self) -> usize {
        self.sides[2].div_ceil(WORD_BITS)
    }

    fn words(&self) -> usize {
        self.sides[0] * self.sides[1] * self.words_per_row()
    }
}

#[derive(Debug)]
struct Block {
    frame: Frame,
    /// Whether each cell is solid, by its rank in the frame.
    solid: Vec<bool>,
}

impl Block {
    /// The block of the cells that are picked.
    fn of_cells(frame: Frame, pick: impl Fn(Place) -> bool) -> Block {
        let [side_x, side_y, side_z] = frame.sides;
        let mut solid = vec![false; frame.cells()];
        for i in 0..side_x {
            for j in 0..side_y {
                for k in 0..side_z {
                    solid[frame.rank([i, j, k])] = pick([i, j, k]);
                }
            }
        }
        Block { frame, solid }
    }

    fn from_grid(frame: Frame, words: &[u64]) -> Result<Block, Refusal> {
        if words.len() < frame.words() {
            return Err(Refusal::GridWords);
        }
        let [_, side_y, _] = frame.sides;
        Ok(Block::of_cells(frame, |[i, j, k]| {
            let word = (i * side_y + j) * frame.words_per_row() + k / WORD_BITS;
            words[word] >> (k % WORD_BITS) & 1 == 1
        }))
    }

    /// Cells outside the frame are empty.
    fn is_solid(&self, cell: Place) -> bool {
        self.frame.has_cell(cell) && self.solid[self.frame.rank(cell)]
    }

    fn count(&self) -> usize {
        self.solid.iter().filter(|&&solid| solid).count()
    }

    /// Whether an odd number of the cells that meet at the point are solid.
    fn is_corner(&self, [x, y, z]: Place) -> bool {
        let mut odd = false;
        for i in x.saturating_sub(1)..=x {
            for j in y.saturating_sub(1)..=y {
                for k in z.saturating_sub(1)..=z {
                    odd ^= self.is_solid([i, j, k]);
                }
            }
        }
        odd
    }

    /// All corners, rising by x, then y, then z, if a table of this length
    /// can hold them.
    fn corners(&self, table_length: usize) -> Result<Vec<Place>, Refusal> {
        let capacity = table_length.min(MAX_CORNERS);
        let [side_x, side_y, side_z] = self.frame.sides;
        let mut corners = Vec::new();
        for x in 0..=side_x {
            for y in 0..=side_y {
                for z in 0..=side_z {
                    if !self.is_corner([x, y, z]) {
                        continue;
                    }
                    if corners.len() == capacity {
                        return Err(Refusal::CornerTable);
                    }
                    corners.push([x, y, z]);
                }
            }
        }
        Ok(corners)
    }
}

#[derive(Debug)]
enum Command {
    Frame(Result<Frame, Refusal>),
    CornerTable(usize),
    BoxTable(usize),
    Scan(Block),
    Grid(Frame, Vec<u64>),
    Body(Name, Making),
    Use(Name),
    Count,
    Corners,
    Cut(Order),
    Inspect(Order),
    Volume,
    Find([u64; 3]),
    Neighbour(u64, Sense, u64),
    Reopen,
}

/// What makes a job malformed, and the line at fault.
#[derive(Debug)]
struct Malformed {
    line: usize,
    what: String,
}

impl fmt::Display for Malformed {
    fn fmt(&self, f: &mut fmt::Formatter) -> fmt::Result {
        write!(f, "line {}: {}", self.line, self.what)
    }
}

impl Error for Malformed {}

/// The text of a job, taken line by line.
struct Lines<'a> {
    rest: &'a [u8],
    /// Lines taken so far, which is also the number of the last one.
    taken: usize,
}

impl<'a> Lines<'a> {
    fn new(text: &'a [u8]) -> Lines<'a> {
        Lines {
            rest: text,
            taken: 0,
        }
    }

    /// The next line without its end, if there is one.
    fn take(&mut self) -> Option<&'a [u8]> {
        if self.rest.is_empty() {
            return None;
        }
        self.taken += 1;
        let Some(end) = self.rest.iter().position(|&byte| byte == b'\n') else {
            return Some(std::mem::take(&mut self.rest));
        };
        let line = &self.rest[..end];
        self.rest = &self.rest[end + 1..];
        Some(line.strip_suffix(b"\r").unwrap_or(line))
    }

    /// The next line, which the job must have.
    fn require(&mut self, what: &str) -> Result<&'a [u8], Malformed> {
        self.take().ok_or_else(|| Malformed {
            line: self.taken + 1,
            what: format!("a {what} is missing"),
        })
    }

    /// A fault in the last line taken.
    fn fault(&self, what: impl Into<String>) -> Malformed {
        Malformed {
            line: self.taken,
            what: what.into(),
        }
    }
}

/// Words of a line, between spaces and tabs.
fn split_words(line: &[u8]) -> Vec<&[u8]> {
    line.split(|byte| matches!(byte, b' ' | b'\t'))
        .filter(|word| !word.is_empty())
        .collect()
}

/// A number of decimal digits only that fits 64 bits.
fn parse_number(word: &[u8]) -> Option<u64> {
    if word.is_empty() {
        return None;
    }
    word.iter().try_fold(0u64, |number, byte| {
        if !byte.is_ascii_digit() {
            return None;
        }
        number.checked_mul(10)?.checked_add(u64::from(byte - b'0'))
    })
}

/// A number with or without a minus that fits 64 bits.
fn parse_signed(word: &[u8]) -> Option<i64> {
    match word.strip_prefix(b"-") {
        None => i64::try_from(parse_number(word)?).ok(),
        Some(digits) => 0i64.checked_sub_unsigned(parse_number(digits)?),
    }
}

/// Reads a whole job before anything of it is carried out.
struct Parser<'a> {
    lines: Lines<'a>,
    /// The frame in force at the line being read.
    frame: Option<Frame>,
}

impl<'a> Parser<'a> {
    fn parse(text: &'a [u8]) -> Result<Vec<Command>, Malformed> {
        let mut parser = Parser {
            lines: Lines::new(text),
            frame: None,
        };
        let mut commands = Vec::new();
        while let Some(line) = parser.lines.take() {
            let words = split_words(line);
            if !words.is_empty() {
                commands.push(parser.command(&words)?);
            }
        }
        Ok(commands)
    }

    fn command(&mut self, words: &[&[u8]]) -> Result<Command, Malformed> {
        match words {
            [b"frame", x, y, z] => self.frame([x, y, z]),
            [b"table", name, length] => self.table(name, length),
            [b"scan"] => Ok(Command::Scan(self.scan()?)),
            [b"grid", length] => {
                let (frame, words) = self.grid(length)?;
                Ok(Command::Grid(frame, words))
            }
            [b"body", name, making @ ..] => Ok(Command::Body(name.to_vec(), self.making(making)?)),
            [b"use", name] => Ok(Command::Use(name.to_vec())),
            [b"count"] => Ok(Command::Count),
            [b"corners"] => Ok(Command::Corners),
            [b"cut", order] => Ok(Command::Cut(self.order(order)?)),
            [b"inspect", order] => Ok(Command::Inspect(self.order(order)?)),
            [b"volume"] => Ok(Command::Volume),
            [b"find", x, y, z] => Ok(Command::Find(self.numbers([x, y, z])?)),
            [b"neighbour", number, sense, above] => self.neighbour(number, sense, above),
            [b"reopen"] => Ok(Command::Reopen),
            [b"frame" | b"table" | b"scan" | b"grid" | b"body" | b"use", ..]
            | [b"count" | b"corners", ..]
            | [b"cut" | b"inspect" | b"volume" | b"find" | b"neighbour" | b"reopen", ..] => {
                Err(self.lines.fault("wrong number of words"))
            }
            _ => Err(self.lines.fault("unknown command")),
        }
    }

    fn number(&self, word: &[u8]) -> Result<u64, Malformed> {
        parse_number(word).ok_or_else(|| {
            let word = String::from_utf8_lossy(word);
            self.lines
                .fault(format!("`{word}` is no number of 64 bits"))
        })
    }

    fn numbers(&self, [x, y, z]: [&[u8]; 3]) -> Result<[u64; 3], Malformed> {
        Ok([self.number(x)?, self.number(y)?, self.number(z)?])
    }

    fn number_up_to(&self, most: u64, word: &[u8]) -> Result<usize, Malformed> {
        let number = self.number(word)?;
        if number > most {
            return Err(self.lines.fault(format!("{number} is above {most}")));
        }
        Ok(number as usize)
    }

    fn frame_in_force(&self) -> Result<Frame, Malformed> {
        self.frame
            .ok_or_else(|| self.lines.fault("there is no frame"))
    }

    fn frame(&mut self, sides: [&[u8]; 3]) -> Result<Command, Malformed> {
        let frame = Frame::new(self.numbers(sides)?);
        self.frame = frame.ok();
        Ok(Command::Frame(frame))
    }

    fn table(&self, name: &[u8], length: &[u8]) -> Result<Command, Malformed> {
        let command = match name {
            b"corners" => Command::CornerTable,
            b"boxes" => Command::BoxTable,
            _ => return Err(self.lines.fault("unknown table")),
        };
        Ok(command(self.number_up_to(MAX_TABLE_LENGTH, length)?))
    }

    fn order(&self, name: &[u8]) -> Result<Order, Malformed> {
        let order = Order::from_name(name);
        order.ok_or_else(|| self.lines.fault("unknown order of axes"))
    }

    fn neighbour(&self, number: &[u8], sense: &[u8], above: &[u8]) -> Result<Command, Malformed> {
        let number = self.number(number)?;
        let sense = Sense::from_name(sense);
        let sense = sense.ok_or_else(|| self.lines.fault("unknown sense"))?;
        Ok(Command::Neighbour(number, sense, self.number(above)?))
    }

    fn scan(&mut self) -> Result<Block, Malformed> {
        let frame = self.frame_in_force()?;
        let [side_x, side_y, side_z] = frame.sides;
        let mut solid = Vec::new();
        for _ in 0..side_x * side_y {
            let row = self.lines.require("scan row")?;
            if row.len() != side_z {
                return Err(self.lines.fault(format!("scan row is not {side_z} long")));
            }
            for cell in row {
                solid.push(match cell {
                    b'.' => false,
                    b'#' => true,
                    _ => return Err(self.lines.fault("scan row has another character")),
                });
            }
        }
        Ok(Block { frame, solid })
    }

    fn grid(&mut self, length: &[u8]) -> Result<(Frame, Vec<u64>), Malformed> {
        let frame = self.frame_in_force()?;
        let length = self.number_up_to(MAX_GRID_WORDS, length)?;
        let mut words = Vec::new();
        for _ in 0..length {
            let line = self.lines.require("grid word")?;
            let [word] = split_words(line)[..] else {
                return Err(self.lines.fault("grid line is not one number"));
            };
            words.push(self.number(word)?);
        }
        Ok((frame, words))
    }
}

#[derive(Default)]
struct Tally {
    blocks: usize,
    granted: usize,
    refused: usize,
    not_taken: usize,
}

/// Carries out the commands of a job and prints the answers.
struct Runner<W> {
    out: W,
    bodies: Bodies,
    /// The block in use.
    block: Option<Rc<Block>>,
    /// The cut that stands, which holds the block.
    cut: Option<Cut>,
    table_length: usize,
    box_table: Vec<CellBox>,
    tally: Tally,
}

impl<W: Write> Runner<W> {
    fn new(out: W) -> Runner<W> {
        Runner {
            out,
            bodies: Bodies::new(),
            block: None,
            cut: None,
            table_length: MAX_CORNERS,
            box_table: vec![CellBox::UNIT; cut::MAX_BOXES],
            tally: Tally::default(),
        }
    }

    fn run(out: W, commands: Vec<Command>) -> io::Result<()> {
        let mut runner = Runner::new(out);
        for command in commands {
            runner.carry_out(command)?;
        }
        runner.summary()?;
        runner.out.flush()
    }

    fn carry_out(&mut self, command: Command) -> io::Result<()> {
        match command {
            Command::Frame(frame) => self.frame(frame),
            Command::CornerTable(length) => {
                self.table_length = length;
                Ok(())
            }
            Command::BoxTable(length) => {
                self.box_table.resize(length, CellBox::UNIT);
                Ok(())
            }
            Command::Scan(block) => {
                self.take_block(block);
                Ok(())
            }
            Command::Grid(frame, words) => self.grid(frame, &words),
            Command::Body(name, making) => self.body(name, making),
            Command::Use(name) => self.use_body(&name),
            Command::Count => self.count(),
            Command::Corners => self.corners(),
            Command::Cut(order) => self.cut(order),
            Command::Inspect(order) => self.inspect(order),
            Command::Volume => self.volume(),
            Command::Find(cell) => self.find(cell),
            Command::Neighbour(number, sense, above) => self.neighbour(number, sense, above),
            Command::Reopen => self.reopen(),
        }
    }

    fn frame(&mut self, frame: Result<Frame, Refusal>) -> io::Result<()> {
        self.forget_block();
        match frame {
            Ok(_) => Ok(()),
            Err(refusal) => self.refuse("frame", refusal),
        }
    }

    fn forget_block(&mut self) {
        self.block = None;
        self.cut = None;
    }

    fn take_block(&mut self, block: Block) {
        self.forget_block();
        self.tally.blocks += 1;
        self.block = Some(Rc::new(block));
    }

    /// The block, where no cut holds it.
    fn free_block(&self) -> Option<&Block> {
        self.block.as_deref().filter(|_| self.cut.is_none())
    }

    fn grid(&mut self, frame: Frame, words: &[u64]) -> io::Result<()> {
        self.forget_block();
        match Block::from_grid(frame, words) {
            Ok(block) => {
                self.take_block(block);
                Ok(())
            }
            Err(refusal) => self.refuse("grid", refusal),
        }
    }

    /// Lets the name stand for the body, or for nothing where there is none.
    fn body(&mut self, name: Name, making: Making) -> io::Result<()> {
        let is_read = making.is_read();
        let body = making.make(&self.bodies);
        self.bodies.remove(&name);
        match body {
            None => self.not_taken([b"body ", &name[..]].concat()),
            Some(Err(refusal)) => self.refuse([b"body ", &name[..]].concat(), refusal),
            Some(Ok(body)) => {
                self.tally.blocks += usize::from(is_read);
                self.bodies.insert(name, Rc::new(body));
                Ok(())
            }
        }
    }

    fn use_body(&mut self, name: &[u8]) -> io::Result<()> {
        let Some(body) = self.bodies.get(name).cloned() else {
            return self.not_taken([b"use ", name].concat());
        };
        self.forget_block();
        self.block = Some(body);
        Ok(())
    }

    fn count(&mut self) -> io::Result<()> {
        let count = self.free_block().map(|block| Ok(block.count()));
        self.answer("count", count)
    }

    fn corners(&mut self) -> io::Result<()> {
        let Some(block) = self.free_block() else {
            return self.not_taken("corners");
        };
        let corners = match block.corners(self.table_length) {
            Ok(corners) => corners,
            Err(refusal) => return self.refuse("corners", refusal),
        };
        self.tally.granted += 1;
        writeln!(self.out, "corners: {}", corners.len())?;
        for [x, y, z] in corners {
            writeln!(self.out, "({x} {y} {z})")?;
        }
        Ok(())
    }

    fn cut(&mut self, order: Order) -> io::Result<()> {
        let name = format!("cut {order}");
        let (Some(block), None) = (&self.block, &self.cut) else {
            return self.not_taken(&name);
        };
        match Cut::new(block, order, &mut self.box_table) {
            Ok(cut) => {
                self.tally.granted += 1;
                writeln!(self.out, "{name}: {} boxes", cut.boxes)?;
                self.list_boxes(cut.boxes)?;
                self.cut = Some(cut);
                Ok(())
            }
            Err(refusal) => {
                self.refuse(&name, refusal)?;
                self.list_boxes(cut::capacity(&self.box_table))
            }
        }
    }

    /// Cuts the block, measures the cut and reopens it.
    fn inspect(&mut self, order: Order) -> io::Result<()> {
        let name = format!("inspect {order}");
        let (Some(block), None) = (&self.block, &self.cut) else {
            return self.not_taken(&name);
        };
        let measured = Cut::new(block, order, &mut self.box_table).and_then(|cut| {
            let volume = cut.volume(&self.box_table)?;
            Ok(format!("{} boxes, volume {volume}", cut.boxes))
        });
        self.answer(&name, Some(measured))
    }

    /// The first boxes of the box table with their numbers.
    fn list_boxes(&mut self, boxes: usize) -> io::Result<()> {
        for number in 1..=boxes {
            writeln!(self.out, "{number}: {}", self.box_table[number - 1])?;
        }
        Ok(())
    }

    fn volume(&mut self) -> io::Result<()> {
        let cut = self.cut.as_ref();
        let volume = cut.map(|cut| cut.volume(&self.box_table));
        self.answer("volume", volume)
    }

    fn find(&mut self, cell: [u64; 3]) -> io::Result<()> {
        let cut = self.cut.as_ref();
        let found = cut.map(|cut| cut.find(&self.box_table, cell).map(number_or_none));
        self.answer("find", found)
    }

    fn neighbour(&mut self, number: u64, sense: Sense, above: u64) -> io::Result<()> {
        let question = (number, sense, above);
        let cut = self.cut.as_ref();
        let found = cut.map(|cut| cut.neighbour(&self.box_table, question).map(number_or_none));
        self.answer("neighbour", found)
    }

    fn reopen(&mut self) -> io::Result<()> {
        let reopened = self.cut.take().map(|_| Ok("granted"));
        self.answer("reopen", reopened)
    }

    /// An answer of one line; none where the question is not taken.
    fn answer(
        &mut self,
        name: &str,
        answer: Option<Result<impl fmt::Display, Refusal>>,
    ) -> io::Result<()> {
        match answer {
            None => self.not_taken(name),
            Some(Err(refusal)) => self.refuse(name, refusal),
            Some(Ok(answer)) => {
                self.tally.granted += 1;
                writeln!(self.out, "{name}: {answer}")
            }
        }
    }

    /// A name may be any bytes, and is printed as it is.
    fn refuse(&mut self, name: impl AsRef<[u8]>, refusal: Refusal) -> io::Result<()> {
        self.tally.refused += 1;
        self.out.write_all(name.as_ref())?;
        writeln!(self.out, ": refused {}", refusal.number())
    }

    fn not_taken(&mut self, name: impl AsRef<[u8]>) -> io::Result<()> {
        self.tally.not_taken += 1;
        self.out.write_all(name.as_ref())?;
        writeln!(self.out, ": not taken")
    }

    fn summary(&mut self) -> io::Result<()> {
        let Tally {
            blocks,
            granted,
            refused,
            not_taken,
        } = self.tally;
        let out = &mut self.out;
        writeln!(out)?;
        writeln!(out, "Summary")?;
        writeln!(out, "  blocks read: {blocks}")?;
        match &self.block {
            None => writeln!(out, "  last block: none")?,
            Some(block) => {
                let [x, y, z] = block.frame.sides;
                let (solid, cells) = (block.count(), block.frame.cells());
                writeln!(
                    out,
                    "  last block: {x} x {y} x {z}, {solid} of {cells} cells solid"
                )?;
            }
        }
        writeln!(
            out,
            "  answers: {granted} granted, {refused} refused, {not_taken} not taken"
        )
    }
}

fn number_or_none(number: Option<usize>) -> String {
    number.map_or_else(|| "none".to_string(), |number| number.to_string())
}

fn answer_job() -> Result<(), Box<dyn Error>> {
    let mut text = Vec::new();
    io::stdin().lock().read_to_end(&mut text)?;
    let commands = Parser::parse(&text)?;
    Runner::run(BufWriter::new(io::stdout().lock()), commands)?;
    Ok(())
}

fn main() -> ExitCode {
    match answer_job() {
        Ok(()) => ExitCode::SUCCESS,
        Err(error) => {
            eprintln!("{error}");
            ExitCode::FAILURE
        }
    }
}
