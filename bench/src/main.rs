//! Times the kernel's cut and the same walk in plain Rust on scans of foam.

use std::hint::black_box;
use std::time::{Duration, Instant};

use body::{Counted, PackedGrid};
use walk::{BoxRecord, Cuboid, Order, Point};

mod body;
mod kernel;
mod walk;

/// Side, and the number of balls whose walls make the foam. The last one has more boxes than a table
/// takes, so that the cut is refused when the table is full.
const FOAMS: [(u16, usize); 4] = [(64, 100), (128, 100), (256, 16), (256, 100)];
const SEED: u64 = 1;

/// The most records of a box table that the kernel uses.
const CAPACITY: usize = 65536;
const TABLE_FULL: u8 = 11;

/// How often each cut is timed. The shortest time counts.
const RUNS: usize = 15;

struct Scan {
    side: u16,
    balls: usize,
    words: Vec<u64>,
}

fn blank_table(length: usize) -> Vec<BoxRecord> {
    let zero = Point { x: 0, y: 0, z: 0 };
    let cuboid = Cuboid {
        low: zero,
        high: zero,
    };
    vec![BoxRecord { cuboid, piece: 9 }; length]
}

impl Scan {
    fn foam(side: u16, balls: usize) -> Scan {
        let shape = jobs::foam(usize::from(side), SEED, balls);
        Scan {
            side,
            balls,
            words: shape.words(|| 0),
        }
    }

    fn grid(&self) -> PackedGrid<'_> {
        PackedGrid::new([self.side; 3], &self.words)
    }

    fn cells(&self) -> u64 {
        u64::from(self.side).pow(3)
    }

    fn solid_cells(&self) -> u64 {
        self.words
            .iter()
            .map(|word| u64::from(word.count_ones()))
            .sum()
    }

    fn cut_by_kernel(&self, order: Order, table: &mut [BoxRecord]) -> Result<usize, u8> {
        kernel::cut(&self.words, [self.side; 3], order, table)
    }

    fn cut_plainly(&self, order: Order, table: &mut [BoxRecord]) -> Result<usize, u8> {
        walk::write_boxes(&self.grid(), order, table).ok_or(TABLE_FULL)
    }

    /// Checks that both cuts give the same answer and table, and that the volume is that of the scan.
    fn check(&self, order: Order) {
        let mut table = blank_table(CAPACITY);
        let mut plain_table = table.clone();
        let answer = self.cut_by_kernel(order, &mut table);
        let plain_answer = self.cut_plainly(order, &mut plain_table);
        assert_eq!(answer, plain_answer, "side {} in {order:?}", self.side);
        assert!(table == plain_table, "side {} in {order:?}", self.side);
        if let Ok(count) = answer {
            assert_eq!(kernel::volume(&table, count), Ok(self.solid_cells()));
        }
    }

    /// How many questions the walk asks about cells, with a table that takes all boxes.
    fn questions(&self) -> u64 {
        let body = Counted::new(self.grid());
        let most = self.cells().div_ceil(2) as usize;
        walk::write_boxes(&body, Order::Xyz, &mut blank_table(most)).expect("all boxes fit");
        body.questions()
    }

    /// The shortest times of the kernel and of the plain walk.
    fn times(&self) -> (Duration, Duration) {
        let mut table = blank_table(CAPACITY);
        let mut best = (Duration::MAX, Duration::MAX);
        for _ in 0..RUNS {
            let start = Instant::now();
            let _ = black_box(self.cut_by_kernel(Order::Xyz, &mut table));
            best.0 = best.0.min(start.elapsed());
            let start = Instant::now();
            let _ = black_box(self.cut_plainly(Order::Xyz, &mut table));
            best.1 = best.1.min(start.elapsed());
        }
        best
    }

    /// A line of the table that is printed.
    fn line(&self) -> String {
        let boxes = match self.cut_by_kernel(Order::Xyz, &mut blank_table(CAPACITY)) {
            Ok(count) => count.to_string(),
            Err(refusal) => format!("refused {refusal}"),
        };
        let (ours, plain) = self.times();
        let cells = self.cells() as f64;
        format!(
            "{:>4} {:>6} {:>6.1}% {:>11} {:>8.2} ms {:>8.2} ms {:>6.2} {:>10.2}",
            self.side,
            self.balls,
            100.0 * self.solid_cells() as f64 / cells,
            boxes,
            ours.as_secs_f64() * 1e3,
            plain.as_secs_f64() * 1e3,
            ours.as_secs_f64() / plain.as_secs_f64(),
            self.questions() as f64 / cells,
        )
    }
}

fn main() {
    println!("side  balls   solid       boxes      kernel  plain Rust  ratio  questions per cell");
    for (side, balls) in FOAMS {
        let scan = Scan::foam(side, balls);
        Order::ALL.into_iter().for_each(|order| scan.check(order));
        println!("{}", scan.line());
    }
    println!("Both cuts gave the same answers and tables in all six orders.");
}
