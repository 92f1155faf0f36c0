//! Prints a job of many small cases, always the same. With the argument
//! `full-table` it prints instead the one case that fills the largest corner
//! table, whose answer is long. With `cuts` it prints many small cases of
//! cuts, and with `full-boxes` the cases that fill the largest box table. With
//! `piles` it prints many small cases of named bodies, and with `full-list`
//! those with the longest list of boxes that counts.

use std::env;
use std::io::{self, Write};
use std::process::ExitCode;

use jobs::{Job, Place, Random, Shape};

#[path = "cases/cuts.rs"]
mod cuts;
#[path = "cases/piles.rs"]
mod piles;

const SEED: u64 = 20;

/// Clean bits past the last side.
fn clean() -> u64 {
    0
}

fn from_cells(sides: Place, cells: &[Place]) -> Shape {
    let mut shape = Shape::empty(sides);
    for &cell in cells {
        shape.set(cell, true);
    }
    shape
}

/// Two cells that share an edge: 12 corners.
fn edge_pair() -> Shape {
    from_cells([4, 4, 4], &[[0, 0, 0], [1, 1, 0]])
}

/// Nothing is taken before there is a frame.
fn without_frame(job: &mut Job) {
    job.ask_both();
    job.table(65_536);
    job.ask_both();
}

fn worked(job: &mut Job) {
    job.raw("frame 2 2 3\nscan\n.#.\n##.\n...\n..#\ncount\ncorners\n");
    job.scan_case(&edge_pair());
    job.raw("frame 1 1 65\ngrid 2\n9223372036854775808\n3\ncount\ncorners\n");

    let mut xor = Shape::empty([4, 4, 4]);
    xor.change_box([0; 3], [2; 3], |solid| !solid);
    xor.change_box([1; 3], [3; 3], |solid| !solid);
    job.scan_case(&xor);

    let mut union = Shape::empty([4, 4, 4]);
    union.change_box([0; 3], [2; 3], |_| true);
    union.change_box([1; 3], [3; 3], |_| true);
    job.scan_case(&union);

    // Cells that share a face, an edge and only a point.
    for cell in [[1, 1, 2], [1, 2, 2], [2, 2, 2]] {
        job.scan_case(&from_cells([4, 4, 4], &[[1, 1, 1], cell]));
    }
}

/// Sides that are granted on each axis. A short grid tells a frame from none.
fn granted_frames(job: &mut Job) {
    for side in [1, 2, 1023, 1024] {
        for axis in 0..3 {
            let mut sides = [1; 3];
            sides[axis] = side;
            job.frame(sides);
            job.line("grid 0");
            job.count();
        }
    }
    for sides in [[1024, 1024, 1], [1, 1024, 1024], [1024, 1024, 1024]] {
        job.frame(sides);
        job.grid(&[1]);
        job.ask_both();
    }
}

/// Sides that are refused on each axis, some of which would pass if cut to 16
/// or 32 bits.
fn refused_frames(job: &mut Job) {
    let sides: [u64; 10] = [
        0,
        1025,
        65_535,
        65_536,
        65_537,
        70_000,
        1 << 32,
        (1 << 32) + 1,
        (1 << 63) + 1,
        u64::MAX,
    ];
    for side in sides {
        job.line(format_args!("frame {side} 1 1"));
        job.line(format_args!("frame 1 {side} 1"));
        job.line(format_args!("frame 1 1 {side}"));
        job.count();
    }
    job.line("frame 0 0 0");
    job.line("frame 1025 1025 1025");
    job.corners();
}

/// Grids one word short, exact and one over.
fn grid_edges(job: &mut Job) {
    for sides in [
        [1, 1, 1],
        [1, 1, 64],
        [1, 1, 65],
        [3, 1, 1],
        [1, 3, 2],
        [2, 3, 65],
        [3, 2, 128],
        [2, 2, 129],
    ] {
        let mut ends = Shape::empty(sides);
        ends.set([0; 3], true);
        ends.set(sides.map(|side| side - 1), true);
        let mut words = ends.words(clean);
        let last = words.pop().unwrap_or(0);
        job.frame(sides);
        job.grid(&words);
        job.ask_both();
        words.push(last);
        job.grid(&words);
        job.ask_both();
        words.push(u64::MAX);
        job.grid(&words);
        job.ask_both();
        job.grid(&words[..words.len() - 2]);
        job.ask_both();
    }
}

/// Tables around the length of the list.
fn table_edges(job: &mut Job) {
    let one = from_cells([2, 2, 2], &[[1, 0, 1]]);
    let small = from_cells([2, 2, 3], &[[0, 0, 1], [0, 1, 0], [0, 1, 1], [1, 1, 2]]);
    for (shape, length) in [(one, 8), (edge_pair(), 12), (small, 18)] {
        job.frame(shape.sides());
        job.scan(&shape);
        let lengths = [length, length - 1, length + 1, 0, 1];
        for length in lengths
            .into_iter()
            .chain([65_536, 65_537, 70_000, 1_000_000])
        {
            job.table(length);
            job.corners();
        }
    }
    // The length stays through a new frame.
    job.table(8);
    job.scan_case(&Shape::full([2, 1, 2]));
    job.scan_case(&edge_pair());
    job.table(7);
    job.scan_case(&Shape::full([1, 3, 1]));
    job.table(0);
    job.scan_case(&Shape::empty([2, 2, 2]));
    job.scan_case(&from_cells([2, 2, 2], &[[0, 0, 0]]));
    job.table(65_536);
}

/// Single cells, none touching another, with 65536 corners in all.
fn full_table() -> Shape {
    lattice([7, 7, 1023])
}

/// A lattice of single cells up to x = 6.
fn lattice(sides: Place) -> Shape {
    let mut shape = Shape::empty(sides);
    for i in (0..7).step_by(2) {
        for j in (0..7).step_by(2) {
            for k in (0..1023).step_by(2) {
                shape.set([i, j, k], true);
            }
        }
    }
    shape
}

/// The shortest list too long for every table: 65538 corners. Three single
/// cells make room for a pair with 14 corners and a pair with 12.
fn overfull_table() -> Shape {
    let mut shape = lattice([10, 7, 1023]);
    for k in [0, 2, 4] {
        shape.set([0, 0, k], false);
    }
    for cell in [[8, 0, 0], [9, 1, 1], [8, 0, 4], [9, 1, 4]] {
        shape.set(cell, true);
    }
    shape
}

/// Long lists, all refused.
fn largest_tables(job: &mut Job) {
    let full = full_table();
    job.frame(full.sides());
    job.grid(&full.words(clean));
    job.count();
    for length in [65_535, 65_534, 1, 0] {
        job.table(length);
        job.corners();
    }
    let overfull = overfull_table();
    job.frame(overfull.sides());
    job.grid(&overfull.words(clean));
    job.count();
    for length in [65_536, 65_537, 65_538, 70_000, 131_072, 1_000_000] {
        job.table(length);
        job.corners();
    }
    job.table(65_536);
}

/// Empty and full frames and single cells at both ends, for sides around the
/// length of a word.
fn sides_around_words(job: &mut Job, random: &mut Random) {
    for side_z in [1, 2, 3, 63, 64, 65, 127, 128, 129] {
        for (side_x, side_y) in [(1, 1), (2, 3), (3, 1)] {
            let sides = [side_x, side_y, side_z];
            job.scan_case(&Shape::empty(sides));
            job.scan_case(&Shape::full(sides));
            job.grid_case(&Shape::full(sides), clean);
            let last = sides.map(|side| side - 1);
            job.grid_case(&from_cells(sides, &[last]), clean);
            job.grid_case(&from_cells(sides, &[[0; 3], last]), clean);
        }
        let sides = [1, 2, side_z];
        job.scan_case(&Shape::random(sides, 10, random));
        job.grid_case(&Shape::random(sides, 10, random), clean);
    }
}

/// The longest side on each axis.
fn longest_sides(job: &mut Job, random: &mut Random) {
    for sides in [
        [1, 1, 1024],
        [1, 1024, 1],
        [1024, 1, 1],
        [1, 2, 1024],
        [3, 1, 1024],
        [2, 1024, 1],
        [1024, 1, 2],
    ] {
        let last = sides.map(|side| side - 1);
        job.scan_case(&Shape::full(sides));
        job.grid_case(&Shape::empty(sides), clean);
        job.grid_case(&from_cells(sides, &[[0; 3], last]), clean);
        job.scan_case(&Shape::random(sides, 5, random));
    }
}

/// Bits past side z, and words past the grid, count for nothing.
fn junk_bits(job: &mut Job) {
    for side_z in [1, 2, 63, 64, 65, 127, 129] {
        for (side_x, side_y) in [(1, 1), (2, 3)] {
            let sides = [side_x, side_y, side_z];
            job.grid_case(&Shape::full(sides), || u64::MAX);
            job.grid_case(&Shape::empty(sides), || u64::MAX);
            let mut words = from_cells(sides, &[[0; 3]]).words(|| u64::MAX);
            words.extend([u64::MAX; 3]);
            job.grid(&words);
            job.ask_both();
        }
    }
}

/// Blocks replaced and forgotten.
fn blocks_come_and_go(job: &mut Job) {
    let cell = from_cells([2, 2, 2], &[[0, 1, 0]]);
    job.scan_case(&cell);
    job.frame([2, 2, 2]);
    job.ask_both();
    job.scan(&cell);
    job.scan(&Shape::full([2, 2, 2]));
    job.ask_both();
    job.grid(&[1, 2, 0, 1]);
    job.ask_both();
    job.grid(&[1, 2, 0]);
    job.ask_both();
    job.scan(&cell);
    job.ask_both();
    job.ask_both();
    job.line("frame 2 2 0");
    job.ask_both();
    job.frame([1, 1, 4]);
    job.ask_both();
    job.grid(&[5, 7]);
    job.ask_both();
}

/// Blanks, blank lines, other line ends and leading zeros.
fn spacing(job: &mut Job) {
    job.raw("\n\n   \n\t\n");
    job.raw("  frame   2\t 1 \t3  \n\n \nscan\n.#.\n##.\n\n  count\t\n\tcorners \n");
    job.raw("frame 0002 1 000000000000000000000003\n  grid    02  \n 5\n   0000000000000000000000006  \n");
    job.raw("\n\ncount\n \ncorners\n");
    job.raw("\ttable\tcorners   0007\ncorners\n table  corners 65536\n");
    job.raw("frame 1 2 2\r\n\r\nscan\r\n.#\r\n##\r\n \r\ncount\r\ncorners\r\n");
    job.raw("grid 2\r\n2\r\n 1 \r\ncount\r\ncorners\r\n");
}

fn random_blocks(job: &mut Job, random: &mut Random) {
    for case in 0..72 {
        let percent = [10, 50, 90][case % 3];
        let sides = if case < 54 {
            [0; 3].map(|_| random.between(1, 6))
        } else {
            let side_z = random.between(62, 67);
            [random.between(1, 3), random.between(1, 3), side_z]
        };
        let shape = Shape::random(sides, percent, random);
        if case % 2 == 0 {
            job.scan_case(&shape);
        } else {
            job.grid_case(&shape, || random.word());
        }
    }
}

/// A few large boxes in larger frames, each flipping its cells.
fn flipped_boxes(job: &mut Job, random: &mut Random) {
    for sides in [[12, 20, 130], [33, 9, 65], [9, 33, 64], [16, 16, 16]] {
        let mut shape = Shape::empty(sides);
        for _ in 0..5 {
            let low = sides.map(|side| random.between(0, side - 1));
            let mut high = low;
            for axis in 0..3 {
                let most = sides[axis].min(low[axis] + 1 + sides[axis] / 4);
                high[axis] = random.between(low[axis] + 1, most);
            }
            shape.change_box(low, high, |solid| !solid);
        }
        job.grid_case(&shape, clean);
    }
}

fn many_cases() -> Job {
    let mut random = Random::new(SEED);
    let mut job = Job::new();
    without_frame(&mut job);
    worked(&mut job);
    granted_frames(&mut job);
    refused_frames(&mut job);
    grid_edges(&mut job);
    table_edges(&mut job);
    largest_tables(&mut job);
    sides_around_words(&mut job, &mut random);
    longest_sides(&mut job, &mut random);
    junk_bits(&mut job);
    blocks_come_and_go(&mut job);
    spacing(&mut job);
    random_blocks(&mut job, &mut random);
    flipped_boxes(&mut job, &mut random);
    // The last line lacks its end.
    job.raw("frame 2 1 3\nscan\n#.#\n.#.\ncorners\ncount");
    job
}

fn full_table_case() -> Job {
    let mut job = Job::new();
    job.grid_case(&full_table(), clean);
    job
}

fn main() -> ExitCode {
    let arguments: Vec<String> = env::args().skip(1).collect();
    let job = match arguments.iter().map(String::as_str).collect::<Vec<_>>()[..] {
        [] => many_cases(),
        ["full-table"] => full_table_case(),
        ["cuts"] => cuts::many_cuts(),
        ["full-boxes"] => cuts::full_boxes(),
        ["piles"] => piles::many_piles(),
        ["full-list"] => piles::full_list(),
        _ => {
            eprintln!("usage: cases [full-table | cuts | full-boxes | piles | full-list]");
            return ExitCode::FAILURE;
        }
    };
    match write!(io::stdout().lock(), "{job}") {
        Ok(()) => ExitCode::SUCCESS,
        Err(error) => {
            eprintln!("{error}");
            ExitCode::FAILURE
        }
    }
}
