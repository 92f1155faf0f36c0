//! Cases of cuts, and of questions about their boxes.

use jobs::{boxes, Job, Place, Random, Shape, ORDERS};

use super::{clean, edge_pair, from_cells};

const SEED: u64 = 21;
const SENSES: [&str; 4] = ["A+", "A-", "B+", "B-"];

/// Numbers far above every box and cell. All but the last are 0 or 1 in their
/// lowest 16 bits.
const HUGE: [u64; 6] = [
    65_536,
    65_537,
    1 << 32,
    (1 << 32) + 1,
    (1 << 63) + 1,
    u64::MAX,
];

/// Numbers that are 0 in their lowest 16 bits, and all but the first two in
/// their lowest 32.
const PAST: [u64; 5] = [65_536, 3 << 16, 1 << 32, 5 << 32, 1 << 63];

fn xor_boxes() -> Shape {
    let mut shape = Shape::empty([4, 4, 4]);
    shape.change_box([0; 3], [2; 3], |solid| !solid);
    shape.change_box([1; 3], [3; 3], |solid| !solid);
    shape
}

/// A short bar across the middle of a longer one: other boxes along A first.
fn letter() -> Shape {
    from_cells([2, 3, 1], &[[0, 1, 0], [1, 0, 0], [1, 1, 0], [1, 2, 0]])
}

/// Three cells around an edge.
fn hook() -> Shape {
    from_cells([2, 2, 1], &[[0, 0, 0], [0, 1, 0], [1, 0, 0]])
}

/// A long box with a short one on either side, in the middle of its length.
fn long_box() -> Shape {
    let mut shape = Shape::empty([5, 3, 2]);
    shape.change_box([0, 1, 0], [5, 2, 2], |_| true);
    shape.set([2, 0, 0], true);
    shape.set([3, 2, 1], true);
    shape
}

/// Boxes that touch a middle one at a face, at an edge and at a corner.
fn slanted() -> Shape {
    let mut shape = Shape::empty([6, 6, 6]);
    shape.change_box([2; 3], [4; 3], |_| true);
    for cell in [
        [1, 2, 3],
        [1, 4, 2],
        [1, 1, 1],
        [4, 3, 2],
        [4, 1, 3],
        [4, 4, 4],
        [3, 1, 2],
        [2, 4, 3],
        [3, 4, 1],
        [2, 1, 4],
    ] {
        shape.set(cell, true);
    }
    shape
}

/// The axes that bring x, y and z to A, B and C of each order.
const TURNS: [[usize; 3]; 6] = [
    [0, 1, 2],
    [0, 2, 1],
    [1, 0, 2],
    [2, 0, 1],
    [1, 2, 0],
    [2, 1, 0],
];

/// The shape with its axes exchanged.
fn turn(shape: &Shape, axes: [usize; 3]) -> Shape {
    let turned = |place: Place| axes.map(|axis| place[axis]);
    let mut result = Shape::empty(turned(shape.sides()));
    let [side_x, side_y, side_z] = shape.sides();
    for i in 0..side_x {
        for j in 0..side_y {
            for k in 0..side_z {
                result.set(turned([i, j, k]), shape.is_solid([i, j, k]));
            }
        }
    }
    result
}

fn show(job: &mut Job, shape: &Shape) {
    job.frame(shape.sides());
    job.scan(shape);
}

fn show_grid(job: &mut Job, shape: &Shape, junk: impl FnMut() -> u64) {
    job.frame(shape.sides());
    job.grid(&shape.words(junk));
}

/// One question of each kind.
fn ask_cut(job: &mut Job) {
    job.volume();
    job.find([0, 0, 0]);
    job.neighbour(1, "A+", 0);
}

/// A cut in every order, reopened after its volume, and an inspection.
fn every_order(job: &mut Job) {
    for order in ORDERS {
        job.cut(order);
        job.volume();
        job.reopen();
        job.inspect(order);
    }
    job.count();
}

/// Every cell and one past it on each axis.
fn find_everywhere(job: &mut Job, shape: &Shape) {
    let [side_x, side_y, side_z] = shape.sides();
    for i in 0..=side_x {
        for j in 0..=side_y {
            for k in 0..=side_z {
                job.find([i, j, k]);
            }
        }
    }
}

/// Every box in every sense, above every number.
fn all_neighbours(job: &mut Job, boxes: usize) {
    for sense in SENSES {
        job.neighbour(0, sense, 0);
        for number in 1..=boxes {
            for above in 0..=boxes {
                job.neighbour(number, sense, above);
            }
        }
        job.neighbour(boxes + 1, sense, 0);
    }
}

fn worked(job: &mut Job) {
    let xor = xor_boxes();
    show(job, &xor);
    job.cut("XYZ");
    job.volume();
    find_everywhere(job, &xor);
    all_neighbours(job, 6);
    job.reopen();
    every_order(job);
    for shape in [letter(), hook(), edge_pair()] {
        show(job, &shape);
        every_order(job);
    }
    job.raw("frame 1 1 65\ngrid 2\n9223372036854775808\n3\n");
    every_order(job);
    job.raw("frame 2 2 3\nscan\n.#.\n##.\n...\n..#\n");
    every_order(job);
}

/// All answers about a few small shapes, in every order.
fn small_shapes(job: &mut Job) {
    for shape in [hook(), letter()] {
        show(job, &shape);
        for order in ORDERS {
            job.cut(order);
            find_everywhere(job, &shape);
            all_neighbours(job, boxes(&shape, order).len());
            job.reopen();
        }
    }
    for (order, axes) in ORDERS.into_iter().zip(TURNS) {
        let shape = turn(&long_box(), axes);
        show(job, &shape);
        job.cut(order);
        all_neighbours(job, boxes(&shape, order).len());
        job.volume();
    }
    for shape in [letter(), hook(), slanted()] {
        for (order, axes) in ORDERS.into_iter().zip(TURNS) {
            show(job, &turn(&shape, axes));
            job.inspect(order);
            job.cut(order);
            for number in 1..=boxes(&turn(&shape, axes), order).len() {
                for sense in SENSES {
                    job.neighbour(number, sense, 0);
                }
            }
        }
    }
}

/// Questions that only a standing cut answers.
fn without_cut(job: &mut Job) {
    ask_cut(job);
    job.neighbour(0, "B-", u64::MAX);
    job.find([u64::MAX; 3]);
    job.reopen();
}

/// Everything that needs a block.
fn without_block(job: &mut Job) {
    without_cut(job);
    job.ask_both();
    for order in ORDERS {
        job.cut(order);
        job.inspect(order);
    }
}

/// Calls that a standing cut does not take, and those that it takes.
fn with_cut(job: &mut Job) {
    ask_cut(job);
    job.ask_both();
    job.cut("XYZ");
    job.cut("ZYX");
    job.inspect("XYZ");
    job.inspect("ZYX");
    ask_cut(job);
}

/// Calls that are taken and not taken, in every state.
fn states(job: &mut Job) {
    without_block(job);
    job.box_table(65_536);
    without_block(job);
    job.frame([2, 2, 1]);
    without_block(job);
    job.scan(&hook());
    without_cut(job);
    job.ask_both();
    job.cut("YXZ");
    with_cut(job);
    job.reopen();
    job.ask_both();
    without_cut(job);
    job.cut("XYZ");
    with_cut(job);
    job.reopen();
    job.reopen();
    job.box_table(1);
    job.cut("XYZ");
    without_cut(job);
    job.ask_both();
    job.box_table(65_536);
    job.cut("ZXY");
    with_cut(job);
    job.line("frame 2 2 0");
    without_block(job);
}

/// A standing cut forgotten with its block, in every way.
fn forgotten(job: &mut Job) {
    for again in ["scan", "grid", "short grid", "frame", "refused frame"] {
        show(job, &letter());
        job.cut("YXZ");
        match again {
            "scan" => job.scan(&Shape::full([2, 3, 1])),
            "grid" => job.grid(&[1, 0, 1, 1, 0, 0]),
            "short grid" => job.grid(&[1, 0, 1, 1, 0]),
            "frame" => job.frame([2, 3, 1]),
            _ => job.line("frame 2 1025 1"),
        }
        ask_cut(job);
        job.reopen();
        job.ask_both();
        job.cut("XYZ");
        ask_cut(job);
        job.count();
    }
}

/// Tables around the number of boxes.
fn table_edges(job: &mut Job) {
    for shape in [xor_boxes(), letter(), long_box(), edge_pair()] {
        show(job, &shape);
        for order in ORDERS {
            let boxes = boxes(&shape, order).len();
            for length in [0, 1, boxes - 1, boxes, boxes + 1, 65_537, 1_000_000] {
                job.box_table(length);
                job.cut(order);
                ask_cut(job);
                job.neighbour(boxes, "A-", 0);
                job.count();
                job.reopen();
            }
        }
    }
    // The length stays through new frames.
    job.box_table(2);
    show(job, &hook());
    every_order(job);
    show(job, &letter());
    every_order(job);
    job.box_table(0);
    show(job, &Shape::empty([2, 2, 2]));
    every_order(job);
    show(job, &Shape::full([2, 2, 2]));
    every_order(job);
    job.box_table(1);
    every_order(job);
    job.box_table(65_536);
}

/// Inspections on tables around the number of boxes, with what they leave: no
/// cut, and the block free.
fn inspections(job: &mut Job) {
    for shape in [xor_boxes(), letter(), long_box(), slanted()] {
        show(job, &shape);
        for order in ORDERS {
            let boxes = boxes(&shape, order).len();
            for length in [0, boxes - 1, boxes, boxes + 1] {
                job.box_table(length);
                job.inspect(order);
                ask_cut(job);
                job.reopen();
                job.count();
            }
            job.box_table(65_536);
            job.cut(order);
            for again in ORDERS {
                job.inspect(again);
            }
            // A table too short for the cut that stands.
            job.box_table(boxes - 1);
            job.inspect(order);
            job.volume();
            job.reopen();
            job.inspect(order);
            job.box_table(1_000_000);
            job.inspect(order);
        }
    }
    job.box_table(0);
    show(job, &Shape::empty([2, 3, 4]));
    inspect_all(job);
    show(job, &Shape::full([2, 3, 4]));
    inspect_all(job);
    job.box_table(1);
    inspect_all(job);
    job.box_table(65_536);
    job.line("frame 0 3 4");
    inspect_all(job);
}

fn inspect_all(job: &mut Job) {
    for order in ORDERS {
        job.inspect(order);
    }
}

/// Numbers of boxes, cells and numbers above that only their lowest 16 or 32
/// bits would bring into range.
fn huge_numbers(job: &mut Job) {
    for (shape, order) in [
        (xor_boxes(), "XYZ"),
        (xor_boxes(), "ZYX"),
        (long_box(), "XYZ"),
    ] {
        let boxes = boxes(&shape, order);
        show(job, &shape);
        job.cut(order);
        let count = boxes.len() as u64;
        for sense in SENSES {
            for number in [0, 1, count - 1, count, count + 1] {
                job.neighbour(number, sense, 0);
            }
            for past in PAST {
                for number in [0, 1, count, count + 1] {
                    job.neighbour(past + number, sense, 0);
                }
                for number in 1..=count {
                    job.neighbour(number, sense, past);
                }
                job.neighbour(past + 1, sense, past);
                job.neighbour(0, sense, past);
            }
            for number in [u64::MAX, u64::MAX - 1, 65_535, (1 << 32) - 1] {
                job.neighbour(number, sense, 0);
                job.neighbour(1, sense, number);
                job.neighbour(count, sense, number);
            }
        }
        for (low, _) in boxes {
            far_from(job, low.map(|c| c as u64));
        }
    }
}

/// A cell, and those far from it along one axis and along all.
fn far_from(job: &mut Job, cell: [u64; 3]) {
    job.find(cell);
    for past in [256, 1024].into_iter().chain(PAST) {
        for axis in 0..3 {
            let mut far = cell;
            far[axis] += past;
            job.find(far);
        }
        job.find(cell.map(|c| c + past));
    }
    for axis in 0..3 {
        for end in [1023, 1024, 65_535, (1 << 32) - 1, u64::MAX] {
            let mut far = cell;
            far[axis] = end;
            job.find(far);
        }
    }
}

/// All questions that a table too short refuses.
fn ask_short(job: &mut Job, boxes: usize) {
    ask_cut(job);
    for number in [0, boxes, boxes + 1] {
        job.neighbour(number, "B+", 0);
    }
    job.neighbour(u64::MAX, "A-", u64::MAX);
    job.find([65_536; 3]);
}

/// The table cut off and extended while a cut stands: the lost records come
/// back as the first cell.
fn table_changes(job: &mut Job) {
    for (shape, order) in [
        (xor_boxes(), "XYZ"),
        (xor_boxes(), "ZXY"),
        (long_box(), "XYZ"),
        (letter(), "YXZ"),
    ] {
        let boxes = boxes(&shape, order).len();
        for length in [0, 1, boxes - 1, boxes, boxes + 1] {
            show(job, &shape);
            job.cut(order);
            job.box_table(length);
            ask_short(job, boxes);
            job.box_table(boxes);
            ask_short(job, boxes);
            job.box_table(boxes + 2);
            ask_short(job, boxes);
            for number in 1..=boxes {
                for sense in SENSES {
                    job.neighbour(number, sense, length / 2);
                }
            }
            job.reopen();
            job.count();
            job.cut(order);
            job.volume();
        }
    }
    job.box_table(65_536);
}

/// Both ends of a box, a random cell, and a place outside the frame.
fn find_some(job: &mut Job, shape: &Shape, order: &str, random: &mut Random) {
    let boxes = boxes(shape, order);
    if !boxes.is_empty() {
        let (low, high) = boxes[random.between(0, boxes.len() - 1)];
        job.find(low);
        job.find(high.map(|end| end - 1));
    }
    job.find(shape.sides().map(|side| random.between(0, side - 1)));
    let mut cell = shape.sides().map(|side| random.between(0, side - 1) as u64);
    let axis = random.between(0, 2);
    if random.percent(50) {
        cell[axis] = shape.sides()[axis] as u64;
    } else {
        cell[axis] |= HUGE[random.between(0, 5)];
    }
    job.find(cell);
}

/// Neighbours of a random box in all senses, and a few edges.
fn some_neighbours(job: &mut Job, boxes: usize, random: &mut Random) {
    let number = random.between(boxes.min(1), boxes);
    for sense in SENSES {
        job.neighbour(number, sense, 0);
    }
    let sense = SENSES[random.between(0, 3)];
    job.neighbour(number, sense, random.between(0, boxes));
    job.neighbour(random.between(0, boxes), sense, random.between(0, boxes));
    match random.between(0, 4) {
        0 => job.neighbour(0, sense, 0),
        1 => job.neighbour(boxes, sense, boxes),
        2 => job.neighbour(boxes + 1, sense, 0),
        3 => job.neighbour(HUGE[random.between(0, 5)], sense, 0),
        _ => job.neighbour(number, sense, HUGE[random.between(0, 5)]),
    }
}

/// Cuts of the block in every order on a table just long enough, with some
/// questions each, and one cut on a table that is not.
fn ask_every_order(job: &mut Job, shape: &Shape, random: &mut Random) {
    for order in ORDERS {
        let boxes = boxes(shape, order).len();
        job.box_table(boxes);
        job.cut(order);
        job.volume();
        find_some(job, shape, order, random);
        some_neighbours(job, boxes, random);
        job.reopen();
    }
    let order = ORDERS[random.between(0, 5)];
    let boxes = boxes(shape, order).len();
    job.box_table(random.between(boxes / 2, boxes.saturating_sub(1)));
    job.cut(order);
    job.count();
    job.box_table(65_536);
}

fn random_blocks(job: &mut Job, random: &mut Random) {
    for case in 0..72 {
        let percent = [10, 50, 90][case % 3];
        let sides = if case % 4 < 3 {
            [0; 3].map(|_| random.between(1, 6))
        } else {
            let side_z = random.between(62, 67);
            [random.between(1, 2), random.between(1, 2), side_z]
        };
        let shape = Shape::random(sides, percent, random);
        match case % 5 {
            0 => show_grid(job, &shape, clean),
            1 => show_grid(job, &shape, || random.word()),
            _ => show(job, &shape),
        }
        if case < 36 {
            ask_every_order(job, &shape, random);
        } else {
            every_order(job);
        }
    }
}

/// A few boxes, each flipping its cells, for long plates and boxes.
fn flipped_boxes(job: &mut Job, random: &mut Random) {
    for sides in [
        [6, 6, 6],
        [6, 5, 4],
        [4, 5, 6],
        [3, 3, 66],
        [5, 2, 130],
        [12, 9, 10],
        [9, 12, 20],
    ] {
        let mut shape = Shape::empty(sides);
        for _ in 0..3 {
            let low = sides.map(|side| random.between(0, side - 1));
            let mut high = low;
            for axis in 0..3 {
                high[axis] = random.between(low[axis] + 1, sides[axis]);
            }
            shape.change_box(low, high, |solid| !solid);
        }
        show_grid(job, &shape, clean);
        ask_every_order(job, &shape, random);
    }
}

/// Empty and full blocks and single cells at both ends.
fn plain_blocks(job: &mut Job) {
    for sides in [
        [1, 1, 1],
        [2, 3, 4],
        [1, 2, 63],
        [2, 1, 64],
        [2, 2, 65],
        [1, 1, 128],
        [3, 1, 129],
    ] {
        show_grid(job, &Shape::empty(sides), || u64::MAX);
        job.cut("XYZ");
        ask_cut(job);
        job.reopen();
        every_order(job);
        show_grid(job, &Shape::full(sides), || u64::MAX);
        job.cut("ZYX");
        ask_cut(job);
        job.neighbour(1, "A-", 0);
        job.find(sides.map(|side| side - 1));
        job.find(sides);
        job.reopen();
        every_order(job);
        let last = sides.map(|side| side - 1);
        show_grid(job, &from_cells(sides, &[[0; 3], last]), clean);
        every_order(job);
    }
    let mut chequers = Shape::empty([4, 4, 6]);
    chequers.change_cells(|[i, j, k], _| (i + j + k) % 2 == 0);
    show(job, &chequers);
    every_order(job);
}

/// The longest side on each axis, with few cells.
fn longest_sides(job: &mut Job, random: &mut Random) {
    for sides in [
        [1, 1, 1024],
        [1, 1024, 1],
        [1024, 1, 1],
        [2, 2, 1024],
        [2, 1024, 1],
        [1024, 2, 1],
    ] {
        let mut shape = Shape::empty(sides);
        shape.set([0; 3], true);
        let end = sides.map(|side| side.min(1000));
        shape.change_box(sides.map(|side| side - side / 64 - 1), sides, |_| true);
        shape.change_box(sides.map(|side| side / 2), end, |_| true);
        for _ in 0..6 {
            shape.set(sides.map(|side| random.between(0, side - 1)), true);
        }
        show_grid(job, &shape, clean);
        ask_every_order(job, &shape, random);
    }
    show_grid(job, &Shape::full([1, 1, 1024]), clean);
    every_order(job);
}

/// A long list before a short one, on the same table.
fn table_stays(job: &mut Job) {
    show(job, &xor_boxes());
    job.cut("XYZ");
    show(job, &letter());
    job.cut("YXZ");
    job.volume();
    job.find([1, 1, 2]);
    job.find([2, 2, 2]);
    all_neighbours(job, 3);
    job.box_table(6);
    job.volume();
    show(job, &Shape::empty([3, 3, 3]));
    job.cut("YXZ");
    ask_cut(job);
    job.box_table(0);
    ask_cut(job);
    job.box_table(65_536);
}

/// Blanks, other line ends and leading zeros.
fn spacing(job: &mut Job) {
    job.raw("frame 2 2 1\nscan\n#\n#\n#\n.\n  table\tboxes   0002  \n\n\tcut  XYZ \n\n volume\t\n");
    job.raw("  find 00 01\t000000000000000000000000 \n neighbour  01\tA+  00 \n\t reopen \n");
    job.raw("table boxes 65536\r\ncut YXZ\r\nvolume\r\nfind 0 0 0\r\n");
    job.raw("neighbour 1 B+ 0\r\nneighbour 1 A+ 0\r\nreopen\r\n");
    job.raw(" \tinspect\t  ZXY \r\ninspect XZY\t\n");
}

pub fn many_cuts() -> Job {
    let mut random = Random::new(SEED);
    let mut job = Job::new();
    states(&mut job);
    worked(&mut job);
    small_shapes(&mut job);
    forgotten(&mut job);
    table_edges(&mut job);
    inspections(&mut job);
    huge_numbers(&mut job);
    table_changes(&mut job);
    table_stays(&mut job);
    random_blocks(&mut job, &mut random);
    flipped_boxes(&mut job, &mut random);
    plain_blocks(&mut job);
    longest_sides(&mut job, &mut random);
    spacing(&mut job);
    // The last line lacks its end, and its cut stands to the end.
    show(&mut job, &letter());
    job.raw("count\ncut XZY");
    job
}

/// Chequers of 65536 boxes, and one box more.
pub fn full_boxes() -> Job {
    let mut job = Job::new();
    let mut full = Shape::empty([16, 8, 1024]);
    full.change_cells(|[i, j, k], _| (i + j + k) % 2 == 0);
    show_grid(&mut job, &full, clean);
    job.cut("XYZ");
    job.volume();
    job.find([15, 7, 1022]);
    job.neighbour(65_536, "A-", 0);
    job.neighbour(65_537, "A-", 0);
    job.reopen();
    for length in [65_535, 65_536, 65_537] {
        job.box_table(length);
        job.inspect("XYZ");
    }
    let mut over = Shape::empty([17, 8, 1024]);
    over.change_cells(|cell, _| cell == [16, 0, 0] || cell[0] < 16 && full.is_solid(cell));
    show_grid(&mut job, &over, clean);
    job.box_table(1_000_000);
    job.cut("XYZ");
    job.volume();
    job.count();
    job.inspect("XYZ");
    job
}
