//! Cases of named bodies: read from the job, and piled on one another.

use jobs::{boxes, Job, Place, Random, Shape, ORDERS};

use super::{clean, from_cells};

const SEED: u64 = 22;
const PAIRS: [&str; 4] = ["union", "meet", "less", "either"];

/// The body as the block in use, and what it holds.
fn ask(job: &mut Job, name: &str) {
    job.use_body(name);
    job.ask_both();
}

/// What the body holds, and its boxes in every order.
fn ask_boxes(job: &mut Job, name: &str) {
    ask(job, name);
    for order in ORDERS {
        job.cut(order);
        job.volume();
        job.reopen();
    }
}

/// How many cells the body has, and how many boxes in every order.
fn measure(job: &mut Job, name: &str) {
    job.use_body(name);
    job.count();
    for order in ORDERS {
        job.inspect(order);
    }
}

fn count(job: &mut Job, name: &str) {
    job.use_body(name);
    job.count();
}

/// How many cells two bodies differ in, as far as the first one's frame goes.
fn compare(job: &mut Job, first: &str, second: &str) {
    job.pile("difference", format_args!("either {first} {second}"));
    count(job, "difference");
}

/// A frame with the shape as a body in it.
fn frame_scan(job: &mut Job, name: &str, shape: &Shape) {
    job.frame(shape.sides());
    job.body_scan(name, shape);
}

/// The bounds of a box as a line has them.
fn bounds([i, j, k]: Place, [x, y, z]: Place) -> [usize; 6] {
    [i, j, k, x, y, z]
}

/// Two boxes with one cell in common.
fn two_boxes(job: &mut Job) {
    job.frame([4, 4, 4]);
    job.body_boxes("A", &[[0, 0, 0, 2, 2, 2]]);
    job.body_boxes("B", &[[1, 1, 1, 3, 3, 3]]);
}

/// Every pile on names that stand for nothing, wholly or in part.
fn without_names(job: &mut Job, other: &str) {
    job.use_body("nothing");
    for pair in PAIRS {
        for names in [
            ["nothing", "nothing"],
            ["nothing", other],
            [other, "nothing"],
        ] {
            job.pile("P", format_args!("{pair} {}", names.join(" ")));
            job.use_body("P");
        }
    }
    job.pile("P", "turned nothing");
    for steps in ["0", "1025", "-1025", "9223372036854775807"] {
        job.moved("P", "nothing", [steps; 3]);
    }
    job.pile("nothing", "turned nothing");
    job.use_body("P");
    job.ask_both();
}

/// Names that stand for nothing, in every state.
fn states(job: &mut Job) {
    without_names(job, "A");
    job.frame([2, 2, 1]);
    without_names(job, "A");
    job.body_scan("A", &Shape::full([2, 2, 1]));
    without_names(job, "A");
    job.scan(&from_cells([2, 2, 1], &[[1, 0, 0]]));
    without_names(job, "A");
    job.cut("XYZ");
    without_names(job, "A");
    job.volume();
    job.reopen();
    job.count();
    job.line("frame 0 2 1");
    without_names(job, "A");
    count(job, "A");
    without_names(job, "A");
}

fn worked(job: &mut Job) {
    two_boxes(job);
    for pair in PAIRS {
        for names in ["A B", "B A"] {
            job.pile("P", format_args!("{pair} {names}"));
            ask_boxes(job, "P");
        }
    }
    for making in ["turned A", "turned B", "moved A 1 1 1", "moved B 2 0 -1"] {
        job.pile("P", making);
        ask_boxes(job, "P");
    }
    job.pile("U", "union A B");
    job.pile("M", "meet A B");
    job.pile("L", "less U M");
    job.pile("E", "either A B");
    compare(job, "L", "E");
    job.pile("T", "turned L");
    ask_boxes(job, "T");
}

/// The same cells as a scan, as a grid and as boxes.
fn forms(job: &mut Job, random: &mut Random) {
    for (sides, percent) in [
        ([1, 1, 1], 100),
        ([3, 4, 5], 30),
        ([2, 3, 65], 10),
        ([1, 2, 128], 50),
        ([4, 2, 64], 85),
    ] {
        let shape = Shape::random(sides, percent, random);
        frame_scan(job, "S", &shape);
        job.body_grid("G", &shape.words(|| random.word()));
        let mut list: Vec<_> = boxes(&shape, ORDERS[random.between(0, 5)])
            .into_iter()
            .map(|(low, high)| bounds(low, high))
            .collect();
        list.reverse();
        job.body_boxes("L", &list);
        job.frame([1, 1, 1]);
        for names in [["S", "G"], ["G", "L"], ["L", "S"]] {
            let [first, second] = names;
            compare(job, first, second);
        }
        for name in ["S", "G", "L"] {
            measure(job, name);
        }
    }
}

/// Lists of boxes that overlap, reach over the frame and lie outside it.
fn box_lists(job: &mut Job) {
    let lists: [&[[usize; 6]]; 11] = [
        &[],
        &[[0, 0, 0, 3, 4, 5]],
        &[[0, 0, 0, 1024, 1024, 1024]],
        &[[2, 3, 4, 1024, 1024, 1024]],
        &[[0, 0, 0, 2, 2, 2], [1, 1, 1, 3, 3, 3], [0, 0, 0, 2, 2, 2]],
        &[[1, 1, 1, 2, 2, 2], [0, 0, 0, 3, 4, 5]],
        &[[0, 1, 2, 3, 2, 3], [1, 0, 2, 2, 4, 3], [1, 1, 0, 2, 2, 5]],
        &[[3, 0, 0, 4, 4, 5], [0, 4, 0, 3, 5, 5], [0, 0, 5, 3, 4, 6]],
        &[[1023, 1023, 1023, 1024, 1024, 1024]],
        &[
            [0, 0, 0, 1, 1, 1],
            [2, 3, 4, 4, 5, 6],
            [2, 0, 4, 1024, 1, 1024],
        ],
        &[[0, 3, 0, 1, 9, 9], [0, 0, 0, 1, 3, 2], [0, 0, 2, 1, 3, 5]],
    ];
    for list in lists {
        job.frame([3, 4, 5]);
        job.body_boxes("L", list);
        job.frame([2, 2, 2]);
        ask_boxes(job, "L");
        job.pile("T", "turned L");
        ask(job, "T");
    }
    job.table(0);
    job.box_table(0);
    job.body_boxes::<u64>("L", &[]);
    ask_boxes(job, "L");
    job.pile("T", "turned L");
    ask_boxes(job, "T");
    job.table(65_536);
    job.box_table(65_536);
}

/// Lower and upper bounds along one axis; the first few are lawful.
const BOUNDS: [(u64, u64); 26] = [
    (0, 1),
    (0, 1023),
    (0, 1024),
    (1022, 1023),
    (1023, 1024),
    (0, 0),
    (1, 0),
    (1, 1),
    (2, 1),
    (1024, 1023),
    (1024, 1024),
    (1024, 1025),
    (0, 1025),
    (1023, 1025),
    (1025, 1026),
    (0, 65_535),
    (0, 65_536),
    (0, 65_537),
    (65_536, 65_537),
    (65_536, 1),
    (1 << 32, 1),
    (0, (1 << 32) + 1),
    (1 << 32, (1 << 32) + 1),
    (1 << 63, (1 << 63) + 1),
    (0, u64::MAX),
    (u64::MAX, u64::MAX),
];

/// Boxes at the edge of the law, among lawful ones. What a refused name stood
/// for is gone.
fn box_edges(job: &mut Job) {
    let lawful = [0, 0, 0, 1, 1, 1];
    job.frame([2, 2, 2]);
    for axis in 0..3 {
        for (low, high) in BOUNDS {
            let mut tried = lawful;
            tried[axis] = low;
            tried[axis + 3] = high;
            job.body_boxes("L", &[lawful, tried]);
            count(job, "L");
            job.pile("P", "turned L");
        }
        let mut tried = lawful;
        tried[axis + 3] = 1025;
        job.body_boxes("L", &[tried]);
        job.body_boxes("L", &[tried, lawful, lawful]);
        job.body_boxes("L", &[lawful]);
        job.body_boxes("L", &[lawful, tried, tried, lawful]);
        job.use_body("L");
        job.pile("P", "union L L");
    }
    job.body_boxes("L", &[[1024, 1024, 1024, 1024, 1024, 1024]]);
    job.body_boxes("L", &[[1025, 1025, 1025, 0, 0, 0]]);
    job.use_body("L");
    job.count();
}

/// Grids one word short, exact and one over.
fn grid_edges(job: &mut Job) {
    for sides in [[1, 1, 1], [1, 2, 64], [2, 1, 65], [3, 2, 129]] {
        let mut words = Shape::full(sides).words(|| u64::MAX);
        job.frame(sides);
        job.body_grid("G", &words);
        count(job, "G");
        let last = words.pop().unwrap_or(0);
        job.body_grid("G", &words);
        job.use_body("G");
        job.count();
        job.pile("P", "turned G");
        words.extend([last, 7]);
        job.body_grid("G", &words);
        ask(job, "G");
        job.body_grid("G", &[]);
        job.use_body("G");
    }
}

/// Shifts around the sides, forward and backward along each axis.
fn shifts(job: &mut Job, random: &mut Random) {
    let sides = [2, 3, 4];
    frame_scan(job, "F", &Shape::full(sides));
    job.body_scan("R", &Shape::random(sides, 50, random));
    job.frame([5, 5, 5]);
    for axis in 0..3 {
        let side = sides[axis] as i64;
        for steps in [1, side - 1, side, side + 1, 1023, 1024] {
            for steps in [steps, -steps] {
                let mut shift = [0; 3];
                shift[axis] = steps;
                job.moved("P", "F", shift);
                ask(job, "P");
                job.cut("XYZ");
                job.moved("P", "R", shift);
                ask(job, "P");
            }
        }
    }
}

/// Shifts along all axes at once.
fn slanting_shifts(job: &mut Job, random: &mut Random) {
    frame_scan(job, "R", &Shape::random([3, 3, 3], 60, random));
    for code in 0..27i64 {
        let shift = [code / 9 - 1, code / 3 % 3 - 1, code % 3 - 1];
        job.moved("P", "R", shift);
        ask(job, "P");
        job.moved("P", "P", shift.map(|steps| -steps));
        count(job, "P");
        job.pile("P", "less P R");
        count(job, "P");
    }
    job.moved("P", "R", [1024, -1024, 1024]);
    ask(job, "P");
    job.moved("P", "R", [2, -2, 3]);
    ask(job, "P");
}

/// Shifts at the edge of the law, some of which would be lawful in 16 or 32
/// bits.
fn shift_edges(job: &mut Job) {
    let mut shape = Shape::full([2, 2, 2]);
    shape.set([0; 3], false);
    frame_scan(job, "A", &shape);
    job.frame([1, 1, 1]);
    let numbers: [i64; 14] = [
        1023,
        1024,
        1025,
        1026,
        64_511,
        64_512,
        65_535,
        65_536,
        65_537,
        1 << 32,
        (1 << 32) - 1,
        (1 << 32) + 1,
        (1 << 48) + 1,
        i64::MAX,
    ];
    for axis in 0..3 {
        for number in numbers {
            for steps in [number, -number] {
                shifted_along(job, axis, steps);
            }
        }
        shifted_along(job, axis, i64::MIN);
    }
    job.moved("P", "A", [1024; 3]);
    count(job, "P");
    job.moved("P", "A", [-1024; 3]);
    count(job, "P");
    job.moved("P", "A", [1025; 3]);
    job.moved("P", "A", [-1025; 3]);
    job.moved("P", "A", [1024, -1025, 0]);
    job.moved("A", "A", [0, 0, 1025]);
    job.use_body("A");
    job.moved("P", "A", [0, 0, 1025]);
}

fn shifted_along(job: &mut Job, axis: usize, steps: i64) {
    let mut shift = [0; 3];
    shift[axis] = steps;
    job.moved("P", "A", shift);
    count(job, "P");
}

/// Pairs whose bodies have other frames, both ways.
fn two_frames(job: &mut Job, random: &mut Random) {
    for (first, second) in [
        ([2, 2, 2], [3, 3, 3]),
        ([3, 3, 3], [2, 2, 2]),
        ([1, 4, 2], [3, 2, 5]),
        ([3, 1, 4], [3, 4, 1]),
        ([1, 2, 63], [2, 1, 66]),
        ([1, 1, 1], [4, 4, 4]),
    ] {
        frame_scan(job, "A", &Shape::random(first, 60, random));
        job.frame(second);
        let words = Shape::random(second, 60, random).words(|| u64::MAX);
        job.body_grid("B", &words);
        job.pile("T", "turned B");
        job.moved("V", "B", [1, 1, 1]);
        job.frame([1, 1, 1]);
        for pair in PAIRS {
            pair_in_two_frames(job, pair);
        }
        // The frame of the first of the first, at any depth.
        job.pile("P", "union A B");
        job.pile("P", "either P B");
        job.pile("P", "turned P");
        ask_boxes(job, "P");
        job.pile("P", "less B P");
        ask_boxes(job, "P");
    }
}

fn pair_in_two_frames(job: &mut Job, pair: &str) {
    for names in ["A B", "B A"] {
        job.pile("P", format_args!("{pair} {names}"));
        ask(job, "P");
        // The pair is empty outside its frame, whatever the second is.
        job.moved("Q", "P", [-1, -1, -1]);
        count(job, "Q");
        compare(job, "A", "P");
        compare(job, "B", "P");
    }
    // Outside their own frame a complement and a translation are empty as well.
    for names in ["A T", "T A", "A V", "V A"] {
        job.pile("P", format_args!("{pair} {names}"));
        measure(job, "P");
    }
}

/// Piles that come to the same, compared cell by cell.
fn laws(job: &mut Job, random: &mut Random) {
    for sides in [[3, 4, 5], [5, 2, 3], [2, 2, 67]] {
        frame_scan(job, "A", &Shape::random(sides, 50, random));
        let other = Shape::random(sides, 50, random);
        job.body_grid("B", &other.words(|| random.word()));
        job.pile("X", "turned A");
        job.pile("Y", "turned B");
        job.pile("T", "turned X");
        compare(job, "T", "A");
        for pair in PAIRS {
            job.pile("P", format_args!("{pair} A A"));
            measure(job, "P");
            job.pile("P", format_args!("{pair} A X"));
            measure(job, "P");
        }
        for (outer, inner) in [("union", "meet"), ("meet", "union")] {
            job.pile("P", format_args!("{outer} A B"));
            job.pile("P", "turned P");
            job.pile("Q", format_args!("{inner} X Y"));
            compare(job, "P", "Q");
        }
        job.pile("P", "either A B");
        job.pile("P", "either P B");
        compare(job, "P", "A");
        job.pile("P", "less A B");
        job.pile("Q", "meet A Y");
        compare(job, "P", "Q");
        there_and_back(job);
    }
}

/// What leaves the frame does not come back.
fn there_and_back(job: &mut Job) {
    for shift in [[1, 0, 0], [0, -1, 0], [0, 0, 2], [-1, 1, -1], [0, 0, 0]] {
        job.moved("P", "A", shift);
        job.moved("P", "P", shift.map(|steps: i64| -steps));
        measure(job, "P");
        compare(job, "P", "A");
        job.pile("P", "less P A");
        count(job, "P");
    }
    // Nothing comes in from outside a complement.
    for shift in [[1, 0, 0], [0, 0, -1], [0, 1024, 0]] {
        job.moved("P", "X", shift);
        ask(job, "P");
        job.moved("P", "A", shift);
        job.pile("P", "turned P");
        ask(job, "P");
    }
}

/// A name given again, also to a pile on itself. Piles keep what it stood for.
fn replaced(job: &mut Job) {
    let sides = [1, 2, 3];
    frame_scan(job, "A", &from_cells(sides, &[[0, 0, 0]]));
    job.body_scan("B", &from_cells(sides, &[[0, 1, 1]]));
    job.pile("P", "union A B");
    job.pile("Q", "turned P");
    job.use_body("A");
    job.body_scan("A", &from_cells(sides, &[[0, 0, 2], [0, 1, 2]]));
    job.ask_both();
    for name in ["A", "B", "P", "Q"] {
        ask(job, name);
    }
    job.frame([2, 1, 1]);
    job.body_grid("B", &[1, 1]);
    for name in ["P", "Q", "B"] {
        ask(job, name);
    }
    for making in [
        "union P B",
        "turned P",
        "moved P 0 0 1",
        "either P A",
        "less P P",
    ] {
        job.pile("P", making);
        ask_boxes(job, "P");
    }
    forgotten_names(job);
}

/// Names that stand for nothing again, below piles that stay.
fn forgotten_names(job: &mut Job) {
    job.pile("P", "union A B");
    job.pile("Q", "union B A");
    job.pile("A", "turned nothing");
    job.body_boxes("B", &[[0, 0, 0, 0, 1, 1]]);
    for name in ["A", "B", "P", "Q"] {
        ask(job, name);
    }
    job.moved("P", "P", [0, 0, -1025]);
    job.pile("Q", "less Q P");
    job.use_body("P");
    job.use_body("Q");
    job.ask_both();
}

fn ask_cut(job: &mut Job) {
    job.volume();
    job.find([0, 0, 0]);
    job.neighbour(1, "A+", 0);
    job.count();
}

fn blocks_in_use(job: &mut Job) {
    two_boxes(job);
    for order in ORDERS {
        named_while_cut(job, order);
        used_while_cut(job, order);
        used_between_blocks(job, order);
    }
}

/// Naming, and use of a name that stands for nothing, leave a block and a
/// standing cut alone.
fn named_while_cut(job: &mut Job, order: &str) {
    let mut corner = Shape::full([2, 2, 2]);
    corner.set([1, 1, 1], false);
    job.frame([2, 2, 2]);
    job.scan(&corner);
    job.cut(order);
    job.body_scan("C", &corner);
    ask_cut(job);
    job.body_grid("G", &[3, 3, 3]);
    ask_cut(job);
    job.body_grid("G", &[3, 3, 3, 1]);
    ask_cut(job);
    job.body_boxes("L", &[[0, 0, 2, 1, 1, 2]]);
    ask_cut(job);
    job.pile("P", "union C A");
    job.moved("Q", "P", [0, 0, 1025]);
    job.pile("Q", "turned L");
    job.use_body("Q");
    ask_cut(job);
    job.reopen();
    job.inspect(order);
}

/// Use forgets a standing cut, also of the body that it names.
fn used_while_cut(job: &mut Job, order: &str) {
    job.cut(order);
    job.use_body("C");
    ask_cut(job);
    job.reopen();
    job.cut(order);
    job.pile("P", "union C B");
    job.pile("C", "turned C");
    ask_cut(job);
    job.use_body("C");
    ask_cut(job);
    count(job, "P");
}

/// Use after new frames, and blocks after use.
fn used_between_blocks(job: &mut Job, order: &str) {
    job.frame([1, 1, 1]);
    ask_cut(job);
    count(job, "B");
    job.line("frame 1025 1 1");
    job.count();
    measure(job, "B");
    job.frame([1, 1, 2]);
    job.use_body("B");
    job.scan(&Shape::full([1, 1, 2]));
    job.count();
    job.use_body("B");
    job.line("grid 0");
    job.count();
    job.use_body("G");
    job.inspect(order);
}

/// Tables around the numbers of corners and boxes of a pile.
fn table_edges(job: &mut Job) {
    two_boxes(job);
    job.pile("P", "either A B");
    job.use_body("P");
    for length in [0, 15, 16, 17] {
        job.table(length);
        job.corners();
    }
    job.table(65_536);
    let mut shape = Shape::empty([4, 4, 4]);
    shape.change_box([0; 3], [2; 3], |solid| !solid);
    shape.change_box([1; 3], [3; 3], |solid| !solid);
    for order in ORDERS {
        let boxes = boxes(&shape, order).len();
        for length in [0, boxes - 1, boxes, boxes + 1] {
            job.box_table(length);
            job.inspect(order);
            job.cut(order);
            job.volume();
            job.use_body("P");
        }
        job.cut(order);
        job.box_table(boxes - 1);
        ask_cut(job);
        job.box_table(65_536);
        ask_cut(job);
        job.use_body("P");
    }
}

/// Every pair of a pair of a pair, and the same with complements and shifts.
fn three_deep(job: &mut Job, random: &mut Random) {
    let frames = [[3, 3, 3], [3, 3, 3], [2, 4, 3], [4, 3, 2]];
    for (name, sides) in ["A", "B", "C", "D"].into_iter().zip(frames) {
        frame_scan(job, name, &Shape::random(sides, 50, random));
    }
    for inner in PAIRS {
        for middle in PAIRS {
            for outer in PAIRS {
                job.pile("P", format_args!("{inner} A B"));
                job.pile("Q", format_args!("{middle} C P"));
                job.pile("R", format_args!("{outer} Q D"));
                job.use_body("R");
                job.count();
                job.inspect(ORDERS[random.between(0, 5)]);
            }
        }
        job.pile("P", format_args!("{inner} A B"));
        job.pile("Q", "turned P");
        job.moved("R", "Q", [1, -1, 0]);
        ask_boxes(job, "R");
        job.moved("Q", "P", [0, 1, -1]);
        job.pile("R", "turned Q");
        ask_boxes(job, "R");
        job.pile("Q", "turned C");
        job.moved("V", "D", [-1, 0, 0]);
        job.pile("R", format_args!("{inner} Q V"));
        job.pile("R", "turned R");
        ask_boxes(job, "R");
    }
    eight_deep(job);
}

/// Each pile on the one before.
fn eight_deep(job: &mut Job) {
    job.pile("R", "turned A");
    for making in [
        "moved R 0 0 1",
        "union R B",
        "turned R",
        "less R C",
        "moved R -1 0 0",
        "either R D",
        "meet R B",
    ] {
        job.pile("R", making);
        ask(job, "R");
    }
    ask_boxes(job, "R");
}

/// The longest side on each axis, with few boxes.
fn longest_sides(job: &mut Job) {
    for axis in 0..3 {
        let mut sides = [2, 2, 2];
        sides[axis] = 1024;
        let along = |from: usize, to: usize| {
            let (mut low, mut high) = ([0; 3], [1024; 3]);
            low[axis] = from;
            high[axis] = to;
            high[(axis + 1) % 3] = 1;
            bounds(low, high)
        };
        job.frame(sides);
        job.body_boxes("A", &[along(0, 10), along(500, 1000), along(1023, 1024)]);
        job.body_boxes("B", &[along(400, 600), along(999, 1024)]);
        job.frame([2, 1, 2]);
        job.body_boxes("S", &[[0, 0, 0, 1024, 1024, 1024]]);
        for making in ["union A B", "meet A B", "less A B", "either A B"]
            .into_iter()
            .chain(["turned A", "either A S", "less S A"])
        {
            job.pile("P", making);
            ask_boxes(job, "P");
        }
        for steps in [1, 10, 24, 25, 1014, 1022, 1023, 1024] {
            for steps in [steps, -steps] {
                let mut shift = [0i64; 3];
                shift[axis] = steps;
                job.moved("P", "A", shift);
                ask(job, "P");
                job.pile("P", "either B P");
                measure(job, "P");
            }
        }
    }
    longest_grid(job);
}

fn longest_grid(job: &mut Job) {
    let mut words = Shape::empty([1, 2, 1024]);
    words.change_box([0, 0, 60], [1, 2, 130], |_| true);
    words.change_box([0, 1, 1000], [1, 2, 1024], |_| true);
    job.frame([1, 2, 1024]);
    job.body_grid("G", &words.words(clean));
    job.moved("P", "G", [0, -1, -1000]);
    ask_boxes(job, "P");
    job.moved("P", "G", [0, 1, 894]);
    job.pile("P", "turned P");
    ask_boxes(job, "P");
}

/// A few boxes in larger frames.
fn large_boxes(job: &mut Job, random: &mut Random) {
    for sides in [[20, 30, 130], [64, 9, 65], [16, 33, 20]] {
        for name in ["A", "B", "C"] {
            job.frame(sides);
            let list = [0; 3].map(|_| random_bounds(sides, 2, random));
            job.body_boxes(name, &list);
        }
        let shift = sides.map(|side| random.between(0, side) as i64 - side as i64 / 2);
        job.moved("C", "C", shift);
        job.pile("P", "either A B");
        measure(job, "P");
        job.pile("P", "less P C");
        ask(job, "P");
        job.pile("P", "turned P");
        measure(job, "P");
        let shift = sides.map(|side| random.between(0, side / 2) as i64 - side as i64 / 4);
        job.moved("P", "P", shift);
        ask_boxes(job, "P");
    }
}

/// A box that begins in the frame or up to `over` past it.
fn random_bounds(sides: Place, over: usize, random: &mut Random) -> [usize; 6] {
    let low = sides.map(|side| random.between(0, side - 1 + over));
    let mut high = low;
    for axis in 0..3 {
        high[axis] = random.between(low[axis] + 1, sides[axis] + over + 1);
    }
    bounds(low, high)
}

/// Names that differ a little, and those that are words of the job.
fn odd_names(job: &mut Job) {
    let names = [
        "a", "A", "AA", "1", "01", "-1", "=", "==", "scan", "grid", "boxes", "union", "turned",
        "moved", "body", "use", "#", "..", "A:", "\u{3b1}", "count",
    ];
    job.frame([1, 1, 32]);
    for (place, name) in names.into_iter().enumerate() {
        job.use_body(name);
        job.body_scan(name, &from_cells([1, 1, 32], &[[0, 0, place]]));
    }
    for (place, name) in names.into_iter().enumerate() {
        ask(job, name);
        job.pile(name, format_args!("union {name} {}", names[place / 2]));
        job.pile("nothing", format_args!("meet {name} nothing"));
        job.moved(name, name, [0, 0, 2]);
    }
    for name in names {
        job.use_body(name);
        job.cut("XYZ");
    }
    for name in names {
        job.moved(name, name, [0, 2000, 0]);
        job.use_body(name);
    }
    let long = "long".repeat(300);
    job.body_grid(&long, &[1]);
    count(job, &long);
    job.use_body(&long[1..]);
}

/// Blanks, other line ends and leading zeros.
fn spacing(job: &mut Job) {
    job.raw("frame 1 2 2\r\n\tbody  A\tscan \r\n#.\r\n.#\r\n \n");
    job.raw(
        " body B   boxes 0002\n 0 0\t0  1 01 1 \r\n\t00 1 0 1 002 000000000000000000000001\n\n",
    );
    job.raw("body\tC\tgrid\t2\r\n 1 \r\n\t02\r\n\r\n body D  =  either\tA  B \r\n");
    job.raw("body E = moved  D\t-0 -0001 000000000000000000000001  \n use  D \ncount\ncorners\n");
    job.raw("\tuse\tE\r\ncount\r\ncorners\r\nuse C\ncount\n\n   use   nothing   \r\n");
    job.raw("  body   P  =  turned   nothing  \r\nbody P = moved A 0 0 -001025\n");
}

/// Bodies with names in one or two frames, piled at random.
fn random_piles(job: &mut Job, random: &mut Random) {
    for round in 0..10 {
        let sides = [0; 3].map(|_| random.between(2, 5));
        let other = match round % 3 {
            0 => sides,
            1 => sides.map(|side| random.between(1, side + 1)),
            _ => [
                random.between(1, 2),
                random.between(1, 2),
                random.between(63, 66),
            ],
        };
        let mut names = Vec::new();
        for number in 0..6 {
            let name = format!("b{number}");
            random_body(
                job,
                &name,
                if number % 3 == 2 { other } else { sides },
                random,
            );
            names.push((name, 0));
        }
        for number in 0..6 {
            let name = format!("p{number}");
            let depth = random_pile(job, &name, &names, random);
            if number % 2 == 0 {
                ask_boxes(job, &name);
            } else {
                ask(job, &name);
                measure(job, &name);
            }
            if depth < 4 {
                names.push((name, depth));
            }
        }
    }
}

fn random_body(job: &mut Job, name: &str, sides: Place, random: &mut Random) {
    job.frame(sides);
    let percent = [15, 50, 85][random.between(0, 2)];
    match random.between(0, 2) {
        0 => job.body_scan(name, &Shape::random(sides, percent, random)),
        1 => {
            let shape = Shape::random(sides, percent, random);
            job.body_grid(name, &shape.words(|| random.word()));
        }
        _ => {
            let list: Vec<_> = (0..random.between(0, 4))
                .map(|_| random_bounds(sides, 1, random))
                .collect();
            job.body_boxes(name, &list);
        }
    }
}

/// A pile on some of the names, each given with its depth.
fn random_pile(job: &mut Job, name: &str, names: &[(String, usize)], random: &mut Random) -> usize {
    let (first, first_depth) = &names[random.between(0, names.len() - 1)];
    let (second, second_depth) = &names[random.between(0, names.len() - 1)];
    match random.between(0, 6) {
        4 => {
            job.pile(name, format_args!("turned {first}"));
            first_depth + 1
        }
        5 | 6 => {
            let shift = [0; 3].map(|_| random.between(0, 4) as i64 - 2);
            job.moved(name, first, shift);
            first_depth + 1
        }
        pair => {
            job.pile(name, format_args!("{} {first} {second}", PAIRS[pair]));
            first_depth.max(second_depth) + 1
        }
    }
}

pub fn many_piles() -> Job {
    let mut random = Random::new(SEED);
    let mut job = Job::new();
    states(&mut job);
    worked(&mut job);
    forms(&mut job, &mut random);
    box_lists(&mut job);
    box_edges(&mut job);
    grid_edges(&mut job);
    shifts(&mut job, &mut random);
    slanting_shifts(&mut job, &mut random);
    shift_edges(&mut job);
    two_frames(&mut job, &mut random);
    laws(&mut job, &mut random);
    replaced(&mut job);
    blocks_in_use(&mut job);
    table_edges(&mut job);
    three_deep(&mut job, &mut random);
    longest_sides(&mut job);
    large_boxes(&mut job, &mut random);
    odd_names(&mut job);
    random_piles(&mut job, &mut random);
    spacing(&mut job);
    // The last line lacks its end.
    job.raw("use E");
    job
}

/// Lists of 65537 boxes. The last but one still counts; the last does not, but
/// has to be lawful.
pub fn full_list() -> Job {
    let mut job = Job::new();
    let mut list = vec![[0, 0, 0, 1, 1, 1]; 65_535];
    list.extend([[0, 0, 1, 1, 1, 2], [0, 0, 2, 1, 1, 3]]);
    job.frame([1, 1, 4]);
    job.body_boxes("L", &list);
    ask_boxes(&mut job, "L");
    list[65_536] = [0, 0, 2, 1, 1, 2];
    job.body_boxes("L", &list);
    job.use_body("L");
    job.count();
    job
}
