use super::cut::{boxes, MAX_BOXES};
use super::*;

const ORDERS: [&str; 6] = ["XYZ", "XZY", "YXZ", "YZX", "ZXY", "ZYX"];

fn order(name: &str) -> Order {
    Order::from_name(name.as_bytes()).expect("an order")
}

/// The boxes of a cut as they are printed.
fn listed(block: &Block, name: &str) -> Vec<String> {
    let boxes = boxes(block, order(name));
    boxes.iter().map(CellBox::to_string).collect()
}

fn from_cells(sides: [u64; 3], cells: &[Place]) -> Block {
    block(sides, |cell| cells.contains(&cell))
}

/// Blocks of random cells, some sparse and some dense.
fn varied_blocks() -> Vec<Block> {
    let mut blocks = Vec::new();
    for even in random_blocks() {
        let sides = even.frame.sides.map(|side| side as u64);
        let nearby = |[i, j, k]: Place| [[i, j, k], [i + 1, j, k], [i, j + 1, k]];
        blocks.push(block(sides, |cell| {
            nearby(cell).iter().all(|&near| even.is_solid(near))
        }));
        blocks.push(block(sides, |cell| {
            nearby(cell).iter().any(|&near| even.is_solid(near))
        }));
        blocks.push(even);
    }
    blocks
}

fn xor_block() -> Block {
    block([4, 4, 4], |cell| in_box(cell, 0, 2) ^ in_box(cell, 1, 3))
}

const XOR_BOXES: [&str; 6] = [
    "(0 0 0)-(1 2 2)",
    "(1 0 0)-(2 1 2)",
    "(1 1 0)-(2 2 1)",
    "(1 1 2)-(2 2 3)",
    "(1 2 1)-(2 3 3)",
    "(2 1 1)-(3 3 3)",
];

const XOR_JOB: &str = "frame 4 4 4\nscan\n\
    ##..\n##..\n....\n....\n##..\n#.#.\n.##.\n....\n\
    ....\n.##.\n.##.\n....\n....\n....\n....\n....\n";

#[test]
fn letter_of_four_cells() {
    let letter = from_cells([2, 3, 1], &[[0, 1, 0], [1, 0, 0], [1, 1, 0], [1, 2, 0]]);
    assert_eq!(
        listed(&letter, "XYZ"),
        ["(0 1 0)-(1 2 1)", "(1 0 0)-(2 3 1)"]
    );
    assert_eq!(
        listed(&letter, "YXZ"),
        ["(1 0 0)-(2 1 1)", "(0 1 0)-(2 2 1)", "(1 2 0)-(2 3 1)"]
    );
}

#[test]
fn two_boxes_with_a_gap() {
    assert_eq!(listed(&xor_block(), "XYZ"), XOR_BOXES);
    let mut table = vec![CellBox::UNIT; 6];
    let cut = Cut::new(&xor_block(), order("XYZ"), &mut table).expect("room for all");
    assert_eq!(cut.volume(&table), Ok(14));
}

#[test]
fn box_tables() {
    let lines: String = (1..=6)
        .map(|number| format!("{number}: {}\n", XOR_BOXES[number - 1]))
        .collect();
    let (five, _) = lines.split_once("6: ").expect("six boxes");
    let job = format!(
        "{XOR_JOB}table boxes 5\ncut XYZ\nvolume\ncount\ntable boxes 6\ncut XYZ\nvolume\ncount\n"
    );
    let expected = format!(
        "cut XYZ: refused 11\n{five}volume: not taken\ncount: 14\n\
        cut XYZ: 6 boxes\n{lines}volume: 14\ncount: not taken\n\
        \nSummary\n  blocks read: 1\n  last block: 4 x 4 x 4, 14 of 64 cells solid\n  \
        answers: 3 granted, 1 refused, 2 not taken\n"
    );
    assert_eq!(answers(&job), expected);
}

#[test]
fn largest_box_tables() {
    let chequers = |[i, j, k]: Place| (i + j + k) % 2 == 0;
    let full = block([16, 8, 1024], chequers);
    let over = block([17, 8, 1024], |cell| {
        cell == [16, 0, 0] || cell[0] < 16 && chequers(cell)
    });
    for (length, room) in [(65_535, false), (65_536, true), (70_000, true)] {
        let mut table = vec![CellBox::UNIT; length];
        assert_eq!(Cut::new(&full, order("YXZ"), &mut table).is_ok(), room);
        let refused = Cut::new(&over, order("XYZ"), &mut table).expect_err("a box too many");
        assert_eq!(refused, Refusal::BoxTable);
        assert!(
            table[..length.min(MAX_BOXES)] == boxes(&over, order("XYZ"))[..length.min(MAX_BOXES)]
        );
        assert!(table
            .iter()
            .skip(MAX_BOXES)
            .all(|record| *record == CellBox::UNIT));
    }
}

#[test]
fn runs_across_words() {
    let frame = Frame::new([1, 1, 65]).expect("good sides");
    let block = Block::from_grid(frame, &[1 << 63, 3]).expect("enough words");
    for name in ORDERS {
        assert_eq!(listed(&block, name), ["(0 0 63)-(1 1 65)"]);
    }
}

#[test]
fn every_solid_cell_is_in_one_box() {
    for random in varied_blocks() {
        for name in ORDERS {
            let boxes = boxes(&random, order(name));
            let again = block(random.frame.sides.map(|side| side as u64), |cell| {
                let cell = cell.map(|c| c as u64);
                let holders = boxes.iter().filter(|holder| holder.holds(cell)).count();
                assert!(holders <= 1);
                holders == 1
            });
            assert_eq!(again.solid, random.solid);
        }
    }
}

/// The boxes as the generators of jobs find them, from the lower point of
/// each.
#[test]
fn boxes_begin_where_none_goes_on() {
    for random in varied_blocks() {
        let mut shape = jobs::Shape::empty(random.frame.sides);
        shape.change_cells(|cell, _| random.is_solid(cell));
        for name in ORDERS {
            let expected: Vec<String> = jobs::boxes(&shape, name)
                .into_iter()
                .map(|(low, high)| CellBox { low, high }.to_string())
                .collect();
            assert_eq!(listed(&random, name), expected);
        }
    }
}

#[test]
fn volume_is_the_count() {
    for random in varied_blocks() {
        for name in ORDERS {
            let mut table = vec![CellBox::UNIT; MAX_BOXES];
            let cut = Cut::new(&random, order(name), &mut table).expect("room for all");
            assert_eq!(cut.volume(&table), Ok(random.count()));
        }
    }
}

/// Plates are made along B before boxes are made along A: the other way round
/// gives other boxes, here of the same number.
#[test]
fn rows_merge_before_layers() {
    let hook = from_cells([2, 2, 1], &[[0, 0, 0], [0, 1, 0], [1, 0, 0]]);
    for name in ["XYZ", "XZY", "ZXY"] {
        assert_eq!(listed(&hook, name), ["(0 0 0)-(1 2 1)", "(1 0 0)-(2 1 1)"]);
    }
    assert_eq!(listed(&hook, "YXZ"), ["(0 0 0)-(2 1 1)", "(0 1 0)-(1 2 1)"]);
}

/// A box beside a longer box that starts at a smaller A.
#[test]
fn neighbour_beside_a_long_box() {
    let job = "frame 4 3 2\nscan\n..\n##\n..\n..\n##\n..\n#.\n##\n.#\n..\n##\n..\ncut XYZ\n\
        neighbour 2 B+ 0\nneighbour 2 B+ 1\nneighbour 2 B- 0\nneighbour 1 B- 0\n\
        neighbour 3 B- 0\nneighbour 1 B+ 0\nneighbour 1 A+ 0\n";
    let expected = "cut XYZ: 3 boxes\n1: (0 1 0)-(4 2 2)\n2: (2 0 0)-(3 1 1)\n\
        3: (2 2 1)-(3 3 2)\nneighbour: 1\nneighbour: none\nneighbour: none\nneighbour: 2\n\
        neighbour: 1\nneighbour: 3\nneighbour: none\n";
    assert!(answers(job).starts_with(expected));
}

#[test]
fn neighbours_along_a() {
    let questions = "cut XYZ\nneighbour 1 A+ 0\nneighbour 1 A+ 2\nneighbour 1 A+ 3\n\
        neighbour 6 A- 0\nneighbour 6 A- 4\nneighbour 6 A- 5\nneighbour 2 B+ 0\n\
        neighbour 2 B+ 3\nneighbour 5 B- 0\nneighbour 0 A+ 0\nneighbour 7 A+ 0\n\
        neighbour 6 A- 18446744073709551615\nneighbour 18446744073709551615 B- 0\n";
    let expected = "neighbour: 2\nneighbour: 3\nneighbour: none\nneighbour: 4\n\
        neighbour: 5\nneighbour: none\nneighbour: 3\nneighbour: none\nneighbour: 4\n\
        neighbour: refused 14\nneighbour: refused 14\nneighbour: none\nneighbour: refused 14\n\n";
    let all = answers(&format!("{XOR_JOB}{questions}"));
    assert!(all.contains(expected), "{all}");
}

#[test]
fn cells_are_found() {
    let questions = "cut XYZ\nfind 0 1 1\nfind 1 1 2\nfind 2 2 2\nfind 1 1 1\nfind 4 0 0\n\
        find 18446744073709551615 0 0\nfind 65536 0 0\nfind 0 4294967296 0\n";
    let expected = "find: 1\nfind: 4\nfind: 6\nfind: none\nfind: none\nfind: none\n\
        find: none\nfind: none\n\n";
    let all = answers(&format!("{XOR_JOB}{questions}"));
    assert!(all.contains(expected), "{all}");
}

/// Records cut off come back as the first cell.
#[test]
fn table_changes_while_a_cut_stands() {
    let questions = "cut XYZ\ntable boxes 5\nvolume\nfind 0 0 0\nneighbour 0 A+ 0\n\
        table boxes 2\ntable boxes 70000\nvolume\nfind 1 1 2\nfind 0 0 0\n\
        neighbour 2 A- 0\nneighbour 2 A- 1\nneighbour 7 A+ 0\nreopen\ncut XYZ\n";
    let expected = "volume: refused 12\nfind: refused 12\nneighbour: refused 12\n\
        volume: 10\nfind: none\nfind: 1\nneighbour: 1\nneighbour: 3\nneighbour: refused 14\n\
        reopen: granted\ncut XYZ: 6 boxes\n1: (0 0 0)-(1 2 2)\n";
    let all = answers(&format!("{XOR_JOB}{questions}"));
    assert!(all.contains(expected), "{all}");
}

#[test]
fn cuts_come_and_go() {
    let job = "cut ZYX\nvolume\nfind 0 0 0\nneighbour 1 A+ 0\nreopen\n\
        frame 1 1 1\ncut ZYX\nscan\n#\nreopen\ncut ZYX\ncut XYZ\ncount\ncorners\nreopen\ncount\n\
        cut YZX\nscan\n.\nvolume\ncut ZXY\nvolume\ngrid 0\nvolume\ncut XZY\n\
        grid 1\n1\ncut XZY\nframe 0 1 1\nreopen\n";
    let expected = "cut ZYX: not taken\nvolume: not taken\nfind: not taken\n\
        neighbour: not taken\nreopen: not taken\ncut ZYX: not taken\nreopen: not taken\n\
        cut ZYX: 1 boxes\n1: (0 0 0)-(1 1 1)\ncut XYZ: not taken\ncount: not taken\n\
        corners: not taken\nreopen: granted\ncount: 1\ncut YZX: 1 boxes\n1: (0 0 0)-(1 1 1)\n\
        volume: not taken\ncut ZXY: 0 boxes\nvolume: 0\ngrid: refused 10\nvolume: not taken\n\
        cut XZY: not taken\ncut XZY: 1 boxes\n1: (0 0 0)-(1 1 1)\nframe: refused 1\n\
        reopen: not taken\n\nSummary\n  blocks read: 3\n  last block: none\n  \
        answers: 7 granted, 2 refused, 14 not taken\n";
    assert_eq!(answers(job), expected);
}

/// The bar along y of the letter is one plate of XYZ, and one run of XZY and
/// ZXY. Where y is A, and where runs go along x, the bar is three boxes, one of
/// them with the fourth cell.
#[test]
fn inspections_of_the_letter() {
    let job = "frame 2 3 1\nscan\n.\n#\n.\n#\n#\n#\n\
        inspect XYZ\ninspect XZY\ninspect YXZ\ninspect YZX\ninspect ZXY\ninspect ZYX\n";
    let expected = "inspect XYZ: 2 boxes, volume 4\ninspect XZY: 2 boxes, volume 4\n\
        inspect YXZ: 3 boxes, volume 4\ninspect YZX: 3 boxes, volume 4\n\
        inspect ZXY: 2 boxes, volume 4\ninspect ZYX: 3 boxes, volume 4\n\
        \nSummary\n  blocks read: 1\n  last block: 2 x 3 x 1, 4 of 6 cells solid\n  \
        answers: 6 granted, 0 refused, 0 not taken\n";
    assert_eq!(answers(job), expected);
}

#[test]
fn inspections_come_and_go() {
    let job = "inspect XYZ\nframe 1 1 2\ninspect YXZ\nscan\n.#\ninspect ZYX\nvolume\n\
        reopen\ncount\ntable boxes 0\ninspect ZYX\nvolume\ncount\ntable boxes 1\n\
        cut XZY\ninspect XZY\nvolume\nreopen\ninspect XZY\n\
        table boxes 0\nscan\n..\ninspect YZX\nframe 1 1 2\ninspect YZX\n";
    let expected = "inspect XYZ: not taken\ninspect YXZ: not taken\n\
        inspect ZYX: 1 boxes, volume 1\nvolume: not taken\nreopen: not taken\ncount: 1\n\
        inspect ZYX: refused 11\nvolume: not taken\ncount: 1\n\
        cut XZY: 1 boxes\n1: (0 0 1)-(1 1 2)\ninspect XZY: not taken\nvolume: 1\n\
        reopen: granted\ninspect XZY: 1 boxes, volume 1\ninspect YZX: 0 boxes, volume 0\n\
        inspect YZX: not taken\n\nSummary\n  blocks read: 2\n  last block: none\n  \
        answers: 8 granted, 1 refused, 7 not taken\n";
    assert_eq!(answers(job), expected);
}

/// The box table that a job leaves.
fn box_table_after(job: &str) -> Vec<CellBox> {
    let mut runner = Runner::new(io::sink());
    for command in Parser::parse(job.as_bytes()).expect("a well-formed job") {
        runner.carry_out(command).expect("a sink takes all");
    }
    runner.box_table
}

/// An inspection writes the boxes to the front of the table, as many as fit.
#[test]
fn inspections_leave_their_boxes() {
    for length in 0..9 {
        let start = format!("{XOR_JOB}table boxes {length}\n");
        let table = box_table_after(&format!("{start}inspect XYZ\n"));
        let listed: Vec<String> = table.iter().map(CellBox::to_string).collect();
        let units = ["(0 0 0)-(1 1 1)"; 3];
        let expected: Vec<&str> = XOR_BOXES.into_iter().chain(units).take(length).collect();
        assert_eq!(listed, expected);
        assert_eq!(table, box_table_after(&format!("{start}cut XYZ\n")));
    }
}

#[test]
fn faults_in_commands_of_cuts() {
    let faults = [
        ("table boxes 1000001\n", 1),
        ("count\ncut\n", 2),
        ("cut xyz\n", 1),
        ("cut XXY\n", 1),
        ("cut XYZ XYZ\n", 1),
        ("count\ninspect\n", 2),
        ("inspect xyz\n", 1),
        ("inspect YYZ\n", 1),
        ("inspect XY\n", 1),
        ("inspect XYZ ZYX\n", 1),
        ("inspect XYZ 1 2\n", 1),
        ("volume 1\n", 1),
        ("find 1 2\n", 1),
        ("find 1 2 z\n", 1),
        ("neighbour 1 A+\n", 1),
        ("neighbour 1 C+ 0\n", 1),
        ("neighbour 1 a+ 0\n", 1),
        ("neighbour 1 A+ -1\n", 1),
        ("reopen 1\n", 1),
    ];
    for (job, line) in faults {
        assert_eq!(fault_line(job), line, "{job:?}");
    }
}
