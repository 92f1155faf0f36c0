use super::*;

mod bodies;
mod cuts;

fn answers(job: &str) -> String {
    let commands = Parser::parse(job.as_bytes()).expect("a well-formed job");
    let mut out = Vec::new();
    Runner::run(&mut out, commands).expect("writing to memory");
    String::from_utf8(out).expect("answers are text")
}

fn fault_line(job: &str) -> usize {
    Parser::parse(job.as_bytes()).expect_err("a fault").line
}

/// A block of the cells that the test picks.
fn block(sides: [u64; 3], pick: impl Fn(Place) -> bool) -> Block {
    Block::of_cells(Frame::new(sides).expect("good sides"), pick)
}

fn in_box(cell: Place, from: usize, to: usize) -> bool {
    cell.iter().all(|&c| from <= c && c < to)
}

fn size(block: &Block) -> (usize, usize) {
    let corners = block.corners(MAX_CORNERS).expect("a short list");
    (block.count(), corners.len())
}

#[test]
fn small_scan() {
    let expected = "count: 4\ncorners: 18\n\
        (0 0 1)\n(0 0 2)\n(0 1 0)\n(0 1 1)\n(0 2 0)\n(0 2 2)\n(1 0 1)\n(1 0 2)\n(1 1 0)\n\
        (1 1 1)\n(1 1 2)\n(1 1 3)\n(1 2 0)\n(1 2 3)\n(2 1 2)\n(2 1 3)\n(2 2 2)\n(2 2 3)\n\
        \nSummary\n  blocks read: 1\n  last block: 2 x 2 x 3, 4 of 12 cells solid\n  \
        answers: 2 granted, 0 refused, 0 not taken\n";
    let job = "frame 2 2 3\nscan\n.#.\n##.\n...\n..#\ncount\ncorners\n";
    assert_eq!(answers(job), expected);
}

#[test]
fn empty_job() {
    let expected = "\nSummary\n  blocks read: 0\n  last block: none\n  \
        answers: 0 granted, 0 refused, 0 not taken\n";
    assert_eq!(answers(""), expected);
    assert_eq!(answers(" \t\n\r\n\n"), expected);
}

#[test]
fn small_blocks() {
    let pair = block([4, 4, 4], |cell| cell == [0, 0, 0] || cell == [1, 1, 0]);
    assert_eq!(size(&pair), (2, 12));
    let xor = block([4, 4, 4], |cell| in_box(cell, 0, 2) ^ in_box(cell, 1, 3));
    assert_eq!(size(&xor), (14, 16));
    let union = block([4, 4, 4], |cell| in_box(cell, 0, 2) | in_box(cell, 1, 3));
    assert_eq!(size(&union), (15, 20));
    assert_eq!(size(&block([3, 4, 5], |_| true)), (60, 8));
    assert_eq!(size(&block([3, 4, 5], |_| false)), (0, 0));
}

#[test]
fn grid_words() {
    let frame = Frame::new([1, 1, 65]).expect("good sides");
    let block = Block::from_grid(frame, &[1 << 63, 3]).expect("enough words");
    assert_eq!(block.count(), 2);
    assert!(block.is_solid([0, 0, 63]) && block.is_solid([0, 0, 64]));
    let short = Block::from_grid(frame, &[1]).expect_err("a word is missing");
    assert_eq!(short, Refusal::GridWords);
    assert!(Block::from_grid(frame, &[1, 2, 3]).is_ok());
}

#[test]
fn frame_sides() {
    for axis in 0..3 {
        for (side, granted) in [(0, false), (1, true), (1024, true), (1025, false)] {
            let mut sides = [1; 3];
            sides[axis] = side;
            assert_eq!(Frame::new(sides).is_ok(), granted);
        }
    }
}

#[test]
fn corner_tables() {
    let even = |cell: Place| cell.iter().all(|c| c % 2 == 0);
    let full = block([7, 7, 1023], even);
    assert_eq!(full.corners(65_536).map(|list| list.len()), Ok(65_536));
    assert_eq!(full.corners(70_000).map(|list| list.len()), Ok(65_536));
    assert_eq!(full.corners(65_535), Err(Refusal::CornerTable));
    let over = block([9, 7, 1023], |cell| {
        if cell[0] < 8 {
            even(cell)
        } else {
            cell == [8, 0, 0]
        }
    });
    assert_eq!(over.corners(70_000), Err(Refusal::CornerTable));
    assert_eq!(block([2, 2, 2], |_| false).corners(0), Ok(Vec::new()));
}

/// Blocks of random cells.
fn random_blocks() -> Vec<Block> {
    let mut state = 1u64;
    let mut blocks = Vec::new();
    for sides in [[1, 1, 1], [1, 2, 70], [5, 4, 3], [6, 6, 6], [9, 1, 2]] {
        let words: Vec<u64> = (0..100)
            .map(|_| {
                state = state
                    .wrapping_mul(6_364_136_223_846_793_005)
                    .wrapping_add(1);
                state ^ state >> 29
            })
            .collect();
        let frame = Frame::new(sides).expect("good sides");
        blocks.push(Block::from_grid(frame, &words).expect("enough words"));
    }
    blocks
}

/// A cell is solid when an odd number of corners lie at or below it on every
/// axis.
#[test]
fn corners_give_the_cells_back() {
    for random in random_blocks() {
        let sides = random.frame.sides.map(|side| side as u64);
        let corners = random.corners(MAX_CORNERS).expect("a short list");
        assert!(corners.is_sorted());
        let again = block(sides, |cell| {
            let below = |corner: &&Place| (0..3).all(|axis| corner[axis] <= cell[axis]);
            corners.iter().filter(below).count() % 2 == 1
        });
        assert_eq!(again.solid, random.solid);
    }
}

#[test]
fn blocks_come_and_go() {
    let job = "count\nframe 1 1 1\ncorners\nscan\n#\ncount\nframe 1 1 1\ncount\n\
        grid 1\n3\ncount\ngrid 0\ncount\nframe 0 1 1\ncorners";
    let expected = "count: not taken\ncorners: not taken\ncount: 1\ncount: not taken\n\
        count: 1\ngrid: refused 10\ncount: not taken\nframe: refused 1\ncorners: not taken\n\
        \nSummary\n  blocks read: 2\n  last block: none\n  \
        answers: 2 granted, 2 refused, 5 not taken\n";
    assert_eq!(answers(job), expected);
}

#[test]
fn spaces_and_line_ends() {
    let loose = "\t frame  02 1\t1 \r\n\n scan\r\n#\r\n.\r\n  \n grid 2 \n 00001 \n0\ncount";
    assert!(answers(loose).starts_with("count: 1\n\n"));
}

#[test]
fn faults_are_found_at_their_line() {
    let faults = [
        ("count\nflame 1 1 1\n", 2),
        ("frame 1 1\n", 1),
        ("count 1\n", 1),
        ("frame 1 -1 1\n", 1),
        ("frame 1 1 18446744073709551616\n", 1),
        ("table cells 1\n", 1),
        ("table corners 1000001\n", 1),
        ("\nscan\n#\n", 2),
        ("frame 1 1 1\nframe 0 1 1\nscan\n#\n", 3),
        ("frame 1 2 2\nscan\n##\n#\n", 4),
        ("frame 1 2 2\nscan\n##\n###\n", 4),
        ("frame 1 2 2\nscan\n##\n# \n", 4),
        ("frame 1 2 2\nscan\n##", 4),
        ("frame 1 2 2\nscan\n##\n", 4),
        ("frame 1 1 1\nscan\n#\n#\n", 4),
        ("grid 1\n1\n", 1),
        ("frame 1 1 1\ngrid 16777217\n", 2),
        ("frame 1 1 1\ngrid 2\n1\n\n1\n", 4),
        ("frame 1 1 1\ngrid 2\n1 1\n", 3),
        ("frame 1 1 1\ngrid 2\n1\n", 4),
    ];
    for (job, line) in faults {
        assert_eq!(fault_line(job), line, "{job:?}");
    }
}

#[test]
fn stored_malformed_jobs_have_faults() {
    let folder = concat!(env!("CARGO_MANIFEST_DIR"), "/malformed");
    let mut jobs = 0;
    for entry in std::fs::read_dir(folder).expect("the folder") {
        let path = entry.expect("an entry").path();
        let text = std::fs::read(&path).expect("a job");
        assert!(Parser::parse(&text).is_err(), "{}", path.display());
        jobs += 1;
    }
    assert!(jobs > 0);
}
