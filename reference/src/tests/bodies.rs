use super::*;

/// What is left of a job after its last line.
fn left_after(job: &str) -> Runner<io::Sink> {
    let mut runner = Runner::new(io::sink());
    for command in Parser::parse(job.as_bytes()).expect("a well-formed job") {
        runner.carry_out(command).expect("a sink takes all");
    }
    runner
}

/// The sides and the cells of a body as a scan has them, rows one after
/// another.
fn body_after(job: &str, name: &str) -> Option<([usize; 3], String)> {
    let bodies = left_after(job).bodies;
    let body = bodies.get(name.as_bytes())?;
    let cells = body.solid.iter();
    let cells = cells.map(|&solid| if solid { '#' } else { '.' }).collect();
    Some((body.frame.sides, cells))
}

/// The cells of a body that the job names `P`.
fn pile_after(job: &str) -> String {
    body_after(job, "P").expect("a granted pile").1
}

/// The answers to `body` and `use` lines, and to nothing else.
fn naming_answers(job: &str) -> Vec<String> {
    let all = answers(job);
    let naming = |line: &&str| line.starts_with("body ") || line.starts_with("use ");
    all.lines().filter(naming).map(str::to_string).collect()
}

const TWO_BOXES: &str = "frame 4 4 4\nbody A boxes 1\n0 0 0 2 2 2\nbody B boxes 1\n1 1 1 3 3 3\n";

/// Eight cells each, one in common. Corners of both, less those in common.
#[test]
fn pairs_of_two_boxes() {
    for (making, count, corners) in [
        ("union A B", 15, 20),
        ("union B A", 15, 20),
        ("meet A B", 1, 8),
        ("less A B", 7, 14),
        ("less B A", 7, 14),
        ("either A B", 14, 16),
        ("turned A", 56, 14),
        ("turned B", 56, 16),
        ("moved A 1 1 1", 8, 8),
        ("moved B 2 0 -1", 4, 8),
    ] {
        let job = format!("{TWO_BOXES}body P = {making}\nuse P\ncount\ncorners\n");
        let all = answers(&job);
        let start = format!("count: {count}\ncorners: {corners}\n");
        assert!(all.starts_with(&start), "{making}: {all}");
    }
    let moved = format!("{TWO_BOXES}body P = moved A 1 1 1\nbody P = either P B\n");
    assert!(!pile_after(&moved).contains('#'));
}

/// The boxes of a pile are those of a scan of its cells.
#[test]
fn piles_are_cut() {
    let job = format!("{TWO_BOXES}body P = either A B\nuse P\ncut XYZ\nvolume\n");
    let expected = "cut XYZ: 6 boxes\n1: (0 0 0)-(1 2 2)\n2: (1 0 0)-(2 1 2)\n\
        3: (1 1 0)-(2 2 1)\n4: (1 1 2)-(2 2 3)\n5: (1 2 1)-(2 3 3)\n6: (2 1 1)-(3 3 3)\n\
        volume: 14\n\nSummary\n  blocks read: 2\n  \
        last block: 4 x 4 x 4, 14 of 64 cells solid\n  \
        answers: 2 granted, 0 refused, 0 not taken\n";
    assert_eq!(answers(&job), expected);
}

#[test]
fn pairs_in_two_frames() {
    let start = "frame 1 1 3\nbody A scan\n#.#\nframe 1 1 5\nbody B scan\n.##.#\n";
    for (making, cells) in [
        ("union A B", "###"),
        ("union B A", "###.#"),
        ("meet A B", "..#"),
        ("meet B A", "..#.."),
        ("less A B", "#.."),
        ("less B A", ".#..#"),
        ("either A B", "##."),
        ("either B A", "##..#"),
    ] {
        let job = format!("{start}body P = {making}\n");
        let expected = ([1, 1, cells.len()], cells.to_string());
        assert_eq!(body_after(&job, "P"), Some(expected), "{making}");
    }
    // A side longer and a side shorter, rows and cells.
    let start = "frame 2 1 2\nbody A scan\n##\n#.\nframe 1 2 2\nbody B scan\n#.\n.#\n";
    assert_eq!(pile_after(&format!("{start}body P = less A B\n")), ".##.");
    assert_eq!(pile_after(&format!("{start}body P = less B A\n")), "...#");
}

#[test]
fn complements() {
    let start = "frame 2 1 3\nbody A scan\n#.#\n...\nframe 1 1 1\n";
    let once = format!("{start}body P = turned A\n");
    assert_eq!(
        body_after(&once, "P"),
        Some(([2, 1, 3], ".#.###".to_string()))
    );
    let twice = format!("{once}body P = turned P\n");
    assert_eq!(pile_after(&twice), "#.#...");
}

#[test]
fn translations_along_z() {
    for (steps, cells) in [
        (0, "##.#"),
        (1, ".##."),
        (2, "..##"),
        (3, "...#"),
        (4, "...."),
        (5, "...."),
        (1024, "...."),
        (-1, "#.#."),
        (-2, ".#.."),
        (-3, "#..."),
        (-4, "...."),
        (-5, "...."),
        (-1024, "...."),
    ] {
        let job =
            format!("frame 1 1 4\nbody A scan\n##.#\nframe 1 1 9\nbody P = moved A 0 0 {steps}\n");
        let expected = Some(([1, 1, 4], cells.to_string()));
        assert_eq!(body_after(&job, "P"), expected, "{steps}");
    }
}

#[test]
fn translations_along_x_and_y() {
    for (rows, shift, cells) in [
        ("#\n#\n.\n.", "1 0 0", "..##"),
        ("#\n#\n.\n.", "-1 0 0", "...."),
        ("#\n.\n#\n.", "0 1 0", ".#.#"),
        ("#\n.\n#\n.", "0 -1 0", "...."),
        ("#\n#\n#\n#", "1 1 0", "...#"),
        ("#\n#\n#\n#", "-1 -1 0", "#..."),
        (".\n#\n.\n.", "1 -1 0", "..#."),
        (".\n.\n#\n.", "-1 1 0", ".#.."),
        ("#\n#\n#\n#", "0 0 1", "...."),
        ("#\n#\n#\n#", "0 0 -1", "...."),
        ("#\n.\n.\n#", "-0 00 -000", "#..#"),
    ] {
        let job = format!("frame 2 2 1\nbody A scan\n{rows}\nbody P = moved A {shift}\n");
        assert_eq!(pile_after(&job), cells, "{shift}");
    }
}

/// What leaves the frame does not come back.
#[test]
fn there_and_back() {
    let start = "frame 1 1 4\nbody A scan\n##.#\n";
    let there = format!("{start}body P = moved A 0 0 2\nbody P = moved P 0 0 -2\n");
    assert_eq!(pile_after(&there), "##..");
    let back = format!("{start}body P = moved A 0 0 -1\nbody P = moved P 0 0 1\n");
    assert_eq!(pile_after(&back), ".#.#");
    // Cells that come in from outside are empty, also below a complement.
    let turned = format!("{start}body P = turned A\nbody P = moved P 0 0 1\n");
    assert_eq!(pile_after(&turned), "...#");
    let turned = format!("{start}body P = moved A 0 0 1\nbody P = turned P\n");
    assert_eq!(pile_after(&turned), "#..#");
}

/// Boxes that overlap, reach over the frame and lie outside it.
#[test]
fn box_lists() {
    let job = "frame 2 2 3\nbody P boxes 4\n0 0 0 1 1 2\n 0 0 1\t1 2 1024 \r\n\
        1 1 3 1024 1024 1024\n0 0 0 1 1 1\n";
    let expected = Some(([2, 2, 3], "###.##......".to_string()));
    assert_eq!(body_after(job, "P"), expected);
    let outside = "frame 2 2 3\nbody P boxes 3\n2 0 0 3 1 1\n0 2 0 1 3 1\n0 0 3 1 1 4\n";
    assert_eq!(pile_after(outside), "............");
    assert_eq!(pile_after("frame 1 1 2\nbody P boxes 0\n"), "..");
    let all = "frame 1 2 2\nbody P boxes 1\n0 0 0 1024 1024 1024\n";
    assert_eq!(pile_after(all), "####");
}

/// Boxes past the first 65536 make no cell solid, but have to be lawful.
#[test]
fn long_box_lists() {
    for (length, cells) in [(65_535, "##"), (65_536, "#.")] {
        let first = "0 0 0 1 1 1\n".repeat(length);
        let last = "0 0 1 1 1 2\n";
        let start = format!("frame 1 1 2\nbody P boxes {}\n{first}", length + 1);
        assert_eq!(pile_after(&format!("{start}{last}")), cells);
        let unlawful = format!("{start}0 0 2 1 1 2\n");
        assert_eq!(naming_answers(&unlawful), ["body P: refused 2"]);
    }
}

#[test]
fn box_bounds() {
    for axis in 0..3 {
        for (low, high, lawful) in [
            (0, 1, true),
            (0, 1024, true),
            (1023, 1024, true),
            (0, 0, false),
            (1, 0, false),
            (1, 1, false),
            (1024, 1024, false),
            (1024, 1025, false),
            (0, 1025, false),
            (0, 65_537, false),
            (65_536, 1, false),
            (0, u64::MAX, false),
            (u64::MAX, u64::MAX, false),
        ] {
            let mut bounds = [0, 0, 0, 1, 1, 1];
            bounds[axis] = low;
            bounds[axis + 3] = high;
            let [i, j, k, x, y, z] = bounds;
            let job = format!(
                "frame 1 1 1\nbody P boxes 1\n0 0 0 1 1 1\n\
                body P boxes 2\n0 0 0 1 1 1\n{i} {j} {k} {x} {y} {z}\nuse P\n"
            );
            let refused = ["body P: refused 2", "use P: not taken"];
            let expected: &[&str] = if lawful { &[] } else { &refused };
            assert_eq!(naming_answers(&job), expected, "{bounds:?}");
        }
    }
}

#[test]
fn shift_range() {
    for axis in 0..3 {
        for (steps, lawful) in [
            ("1024", true),
            ("-1024", true),
            ("1025", false),
            ("-1025", false),
            ("65536", false),
            ("-65536", false),
            ("4294967297", false),
            ("9223372036854775807", false),
            ("-9223372036854775808", false),
        ] {
            let mut shift = ["0"; 3];
            shift[axis] = steps;
            let making = format!("moved A {}", shift.join(" "));
            let job =
                format!("frame 1 1 1\nbody A scan\n#\nbody P scan\n#\nbody P = {making}\nuse P\n");
            let refused = ["body P: refused 3", "use P: not taken"];
            let expected: &[&str] = if lawful { &[] } else { &refused };
            assert_eq!(naming_answers(&job), expected, "{making}");
            let missing = format!("body P = {making}\n");
            assert_eq!(naming_answers(&missing), ["body P: not taken"]);
        }
    }
}

#[test]
fn names_that_stand_for_nothing() {
    let start = "frame 1 1 2\nbody A scan\n#.\nbody P scan\n##\n";
    for making in [
        "union A Q",
        "meet Q A",
        "less Q Q",
        "either P Q",
        "turned Q",
        "moved Q 0 0 0",
        "union a A",
        "union A AA",
    ] {
        let job = format!("{start}body P = {making}\nuse P\nbody R = turned P\n");
        let expected = ["body P: not taken", "use P: not taken", "body R: not taken"];
        assert_eq!(naming_answers(&job), expected, "{making}");
        assert!(body_after(&job, "A").is_some());
    }
}

#[test]
fn short_grids() {
    let job = "frame 1 1 65\nbody P grid 2\n0\n1\nbody P grid 1\n1\nuse P\n\
        body P grid 3\n9223372036854775808\n3\n7\nuse P\ncount\n";
    let expected = "body P: refused 10\nuse P: not taken\ncount: 2\n\
        \nSummary\n  blocks read: 2\n  last block: 1 x 1 x 65, 2 of 65 cells solid\n  \
        answers: 1 granted, 1 refused, 1 not taken\n";
    assert_eq!(answers(job), expected);
}

/// Piles keep what a name stood for when they were made.
#[test]
fn names_are_replaced() {
    let start = "frame 1 1 3\nbody A scan\n#..\nbody B scan\n.#.\nbody P = union A B\n";
    let replaced = format!("{start}body A scan\n..#\n");
    assert_eq!(pile_after(&replaced), "##.");
    assert_eq!(
        pile_after(&format!("{replaced}body P = union A P\n")),
        "###"
    );
    let itself = format!("{start}body P = turned P\nbody P = either P A\n");
    assert_eq!(pile_after(&itself), "#.#");
    let gone = format!("{start}body A = turned Q\nbody B grid 0\n");
    assert_eq!(pile_after(&gone), "##.");
    assert_eq!(body_after(&gone, "A"), None);
    assert_eq!(body_after(&gone, "B"), None);
}

/// The block in use is the body that the name stood for at the time.
#[test]
fn blocks_in_use() {
    let job = "use A\nframe 1 1 2\nuse A\nbody A scan\n##\ncount\nuse A\ncount\n\
        body A scan\n.#\ncount\nuse A\ncount\nframe 1 1 1\ncount\nuse A\ncount\ncut XYZ\n\
        body B = turned A\nuse C\nvolume\nbody A = turned C\nvolume\nuse B\nvolume\ncount\n\
        inspect ZYX\nframe 1 0 1\ncount\nuse B\ncount\nuse A\ncount\n";
    let expected = "use A: not taken\nuse A: not taken\ncount: not taken\ncount: 2\ncount: 2\n\
        count: 1\ncount: not taken\ncount: 1\ncut XYZ: 1 boxes\n1: (0 0 1)-(1 1 2)\n\
        use C: not taken\nvolume: 1\nbody A: not taken\nvolume: 1\nvolume: not taken\n\
        count: 1\ninspect ZYX: 1 boxes, volume 1\nframe: refused 1\ncount: not taken\n\
        count: 1\nuse A: not taken\ncount: 1\n\nSummary\n  blocks read: 2\n  \
        last block: 1 x 1 x 2, 1 of 2 cells solid\n  \
        answers: 11 granted, 1 refused, 9 not taken\n";
    assert_eq!(answers(job), expected);
}

/// A scan after `use` has the frame of the last `frame` line.
#[test]
fn use_leaves_the_frame() {
    let job = "frame 1 1 3\nbody A scan\n###\nframe 1 1 2\nuse A\nscan\n.#\ncount\n";
    assert!(answers(job).starts_with("count: 1\n"));
}

#[test]
fn names_are_any_words() {
    let job = "frame 1 1 2\nbody = scan\n#.\nbody scan = turned =\nbody boxes = union scan =\n\
        body body = = =\n";
    assert_eq!(fault_line(job), 6);
    let job = "frame 1 1 2\nbody = scan\n#.\nbody scan = turned =\nbody = = union scan =\n\
        body turned = less = scan\nuse turned\ncount\nuse =\ncount\nuse 007\nuse \u{e9}\n";
    assert!(
        answers(job).starts_with("count: 1\ncount: 2\nuse 007: not taken\nuse \u{e9}: not taken\n")
    );
    let commands = Parser::parse(b"use \xff\x00\r.\r\n").expect("a well-formed job");
    let mut out = Vec::new();
    Runner::run(&mut out, commands).expect("writing to memory");
    assert!(out.starts_with(b"use \xff\x00\r.: not taken\n"));
}

#[test]
fn signed_numbers() {
    for (word, number) in [
        ("0", Some(0)),
        ("-0", Some(0)),
        ("12", Some(12)),
        ("-0012", Some(-12)),
        ("9223372036854775807", Some(i64::MAX)),
        ("-9223372036854775808", Some(i64::MIN)),
        ("9223372036854775808", None),
        ("-9223372036854775809", None),
        ("-18446744073709551616", None),
        ("", None),
        ("-", None),
        ("--1", None),
        ("+1", None),
        ("1-", None),
        ("- 1", None),
    ] {
        assert_eq!(parse_signed(word.as_bytes()), number, "{word:?}");
    }
}

#[test]
fn faults_in_bodies_that_are_read() {
    let faults = [
        ("body\n", 1),
        ("body A\n", 1),
        ("body A scan\n#\n", 1),
        ("body A grid 0\n", 1),
        ("body A boxes 0\n", 1),
        ("frame 1 1 1\nframe 0 1 1\nbody A boxes 0\n", 3),
        ("frame 1 1 1\nbody A solid\n", 2),
        ("frame 1 1 1\nbody A scan 1\n#\n", 2),
        ("frame 1 2 2\nbody A scan\n##\n#\n", 4),
        ("frame 1 2 2\nbody A scan\n##\n", 4),
        ("frame 1 1 1\nbody A grid\n", 2),
        ("frame 1 1 1\nbody A grid 16777217\n", 2),
        ("frame 1 1 1\nbody A grid 2\n1\n", 4),
        ("frame 1 1 1\nbody A grid 1\n-1\n", 3),
        ("frame 1 1 1\nbody A boxes\n", 2),
        ("frame 1 1 1\nbody A boxes 1000001\n", 2),
        ("frame 1 1 1\nbody A boxes 2\n0 0 0 1 1 1\n", 4),
        ("frame 1 1 1\nbody A boxes 1\n0 0 0 1 1\n", 3),
        ("frame 1 1 1\nbody A boxes 1\n0 0 0 1 1 1 1\n", 3),
        ("frame 1 1 1\nbody A boxes 1\n0 0 -0 1 1 1\n", 3),
        ("frame 1 1 1\nbody A boxes 1\n\n0 0 0 1 1 1\n", 3),
        ("frame 1 1 1\nbody A boxes 0\n0 0 0 1 1 1\n", 3),
    ];
    for (job, line) in faults {
        assert_eq!(fault_line(job), line, "{job:?}");
    }
}

#[test]
fn faults_in_piles() {
    let faults = [
        "body A = union B\n",
        "body A = union B C D\n",
        "body A union B C\n",
        "body = union B C\n",
        "body A = xor B C\n",
        "body A = Union B C\n",
        "body A =union B C\n",
        "body A =\n",
        "body A = turned\n",
        "body A = turned B C\n",
        "body A = moved B 1 1\n",
        "body A = moved B 1 1 1 1\n",
        "body A = moved B 1 +1 1\n",
        "body A = moved B 1 1 -\n",
        "body A = moved B 1 1 9223372036854775808\n",
        "body A = moved B -9223372036854775809 1 1\n",
        "body A = B\n",
        "use\n",
        "use A B\n",
    ];
    for job in faults {
        assert_eq!(fault_line(job), 1, "{job:?}");
    }
}
