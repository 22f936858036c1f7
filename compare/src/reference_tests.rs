//! The reference held to the walks on paper and to each refusal's row.

use crate::reference::*;
use crate::search;

type Row6 = [u8; 6];

const SQUARE: [Row6; 4] = [
    [1, 1, 0, 2, 1, 0],
    [2, 2, 0, 3, 1, 0],
    [3, 2, 0, 4, 1, 0],
    [4, 2, 0, 1, 2, 0],
];
const TRIANGLE: [Row6; 4] = [
    [1, 1, 0, 2, 1, 0],
    [1, 2, 0, 4, 1, 0],
    [1, 3, 0, 3, 2, 0],
    [2, 2, 0, 3, 1, 0],
];

fn sheet(switches: u8, rows: &[Row6]) -> Vec<u8> {
    let mut bytes = vec![1, switches];
    for row in rows {
        bytes.push(2);
        bytes.extend(row);
    }
    bytes
}

fn faults(places: &[(u8, u8)]) -> Vec<u8> {
    places.iter().flat_map(|&(s, p)| [3, s, p]).collect()
}

/// What the program says of one ask: the line after source and destination.
fn says(sheet: &[u8], faults: &[u8], ask: (u8, u8)) -> String {
    let asks = [4, ask.0, ask.1];
    let printed = program_output([Some(sheet), Some(faults), Some(&asks)]);
    let front = format!("{} {} ", ask.0, ask.1);
    let line = printed.strip_prefix(&front).expect("the ask comes first");
    line.trim_end_matches('\n').to_string()
}

fn refusal(sheet: &[u8], faults: &[u8]) -> u64 {
    Plant::read(sheet, faults).map_or_else(|wrong| wrong.refusal, |_| 0)
}

#[test]
fn p1_to_p5() {
    let q = sheet(5, &SQUARE);
    let dead = |places: &[(u8, u8)]| says(&q, &faults(places), (1, 3));
    assert_eq!(dead(&[]), "delivered 2 1:1 2:2");
    assert_eq!(dead(&[(2, 2)]), "delivered 4 1:1 2:1 1:2 4:1");
    assert_eq!(dead(&[(2, 2), (4, 1)]), "none 4 1:1 2:1 1:2 4:2");
    assert_eq!(dead(&[(1, 1), (1, 2)]), "none 0");
    assert_eq!(says(&q, &[], (3, 3)), "delivered 0");
}

#[test]
fn p6_with_its_tag() {
    let q = sheet(5, &SQUARE);
    let hops = "none 8 1:1 2:2 3:2 4:2 1:2 4:1 3:1 2:1";
    assert_eq!(says(&q, &[], (1, 5)), hops);
    let mut tag = [7; 12];
    let mut trace = [9; 18];
    let walk = walk((1, 5), &q, &[], &mut tag, &mut trace);
    let end = WalkEnd::None;
    assert_eq!(
        walk,
        Walk {
            end,
            switch: 1,
            hops: 8
        }
    );
    assert_eq!(tag, [0, 2, 1, 2, 1, 2, 1, 2, 0, 0, 7, 7]);
    assert_eq!(trace[16..], [9, 9]);
}

#[test]
fn p7_to_p9() {
    let mut rows = SQUARE;
    rows[0][2] = 10;
    assert_eq!(says(&sheet(5, &rows), &[], (1, 3)), "delivered 2 1:2 4:1");
    let hops = "none 8 1:1 2:2 3:2 1:2 4:1 1:3 3:1 2:1";
    assert_eq!(says(&sheet(5, &TRIANGLE), &[], (1, 5)), hops);
    let twice = sheet(3, &[[1, 1, 0, 2, 1, 0], [1, 2, 0, 2, 2, 0]]);
    assert_eq!(says(&twice, &[], (1, 3)), "none 4 1:1 2:2 1:2 2:1");
}

#[test]
fn p10_refusals() {
    assert_eq!(refusal(&sheet(64, &[]), &[]), 0);
    assert_eq!(refusal(&sheet(65, &[]), &[]), 2);
    assert_eq!(refusal(&sheet(0, &[]), &[]), 2);
    assert_eq!(refusal(&sheet(2, &[[1, 48, 0, 2, 1, 0]]), &[]), 0);
    assert_eq!(refusal(&sheet(2, &[[1, 49, 0, 2, 1, 0]]), &[]), 3);
    assert_eq!(refusal(&sheet(2, &[[2, 1, 0, 2, 2, 0]]), &[]), 3);
}

#[test]
fn the_programs_example() {
    let q = sheet(5, &SQUARE);
    let asks = [4, 1, 3, 4, 1, 5, 4, 3, 3, 4, 1, 6];
    let lines = "1 3 delivered 4 1:1 2:1 1:2 4:1\n\
                 1 5 none 6 1:1 2:1 1:2 4:1 3:2 4:2\n\
                 3 3 delivered 0\n\
                 1 6 refused 6\n";
    let printed = program_output([Some(&q), Some(&[3, 2, 2]), Some(&asks)]);
    assert_eq!(printed, lines);
}

#[test]
fn the_programs_other_ends() {
    let q = sheet(5, &SQUARE);
    let print = |asks: &[u8]| program_output([Some(&q), Some(&[]), Some(asks)]);
    assert_eq!(print(&[]), "");
    assert_eq!(print(&[4, 1, 1, 4]), "1 1 delivered 0\nasks broken\n");
    assert_eq!(
        print(&[4, 1, 1, 3, 1, 1, 4, 1, 1]),
        "1 1 delivered 0\nasks broken\n"
    );
    assert_eq!(
        program_output([Some(&q), None, Some(&[4, 1, 1])]),
        "file missing\n"
    );
    let refused = program_output([Some(&[]), Some(&[9]), Some(&[4, 0, 255])]);
    assert_eq!(refused, "0 255 refused 1\n");
}

/// Refusal, part, start and length.
fn fault_of(sheet: &[u8], faults: &[u8]) -> (u64, Part, usize, usize) {
    let row = faulty_row(sheet, faults);
    (refusal(sheet, faults), row.part, row.start, row.length)
}

#[test]
fn rows_of_the_sheet() {
    let at = |sheet: &[u8]| fault_of(sheet, &[9]);
    assert_eq!(at(&[]), (1, Part::Sheet, 0, 0));
    assert_eq!(at(&[2, 5]), (1, Part::Sheet, 0, 1));
    assert_eq!(at(&[1]), (1, Part::Sheet, 0, 1));
    assert_eq!(at(&[1, 65, 9]), (2, Part::Sheet, 0, 2));
    assert_eq!(at(&[1, 5, 1, 5]), (1, Part::Sheet, 2, 1));
    assert_eq!(at(&[1, 5, 2, 1, 49]), (1, Part::Sheet, 2, 3));
    assert_eq!(at(&[1, 5, 2, 1, 49, 0, 2, 1, 0, 9]), (3, Part::Sheet, 2, 7));
}

#[test]
fn rows_of_cables_that_clash() {
    let rule = |row: Row6| fault_of(&sheet(5, &[SQUARE[0], row]), &[]);
    for row in [
        [1, 1, 0, 3, 1, 0],
        [3, 1, 0, 2, 1, 0],
        [6, 1, 0, 3, 1, 0],
        [3, 1, 0, 0, 1, 0],
        [3, 0, 0, 4, 1, 0],
        [3, 1, 0, 4, 49, 0],
        [3, 1, 0, 3, 2, 0],
    ] {
        assert_eq!(rule(row), (3, Part::Sheet, 9, 7), "{row:?}");
    }
    assert_eq!(rule([1, 2, 0, 2, 2, 0]), (0, Part::Sheet, 0, 0));
}

#[test]
fn rows_of_the_fault_list() {
    let q = sheet(5, &SQUARE);
    let at = |faults: &[u8]| fault_of(&q, faults);
    assert_eq!(at(&[]), (0, Part::Sheet, 0, 0));
    assert_eq!(at(&[3, 2, 2, 3, 3, 1]), (0, Part::Sheet, 0, 0));
    assert_eq!(at(&[3, 2, 2, 2, 3, 1]), (4, Part::Faults, 3, 1));
    assert_eq!(at(&[3, 2, 2, 3, 3]), (4, Part::Faults, 3, 2));
    assert_eq!(at(&[3, 2, 3, 3]), (5, Part::Faults, 0, 3));
    assert_eq!(at(&[3, 0, 1]), (5, Part::Faults, 0, 3));
}

/// 512 cables between 64 switches, eight times round the ring.
fn full_rows() -> Vec<Row6> {
    let row = |i: u8, turn: u8| [i + 1, 2 * turn + 1, 0, (i + 1) % 64 + 1, 2 * turn + 2, 0];
    (0..8)
        .flat_map(|turn| (0..64).map(move |i| row(i, turn)))
        .collect()
}

#[test]
fn rows_past_the_limits() {
    let full = sheet(64, &full_rows());
    assert_eq!(fault_of(&full, &[]).0, 0);
    let more = |tail: &[u8]| fault_of(&[&full[..], tail].concat(), &[]);
    assert_eq!(more(&[2, 0, 0, 0, 0, 0, 0]), (1, Part::Sheet, 3586, 7));
    assert_eq!(more(&[2, 1, 40, 0, 2, 40, 0, 9]), (1, Part::Sheet, 3586, 7));
    assert_eq!(more(&[2, 1]), (1, Part::Sheet, 3586, 2));
    assert_eq!(more(&[3, 1, 1, 1, 1, 1, 1]), (1, Part::Sheet, 3586, 1));
    let many = [3, 1, 1].repeat(512);
    let list = |tail: &[u8]| fault_of(&full, &[&many[..], tail].concat());
    assert_eq!(list(&[]).0, 0);
    assert_eq!(list(&[3, 99, 99]), (4, Part::Faults, 1536, 3));
    assert_eq!(list(&[3]), (4, Part::Faults, 1536, 1));
    assert_eq!(list(&[2, 1, 1]), (4, Part::Faults, 1536, 1));
}

/// One step on Q with fault 2:2 and a tag of ten bytes.
fn step_q(numbers: [u64; 3], tag: &mut [u8]) -> Answer {
    step(numbers, &sheet(5, &SQUARE), &[3, 2, 2], tag)
}

#[test]
fn steps_refused() {
    let mut tag = [0; 10];
    let mut refused = |numbers| step_q(numbers, &mut tag);
    assert_eq!(refused([0, 0, 3]), Answer::Refused(6));
    assert_eq!(refused([4294967297, 0, 3]), Answer::Refused(6));
    assert_eq!(refused([1, 0, 6]), Answer::Refused(6));
    assert_eq!(refused([1, 3, 3]), Answer::Refused(8));
    assert_eq!(refused([1, 4294967297, 3]), Answer::Refused(8));
    assert_eq!(refused([2, 2, 2]), Answer::Refused(8));
    assert_eq!(step_q([1, 9, 3], &mut [0; 9]), Answer::Refused(7));
    let mut elsewhere = [0, 0, 0, 0, 0, 0, 0, 0, 0, 1];
    assert_eq!(step_q([1, 0, 3], &mut elsewhere), Answer::Refused(9));
    for cell in [[0, 3], [3, 1], [2, 1]] {
        let mut tag = [0; 10];
        tag[2..4].copy_from_slice(&cell);
        assert_eq!(step_q([2, 1, 2], &mut tag), Answer::Refused(10));
    }
}

#[test]
fn steps_taken() {
    // A dead current port is no fault, and the parent need not be the arrival.
    let mut tag = [0, 0, 1, 2, 0, 0, 0, 0, 0, 0];
    assert_eq!(step_q([2, 1, 3], &mut tag), Answer::Forwarded(1));
    assert_eq!(tag, [0, 0, 1, 2, 0, 0, 0, 0, 0, 0]);
    // Straight back: the parent is stored, the current port stays 0.
    let mut tag = [0; 10];
    assert_eq!(step_q([2, 1, 3], &mut tag), Answer::Forwarded(1));
    assert_eq!(tag, [0, 0, 1, 0, 0, 0, 0, 0, 0, 0]);
    // Without a current port, whatever parent is stored is replaced.
    let mut tag = [77, 0, 0, 0, 0, 0, 0, 0, 0, 0];
    assert_eq!(step_q([1, 2, 3], &mut tag), Answer::Forwarded(1));
    assert_eq!(tag[..2], [2, 1]);
    let mut tag = [0, 2, 0, 0, 0, 0, 0, 0, 0, 0];
    assert_eq!(step_q([1, 2, 3], &mut tag), Answer::None);
    assert_eq!(Answer::None.number(), 8589934592);
    assert_eq!(Answer::Refused(10).number(), 12884901898);
}

#[test]
fn walks_refused_write_nothing() {
    let q = sheet(5, &SQUARE);
    for (tag_room, trace_room, ask, number) in [
        (10, 15, (1, 3), 7),
        (9, 16, (1, 3), 7),
        (0, 0, (1, 6), 6),
        (10, 16, (0, 3), 6),
    ] {
        let (mut tag, mut trace) = (vec![5; tag_room], vec![6; trace_room]);
        let walk = walk(ask, &q, &[], &mut tag, &mut trace);
        let end = WalkEnd::Refused(number);
        assert_eq!((walk.end, walk.switch, walk.hops), (end, 0, 0));
        assert_eq!((tag, trace), (vec![5; tag_room], vec![6; trace_room]));
    }
}

#[test]
fn the_search() {
    let q = sheet(5, &SQUARE);
    let reach = search::search(&q, &[3, 2, 2], 1);
    assert_eq!(reach.cables, 3);
    assert_eq!(reach.switches.into_iter().collect::<Vec<_>>(), [1, 2, 3, 4]);
    let cut = search::search(&q, &[3, 2, 2, 3, 4, 1], 3);
    assert_eq!(cut.cables, 0);
    assert_eq!(cut.switches.into_iter().collect::<Vec<_>>(), [3]);
}

#[test]
fn condition_three_sees_a_bad_walk() {
    let q = sheet(5, &SQUARE);
    let reach = search::search(&q, &[], 1);
    let judge = |destination, delivered, switch, hops: &[(u8, u8)]| {
        let source = 1;
        let seen = search::Seen {
            source,
            destination,
            delivered,
            switch,
            hops,
        };
        search::check(&reach, &seen).is_ok()
    };
    assert!(judge(3, true, 3, &[(1, 1), (2, 2)]));
    assert!(!judge(3, true, 2, &[(1, 1)]));
    assert!(!judge(3, true, 3, &[(1, 1), (3, 1)]));
    assert!(!judge(3, false, 1, &[(1, 1), (2, 1)]));
    assert!(!judge(5, false, 1, &[(1, 1), (2, 1)]));
    assert!(!judge(5, true, 5, &[]));
    assert!(!judge(2, true, 2, &[(1, 1), (2, 1), (1, 1)]));
}
