//! The generated scripts walk the state space, and what must hold of every
//! board and listing holds along the way.

use reference::{list, read_line, walk, Board, Kind, Record, Slot, State, Step, Unit, FULL_WEIGHT};
use scripts::{check_listing, script, Statistics};

#[test]
fn same_script_again() {
    for index in 0..300 {
        assert_eq!(script(7, index), script(7, index));
    }
    let differing = (0..300).filter(|&index| script(7, index) != script(8, index));
    assert!(differing.count() > 290);
}

#[test]
fn everything_is_met() {
    let mut statistics = Statistics::default();
    for index in 0..10_000 {
        statistics.add(&script(2, index));
    }
    assert_eq!(statistics.missing(), Vec::<String>::new());
    assert!(statistics.accepted_share() > 80.0);
}

#[test]
fn listings_hold() {
    for index in 0..10_000 {
        let script = script(3, index);
        let listing = list(&script);
        if let Err(fault) = check_listing(&script, &listing) {
            panic!("script {index}: {fault}");
        }
    }
}

/// Every board is sound, a refused line changes nothing, and what was brought
/// in is what unit 0 took back and what is still out.
#[test]
fn boards_hold() {
    for index in 0..2_000 {
        let mut before = Board::BLANK;
        let mut brought_in = 0;
        let mut taken_back = 0;
        let _ = walk(&script(4, index), |number, line, answer, board| {
            assert!(board.is_sound(), "script {index}, line {number}");
            assert_eq!(board.finished(), Ok(board.debt == 0));
            if answer != 0 {
                assert_eq!(*board, before, "script {index}, line {number}");
            } else if number > 0 {
                let Ok(Record::Step(step)) = read_line(line, false) else {
                    panic!("script {index}, line {number} is no step");
                };
                if step.kind == Step::MOVE {
                    let mut expected = before.clone();
                    expected.parents[usize::from(step.unit)] = step.other;
                    assert_eq!(*board, expected, "script {index}, line {number}");
                } else {
                    assert_ne!(*board, before, "script {index}, line {number}");
                    // A finished board takes starts and moves alone (M-108).
                    assert!(step.kind == Step::START || before.debt > 0);
                }
                let message = before.slots[usize::from(step.slot)];
                match (step.kind, message.kind) {
                    (Step::START, _) | (Step::DELIVER, Kind::Request) => {
                        brought_in += u128::from(FULL_WEIGHT);
                    }
                    (Step::DELIVER, Kind::Return) if message.to == 0 => {
                        taken_back += u128::from(message.weight);
                    }
                    (Step::REST, _) if step.unit == 0 => {
                        taken_back += u128::from(before.units[0].weight);
                    }
                    _ => (),
                }
            }
            assert_eq!(brought_in, taken_back + u128::from(board.debt));
            before = board.clone();
        });
    }
}

/// How many steps a drain from a quiet board has at most (M-108).
fn bound(board: &Board) -> u64 {
    let n = usize::from(board.n);
    let mut depths = vec![0; n];
    for unit in 1..n {
        depths[unit] = depths[usize::from(board.parents[unit])] + 1;
    }
    let deepest = depths.into_iter().max().unwrap_or(0);
    let waiting = |unit: &&Unit| unit.state == State::Waiting;
    let returns = |slot: &&Slot| slot.kind == Kind::Return;
    let carriers =
        board.units.iter().filter(waiting).count() + board.slots.iter().filter(returns).count();
    carriers as u64 * ((u64::from(board.d) + 2) * deepest + 1)
}

/// From every quiet board that a script comes to, the accepted steps without start
/// and move are no more than the bound of that board. Of all these bounds only the
/// least number of steps that is still left has to be kept.
#[test]
fn no_drain_passes_its_bound() {
    let (mut steps, mut ends, mut attained) = (0, 0, 0);
    for index in 0..2_000 {
        let mut left: Option<u64> = None;
        let _ = walk(&script(5, index), |number, line, answer, board| {
            let active = board.units.iter().any(|unit| unit.state == State::Active);
            let quiet = !active && board.work_under_way() == 0;
            if answer == 0 && number > 0 {
                let Ok(Record::Step(step)) = read_line(line, false) else {
                    panic!("script {index}, line {number} is no step");
                };
                if step.kind == Step::START || step.kind == Step::MOVE {
                    left = None;
                } else if let Some(before) = left {
                    assert!(quiet && before > 0, "script {index}, line {number}");
                    left = Some(before - 1);
                    steps += 1;
                    ends += u64::from(board.debt == 0);
                    attained += u64::from(board.debt == 0 && before == 1);
                }
            }
            if quiet {
                let most = bound(board);
                left = Some(left.map_or(most, |left| left.min(most)));
            }
        });
    }
    println!("{steps} steps of drains, {ends} to their ends, {attained} as long as a bound");
    assert!(steps > 10_000 && ends > 500);
}

/// How often a script meets an event, as the statistics print it.
fn count_of(event: &str, script: &str) -> u64 {
    let mut statistics = Statistics::default();
    statistics.add(script.replace('|', "\t").as_bytes());
    let text = statistics.to_string();
    let mut counts = text
        .lines()
        .filter_map(|line| line.trim().strip_prefix(event));
    counts.next().unwrap().trim().parse().unwrap()
}

/// The chain 0, 1, 2 with d = 2. A return finds unit 1 waiting after so many
/// ticks; in the last row work ends the wait before the release.
#[test]
fn releases_after_returns_are_counted() {
    for (ticks, further, at, below, at_zero) in [
        ("", "tick|1\ntick|1\n", "d above 0", 0, 0),
        ("tick|1\n", "tick|1\n", "1 to d - 1", 1, 0),
        ("tick|1\ntick|1\n", "", "0 below d", 1, 1),
        (
            "tick|1\ntick|1\n",
            "deliver|1\nrest|1\ntick|1\ntick|1\n",
            "0 below d",
            0,
            0,
        ),
    ] {
        let script = format!(
            "board|2|2|0|1\nstart|2\nsend|2|1|0\ndeliver|0\nrest|1\nsend|2|1|1\n\
            rest|2\ntick|2\ntick|2\nrelease|2|0\n{ticks}deliver|0\n{further}release|1|0\n"
        );
        for countdown in ["d above 0", "1 to d - 1", "0 below d"] {
            let event = format!("return to a waiting unit, countdown {countdown}");
            assert_eq!(count_of(&event, &script), u64::from(countdown == at));
        }
        let event = "release after a return, countdown below d";
        assert_eq!(count_of(event, &script), below, "{script}");
        let event = "release after a return, countdown 0 below d";
        assert_eq!(count_of(event, &script), at_zero, "{script}");
        assert_eq!(count_of("release after ticks", &script), 2, "{script}");
    }
}

/// The chain 0, 1, 2 with d = 0: unit 2 goes up and down, idle, active, waiting, and
/// idle with its return under way. Then every cause of 47, and a word that is none.
#[test]
fn moves_are_counted() {
    let script = "board|2|0|0|1\nmove|2|0\nmove|2|0\nmove|2|1\nstart|2\nmove|2|0\nrest|2\n\
        move|2|1\nrelease|2|0\nmove|2|0\nmove|1|0\ndeliver|0\nrelease|1|0\ndeliver|0\n\
        move|0|0\nmove|2|2\nmove|1|2\nmove|2|3\nmove|3|3\nmoved|2|0\n";
    for (event, count) in [
        ("return to unit 0, its sender moved since", 0),
        ("return to another unit, its sender moved since", 1),
        ("return to a unit not less deep than its sender", 1),
        ("release to another parent than at first", 0),
        ("release after a move in its wait", 1),
        ("release with a return to another unit under way", 0),
        ("move of an idle unit", 5),
        ("move of an active unit", 1),
        ("move of a suspended unit", 0),
        ("move of a waiting unit, countdown above 0", 0),
        ("move of a waiting unit, countdown 0", 1),
        ("move under the same parent", 2),
        ("move up, to a lesser depth", 3),
        ("move down, to a greater depth", 2),
        ("move to the same depth under another parent", 0),
        ("move with units below it", 0),
        ("move to another parent, its return under way", 1),
        ("move to another parent, a return to it under way", 0),
        ("move on a finished board", 3),
        ("move on a quiet board that is not finished", 3),
        ("47: unit 0", 1),
        ("47: p is the unit itself", 1),
        ("47: p above the unit, on the board", 1),
        ("47: p not on the board", 1),
        ("words with move in them, refused by 22:", 1),
    ] {
        assert_eq!(count_of(event, script), count, "{event}");
    }
}

/// The chain 0, 1, 2, 3 with d = 1: unit 3 has returns to 1 and to 2 under way at
/// once, and goes up with unit 2, which later has a return to 0 under way.
#[test]
fn moves_with_returns_are_counted() {
    let script = "board|3|1|0|1|2\nstart|3\nsend|3|3|1\nrest|3\nmove|3|1\ntick|3\n\
        release|3|0\nmove|2|0\nmove|3|2\nmove|2|1\ndeliver|1\nrest|3\ntick|3\nrelease|3|1\n\
        move|2|0\nmove|3|0\ndeliver|0\ndeliver|1\ntick|1\nrelease|1|0\ntick|2\nrelease|2|1\n\
        move|2|1\ndeliver|1\n";
    for (event, count) in [
        ("return to unit 0, its sender moved since", 1),
        ("return to another unit, its sender moved since", 2),
        ("return to a unit not less deep than its sender", 2),
        ("release to another parent than at first", 2),
        ("release after a move in its wait", 1),
        ("release with a return to another unit under way", 1),
        ("move of an idle unit", 6),
        ("move of an active unit", 0),
        ("move of a waiting unit, countdown above 0", 1),
        ("move of a waiting unit, countdown 0", 0),
        ("move under the same parent", 0),
        ("move up, to a lesser depth", 4),
        ("move down, to a greater depth", 2),
        ("move to the same depth under another parent", 1),
        ("move with units below it", 2),
        ("move to another parent, its return under way", 3),
        ("move to another parent, a return to it under way", 1),
        ("move on a finished board", 0),
        ("move on a quiet board that is not finished", 3),
    ] {
        assert_eq!(count_of(event, script), count, "{event}");
    }
}

#[test]
fn faults_are_found() {
    let script = b"board\t2\t0\nstart\t0\nsend\t0\t0\t0\nrest\t0\ndeliver\t0\nstart\t0\nrest\t0\n";
    let good = "step|answer|debt|state\n0|0|0|finished\n1|0|16777216|working\n\
        2|0|16777216|working\n3|0|16384|working\n4|0|16384|working\n5|37|16384|working\n\
        6|0|0|finished\n";
    let check = |listing: &str| check_listing(script, listing.replace('|', "\t").as_bytes());
    assert_eq!(check(good), Ok(()));
    for (part, wrong) in [
        ("state", "State"),
        ("step|answer|debt|state\n", ""),
        ("3|0|16384|working", "3|0|16384"),
        ("3|0|16384|working", "3|0|16384|working|"),
        ("3|0|16384|working", "3|0|016384|working"),
        ("3|0|16384|working", "3|0||working"),
        ("3|0|16384|working", "03|0|16384|working"),
        ("3|0|16384|working", "4|0|16384|working"),
        ("3|0|16384|working", "3|0|16384|finished"),
        ("6|0|0|finished", "6|0|0|working"),
        ("6|0|0|finished", "6|0|0|refused"),
        ("6|0|0|finished\n", "6|0|0|finished"),
        ("6|0|0|finished\n", ""),
        ("6|0|0|finished\n", "6|0|0|finished\n7|0|0|finished\n"),
        ("6|0|0|finished", "6|36|16384|working"),
        ("6|0|0|finished", "6|0|16793600|working"),
        ("5|37|16384", "5|37|16383"),
        ("5|37|16384", "5|0|16793600"),
        ("4|0|16384", "4|0|32768"),
        ("2|0|16777216", "2|0|16777215"),
        ("1|0|16777216", "1|0|16777215"),
        ("0|0|0|finished", "0|11|0|finished"),
        ("0|0|0|finished", "0|11|0|refused"),
    ] {
        assert!(good.contains(part));
        assert!(check(&good.replacen(part, wrong, 1)).is_err(), "{wrong:?}");
    }

    // A padded number is refused by 28, and nothing else is.
    let script = b"board\t1\t0\nstart\t00\nstart\t0\n";
    let good = "step|answer|debt|state\n0|0|0|finished\n1|28|0|finished\n2|0|16777216|working\n";
    let check = |listing: &str| check_listing(script, listing.replace('|', "\t").as_bytes());
    assert_eq!(check(good), Ok(()));
    for (part, wrong) in [
        ("1|28|0|finished\n2|0|", "1|0|16777216|working\n2|37|"),
        ("2|0|16777216|working", "2|28|0|finished"),
    ] {
        assert!(good.contains(part));
        assert!(check(&good.replacen(part, wrong, 1)).is_err(), "{wrong:?}");
    }

    // What a move is answered is told from its numbers and the number of units.
    let script = b"board\t1\t0\t0\t0\nmove\t2\t1\nmove\t2\t2\nmove\t3\t0\nmove\t0\t0\nmove\t2\n\
        start\t2\nmove\t2\t0\nmove\t1\t65536";
    let good = "step|answer|debt|state\n0|0|0|finished\n1|0|0|finished\n2|47|0|finished\n\
        3|13|0|finished\n4|47|0|finished\n5|23|0|finished\n6|0|16777216|working\n\
        7|0|16777216|working\n8|24|16777216|working\n";
    let check = |listing: &str| check_listing(script, listing.replace('|', "\t").as_bytes());
    assert_eq!(check(good), Ok(()));
    for (part, wrong) in [
        ("1|0|0", "1|47|0"),
        ("1|0|0", "1|13|0"),
        ("2|47|0", "2|0|0"),
        ("2|47|0", "2|13|0"),
        ("3|13|0", "3|47|0"),
        ("3|13|0", "3|0|0"),
        ("4|47|0", "4|0|0"),
        ("5|23|0", "5|47|0"),
        ("6|0|16777216|working", "6|47|0|finished"),
        ("7|0|16777216|working", "7|0|0|finished"),
        ("7|0|16777216|working", "7|0|33554432|working"),
        ("8|24|16777216", "8|0|16777216"),
    ] {
        assert!(good.contains(part));
        assert!(check(&good.replacen(part, wrong, 1)).is_err(), "{wrong:?}");
    }

    let refused = |number| format!("step\tanswer\tdebt\tstate\n0\t{number}\t0\trefused\n");
    let check = |length, number| check_listing(&vec![b'x'; length], refused(number).as_bytes());
    assert!(check(0, 25).is_ok());
    assert!(check(0, 22).is_err());
    assert!(check(300, 21).is_ok());
    assert!(check(300, 26).is_err());
    assert!(check(300, 13).is_err());
    assert!(check(65_535, 21).is_ok());
    assert!(check(65_535, 26).is_err());
    assert!(check(65_536, 26).is_ok());
    assert!(check(65_536, 21).is_err());
    assert!(check_listing(b"board\t01\t0", refused(28).as_bytes()).is_ok());
    assert!(check_listing(b"board\t0\t0", refused(28).as_bytes()).is_err());
    assert!(check_listing(
        b"board\t01\t0",
        b"step\tanswer\tdebt\tstate\n0\t0\t0\tfinished\n"
    )
    .is_err());
}
