//! The census of short lists (M-106).

use reference::refusal::*;
use reference::*;

/// Every board that a census takes: M, d and the parents.
fn boards() -> Vec<(u16, u16, &'static [u16])> {
    let mut boards = Vec::new();
    for parents in [&[][..], &[0], &[0, 0], &[0, 1]] {
        for (m, d) in [(1, 0), (1, 1), (2, 0), (2, 1)] {
            boards.push((m, d, parents));
        }
    }
    boards
}

fn counts(finished: u64, busy: u64, other: u64) -> Counts {
    Counts {
        finished,
        busy,
        other,
    }
}

/// Each list by itself, written as a number whose digits are its steps: every
/// step from the fresh board on, with its soundness test.
fn list_by_list(m: u16, d: u16, parents: &[u16], length: u16) -> Counts {
    let (fresh, answer) = Board::open(m, d, parents);
    assert_eq!(answer, ACCEPTED);
    let choices = choices(fresh.n, m);
    let mut counts = counts(0, 0, 0);
    for list in 0..choices.len().pow(length.into()) {
        let mut board = fresh.clone();
        let mut rest = list;
        for _ in 0..length {
            board.step_checked(choices[rest % choices.len()]);
            rest /= choices.len();
        }
        let active = board.units.iter().any(|unit| unit.state == State::Active);
        let finished = board.finished().expect("steps keep a board sound");
        let busy = active || board.work_under_way() > 0;
        assert!(!finished || !busy);
        counts.finished += u64::from(finished);
        counts.busy += u64::from(busy);
        counts.other += u64::from(!finished && !busy);
    }
    counts
}

#[test]
fn choices_by_the_formula() {
    for n in 0..=5 {
        for m in 0..=4 {
            let number = 3 * n + n * n * m + m + 2 * n * m;
            assert_eq!(choices(n, m).len(), usize::from(number), "{n} {m}");
        }
    }
    assert_eq!(choices(1, 1).len(), 7);
    assert_eq!(choices(3, 2).len(), 41);
}

/// Seven kinds: a census counts no moves (M-108).
#[test]
fn choices_are_in_range_and_no_one_comes_twice() {
    let (n, m) = (3, 2);
    let choices = choices(n, m);
    for (i, step) in choices.iter().enumerate() {
        assert!((Step::START..=Step::RELEASE).contains(&step.kind));
        assert!(step.unit < n && step.other < n && step.slot < m);
        assert!(!choices[..i].contains(step), "{step:?}");
    }
}

/// Fields that a kind does not read are 0, so that no step is chosen under two
/// names.
#[test]
fn unused_fields_are_zero() {
    for step in choices(3, 2) {
        let Step {
            unit, other, slot, ..
        } = step;
        let named = match step.kind {
            Step::START => Step::start(unit),
            Step::SEND => Step::send(unit, other, slot),
            Step::REQUEST => Step::request(unit, slot),
            Step::DELIVER => Step::deliver(slot),
            Step::REST => Step::rest(unit),
            Step::TICK => Step::tick(unit),
            _ => Step::release(unit, slot),
        };
        assert_eq!(step, named);
    }
}

#[test]
fn the_list_of_no_steps_leaves_every_board_finished() {
    assert_eq!(boards().len(), 16);
    for (m, d, parents) in boards() {
        assert_eq!(census(m, d, parents, 0), Ok(counts(1, 0, 0)));
    }
}

#[test]
fn counts_by_hand() {
    // Of the seven steps only the start is accepted.
    assert_eq!(census(1, 0, &[], 1), Ok(counts(6, 1, 0)));
    assert_eq!(census(1, 1, &[], 1), Ok(counts(6, 1, 0)));
    // 6 * (6, 1) without a start at first; after it, the rest alone pays.
    assert_eq!(census(1, 0, &[], 2), Ok(counts(6 * 6 + 1, 6 + 6, 0)));
    // 13 * (13, 2) without; after start 0 its rest pays, after start 1 its rest
    // leaves it waiting.
    assert_eq!(
        census(1, 0, &[0], 2),
        Ok(counts(13 * 13 + 1, 13 * 2 + 14 + 14, 1))
    );
}

#[test]
fn the_counts_add_up_to_all_lists() {
    for (m, d, parents) in boards() {
        let number = choices(parents.len() as u16 + 1, m).len() as u64;
        for length in 0..=3 {
            let counts = census(m, d, parents, length).expect("a board in reach");
            assert_eq!(counts.lists(), number.pow(length.into()));
        }
    }
}

#[test]
fn the_same_as_list_by_list() {
    for (m, d, parents) in boards() {
        for length in 0..=3 {
            let each = list_by_list(m, d, parents, length);
            assert_eq!(census(m, d, parents, length), Ok(each));
        }
    }
    for (m, d, parents) in [(1, 1, &[][..]), (2, 0, &[]), (1, 1, &[0])] {
        let each = list_by_list(m, d, parents, 4);
        assert_eq!(census(m, d, parents, 4), Ok(each));
    }
}

#[test]
fn sizes_and_lengths_out_of_reach() {
    for m in [0, 3, 256, 257, 258, 65_535] {
        assert_eq!(census(m, 0, &[], 0), Err(BEYOND_CENSUS), "M {m}");
    }
    for d in [2, 255, 256, 257, 65_535] {
        assert_eq!(census(1, d, &[], 0), Err(BEYOND_CENSUS), "d {d}");
    }
    for count in [3, 63, 64, 65_536, 65_537] {
        let parents = vec![0; count];
        assert_eq!(census(1, 0, &parents, 0), Err(BEYOND_CENSUS), "{count}");
    }
    for length in [5, 256, 260, 65_535] {
        assert_eq!(census(1, 0, &[], length), Err(BEYOND_CENSUS), "L {length}");
    }
}

#[test]
fn parents_not_below_their_units() {
    for parents in [&[1][..], &[256], &[65_535], &[1, 0], &[0, 2], &[0, 65_535]] {
        for length in 0..=4 {
            let answer = census(2, 1, parents, length);
            assert_eq!(answer, Err(PARENT_NOT_BELOW), "{parents:?}");
        }
    }
}

#[test]
fn beyond_the_census_comes_before_the_refusals_of_the_opening() {
    // 12 would be next.
    for (m, d, parents, length) in [
        (0, 0, &[1][..], 0),
        (3, 0, &[1], 0),
        (1, 2, &[1], 0),
        (1, 0, &[1], 5),
        (1, 0, &[1, 0, 0], 0),
    ] {
        assert_eq!(census(m, d, parents, length), Err(BEYOND_CENSUS));
    }
    // 11 would be next.
    for (m, d, count) in [
        (0, 0, 0),
        (257, 0, 0),
        (1, 256, 0),
        (1, 0, 64),
        (257, 0, 64),
    ] {
        let parents = vec![0; count];
        assert_eq!(Board::open(m, d, &parents).1, OUT_OF_RANGE);
        assert_eq!(census(m, d, &parents, 0), Err(BEYOND_CENSUS));
    }
    assert_eq!(BEYOND_CENSUS, 46);
}
