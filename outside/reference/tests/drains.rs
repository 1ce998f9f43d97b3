//! Drains, lists of accepted steps without starts and moves, and their bound
//! (M-108): cases by hand, and every drain on small boards.

mod drain;

use drain::*;
use reference::refusal::ACCEPTED;
use reference::*;
use std::collections::{HashMap, HashSet, VecDeque};

/// Unit 2 is moved up while its return is under way to 1: the bound is attained, and
/// the 2 that it would be without M-108's 1 is passed.
#[test]
fn a_bound_attained() {
    let steps = [
        Step::start(2),
        Step::rest(2),
        Step::release(2, 0),
        Step::move_under(2, 0),
    ];
    let board = open(2, 0, &[0, 1], &steps);
    assert_eq!((carriers(&board), old_cost(&board)), (1, 2));
    let drain = [Step::deliver(0), Step::release(1, 0), Step::deliver(0)];
    assert_eq!((drained(&board, &drain), bound(&board)), (3, 3));
    // Before the move the tree was deeper, and the bound larger: 1 * (2 * 2 + 1).
    let before = open(2, 0, &[0, 1], &steps[..3]);
    assert_eq!((drained(&before, &drain), bound(&before)), (3, 5));
}

/// d = 2; units 2 and 3 under 1, and then under 0. Both returns wait at unit 1, one
/// after the other: 2 * ((2 + 2) * 1 + 1) steps.
#[test]
fn a_bound_attained_by_two_returns() {
    let steps = [
        Step::start(2),
        Step::send(2, 3, 0),
        Step::deliver(0),
        Step::rest(2),
        Step::tick(2),
        Step::tick(2),
        Step::release(2, 0),
        Step::rest(3),
        Step::tick(3),
        Step::tick(3),
        Step::release(3, 1),
        Step::move_under(2, 0),
        Step::move_under(3, 0),
    ];
    let board = open(2, 2, &[0, 1, 1], &steps);
    assert_eq!((carriers(&board), old_cost(&board)), (2, 4));
    let one = |slot| {
        [
            Step::deliver(slot),
            Step::tick(1),
            Step::tick(1),
            Step::release(1, slot),
            Step::deliver(slot),
        ]
    };
    let drain = [one(0), one(1)].concat();
    assert_eq!((drained(&board, &drain), bound(&board)), (10, 10));
}

/// Nothing to drain: the list of no steps is the only one.
#[test]
fn a_finished_board() {
    let board = open(1, 1, &[0, 1], &[Step::move_under(2, 0)]);
    assert_eq!((drained(&board, &[]), bound(&board)), (0, 0));
}

/// Every step with units and slots of the board.
fn steps(board: &Board) -> Vec<Step> {
    let mut steps = choices(board.n, board.m);
    for unit in 0..board.n {
        steps.extend((0..board.n).map(|parent| Step::move_under(unit, parent)));
    }
    steps
}

/// An accepted step changes the board, but for a move under the parent that the
/// unit has.
fn must_change(before: &Board, step: Step, after: &Board) {
    let parent = before.parents[usize::from(step.unit)];
    let same = step.kind == Step::MOVE && step.other == parent;
    assert_eq!(before == after, same, "{step:?}");
}

/// The quiet boards of every shape that lists of steps come to, moves among them.
fn quiet_boards(m: u16, d: u16, parents: &[u16]) -> HashMap<Vec<u16>, Board> {
    let fresh = open(m, d, parents, &[]);
    let steps = steps(&fresh);
    let mut seen = HashSet::from([shape(&fresh)]);
    let mut found = HashMap::new();
    // The shortest lists first, so that weights stay large.
    let mut ahead = VecDeque::from([fresh]);
    while let Some(board) = ahead.pop_front() {
        let rich = |unit: &Unit| unit.state != State::Active || unit.weight > 1;
        assert!(
            board.units.iter().all(rich),
            "a unit of weight 1, whose steps no shape decides"
        );
        // A refused step leaves the copy for the next one.
        let mut after = board.clone();
        for &step in &steps {
            if after.step(step) == ACCEPTED {
                must_change(&board, step, &after);
                let after = std::mem::replace(&mut after, board.clone());
                if seen.insert(shape(&after)) {
                    assert!(after.is_sound());
                    ahead.push_back(after);
                }
            }
        }
        if is_quiet(&board) {
            found.insert(shape(&board), board);
        }
    }
    found
}

/// What a search has met.
#[derive(Debug, Default)]
struct Met {
    boards: usize,
    /// Boards from which some drain is as long as the bound, the finished ones left
    /// out.
    attained: usize,
    /// Boards from which some drain is longer than without the move's 1.
    past_old: usize,
    longest: usize,
}

/// Every drain from every quiet board of these sizes.
fn search(m: u16, d: u16, parents: &[u16]) -> Met {
    let boards = quiet_boards(m, d, parents);
    let mut search = Search::new(parents.len() as u16 + 1, m);
    let mut met = Met::default();
    for board in boards.values() {
        let longest = search.longest_from(board);
        assert!(longest <= bound(board), "{board:?}");
        met.boards += 1;
        met.attained += usize::from(longest == bound(board) && longest > 0);
        met.longest = met.longest.max(longest);
        if longest > carriers(board) * old_cost(board) {
            // Only a return to another than its sender's parent brings that about.
            let stray = |slot: &Slot| {
                let parent = board.parents[usize::from(slot.from)];
                slot.kind == Kind::Return && slot.to != parent
            };
            assert!(board.slots.iter().any(stray), "{board:?}");
            met.past_old += 1;
        }
        if board.debt == 0 {
            takes_starts_and_moves_alone(board);
        }
    }
    println!("M = {m}, d = {d}, {} units: {met:?}", parents.len() + 1);
    met
}

/// A finished board refuses every other step, and a move leaves it finished.
fn takes_starts_and_moves_alone(board: &Board) {
    for step in steps(board) {
        let mut after = board.clone();
        let accepted = after.step(step) == ACCEPTED;
        match step.kind {
            Step::START => assert!(accepted),
            Step::MOVE => assert_eq!((accepted, after.debt), (step.other < step.unit, 0)),
            _ => assert!(!accepted),
        }
    }
}

#[test]
fn every_drain_of_small_boards() {
    for d in 0..=2 {
        // Two units: a move leaves unit 1 under 0, so no return goes astray.
        for m in 1..=3 {
            let met = search(m, d, &[0]);
            assert_eq!(met.past_old, 0);
        }
    }
    for (m, d) in [(1, 0), (1, 1), (1, 2), (2, 0), (2, 1)] {
        let met = search(m, d, &[0, 1]);
        assert!(met.attained > 0 && met.past_old > 0);
    }
    for (m, d) in [(1, 0), (1, 1), (2, 0)] {
        let met = search(m, d, &[0, 1, 2]);
        assert!(met.attained > 0 && met.past_old > 0);
    }
}
