//! Drains gone through to their ends, and every drain from a board: what the tests
//! of their bound (M-108) and of the longest (M-109) share.

use reference::refusal::ACCEPTED;
use reference::*;
use std::collections::HashMap;

pub fn open(m: u16, d: u16, parents: &[u16], steps: &[Step]) -> Board {
    let (mut board, answer) = Board::open(m, d, parents);
    assert_eq!(answer, ACCEPTED);
    for &step in steps {
        assert_eq!(board.step_checked(step), ACCEPTED, "{step:?}");
    }
    board
}

/// Where a drain may begin: no unit is active and no work under way.
pub fn is_quiet(board: &Board) -> bool {
    let active = board.units.iter().any(|unit| unit.state == State::Active);
    !active && board.work_under_way() == 0
}

/// What a waiting unit or a return may still cost where every return goes to its
/// sender's parent. One whose sender was moved up may cost a step more (M-108).
pub fn old_cost(board: &Board) -> usize {
    let depth = |unit| board.depth(unit).expect("a unit of a sound board");
    let deepest = (0..board.n).map(depth).max().expect("a board has a unit");
    (usize::from(board.d) + 2) * usize::from(deepest)
}

pub fn carriers(board: &Board) -> usize {
    let waiting = |unit: &&Unit| unit.state == State::Waiting;
    let returns = |slot: &&Slot| slot.kind == Kind::Return;
    board.units.iter().filter(waiting).count() + board.slots.iter().filter(returns).count()
}

/// No drain from this board has more steps.
pub fn bound(board: &Board) -> usize {
    carriers(board) * (old_cost(board) + 1)
}

/// Takes a drain to its end and gives the number of its steps.
pub fn drained(board: &Board, drain: &[Step]) -> usize {
    assert!(is_quiet(board));
    let mut board = board.clone();
    for &step in drain {
        assert!(step.kind != Step::START && step.kind != Step::MOVE);
        assert_ne!(board.finished(), Ok(true));
        assert_eq!(board.step_checked(step), ACCEPTED, "{step:?}");
    }
    assert_eq!(board.finished(), Ok(true));
    drain.len()
}

/// A board but for weights and counts, which decide nothing here: each unit that
/// may send has weight enough, and none requests.
pub fn shape(board: &Board) -> Vec<u16> {
    let (n, m) = (usize::from(board.n), usize::from(board.m));
    let mut shape = board.parents[..n].to_vec();
    for unit in &board.units[..n] {
        shape.extend([unit.state as u16, unit.countdown]);
    }
    for slot in &board.slots[..m] {
        shape.extend([slot.kind as u16, slot.from, slot.to]);
    }
    shape
}

/// The longest drains from quiet boards of one size, by shape.
pub struct Search {
    steps: Vec<Step>,
    longest: HashMap<Vec<u16>, usize>,
}

impl Search {
    /// For boards with n units and m slots.
    pub fn new(n: u16, m: u16) -> Search {
        let mut steps = choices(n, m);
        steps.retain(|step| step.kind != Step::START);
        Search {
            steps,
            longest: HashMap::new(),
        }
    }

    /// The steps of the longest drain from a board. Until it is finished, some step
    /// goes on.
    pub fn longest_from(&mut self, board: &Board) -> usize {
        let shape = shape(board);
        if let Some(&known) = self.longest.get(&shape) {
            return known;
        }
        let mut longest = None;
        // A refused step leaves the copy for the next one.
        let mut after = board.clone();
        for at in 0..self.steps.len() {
            if after.step(self.steps[at]) == ACCEPTED {
                assert!(is_quiet(&after), "a drain leaves its boards quiet");
                longest = longest.max(Some(1 + self.longest_from(&after)));
                after.clone_from(board);
            }
        }
        assert_eq!(longest.is_none(), board.debt == 0, "a drain goes on");
        let longest = longest.unwrap_or(0);
        self.longest.insert(shape, longest);
        longest
    }
}
