//! A unit under another parent (M-108): the move's refusals, what it changes and
//! what it leaves, and where returns go before and after it.

use reference::refusal::*;
use reference::*;

fn open(m: u16, d: u16, parents: &[u16]) -> Board {
    let (board, answer) = Board::open(m, d, parents);
    assert_eq!(answer, ACCEPTED);
    board
}

fn take(board: &mut Board, steps: &[Step]) {
    for &step in steps {
        assert_eq!(board.step_checked(step), ACCEPTED, "{step:?}");
        assert!(board.is_sound());
    }
}

fn refuse(board: &Board, step: Step, refusal: u16) {
    let mut after = board.clone();
    assert_eq!(after.step_checked(step), refusal, "{step:?}");
    assert_eq!(after, *board, "a refused step changed the board");
}

/// A move changes the parent entry and nothing else.
fn moved(board: &mut Board, unit: u16, parent: u16) {
    let mut expected = board.clone();
    expected.parents[usize::from(unit)] = parent;
    take(board, &[Step::move_under(unit, parent)]);
    assert_eq!(*board, expected, "move {unit} {parent}");
}

fn waiting(weight: u64, countdown: u16) -> Unit {
    Unit {
        state: State::Waiting,
        weight,
        countdown,
        suspended: false,
    }
}

fn returned(from: u16, to: u16, weight: u64) -> Slot {
    Slot {
        kind: Kind::Return,
        from,
        to,
        weight,
    }
}

/// n = 6, M = 4, d = 1; the chain 0, 1, 2, 3 and the chain 0, 4, 5. Units 0 and 1
/// are idle, 2 is active, 3 suspended with its request in slot 0, 4 waiting with
/// countdown 1, 5 waiting with countdown 0. Slot 1 is work to 1, 2 and 3 are empty.
fn stage() -> Board {
    let mut board = open(4, 1, &[0, 1, 2, 0, 4]);
    take(
        &mut board,
        &[Step::start(2), Step::send(2, 3, 0), Step::deliver(0)],
    );
    // From 16,384 on: 15 shares of 1,024, then ten halves.
    for _ in 0..25 {
        take(&mut board, &[Step::send(3, 2, 0), Step::deliver(0)]);
    }
    take(
        &mut board,
        &[
            Step::request(3, 0),
            Step::send(2, 4, 1),
            Step::deliver(1),
            Step::rest(4),
            Step::send(2, 5, 1),
            Step::deliver(1),
            Step::rest(5),
            Step::tick(5),
            Step::send(2, 1, 1),
        ],
    );
    let states = [0, 1, 2, 3, 4, 5].map(|unit| board.units[unit].state);
    use State::{Active, Idle, Waiting};
    assert_eq!(states, [Idle, Idle, Active, Active, Waiting, Waiting]);
    assert!(board.units[3].suspended);
    board
}

#[test]
fn thirteen_looks_at_the_unit_alone() {
    let board = stage();
    // 47 would hold, too, but for the p that are lower.
    for unit in [6, 7, 63, 64, 65_535] {
        for parent in [0, 1, 5, 6, 7, unit, 65_535] {
            refuse(&board, Step::move_under(unit, parent), NO_SUCH_UNIT);
        }
    }
    for parent in [6, 7, 63, 64, 256, 65_535] {
        refuse(&board, Step::move_under(5, parent), NO_SUCH_MOVE);
        refuse(&board, Step::move_under(1, parent), NO_SUCH_MOVE);
    }
    assert_eq!(NO_SUCH_MOVE, 47);
}

#[test]
fn unit_0_is_not_moved() {
    let board = stage();
    for parent in [0, 1, 5, 6, 65_535] {
        refuse(&board, Step::move_under(0, parent), NO_SUCH_MOVE);
    }
    // A unit alone has no other to move.
    let board = open(1, 0, &[]);
    refuse(&board, Step::move_under(0, 0), NO_SUCH_MOVE);
    refuse(&board, Step::move_under(1, 0), NO_SUCH_UNIT);
    refuse(&board, Step::move_under(1, 1), NO_SUCH_UNIT);
}

/// Every u and p on the board: 47 where p is not lower, else accepted, in each state
/// of u, from the same board.
#[test]
fn every_move_on_a_board() {
    let board = stage();
    let mut accepted = 0;
    for unit in 0..6 {
        for parent in 0..6 {
            if parent < unit {
                moved(&mut board.clone(), unit, parent);
                accepted += 1;
            } else {
                refuse(&board, Step::move_under(unit, parent), NO_SUCH_MOVE);
            }
        }
    }
    assert_eq!(accepted, 15);
}

#[test]
fn under_the_same_parent() {
    let board = stage();
    for unit in 1..6 {
        let mut after = board.clone();
        let parent = board.parents[usize::from(unit)];
        take(&mut after, &[Step::move_under(unit, parent)]);
        assert_eq!(after, board);
    }
}

/// The largest numbers, and a slot field that is not read.
#[test]
fn on_the_largest_board() {
    let mut board = open(256, 255, &[0; 63]);
    moved(&mut board, 63, 62);
    moved(&mut board, 63, 1);
    let step = Step {
        slot: 65_535,
        ..Step::move_under(62, 61)
    };
    take(&mut board, &[step]);
    assert_eq!((board.parents[62], board.parents[63]), (61, 1));
    refuse(&board, Step::move_under(63, 63), NO_SUCH_MOVE);
    refuse(&board, Step::move_under(63, 64), NO_SUCH_MOVE);
    refuse(&board, Step::move_under(64, 0), NO_SUCH_UNIT);
}

#[test]
fn unsound_before_all() {
    let mut board = stage();
    board.debt += 1;
    for (unit, parent) in [(2, 0), (0, 0), (2, 2), (6, 0), (65_535, 65_535)] {
        refuse(&board, Step::move_under(unit, parent), UNSOUND);
    }
    refuse(&Board::BLANK, Step::move_under(1, 0), UNSOUND);
}

fn depths(board: &Board) -> Vec<u16> {
    let depth = |unit| board.depth(unit).expect("a unit of a sound board");
    (0..board.n).map(depth).collect()
}

/// Those below a unit come with it.
#[test]
fn depths_after_moves() {
    let mut board = stage();
    assert_eq!(depths(&board), [0, 1, 2, 3, 1, 2]);
    moved(&mut board, 2, 0);
    assert_eq!(depths(&board), [0, 1, 1, 2, 1, 2]);
    moved(&mut board, 4, 3);
    assert_eq!(depths(&board), [0, 1, 1, 2, 3, 4]);
    moved(&mut board, 5, 3);
    assert_eq!(depths(&board), [0, 1, 1, 2, 3, 3]);
    moved(&mut board, 3, 0);
    assert_eq!(depths(&board), [0, 1, 1, 1, 2, 2]);
    moved(&mut board, 3, 2);
    moved(&mut board, 2, 1);
    assert_eq!(depths(&board), [0, 1, 2, 3, 4, 4]);
    assert_eq!(board.depth(6), Err(NO_SUCH_UNIT));
}

/// The chain 0, 1, 2 with d = 1: the return goes to 1 and waits there, although its
/// sender is under 0 by then.
#[test]
fn a_return_goes_on_to_the_old_parent() {
    let mut board = open(2, 1, &[0, 1]);
    take(
        &mut board,
        &[
            Step::start(2),
            Step::rest(2),
            Step::tick(2),
            Step::release(2, 0),
        ],
    );
    moved(&mut board, 2, 0);
    assert_eq!(board.slots[0], returned(2, 1, 16_777_216));
    take(&mut board, &[Step::deliver(0)]);
    assert_eq!(board.units[1], waiting(16_777_216, 1));
    assert_eq!(board.debt, 16_777_216);
    take(
        &mut board,
        &[Step::tick(1), Step::release(1, 1), Step::deliver(1)],
    );
    assert_eq!(board.finished(), Ok(true));
}

/// The other way round: a return to unit 0 is taken off the debt, although its
/// sender is under 1 by then.
#[test]
fn a_return_goes_on_to_unit_0() {
    let mut board = open(1, 0, &[0, 0]);
    take(
        &mut board,
        &[Step::start(2), Step::rest(2), Step::release(2, 0)],
    );
    moved(&mut board, 2, 1);
    assert_eq!(board.slots[0], returned(2, 0, 16_777_216));
    take(&mut board, &[Step::deliver(0)]);
    assert_eq!((board.debt, board.units[1]), (0, Unit::BLANK));
    assert_eq!(board.finished(), Ok(true));
}

/// The chain 0, 1, 2, 3 with d = 0. Unit 3 is released to 2, to 1 and to 0, and all
/// three returns are under way at once.
#[test]
fn later_releases_go_to_the_new_parent() {
    let mut board = open(4, 0, &[0, 1, 2]);
    take(
        &mut board,
        &[
            Step::start(3),
            Step::send(3, 3, 0),
            Step::send(3, 3, 1),
            Step::rest(3),
            Step::release(3, 2),
        ],
    );
    moved(&mut board, 3, 1);
    take(
        &mut board,
        &[Step::deliver(0), Step::rest(3), Step::release(3, 0)],
    );
    moved(&mut board, 3, 0);
    take(
        &mut board,
        &[Step::deliver(1), Step::rest(3), Step::release(3, 1)],
    );
    let slots = [
        returned(3, 1, 16_384),
        returned(3, 0, 16_384),
        returned(3, 2, 16_744_448),
        Slot::BLANK,
    ];
    assert_eq!(board.slots[..4], slots);
    assert_eq!(board.units[3], Unit::BLANK);
    // To unit 0, which is paid; to 1 and to 2, which wait.
    take(&mut board, &[Step::deliver(1)]);
    assert_eq!(board.debt, 16_760_832);
    take(&mut board, &[Step::deliver(0), Step::deliver(2)]);
    assert_eq!(board.debt, 16_760_832);
    assert_eq!(board.units[1], waiting(16_384, 0));
    assert_eq!(board.units[2], waiting(16_744_448, 0));
}

/// The receiver of a return is moved: it gets the return, and hands it on to its
/// new parent. The chain 0, 1, 2, 3 with d = 0.
#[test]
fn a_moved_receiver() {
    let mut board = open(1, 0, &[0, 1, 2]);
    take(
        &mut board,
        &[Step::start(3), Step::rest(3), Step::release(3, 0)],
    );
    moved(&mut board, 2, 0);
    take(&mut board, &[Step::deliver(0)]);
    assert_eq!(board.units[2], waiting(16_777_216, 0));
    take(&mut board, &[Step::release(2, 0)]);
    assert_eq!(board.slots[0], returned(2, 0, 16_777_216));
    take(&mut board, &[Step::deliver(0)]);
    assert_eq!(board.finished(), Ok(true));
}

/// A waiting unit goes on waiting, and its release goes to the parent of that
/// moment. The chain 0, 1, 2 with d = 2.
#[test]
fn a_waiting_unit_moved() {
    let mut board = open(1, 2, &[0, 1]);
    take(&mut board, &[Step::start(2), Step::rest(2), Step::tick(2)]);
    moved(&mut board, 2, 0);
    assert_eq!(board.units[2], waiting(16_777_216, 1));
    refuse(&board, Step::release(2, 0), COUNTDOWN_ABOVE_ZERO);
    take(&mut board, &[Step::tick(2)]);
    let mut back = board.clone();
    take(&mut board, &[Step::release(2, 0)]);
    assert_eq!(board.slots[0], returned(2, 0, 16_777_216));
    // The last move before the release decides.
    moved(&mut back, 2, 1);
    take(&mut back, &[Step::release(2, 0)]);
    assert_eq!(back.slots[0], returned(2, 1, 16_777_216));
}

/// An active unit goes on sending, and work finds a unit that was moved.
#[test]
fn an_active_unit_moved() {
    let mut board = open(2, 0, &[0, 1]);
    take(&mut board, &[Step::start(2), Step::send(2, 1, 0)]);
    moved(&mut board, 2, 0);
    take(
        &mut board,
        &[Step::deliver(0), Step::send(1, 2, 0), Step::rest(2)],
    );
    moved(&mut board, 2, 1);
    take(
        &mut board,
        &[Step::deliver(0), Step::rest(2), Step::release(2, 0)],
    );
    // 2^24 less 16,384, and 1,024 back from unit 1.
    assert_eq!(board.slots[0], returned(2, 1, 16_761_856));
}

/// A suspended unit is moved before the grant and before the supply arrives: both
/// are between it and unit 0.
#[test]
fn a_suspended_unit_moved() {
    let mut board = stage();
    moved(&mut board, 3, 0);
    take(&mut board, &[Step::deliver(0)]);
    let supply = Slot {
        kind: Kind::Supply,
        from: 0,
        to: 3,
        weight: 16_777_216,
    };
    assert_eq!(board.slots[0], supply);
    moved(&mut board, 3, 1);
    refuse(&board, Step::rest(3), SUSPENDED);
    take(
        &mut board,
        &[
            Step::deliver(0),
            Step::rest(3),
            Step::tick(3),
            Step::release(3, 0),
        ],
    );
    assert_eq!(board.slots[0], returned(3, 1, 16_777_217));
}

/// An idle unit is moved before work reaches it, and on a finished board.
#[test]
fn an_idle_unit_moved() {
    let mut board = open(1, 0, &[0, 1]);
    moved(&mut board, 2, 0);
    assert_eq!(board.finished(), Ok(true));
    take(&mut board, &[Step::start(1), Step::send(1, 2, 0)]);
    moved(&mut board, 2, 1);
    take(
        &mut board,
        &[Step::deliver(0), Step::rest(2), Step::release(2, 0)],
    );
    assert_eq!(board.slots[0], returned(2, 1, 16_384));
}

/// A finished board takes starts and moves alone, and stays finished by a move.
#[test]
fn a_finished_board() {
    let mut ended = open(1, 0, &[0, 1]);
    take(&mut ended, &[Step::start(0), Step::rest(0)]);
    for board in [open(2, 1, &[0, 1]), ended] {
        for step in choices(board.n, board.m) {
            if step.kind == Step::START {
                take(&mut board.clone(), &[step]);
            } else {
                assert_ne!(board.clone().step_checked(step), ACCEPTED, "{step:?}");
            }
        }
        for parent in [0, 1] {
            let mut after = board.clone();
            moved(&mut after, 2, parent);
            assert_eq!(after.finished(), Ok(true));
        }
    }
}

#[test]
fn a_run_with_moves() {
    let mut board = open(1, 0, &[0, 1]);
    let steps = [
        Step::move_under(2, 0),
        Step::start(2),
        Step::move_under(2, 2),
        Step::rest(2),
        Step::move_under(2, 0),
        Step::release(2, 0),
        Step {
            kind: 9,
            ..Step::default()
        },
        Step::move_under(3, 0),
        Step::move_under(2, 1),
        Step::deliver(0),
    ];
    let mut answers = [99; 11];
    assert_eq!(board.run(&steps, &mut answers), Ok(7));
    assert_eq!(answers, [0, 0, 47, 0, 0, 0, 16, 13, 0, 0, 99]);
    assert_eq!((board.debt, board.parents[2]), (0, 1));
}
