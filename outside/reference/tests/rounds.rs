//! Counts and counting rounds (M-105): what steps, beginnings and visits do to
//! them, and what soundness asks of them.

use reference::refusal::*;
use reference::*;

const FULL: u32 = u32::MAX;

fn open(m: u16, d: u16, parents: &[u16]) -> Board {
    let (board, answer) = Board::open(m, d, parents);
    assert_eq!(answer, ACCEPTED);
    board
}

fn take(board: &mut Board, steps: &[Step]) {
    for &step in steps {
        assert_eq!(board.step_checked(step), ACCEPTED, "{step:?}");
        assert!(board.is_sound());
    }
}

fn refuse(board: &Board, step: Step, refusal: u16) {
    let mut after = board.clone();
    assert_eq!(after.step_checked(step), refusal, "{step:?}");
    assert_eq!(after, *board, "a refused step changed the board");
}

fn begin(board: &mut Board) {
    assert_eq!(board.begin(), ACCEPTED);
    assert!(board.is_sound());
}

/// Visits in order; only the last may come to a verdict.
fn visit(board: &mut Board, units: &[u16]) -> Finding {
    let mut last = Finding::NoVerdictYet;
    for &unit in units {
        assert_eq!(last, Finding::NoVerdictYet);
        last = board.visit(unit).expect("an accepted visit");
        assert!(board.is_sound());
    }
    last
}

fn refuse_visit(board: &Board, unit: u16, refusal: u16) {
    let mut after = board.clone();
    assert_eq!(after.visit(unit), Err(refusal), "visit {unit}");
    assert_eq!(after, *board, "a refused visit changed the board");
}

/// A round that is open, with these units visited.
fn rounds(open: Round, marks: &[usize], processed: u64, created: u64) -> Rounds {
    let mut rounds = Rounds {
        open,
        processed,
        created,
        ..Rounds::BLANK
    };
    for &unit in marks {
        rounds.visited[unit] = true;
    }
    rounds
}

/// n = 3, M = 3, d = 1, all under unit 0. Unit 1 has started and sent to 0 and 2;
/// 0 has rested, 2 waits with countdown 1, and slot 2 is work from 1 to 1, which
/// is active. Created: unit 1 four. Processed: one each.
fn busy() -> Board {
    let mut board = open(3, 1, &[0, 0]);
    take(
        &mut board,
        &[
            Step::start(1),
            Step::send(1, 0, 0),
            Step::send(1, 2, 1),
            Step::deliver(0),
            Step::deliver(1),
            Step::rest(0),
            Step::rest(2),
            Step::send(1, 1, 2),
        ],
    );
    assert_eq!(board.created[..4], [0, 4, 0, 0]);
    assert_eq!(board.processed[..4], [1, 1, 1, 0]);
    board
}

/// A board of n units under unit 0 that a list of accepted steps leads to in
/// thought: all idle, each with these counts.
fn counted(n: usize, created: &[u32], processed: &[u64]) -> Board {
    let mut board = open(2, 0, &vec![0; n - 1]);
    board.created[..created.len()].copy_from_slice(created);
    board.processed[..processed.len()].copy_from_slice(processed);
    board
}

#[test]
fn no_counts_and_no_round_at_first() {
    for board in [Board::BLANK, open(1, 0, &[]), open(256, 255, &[0; 63])] {
        assert_eq!(board.created, [0; UNITS]);
        assert_eq!(board.processed, [0; UNITS]);
        assert_eq!(board.rounds, rounds(Round::None, &[], 0, 0));
        assert_eq!(board.rounds, Rounds::BLANK);
    }
    let (refused, answer) = Board::open(0, 0, &[]);
    assert_eq!((answer, refused), (OUT_OF_RANGE, Board::BLANK));
}

/// What a step does to the counts: unit, created, processed.
fn counts(board: &mut Board, step: Step, more: &[(usize, u32, u64)]) {
    let mut expected = board.clone();
    for &(unit, created, processed) in more {
        expected.created[unit] += created;
        expected.processed[unit] += processed;
    }
    take(board, &[step]);
    assert_eq!(board.created, expected.created, "{step:?}");
    assert_eq!(board.processed, expected.processed, "{step:?}");
    if step.kind == Step::START {
        expected.rounds = Rounds::BLANK;
    }
    assert_eq!(board.rounds, expected.rounds, "{step:?}");
}

#[test]
fn what_steps_count() {
    let mut board = open(2, 1, &[0, 1]);
    counts(&mut board, Step::start(2), &[(2, 1, 1)]);
    // A round with a visit and a total is open over all that follows.
    begin(&mut board);
    visit(&mut board, &[0]);
    counts(&mut board, Step::send(2, 1, 0), &[(2, 1, 0)]);
    counts(&mut board, Step::deliver(0), &[(1, 0, 1)]);
    counts(&mut board, Step::send(1, 1, 0), &[(1, 1, 0)]);
    counts(&mut board, Step::deliver(0), &[(1, 0, 1)]);
    while board.units[1].weight > 1 {
        counts(&mut board, Step::send(1, 2, 1), &[(1, 1, 0)]);
        counts(&mut board, Step::deliver(1), &[(2, 0, 1)]);
    }
    // Work that arrives at a suspended unit counts, too.
    counts(&mut board, Step::request(1, 0), &[]);
    counts(&mut board, Step::send(2, 1, 1), &[(2, 1, 0)]);
    counts(&mut board, Step::deliver(1), &[(1, 0, 1)]);
    // The grant, the supply.
    counts(&mut board, Step::deliver(0), &[]);
    counts(&mut board, Step::deliver(0), &[]);
    counts(&mut board, Step::rest(1), &[]);
    counts(&mut board, Step::rest(2), &[]);
    visit(&mut board, &[1]);
    // Moves, of a visited unit, too (M-108).
    counts(&mut board, Step::move_under(2, 0), &[]);
    counts(&mut board, Step::move_under(1, 0), &[]);
    counts(&mut board, Step::move_under(2, 1), &[]);
    counts(&mut board, Step::tick(2), &[]);
    counts(&mut board, Step::release(2, 0), &[]);
    // Returns to a waiting unit and to unit 0.
    counts(&mut board, Step::deliver(0), &[]);
    counts(&mut board, Step::tick(1), &[]);
    counts(&mut board, Step::release(1, 1), &[]);
    counts(&mut board, Step::deliver(1), &[]);
    assert_eq!(board.finished(), Ok(true));
    counts(&mut board, Step::start(0), &[(0, 1, 1)]);
    counts(&mut board, Step::rest(0), &[]);
}

#[test]
fn a_start_drops_the_rounds() {
    for visits in [&[][..], &[0], &[1, 0], &[1, 0, 1]] {
        let mut board = open(1, 0, &[0]);
        take(&mut board, &[Step::start(0), Step::rest(0)]);
        begin(&mut board);
        visit(&mut board, visits);
        take(&mut board, &[Step::start(1)]);
        assert_eq!(board.rounds, Rounds::BLANK);
        refuse_visit(&board, 0, NOTHING_TO_VISIT);
    }
    // A refused one does not.
    let mut board = busy();
    begin(&mut board);
    visit(&mut board, &[2]);
    refuse(&board, Step::start(0), DEBT_ABOVE_ZERO);
    refuse(&board, Step::start(3), NO_SUCH_UNIT);
    refuse(&board, Step::send(0, 1, 0), NOT_ACTIVE);
    refuse(&board, Step::deliver(1), SLOT_EMPTY);
}

/// Unit 0 active of weight w, slot 0 filled with work to itself or empty, and
/// unit 0's created count full.
fn full(weight: u64, filled: bool) -> Board {
    let mut board = open(2, 0, &[0]);
    let work = Slot {
        kind: Kind::Work,
        weight: 5,
        ..Slot::BLANK
    };
    board.units[0].state = State::Active;
    board.units[0].weight = weight;
    board.debt = weight;
    board.created[0] = FULL;
    board.processed[1] = u64::from(FULL);
    if filled {
        board.slots[0] = work;
        board.debt += 5;
        board.processed[1] -= 1;
    }
    assert!(board.is_sound());
    board
}

#[test]
fn a_full_count_refuses_a_send_last() {
    let board = full(9, true);
    refuse(&board, Step::send(0, 1, 1), CREATED_FULL);
    refuse(&board, Step::send(0, 0, 1), CREATED_FULL);
    refuse(&board, Step::send(0, 1, 0), SLOT_FILLED);
    refuse(&board, Step::send(0, 2, 1), NO_SUCH_UNIT);
    refuse(&board, Step::send(0, 1, 2), NO_SUCH_SLOT);
    refuse(&full(1, true), Step::send(0, 1, 1), WEIGHT_ONE);
    refuse(&full(1, true), Step::send(0, 1, 0), WEIGHT_ONE);
    let mut board = full(9, false);
    take(&mut board, &[Step::rest(0)]);
    refuse(&board, Step::send(0, 1, 1), NOT_ACTIVE);
    let mut board = full(1, false);
    take(&mut board, &[Step::request(0, 0)]);
    refuse(&board, Step::send(0, 1, 1), SUSPENDED);
    // The receiver's count is not asked.
    let mut board = full(9, true);
    board.units[1] = board.units[0];
    board.debt += 9;
    take(&mut board, &[Step::send(1, 0, 1), Step::deliver(1)]);
    // One below is not full.
    let mut board = full(9, false);
    board.created[0] -= 1;
    board.processed[1] -= 1;
    take(&mut board, &[Step::send(0, 1, 1)]);
    assert_eq!(board.created[0], FULL);
    refuse(&board, Step::send(0, 1, 0), CREATED_FULL);
}

#[test]
fn a_full_count_refuses_a_start_last() {
    refuse(&full(9, true), Step::start(0), DEBT_ABOVE_ZERO);
    let mut board = full(9, false);
    take(&mut board, &[Step::rest(0)]);
    begin(&mut board);
    visit(&mut board, &[1]);
    refuse(&board, Step::start(2), NO_SUCH_UNIT);
    refuse(&board, Step::start(0), CREATED_FULL);
    assert_eq!(board.rounds.open, Round::One);
    take(&mut board, &[Step::start(1)]);
    assert_eq!((board.created[1], board.rounds.open), (1, Round::None));
    // A processed count may pass 32 bits.
    assert_eq!(board.processed[1], 1 << 32);
}

fn sound(board: &Board, damage: impl FnOnce(&mut Board)) {
    let mut damaged = board.clone();
    damage(&mut damaged);
    assert!(damaged.is_sound());
}

fn unsound(board: &Board, damage: impl FnOnce(&mut Board)) {
    let mut damaged = board.clone();
    damage(&mut damaged);
    assert!(!damaged.is_sound());
    let before = damaged.clone();
    assert_eq!(damaged.finished(), Err(UNSOUND));
    assert_eq!(damaged.depth(0), Err(UNSOUND));
    assert_eq!(damaged.step_checked(Step::start(0)), UNSOUND);
    assert_eq!(damaged.run(&[], &mut []), Err(UNSOUND));
    assert_eq!(damaged.begin(), UNSOUND);
    assert_eq!(damaged.visit(0), Err(UNSOUND));
    assert_eq!(damaged.visit(65_535), Err(UNSOUND));
    assert_eq!(damaged, before);
}

#[test]
fn soundness_of_counts() {
    let board = busy();
    sound(&board, |_| ());
    unsound(&board, |b| b.created[0] += 1);
    unsound(&board, |b| b.created[1] -= 1);
    unsound(&board, |b| b.processed[0] += 1);
    unsound(&board, |b| b.processed[2] = 0);
    unsound(&board, |b| b.slots[2] = Slot::BLANK);
    // Any unit may have created or processed it.
    sound(&board, |b| b.created.swap(0, 1));
    sound(&board, |b| b.processed[..3].copy_from_slice(&[3, 0, 0]));
    sound(&board, |b| {
        b.created[2] = FULL;
        b.processed[2] += u64::from(FULL);
    });
    // Beyond the units in use, whether or not the totals are equal.
    for unit in [3, 63] {
        unsound(&board, |b| b.created.swap(1, unit));
        unsound(&board, |b| b.processed.swap(1, unit));
        unsound(&board, |b| {
            b.created[unit] = 1;
            b.processed[unit] = 1;
        });
        unsound(&board, |b| b.created[unit] = 1);
        unsound(&board, |b| b.processed[unit] = 1);
    }
    sound(&counted(64, &[0; 64], &[0; 64]), |b| {
        b.created[63] = 1;
        b.processed[63] = 1;
    });
}

#[test]
fn sums_of_counts_do_not_wrap() {
    // The created total passes 32 bits.
    let board = counted(3, &[FULL, 1, 0], &[0, 0, 1 << 32]);
    sound(&board, |_| ());
    unsound(&board, |b| b.processed[2] = 0);
    let most = counted(64, &[FULL; 64], &[u64::from(FULL); 64]);
    sound(&most, |_| ());
    sound(&most, |b| {
        b.processed = [0; UNITS];
        b.processed[5] = 64 * u64::from(FULL);
    });
    // The processed total is right only modulo 2^64, or modulo 2^32.
    let board = counted(3, &[7, 0, 0], &[7, 0, 0]);
    sound(&board, |_| ());
    unsound(&board, |b| b.processed[..2].copy_from_slice(&[u64::MAX, 8]));
    unsound(&board, |b| {
        b.processed[..3].copy_from_slice(&[1 << 63, 1 << 63, 7]);
    });
    unsound(&board, |b| b.processed[1] = 1 << 32);
    unsound(&counted(64, &[0; 64], &[1 << 58; 64]), |_| ());
    // The work under way would carry the sum past 64 bits.
    let mut board = open(1, 0, &[]);
    board.processed[0] = u64::MAX;
    board.slots[0] = Slot {
        kind: Kind::Work,
        weight: 1,
        ..Slot::BLANK
    };
    board.debt = 1;
    unsound(&board, |_| ());
}

#[test]
fn soundness_of_rounds() {
    // Created 3, 4, 2, processed 2, 5, 2.
    let board = counted(3, &[3, 4, 2], &[2, 5, 2]);
    let with = |rounds: Rounds| {
        let mut board = board.clone();
        board.rounds = rounds;
        board.is_sound()
    };
    // No round: no marks and no totals.
    assert!(with(Rounds::BLANK));
    assert!(!with(rounds(Round::None, &[0], 0, 0)));
    assert!(!with(rounds(Round::None, &[], 1, 0)));
    assert!(!with(rounds(Round::None, &[], 0, 1)));
    assert!(!with(rounds(Round::None, &[0, 1, 2], 9, 9)));
    // Round one: at most what the visited units have processed.
    assert!(with(rounds(Round::One, &[], 0, 0)));
    assert!(!with(rounds(Round::One, &[], 1, 0)));
    assert!(with(rounds(Round::One, &[0], 2, 0)));
    assert!(with(rounds(Round::One, &[0], 0, 0)));
    assert!(!with(rounds(Round::One, &[0], 3, 0)));
    assert!(with(rounds(Round::One, &[1, 2], 7, 0)));
    assert!(!with(rounds(Round::One, &[1, 2], 8, 0)));
    assert!(!with(rounds(Round::One, &[1], u64::MAX, 0)));
    // Round two's total is 0 meanwhile.
    assert!(!with(rounds(Round::One, &[0], 2, 1)));
    assert!(!with(rounds(Round::One, &[0, 1, 2], 9, 9)));
    // All visited is sound.
    assert!(with(rounds(Round::One, &[0, 1, 2], 9, 0)));
    assert!(!with(rounds(Round::One, &[0, 1, 2], 10, 0)));
    // Round two: round one's total at most what all have processed, its own at
    // most what the visited units have created.
    assert!(with(rounds(Round::Two, &[], 0, 0)));
    assert!(with(rounds(Round::Two, &[], 9, 0)));
    assert!(!with(rounds(Round::Two, &[], 10, 0)));
    assert!(!with(rounds(Round::Two, &[], u64::MAX, 0)));
    assert!(!with(rounds(Round::Two, &[], 9, 1)));
    assert!(with(rounds(Round::Two, &[0], 9, 3)));
    assert!(!with(rounds(Round::Two, &[0], 9, 4)));
    assert!(with(rounds(Round::Two, &[1], 1, 4)));
    assert!(!with(rounds(Round::Two, &[1], 1, 5)));
    assert!(with(rounds(Round::Two, &[0, 1, 2], 9, 9)));
    assert!(!with(rounds(Round::Two, &[0, 1, 2], 9, 10)));
    assert!(!with(rounds(Round::Two, &[0, 1, 2], 9, u64::MAX)));
    // No mark from n on.
    for unit in [3, 63] {
        for open in [Round::None, Round::One, Round::Two] {
            assert!(!with(rounds(open, &[unit], 0, 0)));
        }
    }
    // A visited unit may be active by now.
    let mut board = busy();
    board.rounds = rounds(Round::One, &[1], 1, 0);
    assert!(board.is_sound());
    // 64 units, whose totals pass 32 bits.
    let mut most = counted(64, &[FULL; 64], &[u64::from(FULL); 64]);
    let total = 64 * u64::from(FULL);
    let all: Vec<usize> = (0..64).collect();
    most.rounds = rounds(Round::Two, &all, total, total);
    assert!(most.is_sound());
    most.rounds = rounds(Round::Two, &all[1..], total, total);
    assert!(!most.is_sound());
}

#[test]
fn beginning_drops_what_was_open() {
    for visits in [&[][..], &[2], &[2, 0], &[2, 0, 1], &[2, 0, 1, 1]] {
        let mut board = counted(3, &[3, 4, 2], &[2, 5, 2]);
        begin(&mut board);
        visit(&mut board, visits);
        let before = board.clone();
        begin(&mut board);
        assert_eq!(board.rounds, rounds(Round::One, &[], 0, 0));
        board.rounds = before.rounds.clone();
        assert_eq!(board, before, "a beginning touches the rounds alone");
    }
    // Whatever the units do.
    let mut board = busy();
    begin(&mut board);
    assert_eq!(board.rounds, rounds(Round::One, &[], 0, 0));
}

#[test]
fn visits_add_and_mark() {
    let mut board = counted(3, &[3, 4, 2], &[2, 5, 2]);
    let fresh = board.clone();
    begin(&mut board);
    for (unit, after) in [
        (2, rounds(Round::One, &[2], 2, 0)),
        (0, rounds(Round::One, &[0, 2], 4, 0)),
        // The last visit of round one opens round two and keeps the total.
        (1, rounds(Round::Two, &[], 9, 0)),
        (1, rounds(Round::Two, &[1], 9, 4)),
        (2, rounds(Round::Two, &[1, 2], 9, 6)),
    ] {
        assert_eq!(board.visit(unit), Ok(Finding::NoVerdictYet));
        assert_eq!(board.rounds, after);
        assert!(board.is_sound());
    }
    refuse_visit(&board, 1, NOTHING_TO_VISIT);
    assert_eq!(board.visit(0), Ok(Finding::Quiet));
    // Then no round runs, and nothing else has changed.
    assert_eq!(board, fresh);
    refuse_visit(&board, 0, NOTHING_TO_VISIT);
}

#[test]
fn visits_in_order_of_refusals() {
    // No round: 13 before 43, 43 before 42.
    let mut board = busy();
    refuse_visit(&board, 3, NO_SUCH_UNIT);
    refuse_visit(&board, 64, NO_SUCH_UNIT);
    refuse_visit(&board, 65_535, NO_SUCH_UNIT);
    refuse_visit(&board, 0, NOTHING_TO_VISIT);
    refuse_visit(&board, 1, NOTHING_TO_VISIT);
    // Round one: unit 1 is active, 0 idle, 2 waiting.
    begin(&mut board);
    refuse_visit(&board, 3, NO_SUCH_UNIT);
    refuse_visit(&board, 1, ACTIVE_AT_VISIT);
    visit(&mut board, &[0, 2]);
    refuse_visit(&board, 0, NOTHING_TO_VISIT);
    refuse_visit(&board, 1, ACTIVE_AT_VISIT);
    // Visited and active by now: 43 before 42.
    take(
        &mut board,
        &[Step::deliver(2), Step::send(1, 2, 2), Step::deliver(2)],
    );
    refuse_visit(&board, 2, NOTHING_TO_VISIT);
    // In round two, too.
    take(&mut board, &[Step::rest(1)]);
    visit(&mut board, &[1]);
    assert_eq!(board.rounds, rounds(Round::Two, &[], 4, 0));
    refuse_visit(&board, 3, NO_SUCH_UNIT);
    refuse_visit(&board, 2, ACTIVE_AT_VISIT);
    visit(&mut board, &[1]);
    refuse_visit(&board, 1, NOTHING_TO_VISIT);
}

#[test]
fn a_suspended_unit_is_active() {
    let mut board = open(2, 0, &[0]);
    board.units[1].state = State::Active;
    board.units[1].weight = 1;
    board.debt = 1;
    take(&mut board, &[Step::request(1, 0)]);
    begin(&mut board);
    refuse_visit(&board, 1, ACTIVE_AT_VISIT);
    take(&mut board, &[Step::deliver(0)]);
    refuse_visit(&board, 1, ACTIVE_AT_VISIT);
    take(&mut board, &[Step::deliver(0)]);
    refuse_visit(&board, 1, ACTIVE_AT_VISIT);
    take(&mut board, &[Step::rest(1)]);
    visit(&mut board, &[1]);
}

#[test]
fn a_round_with_every_unit_visited() {
    for open in [Round::One, Round::Two] {
        let mut board = counted(2, &[3, 4], &[2, 5]);
        board.rounds = rounds(open, &[0, 1], 7, 0);
        assert!(board.is_sound());
        refuse_visit(&board, 0, NOTHING_TO_VISIT);
        refuse_visit(&board, 1, NOTHING_TO_VISIT);
        refuse_visit(&board, 2, NO_SUCH_UNIT);
        begin(&mut board);
        assert_eq!(visit(&mut board, &[0, 1, 1, 0]), Finding::Quiet);
    }
}

#[test]
fn verdicts_of_one_unit() {
    let mut board = open(1, 0, &[]);
    begin(&mut board);
    assert_eq!(visit(&mut board, &[0, 0]), Finding::Quiet);
    // Work to itself is under way all the time: processed 1, created 2.
    take(
        &mut board,
        &[Step::start(0), Step::send(0, 0, 0), Step::rest(0)],
    );
    begin(&mut board);
    assert_eq!(visit(&mut board, &[0]), Finding::NoVerdictYet);
    assert_eq!(board.rounds, rounds(Round::Two, &[], 1, 0));
    assert_eq!(visit(&mut board, &[0]), Finding::Unsettled);
    assert_eq!(board.rounds, Rounds::BLANK);
    // It arrives between the rounds.
    begin(&mut board);
    visit(&mut board, &[0]);
    take(&mut board, &[Step::deliver(0)]);
    refuse_visit(&board, 0, ACTIVE_AT_VISIT);
    take(&mut board, &[Step::rest(0)]);
    assert_eq!(visit(&mut board, &[0]), Finding::Unsettled);
    begin(&mut board);
    assert_eq!(visit(&mut board, &[0, 0]), Finding::Quiet);
}

/// Work that goes behind the visits: unit 0 is visited before it gets the work
/// that unit 1 sent. Round one misses it, and round two finds what was created.
#[test]
fn work_behind_the_visits() {
    let mut board = open(2, 1, &[0]);
    take(&mut board, &[Step::start(1)]);
    begin(&mut board);
    visit(&mut board, &[0]);
    take(
        &mut board,
        &[
            Step::send(1, 0, 0),
            Step::deliver(0),
            Step::rest(0),
            Step::rest(1),
        ],
    );
    visit(&mut board, &[1]);
    assert_eq!(board.rounds, rounds(Round::Two, &[], 1, 0));
    assert_eq!(visit(&mut board, &[0, 1]), Finding::Unsettled);
    // Returns that still are under way are no work.
    take(&mut board, &[Step::tick(1), Step::release(1, 1)]);
    begin(&mut board);
    visit(&mut board, &[1, 0, 0]);
    take(&mut board, &[Step::deliver(1)]);
    assert_eq!(visit(&mut board, &[1]), Finding::Quiet);
}

/// Moves are steps that leave marks and totals (M-108), also of units that are
/// visited or still to visit. The return of unit 2 goes to 1, and is no work.
#[test]
fn moves_between_the_visits() {
    let mut board = open(1, 0, &[0, 1]);
    take(&mut board, &[Step::start(2), Step::rest(2)]);
    begin(&mut board);
    take(&mut board, &[Step::move_under(2, 0)]);
    visit(&mut board, &[2]);
    take(&mut board, &[Step::move_under(2, 1)]);
    assert_eq!(board.rounds, rounds(Round::One, &[2], 1, 0));
    visit(&mut board, &[0]);
    take(&mut board, &[Step::release(2, 0), Step::move_under(2, 0)]);
    visit(&mut board, &[1]);
    take(&mut board, &[Step::move_under(1, 0)]);
    assert_eq!(board.rounds, rounds(Round::Two, &[], 1, 0));
    visit(&mut board, &[0, 2]);
    take(&mut board, &[Step::deliver(0), Step::move_under(2, 1)]);
    assert_eq!(board.rounds, rounds(Round::Two, &[0, 2], 1, 1));
    refuse(&board, Step::move_under(0, 0), NO_SUCH_MOVE);
    assert_eq!(visit(&mut board, &[1]), Finding::Quiet);
    take(&mut board, &[Step::move_under(2, 0)]);
    assert_eq!(board.rounds, Rounds::BLANK);
}

#[test]
fn rounds_of_sixty_four_units() {
    let mut board = counted(64, &[FULL; 64], &[u64::from(FULL); 64]);
    let units: Vec<u16> = (0..64).collect();
    begin(&mut board);
    visit(&mut board, &units);
    let total = 64 * u64::from(FULL);
    assert_eq!(board.rounds, rounds(Round::Two, &[], total, 0));
    visit(&mut board, &units[1..]);
    refuse_visit(&board, 64, NO_SUCH_UNIT);
    assert_eq!(visit(&mut board, &[0]), Finding::Quiet);
}

/// The rounds of a run's board stand but for a start.
#[test]
fn a_run_over_an_open_round() {
    let mut board = busy();
    begin(&mut board);
    visit(&mut board, &[0]);
    let open = board.rounds.clone();
    let mut answers = [99; 3];
    let steps = [Step::deliver(2), Step::start(0), Step::send(1, 0, 0)];
    assert_eq!(board.run(&steps, &mut answers), Ok(2));
    assert_eq!(answers, [0, DEBT_ABOVE_ZERO, 0]);
    assert_eq!(board.rounds, open);
    assert_eq!(board.created[..3], [0, 5, 0]);
    assert_eq!(board.processed[..3], [1, 2, 1]);
}
