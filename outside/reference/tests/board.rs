//! Opening, soundness, depth and finished.

use reference::refusal::*;
use reference::*;

/// A board with a suspended unit, a waiting unit and messages of every kind
/// but the supply: unit 2 has asked, unit 3 waits.
fn busy() -> Board {
    let (mut board, answer) = Board::open(4, 2, &[0, 0, 1, 2]);
    assert_eq!(answer, 0);
    let mut steps = vec![Step::start(1), Step::send(1, 2, 0), Step::deliver(0)];
    // From 16,384 on: 15 shares of 1,024, then ten halves.
    for _ in 0..25 {
        steps.extend([Step::send(2, 3, 0), Step::deliver(0)]);
    }
    steps.extend([
        Step::request(2, 0),
        Step::rest(3),
        Step::tick(3),
        Step::tick(3),
        Step::release(3, 1),
        Step::send(1, 3, 2),
        Step::deliver(2),
        Step::rest(3),
        Step::send(1, 0, 2),
    ]);
    for step in steps {
        assert_eq!(board.step_checked(step), 0, "{step:?}");
    }
    board
}

#[test]
fn opening_in_range() {
    for (m, d, parents) in [
        (1, 0, vec![]),
        (256, 255, vec![0; 63]),
        (2, 1, (0..63).collect()),
    ] {
        let (board, answer) = Board::open(m, d, &parents);
        assert_eq!(answer, 0);
        assert_eq!(usize::from(board.n), parents.len() + 1);
        assert_eq!((board.m, board.d, board.debt), (m, d, 0));
        assert_eq!(board.parents[1..=parents.len()], parents[..]);
        assert_eq!(board.units, [Unit::BLANK; UNITS]);
        assert_eq!(board.slots, [Slot::BLANK; SLOTS]);
        assert!(board.is_sound());
        assert_eq!(board.finished(), Ok(true));
    }
}

#[test]
fn opening_refused() {
    for (m, d, parents, refusal) in [
        (0, 0, vec![], OUT_OF_RANGE),
        (257, 0, vec![], OUT_OF_RANGE),
        (65_535, 0, vec![], OUT_OF_RANGE),
        (1, 256, vec![], OUT_OF_RANGE),
        (1, 65_535, vec![], OUT_OF_RANGE),
        (1, 0, vec![0; 64], OUT_OF_RANGE),
        (1, 0, vec![1], PARENT_NOT_BELOW),
        (1, 0, vec![65_535], PARENT_NOT_BELOW),
        (1, 0, vec![0, 1, 3], PARENT_NOT_BELOW),
        // 11 comes before 12.
        (0, 0, vec![1], OUT_OF_RANGE),
        (1, 256, vec![1], OUT_OF_RANGE),
        (1, 0, vec![1; 64], OUT_OF_RANGE),
    ] {
        let (board, answer) = Board::open(m, d, &parents);
        assert_eq!(answer, refusal, "{m} {d} {parents:?}");
        assert_eq!(board, Board::BLANK);
        assert!(!board.is_sound());
        assert_eq!(board.finished(), Err(UNSOUND));
    }
}

#[test]
fn depths() {
    let board = busy();
    let depths: Vec<_> = (0..5).map(|unit| board.depth(unit)).collect();
    assert_eq!(depths, [Ok(0), Ok(1), Ok(1), Ok(2), Ok(2)]);
    assert_eq!(board.depth(5), Err(NO_SUCH_UNIT));
    assert_eq!(board.depth(65_535), Err(NO_SUCH_UNIT));
    let (chain, _) = Board::open(1, 0, &(0..63).collect::<Vec<_>>());
    assert_eq!(chain.depth(63), Ok(63));
    assert_eq!(Board::BLANK.depth(0), Err(UNSOUND));
    assert_eq!(Board::BLANK.depth(9), Err(UNSOUND));
}

/// Damages a board in one place, and pays for changed weight in the debt and for
/// changed work in unit 1's created count, so that no other condition than the
/// damaged one can fail.
fn damaged(damage: impl FnOnce(&mut Board)) -> Board {
    let mut board = busy();
    let before = board.work_under_way();
    damage(&mut board);
    board.debt = board.weight() as u64;
    let more = board.work_under_way().wrapping_sub(before);
    board.created[1] = board.created[1].wrapping_add(more as u32);
    board
}

fn unsound(damage: impl FnOnce(&mut Board)) {
    assert!(!damaged(damage).is_sound());
}

fn sound(damage: impl FnOnce(&mut Board)) {
    assert!(damaged(damage).is_sound());
}

#[test]
fn s1() {
    sound(|_| ());
    unsound(|b| b.n = 0);
    unsound(|b| b.n = 65);
    unsound(|b| b.n = 65_535);
    sound(|b| b.n = 6);
    unsound(|b| b.m = 0);
    sound(|b| b.m = 256);
    unsound(|b| b.m = 257);
    unsound(|b| b.m = 2);
    sound(|b| b.d = 255);
    unsound(|b| b.d = 256);
    unsound(|b| b.parents[0] = 1);
    sound(|b| b.parents[2] = 1);
    unsound(|b| b.parents[2] = 2);
    // The return of unit 3 goes to 1, whatever parent 3 has by now (M-108).
    sound(|b| b.parents[3] = 0);
    sound(|b| b.parents[3] = 2);
    unsound(|b| b.parents[3] = 3);
    unsound(|b| b.parents[4] = 65_535);
    unsound(|b| b.parents[5] = 1);
    unsound(|b| b.parents[63] = 1);
    let active = Unit {
        state: State::Active,
        weight: 1,
        ..Unit::BLANK
    };
    sound(|b| b.units[4] = active);
    unsound(|b| b.units[5] = active);
    unsound(|b| b.units[63].countdown = 1);
    let work = Slot {
        kind: Kind::Work,
        weight: 1,
        ..Slot::BLANK
    };
    sound(|b| b.slots[3] = work);
    unsound(|b| b.slots[4] = work);
    unsound(|b| b.slots[255].to = 1);
}

#[test]
fn s2() {
    // Unit 4 is idle, unit 1 active, unit 3 waiting.
    unsound(|b| b.units[4].weight = 1);
    unsound(|b| b.units[4].countdown = 1);
    unsound(|b| b.units[1].weight = 0);
    unsound(|b| b.units[1].countdown = 1);
    unsound(|b| b.units[3].weight = 0);
    unsound(|b| b.units[3].countdown = 3);
    sound(|b| b.units[3].countdown = 0);
    unsound(|b| b.units[3].countdown = 65_535);
    unsound(|b| b.units[3].state = State::Active);
    sound(|b| {
        b.units[3].state = State::Active;
        b.units[3].countdown = 0;
    });
    unsound(|b| {
        b.units[0] = Unit {
            state: State::Waiting,
            weight: 1,
            ..Unit::BLANK
        }
    });
    // Suspended with a request under way, but idle or waiting.
    unsound(|b| b.units[2].state = State::Waiting);
    unsound(|b| {
        b.units[2].state = State::Idle;
        b.units[2].weight = 0;
    });
}

#[test]
fn s3() {
    // Slot 0 is a request from 2, slot 1 a return from 3, slot 2 work.
    unsound(|b| b.slots[3].from = 1);
    unsound(|b| b.slots[3].to = 1);
    unsound(|b| b.slots[3].weight = 1);
    unsound(|b| b.slots[2].from = 5);
    unsound(|b| b.slots[2].to = 5);
    unsound(|b| b.slots[2].to = 65_535);
    unsound(|b| b.slots[2].weight = 0);
    sound(|b| b.slots[2].weight = 1);
    unsound(|b| b.slots[1].from = 0);
    unsound(|b| b.slots[1].from = 5);
    unsound(|b| b.slots[1].from = 65_535);
    unsound(|b| b.slots[1].weight = 0);
    // To 1, which is the parent of 3: the receiver is lower than the sender, and
    // need not be its parent (M-108).
    sound(|b| b.slots[1].from = 2);
    sound(|b| b.slots[1].from = 4);
    unsound(|b| b.slots[1].from = 1);
    sound(|b| b.slots[1].to = 0);
    sound(|b| b.slots[1].to = 2);
    for to in [3, 4, 5, 64, 65_535] {
        unsound(|b| b.slots[1].to = to);
    }
    unsound(|b| (b.slots[1].from, b.slots[1].to) = (5, 4));
    unsound(|b| (b.slots[1].from, b.slots[1].to) = (0, 0));
    unsound(|b| b.slots[0].to = 1);
    unsound(|b| b.slots[0].weight = 1);
    let supply = Slot {
        kind: Kind::Supply,
        from: 0,
        to: 2,
        weight: FULL_WEIGHT,
    };
    sound(|b| b.slots[0] = supply);
    unsound(|b| b.slots[0] = Slot { from: 1, ..supply });
    unsound(|b| {
        b.slots[0] = Slot {
            weight: FULL_WEIGHT - 1,
            ..supply
        }
    });
}

#[test]
fn s4() {
    let request = Slot {
        kind: Kind::Request,
        from: 2,
        to: 0,
        weight: 0,
    };
    let supply = Slot {
        kind: Kind::Supply,
        from: 0,
        to: 2,
        weight: FULL_WEIGHT,
    };
    unsound(|b| b.units[2].suspended = false);
    unsound(|b| b.units[1].suspended = true);
    unsound(|b| b.slots[0] = Slot::BLANK);
    unsound(|b| b.slots[3] = request);
    unsound(|b| b.slots[3] = supply);
    unsound(|b| b.slots[0].from = 1);
    // A suspended unit may hold more than 1: work may have come meanwhile.
    sound(|b| b.units[2].weight = 2048);
    sound(|b| {
        b.units[1].suspended = true;
        b.slots[3] = Slot { from: 1, ..request };
    });
}

#[test]
fn s5_and_s6() {
    let mut board = busy();
    board.debt += 1;
    assert!(!board.is_sound());
    let mut board = busy();
    board.units[1].weight -= 1;
    assert!(!board.is_sound());

    sound(|b| b.units[1].weight += DEBT_LIMIT - b.debt);
    unsound(|b| b.units[1].weight += DEBT_LIMIT - b.debt + 1);

    // Sums that a wrapping addition would take for the debt.
    let mut board = busy();
    board.units[0] = Unit {
        state: State::Active,
        weight: 1 << 63,
        ..Unit::BLANK
    };
    board.units[4] = board.units[0];
    assert!(!board.is_sound());
    let (mut board, _) = Board::open(256, 0, &[]);
    board.slots = [Slot {
        kind: Kind::Work,
        weight: 1 << 56,
        ..Slot::BLANK
    }; SLOTS];
    assert_eq!(board.weight(), 1 << 64);
    assert!(!board.is_sound());
    assert_eq!(board.step_checked(Step::start(0)), UNSOUND);
}

#[test]
fn finished_tells_from_the_debt() {
    assert_eq!(busy().finished(), Ok(false));
    let mut board = busy();
    board.debt = 0;
    assert_eq!(board.finished(), Err(UNSOUND));
}
