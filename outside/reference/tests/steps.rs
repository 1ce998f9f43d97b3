//! The steps but the move, their refusals in order, and the run.

use reference::refusal::*;
use reference::*;
use std::collections::BTreeSet;

fn open(m: u16, d: u16, parents: &[u16]) -> Board {
    let (board, answer) = Board::open(m, d, parents);
    assert_eq!(answer, ACCEPTED);
    board
}

/// The board with these counts: a unit, what it created, what it processed.
fn counted(mut board: Board, counts: &[(usize, u32, u64)]) -> Board {
    for &(unit, created, processed) in counts {
        (board.created[unit], board.processed[unit]) = (created, processed);
    }
    board
}

fn take(board: &mut Board, steps: &[Step]) {
    for &step in steps {
        assert_eq!(board.step_checked(step), ACCEPTED, "{step:?}");
        assert!(board.is_sound());
    }
}

fn refuse(board: &Board, step: Step, refusal: u16) {
    let mut after = board.clone();
    assert_eq!(after.step_checked(step), refusal, "{step:?}");
    assert_eq!(after, *board, "a refused step changed the board");
    assert_eq!(after.step(step), refusal);
}

/// n = 6, M = 4, d = 1, all under unit 0. Unit 0 idle; 1 rich; 2 of weight 1;
/// 3 of weight 1 and suspended, its request in slot 0; 4 waiting with
/// countdown 1; 5 waiting with countdown 0. Slot 1 is work, 2 and 3 empty.
fn mixed() -> Board {
    let mut board = open(4, 1, &[0; 5]);
    take(&mut board, &[Step::start(1)]);
    for poor in [2, 3] {
        take(&mut board, &[Step::send(1, poor, 0), Step::deliver(0)]);
        // From 16,384 on: 15 shares of 1,024, then ten halves.
        for _ in 0..25 {
            take(&mut board, &[Step::send(poor, 1, 0), Step::deliver(0)]);
        }
        assert_eq!(board.units[usize::from(poor)].weight, 1);
    }
    take(
        &mut board,
        &[
            Step::request(3, 0),
            Step::send(1, 4, 1),
            Step::deliver(1),
            Step::rest(4),
            Step::send(1, 5, 1),
            Step::deliver(1),
            Step::rest(5),
            Step::tick(5),
            Step::send(1, 1, 1),
        ],
    );
    board
}

#[test]
fn shares() {
    for (weight, given) in [
        (2, 1),
        (3, 1),
        (2_047, 1_023),
        (2_048, 1_024),
        (2_050, 1_024),
        (4_095, 1_024),
        ((1 << 20) - 1, 1_024),
        (1 << 20, 16_384),
        ((1 << 20) + 1, 16_384),
        (1 << 24, 16_384),
        (u64::MAX, 16_384),
    ] {
        assert_eq!(share(weight), Ok(given));
    }
    assert_eq!(share(1), Err(WEIGHT_ONE));
}

#[test]
fn start_refused() {
    let board = mixed();
    refuse(&board, Step::start(6), NO_SUCH_UNIT);
    refuse(&board, Step::start(65_535), NO_SUCH_UNIT);
    for unit in 0..6 {
        refuse(&board, Step::start(unit), DEBT_ABOVE_ZERO);
    }
    let mut fresh = open(1, 0, &[]);
    refuse(&fresh, Step::start(1), NO_SUCH_UNIT);
    take(&mut fresh, &[Step::start(0)]);
    refuse(&fresh, Step::start(0), DEBT_ABOVE_ZERO);
}

#[test]
fn send_refused() {
    let board = mixed();
    refuse(&board, Step::send(6, 0, 4), NO_SUCH_UNIT);
    refuse(&board, Step::send(0, 6, 4), NO_SUCH_UNIT);
    refuse(&board, Step::send(1, 6, 2), NO_SUCH_UNIT);
    refuse(&board, Step::send(0, 1, 4), NO_SUCH_SLOT);
    refuse(&board, Step::send(1, 2, 65_535), NO_SUCH_SLOT);
    for unit in [0, 4, 5] {
        refuse(&board, Step::send(unit, 1, 1), NOT_ACTIVE);
        refuse(&board, Step::send(unit, 1, 2), NOT_ACTIVE);
    }
    refuse(&board, Step::send(3, 1, 1), SUSPENDED);
    refuse(&board, Step::send(3, 1, 2), SUSPENDED);
    refuse(&board, Step::send(1, 2, 0), SLOT_FILLED);
    refuse(&board, Step::send(2, 1, 2), WEIGHT_ONE);
    // 33 before 34 (M-103).
    refuse(&board, Step::send(2, 1, 1), WEIGHT_ONE);
}

/// n = 6, M = 5, d = 1, all under unit 0. Unit 1 is rich, 5 idle, the others
/// have weight 1: 0 is ready, 2 waiting with countdown 1, 3 and 4 suspended.
/// Slot 0 is 3's request, 1 the supply to 4, 2 work, 3 a return, 4 empty.
fn starved() -> Board {
    let mut board = open(5, 1, &[0; 5]);
    take(&mut board, &[Step::start(1)]);
    for poor in [0, 2, 3, 4] {
        take(&mut board, &[Step::send(1, poor, 0), Step::deliver(0)]);
        // From 16,384 on: 15 shares of 1,024, then ten halves.
        for _ in 0..25 {
            take(&mut board, &[Step::send(poor, 1, 0), Step::deliver(0)]);
        }
        assert_eq!(board.units[usize::from(poor)].weight, 1);
    }
    take(
        &mut board,
        &[
            Step::rest(2),
            Step::request(3, 0),
            Step::request(4, 1),
            Step::deliver(1),
            Step::send(1, 5, 3),
            Step::deliver(3),
            Step::rest(5),
            Step::tick(5),
            Step::release(5, 3),
            Step::send(1, 1, 2),
        ],
    );
    let kinds = [0, 1, 2, 3, 4].map(|slot| board.slots[slot].kind);
    let expected = [
        Kind::Request,
        Kind::Supply,
        Kind::Work,
        Kind::Return,
        Kind::Empty,
    ];
    assert_eq!(kinds, expected);
    board
}

/// Every slot of `starved` that holds a message.
const FILLED: [u16; 4] = [0, 1, 2, 3];

#[test]
fn weight_one_and_a_filled_slot() {
    let mut board = starved();
    for other in 0..6 {
        // Weight 1 alone, a filled slot alone, both: 33 before 34 (M-103).
        refuse(&board, Step::send(0, other, 4), WEIGHT_ONE);
        for slot in FILLED {
            refuse(&board, Step::send(1, other, slot), SLOT_FILLED);
            refuse(&board, Step::send(0, other, slot), WEIGHT_ONE);
            // Both hold, and 31 or 32 too. An idle unit has no weight.
            refuse(&board, Step::send(2, other, slot), NOT_ACTIVE);
            refuse(&board, Step::send(3, other, slot), SUSPENDED);
            refuse(&board, Step::send(4, other, slot), SUSPENDED);
            refuse(&board, Step::send(5, other, slot), NOT_ACTIVE);
        }
    }
    for slot in FILLED {
        for unit in 0..5 {
            // Both hold but for unit 1, and there is no v.
            refuse(&board, Step::send(unit, 6, slot), NO_SUCH_UNIT);
            refuse(&board, Step::send(unit, 65_535, slot), NO_SUCH_UNIT);
        }
        // There is no u, so no weight either.
        refuse(&board, Step::send(6, 0, slot), NO_SUCH_UNIT);
        refuse(&board, Step::send(65_535, 0, slot), NO_SUCH_UNIT);
    }
    for slot in [5, 256, 65_535] {
        // There is no slot, so no message either.
        refuse(&board, Step::send(0, 1, slot), NO_SUCH_SLOT);
        refuse(&board, Step::send(2, 1, slot), NO_SUCH_SLOT);
        refuse(&board, Step::send(3, 1, slot), NO_SUCH_SLOT);
        refuse(&board, Step::send(0, 6, slot), NO_SUCH_UNIT);
    }
    // Weight 2 is enough for 34, and an empty slot for a send.
    board.units[0].weight += 1;
    board.debt += 1;
    refuse(&board, Step::send(0, 1, 2), SLOT_FILLED);
    take(&mut board, &[Step::send(0, 1, 4)]);
    assert_eq!(board.units[0].weight, 1);
    // The last empty slot, filled by the unit itself.
    refuse(&board, Step::send(0, 1, 4), WEIGHT_ONE);
    refuse(&board, Step::send(1, 0, 4), SLOT_FILLED);
    // 30 precedes all.
    board.debt += 1;
    let before = board.clone();
    assert_eq!(board.step_checked(Step::send(0, 1, 4)), UNSOUND);
    assert_eq!(board, before);
}

/// Every cause to refuse a send, as the scope document tells it, in no order.
fn send_causes(board: &Board, u: u16, v: u16, s: u16) -> BTreeSet<u16> {
    let unit = (u < board.n).then(|| board.units[usize::from(u)]);
    let slot = (s < board.m).then(|| board.slots[usize::from(s)]);
    [
        (13, u >= board.n || v >= board.n),
        (14, s >= board.m),
        (31, unit.is_some_and(|unit| unit.state != State::Active)),
        (32, unit.is_some_and(|unit| unit.suspended)),
        (33, unit.is_some_and(|unit| unit.weight == 1)),
        (34, slot.is_some_and(|slot| slot.kind != Kind::Empty)),
    ]
    .into_iter()
    .filter_map(|(number, holds)| holds.then_some(number))
    .collect()
}

/// Of every send on two boards the first cause in M-103's order is the answer.
/// The scope document's order gives the same but where just 33 and 34 hold.
#[test]
fn sends_by_their_causes() {
    let mut met = BTreeSet::new();
    for board in [mixed(), starved()] {
        for u in (0..=board.n).chain([65_535]) {
            for v in (0..=board.n).chain([65_535]) {
                for s in (0..=board.m).chain([65_535]) {
                    let step = Step::send(u, v, s);
                    let causes = send_causes(&board, u, v, s);
                    let first = |order: [u16; 6]| {
                        let holds = |number: &u16| causes.contains(number);
                        order.into_iter().find(holds).unwrap_or(ACCEPTED)
                    };
                    let answer = first([13, 14, 31, 32, 33, 34]);
                    if answer == ACCEPTED {
                        take(&mut board.clone(), &[step]);
                    } else {
                        refuse(&board, step, answer);
                    }
                    let before = first([13, 14, 31, 32, 34, 33]);
                    if causes == BTreeSet::from([33, 34]) {
                        assert_eq!((before, answer), (34, 33), "{step:?}");
                    } else {
                        assert_eq!(before, answer, "{step:?}");
                    }
                    met.insert(causes);
                }
            }
        }
    }
    // All that can hold together with 33 and 34: the unit and the slot exist,
    // a unit of weight 1 is not idle, a suspended one is active.
    met.retain(|causes| causes.contains(&33) && causes.contains(&34));
    let expected: [&[u16]; 6] = [
        &[13, 31, 33, 34],
        &[13, 32, 33, 34],
        &[13, 33, 34],
        &[31, 33, 34],
        &[32, 33, 34],
        &[33, 34],
    ];
    let expected = expected.map(|causes| causes.iter().copied().collect());
    assert_eq!(met, BTreeSet::from(expected));
}

/// M-103 names the send alone: 41 stays before 34, and so does 40.
#[test]
fn request_and_release_keep_their_orders() {
    let mut board = starved();
    for slot in FILLED {
        refuse(&board, Step::request(1, slot), WEIGHT_ABOVE_ONE);
        refuse(&board, Step::request(0, slot), SLOT_FILLED);
        refuse(&board, Step::request(2, slot), NOT_ACTIVE);
        refuse(&board, Step::request(3, slot), SUSPENDED);
        refuse(&board, Step::release(0, slot), NOT_WAITING);
        refuse(&board, Step::release(2, slot), COUNTDOWN_ABOVE_ZERO);
    }
    refuse(&board, Step::request(1, 4), WEIGHT_ABOVE_ONE);
    refuse(&board, Step::release(2, 4), COUNTDOWN_ABOVE_ZERO);
    take(&mut board, &[Step::tick(2)]);
    for slot in FILLED {
        refuse(&board, Step::release(2, slot), SLOT_FILLED);
    }
    // Neither minds weight 1.
    take(&mut board.clone(), &[Step::request(0, 4)]);
    take(&mut board, &[Step::release(2, 4)]);
}

#[test]
fn request_refused() {
    let mut board = mixed();
    refuse(&board, Step::request(6, 4), NO_SUCH_UNIT);
    refuse(&board, Step::request(0, 4), NO_SUCH_SLOT);
    refuse(&board, Step::request(0, 1), NOT_ACTIVE);
    refuse(&board, Step::request(4, 2), NOT_ACTIVE);
    refuse(&board, Step::request(3, 1), SUSPENDED);
    refuse(&board, Step::request(1, 1), WEIGHT_ABOVE_ONE);
    refuse(&board, Step::request(1, 2), WEIGHT_ABOVE_ONE);
    refuse(&board, Step::request(2, 1), SLOT_FILLED);
    // Work for the suspended unit: 32 still comes before 41.
    take(&mut board, &[Step::send(1, 3, 2), Step::deliver(2)]);
    assert_eq!(board.units[3].weight, 16_385);
    refuse(&board, Step::request(3, 2), SUSPENDED);
}

#[test]
fn deliver_refused() {
    let mut board = mixed();
    refuse(&board, Step::deliver(4), NO_SUCH_SLOT);
    refuse(&board, Step::deliver(65_535), NO_SUCH_SLOT);
    refuse(&board, Step::deliver(2), SLOT_EMPTY);
    // Room for one grant more, and for one unit of weight less than that.
    let missing = DEBT_LIMIT - FULL_WEIGHT - board.debt;
    board.units[1].weight += missing;
    board.debt += missing;
    let mut over = board.clone();
    take(&mut board, &[Step::deliver(0)]);
    assert_eq!(board.debt, DEBT_LIMIT);
    over.units[1].weight += 1;
    over.debt += 1;
    refuse(&over, Step::deliver(0), GRANT_PAST_LIMIT);
    // Only grants are bounded.
    take(&mut over, &[Step::deliver(1)]);
}

#[test]
fn rest_refused() {
    let board = mixed();
    refuse(&board, Step::rest(6), NO_SUCH_UNIT);
    for unit in [0, 4, 5] {
        refuse(&board, Step::rest(unit), NOT_ACTIVE);
    }
    refuse(&board, Step::rest(3), SUSPENDED);
}

#[test]
fn tick_refused() {
    let board = mixed();
    refuse(&board, Step::tick(6), NO_SUCH_UNIT);
    for unit in 0..4 {
        refuse(&board, Step::tick(unit), NOT_WAITING);
    }
    refuse(&board, Step::tick(5), COUNTDOWN_ZERO);
}

#[test]
fn release_refused() {
    let board = mixed();
    refuse(&board, Step::release(6, 4), NO_SUCH_UNIT);
    refuse(&board, Step::release(0, 4), NO_SUCH_SLOT);
    for unit in 0..4 {
        refuse(&board, Step::release(unit, 1), NOT_WAITING);
    }
    refuse(&board, Step::release(4, 1), COUNTDOWN_ABOVE_ZERO);
    refuse(&board, Step::release(4, 2), COUNTDOWN_ABOVE_ZERO);
    refuse(&board, Step::release(5, 1), SLOT_FILLED);
}

#[test]
fn no_such_kind() {
    for kind in [0, 9, 65_535] {
        let step = Step {
            kind,
            ..Step::default()
        };
        refuse(&mixed(), step, NO_SUCH_KIND);
        assert_eq!(Board::BLANK.clone().step_checked(step), UNSOUND);
    }
}

#[test]
fn unsound_before_all() {
    let mut board = mixed();
    board.debt += 1;
    for kind in 0..=9 {
        let step = Step {
            kind,
            unit: 99,
            other: 99,
            slot: 999,
        };
        let mut after = board.clone();
        assert_eq!(after.step_checked(step), UNSOUND);
        assert_eq!(after, board);
    }
}

#[test]
fn unread_fields() {
    let mut board = mixed();
    let junk = Step {
        kind: 0,
        unit: 65_535,
        other: 65_535,
        slot: 65_535,
    };
    let steps = [
        Step {
            kind: Step::DELIVER,
            slot: 1,
            ..junk
        },
        Step {
            kind: Step::TICK,
            unit: 4,
            ..junk
        },
        Step {
            kind: Step::RELEASE,
            unit: 4,
            slot: 2,
            ..junk
        },
        Step {
            kind: Step::REQUEST,
            unit: 2,
            slot: 3,
            ..junk
        },
        Step {
            kind: Step::REST,
            unit: 1,
            ..junk
        },
    ];
    take(&mut board, &steps);
    let mut fresh = open(1, 0, &[]);
    let start = Step {
        kind: Step::START,
        unit: 0,
        ..junk
    };
    take(&mut fresh, &[start]);
}

#[test]
fn start_and_send() {
    let mut board = open(2, 3, &[0]);
    take(&mut board, &[Step::start(1), Step::send(1, 0, 1)]);
    assert_eq!(board.debt, 1 << 24);
    assert_eq!(board.units[1].weight, (1 << 24) - 16_384);
    assert_eq!(board.units[1].state, State::Active);
    let work = Slot {
        kind: Kind::Work,
        from: 1,
        to: 0,
        weight: 16_384,
    };
    assert_eq!(board.slots[1], work);
    // A unit may send to itself.
    take(&mut board, &[Step::send(1, 1, 0), Step::deliver(0)]);
    assert_eq!(board.units[1].weight, (1 << 24) - 16_384);
    assert_eq!(board.slots[0], Slot::BLANK);
}

#[test]
fn request_grant_and_supply() {
    let mut board = mixed();
    let debt = board.debt;
    let request = Slot {
        kind: Kind::Request,
        from: 3,
        to: 0,
        weight: 0,
    };
    assert_eq!(board.slots[0], request);
    assert!(board.units[3].suspended);
    take(&mut board, &[Step::deliver(0)]);
    let supply = Slot {
        kind: Kind::Supply,
        from: 0,
        to: 3,
        weight: 1 << 24,
    };
    assert_eq!(board.slots[0], supply);
    assert_eq!(board.debt, debt + (1 << 24));
    assert!(board.units[3].suspended);
    refuse(&board, Step::rest(3), SUSPENDED);
    take(&mut board, &[Step::deliver(0)]);
    assert_eq!(board.slots[0], Slot::BLANK);
    assert_eq!(board.debt, debt + (1 << 24));
    assert_eq!(board.units[3].weight, (1 << 24) + 1);
    assert!(!board.units[3].suspended);
}

#[test]
fn work_wakes_a_waiting_unit_with_its_weight() {
    let mut board = mixed();
    assert_eq!(board.units[4].weight, 16_384);
    take(&mut board, &[Step::send(1, 4, 2), Step::deliver(2)]);
    let unit = Unit {
        state: State::Active,
        weight: 32_768,
        countdown: 0,
        suspended: false,
    };
    assert_eq!(board.units[4], unit);
}

fn waiting(weight: u64, countdown: u16) -> Unit {
    Unit {
        state: State::Waiting,
        weight,
        countdown,
        suspended: false,
    }
}

fn returned(from: u16, to: u16, weight: u64) -> Slot {
    Slot {
        kind: Kind::Return,
        from,
        to,
        weight,
    }
}

/// So many ticks of a unit.
fn ticks(board: &mut Board, unit: u16, count: u16) {
    for _ in 0..count {
        take(board, &[Step::tick(unit)]);
    }
}

#[test]
fn returns() {
    // The chain 0, 1, 2, 3 with d = 2.
    let mut board = open(2, 2, &[0, 1, 2]);
    take(
        &mut board,
        &[
            Step::start(3),
            Step::send(3, 2, 0),
            Step::deliver(0),
            Step::rest(2),
            Step::tick(2),
            Step::rest(3),
            Step::tick(3),
            Step::tick(3),
            Step::release(3, 0),
        ],
    );
    assert_eq!(board.units[3], Unit::BLANK);
    assert_eq!(board.slots[0], returned(3, 2, (1 << 24) - 16_384));
    // Into a waiting unit: the countdown stands (M-104), and so does the debt.
    take(&mut board, &[Step::deliver(0)]);
    assert_eq!(board.units[2], waiting(1 << 24, 1));
    assert_eq!(board.debt, 1 << 24);
    // Into an idle unit.
    take(&mut board, &[Step::tick(2), Step::release(2, 1)]);
    take(&mut board, &[Step::deliver(1)]);
    assert_eq!(board.units[1], waiting(1 << 24, 2));
    // Into unit 0.
    take(
        &mut board,
        &[Step::tick(1), Step::tick(1), Step::release(1, 0)],
    );
    assert_eq!(board.debt, 1 << 24);
    take(&mut board, &[Step::deliver(0)]);
    assert_eq!(board.debt, 0);
    let finished = counted(open(2, 2, &[0, 1, 2]), &[(2, 0, 1), (3, 2, 1)]);
    assert_eq!(board, finished);
}

/// The chain 0, 1, 2 with M = 2. Unit 1 waits with 16,384 and the countdown,
/// slot 0 is the return to it with the rest of 2^24, all else is blank but for
/// the counts.
fn return_to_a_waiting_unit(d: u16, countdown: u16) -> Board {
    let mut board = open(2, d, &[0, 1]);
    take(
        &mut board,
        &[
            Step::start(2),
            Step::send(2, 1, 0),
            Step::deliver(0),
            Step::rest(1),
            Step::rest(2),
        ],
    );
    ticks(&mut board, 2, d);
    ticks(&mut board, 1, d - countdown);
    take(&mut board, &[Step::release(2, 0)]);
    assert_eq!(board.units[1], waiting(16_384, countdown));
    assert_eq!(board.slots[0], returned(2, 1, 16_760_832));
    board
}

/// The same board as it was opened, with the counts of that start and that send.
fn opened_and_counted(d: u16) -> Board {
    counted(open(2, d, &[0, 1]), &[(1, 0, 1), (2, 2, 1)])
}

/// A delay and a countdown of it.
const COUNTDOWNS: [(u16, u16); 13] = [
    (0, 0),
    (1, 0),
    (1, 1),
    (2, 0),
    (2, 1),
    (2, 2),
    (5, 0),
    (5, 1),
    (5, 4),
    (5, 5),
    (255, 0),
    (255, 1),
    (255, 255),
];

#[test]
fn return_into_a_waiting_unit() {
    for (d, countdown) in COUNTDOWNS {
        let mut board = return_to_a_waiting_unit(d, countdown);
        take(&mut board, &[Step::deliver(0)]);
        // The countdown stands (M-104).
        let mut expected = opened_and_counted(d);
        expected.units[1] = waiting(16_777_216, countdown);
        expected.debt = 16_777_216;
        assert_eq!(board, expected, "d = {d}, countdown {countdown}");
    }
}

/// As many ticks as the countdown had left, no more and no fewer, and then a
/// return with both weights.
#[test]
fn release_after_a_return() {
    for (d, countdown) in COUNTDOWNS {
        let mut board = return_to_a_waiting_unit(d, countdown);
        take(&mut board, &[Step::deliver(0)]);
        for left in (1..=countdown).rev() {
            assert_eq!(board.units[1].countdown, left);
            refuse(&board, Step::release(1, 1), COUNTDOWN_ABOVE_ZERO);
            take(&mut board, &[Step::tick(1)]);
        }
        refuse(&board, Step::tick(1), COUNTDOWN_ZERO);
        take(&mut board, &[Step::release(1, 1)]);
        let mut expected = opened_and_counted(d);
        expected.slots[1] = returned(1, 0, 16_777_216);
        expected.debt = 16_777_216;
        assert_eq!(board, expected, "d = {d}, countdown {countdown}");
        take(&mut board, &[Step::deliver(1)]);
        assert_eq!(board, opened_and_counted(d));
    }
}

#[test]
fn released_at_once_after_a_return() {
    let mut board = return_to_a_waiting_unit(3, 0);
    refuse(&board, Step::tick(1), COUNTDOWN_ZERO);
    take(&mut board, &[Step::deliver(0)]);
    refuse(&board, Step::tick(1), COUNTDOWN_ZERO);
    take(&mut board, &[Step::release(1, 0)]);
    assert_eq!(board.slots[0], returned(1, 0, 16_777_216));
    assert_eq!(board.units[1], Unit::BLANK);
    take(&mut board, &[Step::deliver(0)]);
    assert_eq!(board.finished(), Ok(true));
}

#[test]
fn return_into_an_idle_unit() {
    for d in [0, 1, 2, 255] {
        let mut board = open(1, d, &[0, 1]);
        take(&mut board, &[Step::start(2), Step::rest(2)]);
        ticks(&mut board, 2, d);
        take(&mut board, &[Step::release(2, 0), Step::deliver(0)]);
        let mut expected = counted(open(1, d, &[0, 1]), &[(2, 1, 1)]);
        expected.units[1] = waiting(16_777_216, d);
        expected.debt = 16_777_216;
        assert_eq!(board, expected, "d = {d}");
    }
}

#[test]
fn return_into_an_active_unit() {
    for d in [0, 2] {
        let mut board = open(2, d, &[0, 1]);
        take(
            &mut board,
            &[
                Step::start(1),
                Step::send(1, 2, 0),
                Step::deliver(0),
                Step::rest(2),
            ],
        );
        ticks(&mut board, 2, d);
        take(&mut board, &[Step::release(2, 0), Step::deliver(0)]);
        let mut expected = open(2, d, &[0, 1]);
        take(&mut expected, &[Step::start(1)]);
        assert_eq!(board, counted(expected, &[(1, 2, 1), (2, 0, 1)]));
        let active = Unit {
            state: State::Active,
            weight: 16_777_216,
            countdown: 0,
            suspended: false,
        };
        assert_eq!(board.units[1], active);
        // Its own wait begins with its rest.
        take(&mut board, &[Step::rest(1)]);
        assert_eq!(board.units[1], waiting(16_777_216, d));
    }
}

/// The return comes before the grant, and between the grant and the supply.
#[test]
fn return_into_a_suspended_unit() {
    for granted in [false, true] {
        let mut board = open(2, 2, &[0, 1]);
        take(
            &mut board,
            &[Step::start(2), Step::send(2, 1, 0), Step::deliver(0)],
        );
        // From 16,384 on: 15 shares of 1,024, then ten halves.
        for _ in 0..25 {
            take(&mut board, &[Step::send(1, 2, 0), Step::deliver(0)]);
        }
        take(&mut board, &[Step::request(1, 0), Step::rest(2)]);
        ticks(&mut board, 2, 2);
        take(&mut board, &[Step::release(2, 1)]);
        if granted {
            take(&mut board, &[Step::deliver(0)]);
        }
        let before = board.clone();
        take(&mut board, &[Step::deliver(1)]);
        let mut expected = before;
        expected.units[1] = Unit {
            state: State::Active,
            weight: 16_777_216,
            countdown: 0,
            suspended: true,
        };
        expected.slots[1] = Slot::BLANK;
        assert_eq!(board, expected);
        refuse(&board, Step::rest(1), SUSPENDED);
        refuse(&board, Step::tick(1), NOT_WAITING);
        refuse(&board, Step::release(1, 1), NOT_WAITING);
    }
}

#[test]
fn return_into_unit_0() {
    for rested in [false, true] {
        let mut board = open(1, 1, &[0]);
        take(
            &mut board,
            &[Step::start(0), Step::send(0, 1, 0), Step::deliver(0)],
        );
        if rested {
            take(&mut board, &[Step::rest(0)]);
        }
        let root = board.units[0];
        let kept = if rested { 0 } else { 16_760_832 };
        take(
            &mut board,
            &[Step::rest(1), Step::tick(1), Step::release(1, 0)],
        );
        assert_eq!(board.debt, kept + 16_384);
        take(&mut board, &[Step::deliver(0)]);
        assert_eq!((board.debt, board.units[0]), (kept, root));
        assert_eq!(board.units[1], Unit::BLANK);
        assert_eq!(board.slots[0], Slot::BLANK);
    }
}

/// The units 2, 3 and 4 under 1, with d = 3: the first return begins unit 1's
/// wait, those after it join in.
#[test]
fn returns_one_after_another() {
    let mut board = open(3, 3, &[0, 1, 1, 1]);
    take(
        &mut board,
        &[
            Step::start(2),
            Step::send(2, 3, 0),
            Step::deliver(0),
            Step::send(2, 4, 0),
            Step::deliver(0),
        ],
    );
    for (unit, slot) in [(2, 0), (3, 1), (4, 2)] {
        take(&mut board, &[Step::rest(unit)]);
        ticks(&mut board, unit, 3);
        take(&mut board, &[Step::release(unit, slot)]);
    }
    take(&mut board, &[Step::deliver(1)]);
    assert_eq!(board.units[1], waiting(16_384, 3));
    ticks(&mut board, 1, 2);
    assert_eq!(board.units[1], waiting(16_384, 1));
    take(&mut board, &[Step::deliver(0)]);
    assert_eq!(board.units[1], waiting(16_760_832, 1));
    refuse(&board, Step::release(1, 0), COUNTDOWN_ABOVE_ZERO);
    let mut early = board.clone();
    // Three returns in one wait.
    take(&mut board, &[Step::deliver(2)]);
    assert_eq!(board.units[1], waiting(16_777_216, 1));
    take(&mut board, &[Step::tick(1)]);
    refuse(&board, Step::tick(1), COUNTDOWN_ZERO);
    take(&mut board, &[Step::release(1, 0)]);
    assert_eq!(board.slots[0], returned(1, 0, 16_777_216));
    // The last comes when the unit is idle again: it waits anew.
    take(&mut early, &[Step::tick(1), Step::release(1, 0)]);
    assert_eq!(early.slots[0], returned(1, 0, 16_760_832));
    take(&mut early, &[Step::deliver(2)]);
    assert_eq!(early.units[1], waiting(16_384, 3));
}

/// Only returns leave the countdown: work ends the wait, and the rest after it
/// begins another.
#[test]
fn work_between_returns() {
    let mut board = open(2, 2, &[0, 1]);
    take(
        &mut board,
        &[
            Step::start(2),
            Step::send(2, 1, 0),
            Step::deliver(0),
            Step::rest(1),
            Step::tick(1),
            Step::send(2, 1, 1),
            Step::rest(2),
        ],
    );
    ticks(&mut board, 2, 2);
    take(&mut board, &[Step::release(2, 0)]);
    // The return first.
    let mut after = board.clone();
    take(&mut after, &[Step::deliver(0)]);
    assert_eq!(after.units[1], waiting(16_760_832, 1));
    take(&mut after, &[Step::deliver(1)]);
    assert_eq!(after.units[1].state, State::Active);
    assert_eq!(after.units[1].countdown, 0);
    take(&mut after, &[Step::rest(1)]);
    assert_eq!(after.units[1], waiting(16_777_216, 2));
    // The work first.
    take(&mut board, &[Step::deliver(1), Step::rest(1)]);
    assert_eq!(board.units[1], waiting(32_768, 2));
    take(&mut board, &[Step::tick(1), Step::deliver(0)]);
    assert_eq!(board.units[1], waiting(16_777_216, 1));
}

#[test]
fn no_tick_without_delay() {
    let mut board = open(1, 0, &[0]);
    take(&mut board, &[Step::start(1), Step::rest(1)]);
    refuse(&board, Step::tick(1), COUNTDOWN_ZERO);
    take(&mut board, &[Step::release(1, 0), Step::deliver(0)]);
    assert_eq!(board.finished(), Ok(true));
}

#[test]
fn one_unit_finishes_on_rest() {
    let mut board = open(1, 255, &[]);
    take(&mut board, &[Step::start(0)]);
    assert_eq!(board.finished(), Ok(false));
    take(&mut board, &[Step::rest(0)]);
    assert_eq!(board.finished(), Ok(true));
    assert_eq!(board, counted(open(1, 255, &[]), &[(0, 1, 1)]));
}

#[test]
fn many_sends() {
    let mut board = open(1, 0, &[0]);
    take(&mut board, &[Step::start(0)]);
    let mut sends = 0;
    for (until, left) in [
        (1, 16_760_832),
        (959, 1_064_960),
        // 2^20 still gives 2^14: 2^20 - 2^14 is left, then 2^10 less.
        (960, 1_048_576),
        (961, 1_032_192),
        (962, 1_031_168),
        // The last of 1,024 from more than 2,048, the one from 2,048, a half.
        (1_967, 2_048),
        (1_968, 1_024),
        (1_969, 512),
        (1_977, 2),
        (1_978, 1),
    ] {
        while sends < until {
            assert_eq!(board.step(Step::send(0, 1, 0)), ACCEPTED);
            assert_eq!(board.step(Step::deliver(0)), ACCEPTED);
            sends += 1;
        }
        assert_eq!(board.units[0].weight, left, "{sends} sends");
    }
    refuse(&board, Step::send(0, 1, 0), WEIGHT_ONE);
}

#[test]
fn run() {
    let mut board = open(2, 1, &[0]);
    let steps = [
        Step::start(0),
        Step::start(0),
        Step::default(),
        Step::send(0, 1, 0),
        Step::rest(0),
        Step::rest(1),
    ];
    let mut answers = [99; 8];
    assert_eq!(board.run(&steps, &mut answers), Ok(3));
    assert_eq!(answers, [0, 37, 16, 0, 0, 31, 99, 99]);
    assert_eq!(board.debt, 16_384);

    let before = board.clone();
    let mut short = [99; 5];
    assert_eq!(board.run(&steps, &mut short), Err(ANSWERS_TOO_SHORT));
    assert_eq!((&board, short), (&before, [99; 5]));
    assert_eq!(board.run(&[], &mut []), Ok(0));

    board.debt = 1;
    let before = board.clone();
    assert_eq!(board.run(&steps, &mut short), Err(UNSOUND));
    assert_eq!(board.run(&[], &mut []), Err(UNSOUND));
    assert_eq!((&board, short), (&before, [99; 5]));
}
