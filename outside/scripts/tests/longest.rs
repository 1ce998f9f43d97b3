//! The longest drain (M-109) on many boards: those that lists with moves lead to,
//! those that scripts come to, and large ones that are made directly.

use reference::refusal::*;
use reference::{walk, Board, Kind, Slot, State, Step, Unit, SLOTS, UNITS};
use scripts::{script, settling, QuietList, Random};

const SEED: u64 = 20_261_118;

/// The longest drain of all boards.
const LONGEST: usize = 4_581_537;

const MARK: Step = Step {
    kind: 7,
    unit: 0xa5a5,
    other: 0x5a5a,
    slot: 0xffff,
};

fn is_quiet(board: &Board) -> bool {
    let active = board.units.iter().any(|unit| unit.state == State::Active);
    !active && board.work_under_way() == 0
}

fn free_slots(board: &Board) -> usize {
    let slots = &board.slots[..usize::from(board.m)];
    slots.iter().filter(|slot| slot.kind == Kind::Empty).count()
}

fn waiting_units(board: &Board) -> usize {
    let waiting = |unit: &&Unit| unit.state == State::Waiting;
    board.units.iter().filter(waiting).count()
}

fn returns(board: &Board) -> impl Iterator<Item = &Slot> {
    board.slots.iter().filter(|slot| slot.kind == Kind::Return)
}

/// M-108's bound.
fn bound(board: &Board) -> usize {
    let depth = |unit| board.depth(unit).expect("a unit of a sound board");
    let deepest = (0..board.n).map(depth).max().expect("a board has a unit");
    let carriers = waiting_units(board) + returns(board).count();
    carriers * ((usize::from(board.d) + 2) * usize::from(deepest) + 1)
}

/// Runs the list of a board with a free slot to its end and gives its length.
fn list_holds(board: &Board) -> usize {
    assert!(board.is_sound() && is_quiet(board));
    let length = board.longest_length().expect("a board to drain");
    assert!(length <= bound(board) && length <= LONGEST);
    let mut list = vec![MARK; length + 2];
    assert_eq!(board.write_longest(&mut list), Ok(length));
    assert_eq!(list.split_off(length), [MARK; 2]);
    let mut after = board.clone();
    for step in list {
        assert!(after.debt > 0, "finished before the end");
        assert!(step.kind != Step::START && step.kind != Step::MOVE);
        let read = match step.kind {
            Step::RELEASE => (step.unit, 0, step.slot),
            Step::TICK => (step.unit, 0, 0),
            _ => (0, 0, step.slot),
        };
        assert_eq!((step.unit, step.other, step.slot), read, "{step:?}");
        assert_eq!(after.step(step), ACCEPTED, "{step:?}");
    }
    assert_eq!(after.finished(), Ok(true));
    length
}

/// All calls refuse a board, with room in the list and without, and leave the list.
fn refused(board: &Board, refusal: Refusal) {
    assert_eq!(board.longest_length(), Err(refusal));
    assert_eq!(board.longest_short(), Err(refusal));
    for room in [0, 40] {
        let mut list = vec![MARK; room];
        assert_eq!(board.write_longest(&mut list), Err(refusal));
        assert!(list.iter().all(|step| *step == MARK));
    }
}

/// Goes some drain from a board to its end, chosen step by step, and gives the number
/// of its steps.
fn some_drain(board: &Board, random: &mut Random) -> usize {
    let mut board = board.clone();
    let mut length = 0;
    while board.debt > 0 {
        let (n, m) = (usize::from(board.n), usize::from(board.m));
        let slot = random.below(m) as u16;
        let unit = random.below(n) as u16;
        let step = match random.below(8) {
            0 => Step::deliver(slot),
            1..=3 => Step::release(unit, slot),
            _ => Step::tick(unit),
        };
        length += usize::from(board.step(step) == ACCEPTED);
    }
    length
}

/// What a set of boards has met.
#[derive(Debug, Default)]
struct Met {
    boards: usize,
    finished: usize,
    /// Refused by 49.
    filled: usize,
    one_free_slot: usize,
    /// The lowest free slot is not slot 0.
    later_free_slot: usize,
    several_waiting: usize,
    part_way: usize,
    waiting_and_returns: usize,
    /// Returns to another unit than the sender's parent.
    astray: usize,
    to_unit_0: usize,
    longer_than_512: usize,
    as_long_as_the_bound: usize,
    steps: usize,
    longest: usize,
}

impl Met {
    fn add(&mut self, board: &Board) {
        self.boards += 1;
        if free_slots(board) == 0 {
            self.filled += 1;
            return refused(board, NO_FREE_SLOT);
        }
        let length = list_holds(board);
        let waiting = waiting_units(board);
        let part_way = |unit: &Unit| unit.countdown > 0 && unit.countdown < board.d;
        let astray = |slot: &Slot| slot.to != board.parents[usize::from(slot.from)];
        for (count, met) in [
            (&mut self.finished, board.debt == 0),
            (&mut self.one_free_slot, free_slots(board) == 1),
            (
                &mut self.later_free_slot,
                board.slots[0].kind != Kind::Empty,
            ),
            (&mut self.several_waiting, waiting > 1),
            (&mut self.part_way, board.units.iter().any(part_way)),
            (
                &mut self.waiting_and_returns,
                waiting > 0 && returns(board).count() > 0,
            ),
            (&mut self.astray, returns(board).any(astray)),
            (&mut self.to_unit_0, returns(board).any(|slot| slot.to == 0)),
            (&mut self.longer_than_512, length > 512),
            (
                &mut self.as_long_as_the_bound,
                length > 0 && length == bound(board),
            ),
        ] {
            *count += usize::from(met);
        }
        self.steps += length;
        self.longest = self.longest.max(length);
    }
}

#[test]
fn boards_that_lists_lead_to() {
    let mut met = Met::default();
    for index in 0..30_000 {
        let board = QuietList::new(SEED, index).board();
        assert!(is_quiet(&board), "list {index}");
        met.add(&board);
    }
    println!("{met:#?}");
    for count in [
        met.finished,
        met.filled,
        met.one_free_slot,
        met.later_free_slot,
        met.several_waiting,
        met.part_way,
        met.waiting_and_returns,
        met.astray,
        met.to_unit_0,
        met.longer_than_512,
    ] {
        assert!(count > 300, "{met:?}");
    }
}

/// No drain is longer, whatever steps it takes. A board without a free slot gets one
/// more.
#[test]
fn no_drain_is_longer() {
    let (mut drains, mut longest) = (0, 0);
    for index in 0..3_000 {
        let random = &mut Random::new(SEED + 1, index);
        let mut board = QuietList::new(SEED, index).board();
        if free_slots(&board) == 0 {
            if usize::from(board.m) == SLOTS {
                continue;
            }
            board.m += 1;
        }
        let most = board.longest_length().expect("a board to drain");
        // A drain of many steps takes its time.
        if most > 2_000 {
            continue;
        }
        for _ in 0..10 {
            let length = some_drain(&board, random);
            assert!(length <= most, "list {index}: {length} steps, not {most}");
            drains += 1;
            longest += usize::from(length == most && most > 0);
        }
    }
    println!("{drains} drains, {longest} as long as they can be");
    assert!(drains > 20_000 && longest > 2_000);
}

/// From every quiet board with a free slot that a script comes to, its accepted steps
/// without start and move are no more than the length. Of all these lengths only the
/// least number of steps that is still left has to be kept. And every board of a
/// script has a list once it is settled.
#[test]
fn scripts_drain_no_longer() {
    let mut met = Met::default();
    let (mut steps, mut busy, mut attained) = (0, 0, 0);
    for index in 0..2_000 {
        let mut left: Option<usize> = None;
        let mut last = Board::BLANK;
        let _ = walk(&script(SEED, index), |number, line, answer, board| {
            last.clone_from(board);
            let starts = line.starts_with(b"start") || line.starts_with(b"move");
            if answer == ACCEPTED && number > 0 {
                left = match left {
                    Some(before) if !starts => {
                        assert!(before > 0, "script {index}, line {number}");
                        steps += 1;
                        attained += usize::from(board.debt == 0 && before == 1);
                        Some(before - 1)
                    }
                    _ => None,
                };
            }
            match board.longest_length() {
                Ok(length) => left = Some(left.map_or(length, |left| left.min(length))),
                Err(BUSY) => {
                    assert!(!is_quiet(board));
                    busy += 1;
                }
                Err(refusal) => {
                    assert_eq!((refusal, free_slots(board)), (NO_FREE_SLOT, 0));
                }
            }
        });
        if last.n > 0 {
            for step in settling(&last) {
                assert_eq!(last.step(step), ACCEPTED, "{step:?}");
            }
            assert!(is_quiet(&last));
            met.add(&last);
        }
    }
    println!(
        "{steps} steps of drains, {attained} drains as long as they can be, {busy} busy boards"
    );
    println!("{met:#?}");
    assert!(steps > 10_000 && attained > 300 && busy > 10_000 && met.boards > 1_000);
}

/// A large board with no unit active and no work under way, mostly with one free slot
/// among many returns.
fn made_board(random: &mut Random) -> Board {
    let n = random.within(2, UNITS);
    let m = random.within(1, SLOTS);
    let d = random.pick(&[0, 1, 7, 254, 255]);
    let reach = random.pick(&[1, 2, 8, UNITS]);
    let parents: Vec<u16> = (1..n)
        .map(|unit| (unit - 1 - random.below(unit.min(reach))) as u16)
        .collect();
    let (mut board, _) = Board::open(m as u16, d, &parents);
    let waiting = random.pick(&[1, 2, 9, 10]);
    for u in 1..n {
        if random.chance(waiting, 10) {
            board.units[u] = Unit {
                state: State::Waiting,
                weight: random.within(1, 1 << 20) as u64,
                countdown: random.within(0, d.into()) as u16,
                suspended: false,
            };
        }
    }
    for slot in 0..m {
        let from = random.within(1, n - 1);
        board.slots[slot] = Slot {
            kind: Kind::Return,
            from: from as u16,
            to: random.below(from) as u16,
            weight: random.within(1, 1 << 20) as u64,
        };
    }
    let free = if random.chance(1, 10) { m / 2 } else { 1 };
    for _ in 0..free {
        board.slots[random.below(m)] = Slot::BLANK;
    }
    board.debt = board.weight() as u64;
    assert!(board.is_sound());
    board
}

#[test]
fn large_boards() {
    let mut met = Met::default();
    for index in 0..400 {
        met.add(&made_board(&mut Random::new(SEED + 2, index)));
    }
    println!("{met:#?}");
    assert!(met.one_free_slot > 300 && met.astray > 300 && met.longest > 500_000);
}
