//! The longest drain (M-109): worked boards, each refusal and its place in the
//! order, every drain of every small board, and the longest of all.

mod drain;

use drain::*;
use reference::refusal::*;
use reference::*;

/// What the entries of a list hold before a call.
const MARK: Step = Step {
    kind: 0xa5a5,
    unit: 0x5a5a,
    other: 0xa55a,
    slot: 0x5aa5,
};

/// What the request adds up, once more and apart from the reference: each way goes
/// up parent by parent, and every unit on it but the first waits anew.
fn sum(board: &Board) -> usize {
    let way = |from: u16| {
        let mut steps = 0;
        let mut unit = from;
        while unit > 0 {
            steps += usize::from(board.d) + 1 + 1;
            unit = board.parents[usize::from(unit)];
        }
        steps
    };
    let mut sum = 0;
    for (u, unit) in board.units.iter().enumerate() {
        if unit.state == State::Waiting {
            sum += usize::from(unit.countdown) + 1 + 1 + way(board.parents[u]);
        }
    }
    for slot in &board.slots {
        if slot.kind == Kind::Return {
            sum += 1 + way(slot.to);
        }
    }
    sum
}

/// The list of a board, which every call gives alike, in as many entries as it needs
/// and in more.
fn list_of(board: &Board) -> Vec<Step> {
    let length = board.longest_length().expect("a board to drain");
    let mut list = vec![MARK; length + 3];
    assert_eq!(board.write_longest(&mut list), Ok(length));
    assert_eq!(list.split_off(length), [MARK; 3], "the rest stays");
    let mut exact = vec![MARK; length];
    assert_eq!(board.write_longest(&mut exact), Ok(length));
    assert_eq!(exact, list);
    match board.longest_short() {
        Ok(drain) => {
            assert_eq!((drain.length, &drain.steps[..length]), (length, &list[..]));
            let blank = |step: &Step| *step == Step::default();
            assert!(drain.steps[length..].iter().all(blank));
        }
        Err(refusal) => assert!(refusal == LIST_TOO_SHORT && length > SHORT),
    }
    // One entry less is too short.
    if length > 0 {
        let mut short = vec![MARK; length - 1];
        assert_eq!(board.write_longest(&mut short), Err(LIST_TOO_SHORT));
        assert!(short.iter().all(|step| *step == MARK));
    }
    list
}

/// Each step is made of its letters alone, and is none but a tick, a release or a
/// delivery.
fn letters_alone(step: Step) {
    let same = match step.kind {
        Step::TICK => Step::tick(step.unit),
        Step::RELEASE => Step::release(step.unit, step.slot),
        _ => Step::deliver(step.slot),
    };
    assert_eq!(step, same);
}

/// A worked board: its list, by hand.
fn worked(board: &Board, list: &[Step]) {
    assert_eq!(list_of(board), list);
    assert_eq!(drained(board, list), sum(board));
    assert!(list.len() <= bound(board));
    list.iter().copied().for_each(letters_alone);
}

/// All calls refuse a board alike, whatever the list has room for, and leave the list.
fn refused(board: &Board, refusal: Refusal) {
    assert_eq!(board.longest_length(), Err(refusal));
    assert_eq!(board.longest_short(), Err(refusal));
    for room in [0, 1, 2, 100, 600] {
        let mut list = vec![MARK; room];
        assert_eq!(board.write_longest(&mut list), Err(refusal));
        assert!(list.iter().all(|step| *step == MARK));
    }
}

#[test]
fn numbers() {
    assert_eq!((BUSY, NO_FREE_SLOT, LIST_TOO_SHORT), (48, 49, 50));
    assert_eq!(SHORT, 512);
}

#[test]
fn nothing_to_drain() {
    for board in [
        open(1, 0, &[], &[]),
        open(1, 0, &[], &[Step::start(0), Step::rest(0)]),
        open(256, 255, &[0, 1, 2], &[]),
        open(2, 1, &[0, 1], &[Step::move_under(2, 0)]),
        open(1, 0, &[0], &[Step::start(0), Step::rest(0)]),
    ] {
        worked(&board, &[]);
        assert_eq!(board.write_longest(&mut []), Ok(0));
    }
}

/// The whole case of the scope document, from the rest of unit 1 on. Each step takes
/// one off the length.
#[test]
fn the_whole_case() {
    let steps = [
        Step::start(0),
        Step::send(0, 1, 0),
        Step::rest(0),
        Step::deliver(0),
        Step::rest(1),
        Step::tick(1),
        Step::release(1, 1),
        Step::deliver(1),
    ];
    let after = |count| open(2, 1, &[0], &steps[..count]);
    let list = [Step::tick(1), Step::release(1, 0), Step::deliver(0)];
    worked(&after(5), &list);
    worked(&after(6), &list[1..]);
    // The return went into slot 1.
    worked(&after(7), &[Step::deliver(1)]);
    worked(&after(8), &[]);
    for count in 1..=4 {
        refused(&after(count), BUSY);
    }
}

/// The chain 0, 1, 2 with both waiting: 6 steps if the lower unit goes first, and
/// only 4 if the higher one does, for the two weights then wait at 1 together.
#[test]
fn the_order_of_units_matters() {
    let steps = [
        Step::start(2),
        Step::send(2, 1, 0),
        Step::deliver(0),
        Step::rest(1),
        Step::rest(2),
    ];
    let way = |unit| [Step::release(unit, 0), Step::deliver(0)];
    let board = open(1, 0, &[0, 1], &steps);
    let ascending = [way(1), way(2), way(1)].concat();
    let descending = [way(2), way(1)].concat();
    worked(&board, &ascending);
    assert_eq!(drained(&board, &ascending), 6);
    assert_eq!(drained(&board, &descending), 4);
    // With one slot there is no third list.
    let mut lists = every_list(&board);
    lists.sort_by_key(Vec::len);
    assert_eq!(lists, [descending, ascending]);
}

/// Every drain from a board to its end, list by list.
fn every_list(board: &Board) -> Vec<Vec<Step>> {
    if board.debt == 0 {
        return vec![vec![]];
    }
    let mut lists = vec![];
    for step in choices(board.n, board.m) {
        let mut after = board.clone();
        if step.kind != Step::START && after.step_checked(step) == ACCEPTED {
            let rest = every_list(&after).into_iter();
            lists.extend(rest.map(|rest| [vec![step], rest].concat()));
        }
    }
    lists
}

/// The chain 0, 1, 2 with d = 2. Unit 2 has one tick left, then unit 1 waits its two.
#[test]
fn a_countdown_on_its_way() {
    let steps = [Step::start(2), Step::rest(2), Step::tick(2)];
    let list = [
        Step::tick(2),
        Step::release(2, 0),
        Step::deliver(0),
        Step::tick(1),
        Step::tick(1),
        Step::release(1, 0),
        Step::deliver(0),
    ];
    worked(&open(3, 2, &[0, 1], &steps), &list);
    // Under unit 0 it has nobody else to wait for it.
    let moved = [&steps[..], &[Step::move_under(2, 0)]].concat();
    worked(&open(3, 2, &[0, 1], &moved), &list[..3]);
}

/// Unit 2 is moved up while its return is under way to 1: 3 steps, as many as M-108
/// allows one return over the depth 1.
#[test]
fn a_sender_moved() {
    let steps = [
        Step::start(2),
        Step::rest(2),
        Step::release(2, 0),
        Step::move_under(2, 0),
    ];
    let board = open(2, 0, &[0, 1], &steps);
    let list = [Step::deliver(0), Step::release(1, 1), Step::deliver(1)];
    worked(&board, &list);
    assert_eq!(bound(&board), 3);
}

/// Units 1 and 2 under 0, 3 under 2. While 3's return is under way to 2, unit 2 is
/// moved under 1: the return now has a unit more to pass.
#[test]
fn a_receiver_moved_down() {
    let steps = [
        Step::start(3),
        Step::rest(3),
        Step::tick(3),
        Step::release(3, 0),
        Step::move_under(2, 1),
    ];
    let list = [
        Step::deliver(0),
        Step::tick(2),
        Step::release(2, 1),
        Step::deliver(1),
        Step::tick(1),
        Step::release(1, 1),
        Step::deliver(1),
    ];
    worked(&open(2, 1, &[0, 0, 2], &steps), &list);
    let list = [&list[..4], &[]].concat();
    worked(&open(2, 1, &[0, 0, 2], &steps[..4]), &list);
}

/// Four slots, of which 0 and 2 hold returns: releases go into slot 1. The returns
/// come last, and in the order of their slots: that to 1 first, then that to 0,
/// whatever the order in which they were sent.
#[test]
fn returns_and_waiting_units() {
    let steps = [
        Step::start(3),
        Step::send(3, 1, 0),
        Step::deliver(0),
        Step::send(3, 2, 0),
        Step::deliver(0),
        Step::rest(1),
        Step::release(1, 2),
        Step::rest(2),
        Step::release(2, 0),
        Step::send(3, 2, 1),
        Step::deliver(1),
        Step::rest(2),
        Step::rest(3),
    ];
    let board = open(4, 0, &[0, 1, 1], &steps);
    let kinds = [0, 1, 2, 3].map(|slot| board.slots[slot].kind);
    use Kind::{Empty, Return};
    assert_eq!(kinds, [Return, Empty, Return, Empty]);
    let way = |unit| [Step::release(unit, 1), Step::deliver(1)];
    let list = [
        &[way(2), way(1), way(3), way(1)].concat()[..],
        &[Step::deliver(0)],
        &way(1),
        &[Step::deliver(2)],
    ];
    worked(&board, &list.concat());
}

/// One slot is free, and it is not the lowest; then the highest.
#[test]
fn the_free_slot() {
    let mut board = open(4, 0, &[0, 1], &[]);
    for free in 0..4 {
        for slot in 0..4 {
            board.slots[slot] = returned(2, 1);
        }
        board.slots[free] = Slot::BLANK;
        board.debt = 3;
        let through = free as u16;
        let way = |slot| {
            [
                Step::deliver(slot),
                Step::release(1, through),
                Step::deliver(through),
            ]
        };
        let filled = (0..4).filter(|slot| *slot != through);
        worked(&board, &filled.flat_map(way).collect::<Vec<_>>());
    }
}

fn returned(from: u16, to: u16) -> Slot {
    Slot {
        kind: Kind::Return,
        from,
        to,
        weight: 1,
    }
}

fn waiting(countdown: u16) -> Unit {
    Unit {
        state: State::Waiting,
        weight: 1,
        countdown,
        suspended: false,
    }
}

/// Two units under unit 0, both waiting: 257 steps each, so that two ticks before
/// leave 512.
#[test]
fn lists_by_value() {
    let mut board = open(
        1,
        255,
        &[0, 0],
        &[
            Step::start(1),
            Step::send(1, 2, 0),
            Step::deliver(0),
            Step::rest(1),
            Step::rest(2),
        ],
    );
    for length in [514, 513, 512, 511] {
        assert_eq!((list_of(&board).len(), sum(&board)), (length, length));
        assert_eq!(drained(&board, &list_of(&board)), length);
        match board.longest_short() {
            Ok(drain) => assert!(drain.length == length && length <= 512),
            Err(refusal) => assert!(refusal == 50 && length > 512),
        }
        assert_eq!(board.step_checked(Step::tick(2)), ACCEPTED);
    }
}

/// 30 comes before each of the others, even where all of them hold.
#[test]
fn unsound_boards() {
    refused(&Board::BLANK, UNSOUND);
    let fresh = open(1, 1, &[0, 1], &[]);
    let active = [Step::start(1)];
    let filled = [Step::start(1), Step::send(1, 2, 0)];
    let work = [Step::start(1), Step::send(1, 2, 0), Step::rest(1)];
    let returns = [
        Step::start(1),
        Step::rest(1),
        Step::tick(1),
        Step::release(1, 0),
    ];
    for steps in [&[][..], &active, &filled, &work, &returns] {
        let board = open(1, 1, &[0, 1], steps);
        let damages: [fn(&mut Board); 6] = [
            |board| board.d = 256,
            |board| board.debt += 1,
            |board| board.n = 0,
            |board| board.m = 0,
            |board| board.parents[2] = 2,
            |board| board.created[1] += 1,
        ];
        for damage in damages {
            let mut board = board.clone();
            damage(&mut board);
            refused(&board, UNSOUND);
        }
    }
    // A slot that is not in use is no place for a return, nor a free one.
    let mut board = fresh.clone();
    board.slots[1] = returned(2, 1);
    board.debt = 1;
    refused(&board, UNSOUND);
}

/// 48: a unit is active, or work is under way, or both; with a free slot and with
/// none.
#[test]
fn busy_boards() {
    // An active unit alone, unit 0 too.
    for unit in [0, 1, 2] {
        refused(&open(1, 0, &[0, 1], &[Step::start(unit)]), BUSY);
    }
    // Work alone, in a slot with others free, and in the only one: 48 before 49.
    let steps = [Step::start(1), Step::send(1, 2, 0), Step::rest(1)];
    refused(&open(2, 0, &[0, 1], &steps), BUSY);
    refused(&open(1, 0, &[0, 1], &steps), BUSY);
    let steps = [Step::start(0), Step::send(0, 0, 0), Step::rest(0)];
    refused(&open(2, 0, &[], &steps), BUSY);
    // Both.
    let steps = [Step::start(1), Step::send(1, 2, 0)];
    refused(&open(2, 0, &[0, 1], &steps), BUSY);
    refused(&open(1, 0, &[0, 1], &steps), BUSY);
    // An active unit where all slots are filled by returns: 48 before 49.
    let steps = [
        Step::start(1),
        Step::send(1, 2, 0),
        Step::deliver(0),
        Step::rest(2),
        Step::release(2, 0),
    ];
    refused(&open(1, 0, &[0, 1], &steps), BUSY);
    // The same once the unit rests: 49.
    let steps = [&steps[..], &[Step::rest(1)]].concat();
    refused(&open(1, 0, &[0, 1], &steps), NO_FREE_SLOT);
}

/// A suspended unit is active, while its request is under way and while its supply
/// is.
#[test]
fn suspended_units() {
    let mut steps = vec![Step::start(0), Step::send(0, 1, 0), Step::deliver(0)];
    for _ in 0..25 {
        steps.extend([Step::send(1, 0, 0), Step::deliver(0)]);
    }
    steps.extend([Step::rest(0), Step::request(1, 0)]);
    for m in [1, 2] {
        let mut board = open(m, 0, &[0], &steps);
        assert_eq!(board.slots[0].kind, Kind::Request);
        refused(&board, BUSY);
        assert_eq!(board.step_checked(Step::deliver(0)), ACCEPTED);
        assert_eq!(board.slots[0].kind, Kind::Supply);
        refused(&board, BUSY);
        assert_eq!(board.step_checked(Step::deliver(0)), ACCEPTED);
        refused(&board, BUSY);
        assert_eq!(board.step_checked(Step::rest(1)), ACCEPTED);
        worked(&board, &[Step::release(1, 0), Step::deliver(0)]);
    }
}

/// 49: every slot in use holds a return, with waiting units and without; also where a
/// list has no room. Once one is delivered, the board has its drain.
#[test]
fn no_free_slot() {
    for m in [1, 2, 3, 255, 256] {
        for countdown in [None, Some(0), Some(1)] {
            let mut board = open(m, 1, &[0, 1], &[]);
            for slot in 0..usize::from(m) {
                board.slots[slot] = returned(2, slot as u16 % 2);
            }
            if let Some(countdown) = countdown {
                board.units[1] = waiting(countdown);
            }
            board.debt = board.weight() as u64;
            assert!(board.is_sound());
            refused(&board, NO_FREE_SLOT);
            assert_eq!(board.step_checked(Step::deliver(0)), ACCEPTED);
            let list = list_of(&board);
            assert_eq!(drained(&board, &list), sum(&board));
        }
    }
}

/// A board of this size with no unit active and no work under way. `pick` chooses
/// among as many as it is told: for each unit its parent, and none or the countdown
/// with which it waits; for each slot none, or the sender and the receiver of a
/// return.
fn quiet_board(n: u16, m: u16, d: u16, mut pick: impl FnMut(u64) -> u64) -> Board {
    let mut board = open(m, d, &vec![0; usize::from(n) - 1], &[]);
    for unit in 1..n {
        board.parents[usize::from(unit)] = pick(unit.into()) as u16;
        if let Some(countdown) = pick(u64::from(d) + 2).checked_sub(1) {
            board.units[usize::from(unit)] = waiting(countdown as u16);
        }
    }
    let pairs: Vec<Slot> = (1..n)
        .flat_map(|from| (0..from).map(move |to| returned(from, to)))
        .collect();
    for slot in 0..m {
        if let Some(pair) = pick(pairs.len() as u64 + 1).checked_sub(1) {
            board.slots[usize::from(slot)] = pairs[pair as usize];
        }
    }
    board.debt = board.weight() as u64;
    board
}

/// Every board of a size: the choices are the digits of a number.
fn every_quiet_board(n: u16, m: u16, d: u16) -> impl Iterator<Item = Board> {
    let chosen = move |number: u64| {
        let mut left = number;
        let board = quiet_board(n, m, d, |choices| {
            let digit = left % choices;
            left /= choices;
            digit
        });
        // A number with digits to spare is past the last board.
        (left == 0).then_some(board)
    };
    (0..).map_while(chosen)
}

/// The longest drain of all boards of a size: that of a chain with all units but 0
/// waiting as long as they can, and all slots but one filled by returns from its end.
fn longest_of_all(n: u16, m: u16, d: u16) -> usize {
    let (n, m, wait) = (usize::from(n), usize::from(m), usize::from(d) + 2);
    if n == 1 {
        return 0;
    }
    wait * n * (n - 1) / 2 + (m - 1) * (1 + wait * (n - 2))
}

#[derive(Debug, Default)]
struct Met {
    boards: usize,
    /// With no free slot: refused by 49.
    filled: usize,
    /// Of these, with no drain as long as the sum.
    fall_short: usize,
    /// Where the longest drain is as long as M-108's bound, the finished left out.
    bound_attained: usize,
    longest: usize,
}

/// All drains from all sound boards of a size that have no unit active and no work
/// under way, whether or not steps lead there.
fn search(n: u16, m: u16, d: u16) -> Met {
    let mut search = Search::new(n, m);
    let mut met = Met::default();
    for board in every_quiet_board(n, m, d) {
        assert!(board.is_sound() && is_quiet(&board));
        met.boards += 1;
        let found = search.longest_from(&board);
        if board.slots[..usize::from(m)]
            .iter()
            .all(|slot| slot.kind != Kind::Empty)
        {
            refused(&board, NO_FREE_SLOT);
            assert!(found <= sum(&board));
            met.filled += 1;
            met.fall_short += usize::from(found < sum(&board));
            continue;
        }
        assert_eq!(board.longest_length(), Ok(found), "{board:?}");
        assert_eq!(sum(&board), found);
        let list = list_of(&board);
        assert_eq!(drained(&board, &list), found);
        list.into_iter().for_each(letters_alone);
        assert!(found <= bound(&board));
        met.bound_attained += usize::from(found > 0 && found == bound(&board));
        met.longest = met.longest.max(found);
    }
    println!("{n} units, M = {m}, d = {d}: {met:?}");
    assert_eq!(met.longest, longest_of_all(n, m, d));
    met
}

/// How many boards a search goes through: for each unit its parents and states, for
/// each slot none or a pair.
fn count(n: u16, m: u16, d: u16) -> usize {
    let units = (1..usize::from(n)).map(|unit| unit * (usize::from(d) + 2));
    let pairs = usize::from(n) * usize::from(n - 1) / 2;
    units.product::<usize>() * (pairs + 1).pow(m.into())
}

#[test]
fn every_drain_of_every_small_board() {
    let mut all = Met::default();
    let mut sizes = vec![(4, 3, 0), (4, 3, 1), (4, 1, 3), (5, 1, 1), (5, 2, 0)];
    for d in 0..=2 {
        sizes.extend([(1, 1, d), (1, 2, d), (2, 1, d), (2, 2, d), (2, 4, d)]);
        sizes.extend([(3, 1, d), (3, 2, d), (3, 3, d), (4, 1, d), (4, 2, d)]);
    }
    for (n, m, d) in sizes {
        let met = search(n, m, d);
        assert_eq!(met.boards, count(n, m, d));
        all.boards += met.boards;
        all.filled += met.filled;
        all.fall_short += met.fall_short;
        all.bound_attained += met.bound_attained;
    }
    println!("{all:?}");
    // 49 has a reason: without a free slot the sum is often out of reach.
    assert!(all.boards > 80_000 && all.fall_short > 1_000 && all.bound_attained > 100);
}

/// A chain of 64 with d = 255 and 256 slots: units 1 to 63 wait with countdown 255,
/// and 255 returns are under way to unit 62.
#[test]
fn the_longest_of_all() {
    const LONGEST: usize = 4_581_537;
    let mut board = open(256, 255, &(0..63).collect::<Vec<_>>(), &[]);
    board.units[1..].fill(waiting(255));
    board.slots[..255].fill(returned(63, 62));
    board.debt = 63 + 255;
    assert!(board.is_sound());
    assert_eq!(board.longest_length(), Ok(LONGEST));
    assert_eq!(longest_of_all(64, 256, 255), LONGEST);
    assert_eq!(sum(&board), LONGEST);
    assert_eq!(board.longest_short(), Err(LIST_TOO_SHORT));
    // (63 + 255) * (257 * 63 + 1)
    assert_eq!(bound(&board), 5_149_056);
    let list = list_of(&board);
    assert_eq!(list.len(), LONGEST);
    // Without a test of soundness a step, which would take minutes.
    let mut after = board.clone();
    for step in &list {
        letters_alone(*step);
        assert!(after.debt > 0);
        assert_eq!(after.step(*step), ACCEPTED);
    }
    assert_eq!(after.finished(), Ok(true));
}

/// The file that is told, but for what the drains themselves are.
#[test]
fn files_of_drains() {
    let tell = |blocks: &str| tell_drains(&blocks.replace('|', "\t"));
    let told = |text: &str| Ok(text.replace('|', "\t"));
    assert_eq!(
        tell("One|unit\nboard|2|1|0\nstart|1\nrest|1\nstart|0\nno step\n\nAnother\nboard|1|0"),
        told(
            "One|unit\nlength|3\ndamaged|30\nlist|3\ntick|1\nrelease|1|0\ndeliver|0\n\n\
            Another\nlength|0\ndamaged|30\nlist|0\n\n"
        )
    );
    assert_eq!(
        tell("Active\nboard|1|0\nstart|0\n\nNo board\nboard|0|0\nstart|0\n\nNo script\n"),
        told(
            "Active\nrefused|48\ndamaged|30\nrefused|48\n\nNo board\nrefused|11\n\n\
            No script\nrefused|25\n\n"
        )
    );
    assert!(tell("One\nboard|1|0\n\n\nAnother\nboard|1|0\n").is_err());
    assert_eq!(tell(""), Err("a block without a title".to_string()));
}
