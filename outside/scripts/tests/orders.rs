//! Two steps in either order (M-107): the claim over all pairs of steps on many
//! boards, what each of its premises is needed for, and scripts with lines
//! exchanged.

use reference::{choices, independent, list, walk, Board, Kind, Slot, State, Step, Unit};
use reference::{DEBT_LIMIT, FULL_WEIGHT, WORDS};
use scripts::{exchanged, exchanges, script, through_other, tidied, EventList, Random, Statistics};

const SEED: u64 = 20_261_117;

/// What is asked of two steps: what they may not touch both, and whether the debt
/// must stand. Written apart from the reference, by kinds and not by letters.
#[derive(Clone, Copy)]
struct Reading {
    unit: bool,
    slot: bool,
    receiver: bool,
    /// A send's v and a move's p.
    other: bool,
    debt: bool,
}

const CLAIMED: Reading = Reading {
    unit: true,
    slot: true,
    receiver: true,
    other: false,
    debt: true,
};

impl Reading {
    /// What a step touches: a bit for each unit, and for each slot from bit 32 on.
    fn touched(self, board: &Board, step: Step) -> u64 {
        let unit = |unit: u16| 1 << unit;
        let slot = match step.kind {
            Step::SEND | Step::REQUEST | Step::DELIVER | Step::RELEASE => 1 << (32 + step.slot),
            _ => 0,
        };
        let mut touched = if self.slot { slot } else { 0 };
        if self.receiver && step.kind == Step::DELIVER {
            touched |= unit(board.slots[usize::from(step.slot)].to);
        }
        if self.unit && step.kind != Step::DELIVER {
            touched |= unit(step.unit);
        }
        if self.other && has_other(step) {
            touched |= unit(step.other);
        }
        touched
    }

    /// The board after two steps, if both are accepted and the debt is as it must.
    fn after(self, board: &Board, first: Step, second: Step) -> Option<Board> {
        let mut after = board.clone();
        for step in [first, second] {
            if after.step(step) != 0 || self.debt && after.debt != board.debt {
                return None;
            }
        }
        Some(after)
    }
}

/// Whether a step names a unit besides its own.
fn has_other(step: Step) -> bool {
    step.kind == Step::SEND || step.kind == Step::MOVE
}

/// Every step with units and slots of the board: those of a census, and moves.
fn steps(board: &Board) -> Vec<Step> {
    let mut steps = choices(board.n, board.m);
    for unit in 0..board.n {
        steps.extend((0..board.n).map(|parent| Step::move_under(unit, parent)));
    }
    steps
}

/// What a search has met.
#[derive(Default)]
struct Met {
    /// Pairs in an order in which they are as the reading asks.
    pairs: u64,
    /// The same by their kinds, the lower first.
    kinds: [[u64; 9]; 9],
    /// Those in which a send's v or a move's p is a unit that the other step touches.
    through_other: u64,
    /// Those of them in which it is a move's p.
    through_parent: u64,
    /// Other pairs of sends and moves that have the same v or p.
    same_other: u64,
    /// Pairs that are not so in the other order: refused there, or the debt
    /// changes.
    not_so: u64,
    /// Pairs that are so in both orders and leave boards that differ.
    differ: u64,
}

/// All pairs of steps on each board, whether they are as claimed in both orders.
fn search(reading: Reading, boards: &[Board]) -> Met {
    let mut met = Met::default();
    for board in boards {
        let steps = steps(board);
        let touched = |step| reading.touched(board, step);
        for &first in &steps {
            // Most steps are refused, and no pair begins with them.
            let mut between = board.clone();
            if between.step(first) != 0 || reading.debt && between.debt != board.debt {
                continue;
            }
            let mut after = between.clone();
            for &second in &steps {
                // A refused step leaves the copy for the next one.
                if touched(first) & touched(second) != 0 || after.step(second) != 0 {
                    continue;
                }
                let after = std::mem::replace(&mut after, between.clone());
                if reading.debt && after.debt != board.debt {
                    continue;
                }
                let (low, high) = (first.kind.min(second.kind), first.kind.max(second.kind));
                met.pairs += 1;
                met.kinds[usize::from(low)][usize::from(high)] += 1;
                let under = |one: Step, other| {
                    one.kind == Step::MOVE && touched(other) >> one.other & 1 == 1
                };
                let through_parent = under(first, second) || under(second, first);
                met.through_parent += u64::from(through_parent);
                if through_other(board, first, second) {
                    met.through_other += 1;
                } else if has_other(first) && has_other(second) && first.other == second.other {
                    met.same_other += 1;
                }
                match reading.after(board, second, first) {
                    None => met.not_so += 1,
                    Some(other) => met.differ += u64::from(other != after),
                }
            }
        }
    }
    met
}

/// Boards that lists of steps, beginnings and visits come to.
fn walked(lists: u64) -> Vec<Board> {
    let mut boards = vec![];
    for index in 0..lists {
        let list = EventList::new(SEED, index, 4, 200);
        let mut board = list.open();
        for (place, event) in list.events.iter().enumerate() {
            // Neighbours differ little.
            if place % 5 == 0 {
                boards.push(board.clone());
            }
            let _ = event.take(&mut board);
        }
    }
    boards
}

/// A sound board that lists hardly come to: poor units, messages of every sort, a
/// debt at its limit, created counts that are full.
fn sound_board(random: &mut Random) -> Board {
    let n = random.within(1, 4);
    let parents: Vec<u16> = (1..n).map(|unit| random.below(unit) as u16).collect();
    let (m, d) = (random.within(1, 4), random.below(3));
    let (mut board, _) = Board::open(m as u16, d as u16, &parents);
    let weight = |random: &mut Random| {
        random.pick(&[1, 1, 1, 2, 3, 2_047, 2_048, (1 << 20) - 1, 1 << 20, 1 << 24])
    };
    for u in 0..n {
        let (state, countdown) = match random.below(4) {
            0 | 1 => (State::Active, 0),
            2 if u > 0 => (State::Waiting, random.within(0, d) as u16),
            _ => continue,
        };
        board.units[u] = Unit {
            state,
            weight: weight(random),
            countdown,
            suspended: false,
        };
    }
    for s in 0..m {
        let (u, v) = (random.below(n), random.below(n) as u16);
        let unit = &mut board.units[u];
        let (kind, from, to, weight) = match random.below(6) {
            0 => (Kind::Work, u as u16, v, weight(random)),
            // To any lower unit, as if its sender was moved since (M-108).
            1 if u > 0 => (
                Kind::Return,
                u as u16,
                random.below(u) as u16,
                weight(random),
            ),
            2 if unit.state == State::Active && !unit.suspended => {
                unit.suspended = true;
                random.pick(&[
                    (Kind::Request, u as u16, 0, 0),
                    (Kind::Supply, 0, u as u16, FULL_WEIGHT),
                ])
            }
            _ => continue,
        };
        board.slots[s] = Slot {
            kind,
            from,
            to,
            weight,
        };
    }
    // A grant fits, just fits or does not fit.
    let active = (0..n).find(|&u| board.units[u].state == State::Active);
    if let (Some(u), true) = (active, random.chance(1, 4)) {
        let room = random.pick(&[0, FULL_WEIGHT - 1, FULL_WEIGHT]);
        board.units[u].weight += DEBT_LIMIT - room - board.weight() as u64;
    }
    board.debt = board.weight() as u64;
    let work = board.work_under_way();
    for u in 0..n {
        board.created[u] = random.pick(&[0, 1, 2, u32::MAX - 1, u32::MAX]);
    }
    board.created[0] = board.created[0].max(work as u32);
    board.processed[random.below(n)] = (board.created_total() - work) as u64;
    if random.chance(2, 3) {
        board.begin();
        for _ in 0..random.below(2 * n + 1) {
            let _ = board.visit(random.below(n) as u16);
        }
    }
    assert!(board.is_sound(), "{board:?}");
    board
}

fn sound_boards(count: u64) -> Vec<Board> {
    (0..count)
        .map(|index| sound_board(&mut Random::new(SEED, index)))
        .collect()
}

/// Prints the pairs met, by kinds.
fn show(met: &Met) {
    println!("{} pairs", met.pairs);
    for (word, row) in WORDS.iter().zip(met.kinds).skip(1) {
        print!("{:<8}", String::from_utf8_lossy(word));
        row.iter().skip(1).for_each(|count| print!("{count:>9}"));
        println!();
    }
    println!("through a send's v or a move's p: {}", met.through_other);
    println!("through a move's p: {}", met.through_parent);
}

/// Where two steps are as asked in one order, they are in the other, and the
/// boards after them are equal.
fn claim_holds(boards: &[Board], least: u64, least_of_kinds: u64, least_through_other: u64) {
    let met = search(CLAIMED, boards);
    show(&met);
    assert_eq!((met.not_so, met.differ), (0, 0));
    assert!(met.pairs >= least, "{}", met.pairs);
    for low in 1..=8 {
        for high in low..=8 {
            let count = met.kinds[low][high];
            // A start is accepted on a debt of 0 alone and makes it 2^24, so that
            // no pair has one. Any two other kinds may come in either order.
            if low == usize::from(Step::START) {
                assert_eq!(count, 0);
            } else {
                assert!(count >= least_of_kinds, "{low} {high}: {count}");
            }
        }
    }
    // With v and p touched the claim would be smaller by these, and by two sends or
    // moves to one unit.
    let touching_v = Reading {
        other: true,
        ..CLAIMED
    };
    let smaller = search(touching_v, boards);
    let fewer = met.pairs - smaller.pairs;
    assert_eq!(fewer, met.through_other + met.same_other);
    assert!(met.through_other >= least_through_other);
    assert!(met.through_parent >= least_through_other / 2);
}

#[test]
fn either_order_on_walked_boards() {
    claim_holds(&walked(200), 100_000, 1, 10_000);
}

#[test]
fn either_order_on_sound_boards() {
    claim_holds(&sound_boards(10_000), 100_000, 100, 10_000);
}

/// The reference finds the same pairs.
#[test]
fn reference_reads_the_same() {
    for board in walked(10).iter().chain(&sound_boards(200)) {
        let steps = steps(board);
        for &first in &steps {
            for &second in &steps {
                let touched = |step| CLAIMED.touched(board, step);
                let apart = touched(first) & touched(second) == 0;
                let expected = apart && CLAIMED.after(board, first, second).is_some();
                assert_eq!(independent(board, first, second), expected);
            }
        }
    }
}

/// Without any one of the premises some pair breaks the claim: it is not accepted
/// in the other order, or it leaves another board. A slot that both use is filled
/// by one and emptied by the other, or filled by both, so one order is refused;
/// and only starts and grants look at the debt, to be refused.
#[test]
fn premises_are_needed() {
    let mut boards = walked(50);
    boards.extend(sound_boards(1_000));
    let claimed = search(CLAIMED, &boards).pairs;
    let premises: [(&str, bool, fn(&mut Reading) -> &mut bool); 4] = [
        ("unit", true, |reading| &mut reading.unit),
        ("slot", false, |reading| &mut reading.slot),
        ("receiver", true, |reading| &mut reading.receiver),
        ("debt", false, |reading| &mut reading.debt),
    ];
    for (what, boards_differ, premise) in premises {
        let mut reading = CLAIMED;
        *premise(&mut reading) = false;
        let met = search(reading, &boards);
        let (more, not_so, differ) = (met.pairs - claimed, met.not_so, met.differ);
        println!("without {what}: {more} more pairs, {not_so} not so, {differ} differ");
        assert!(not_so > 0, "{what}");
        assert_eq!(differ > 0, boards_differ, "{what}");
    }
}

/// Lines 1 and 9 change the debt, 2 and 3 have the same unit, and so have 6 and 7,
/// and line 8 is refused.
#[test]
fn exchanges_of_a_script() {
    let script = b"board\t4\t0\t0\t0\nstart\t0\nsend\t0\t1\t0\nsend\t0\t2\t1\ndeliver\t0\n\
        deliver\t1\nsend\t1\t2\t0\nrest\t1\ntick\t1\nrest\t0\nrest\t2";
    let lines: Vec<usize> = exchanges(script).iter().map(|met| met.line).collect();
    assert_eq!(lines, [3, 4, 5]);
    let after = exchanged(script, 3);
    let expected = b"board\t4\t0\t0\t0\nstart\t0\nsend\t0\t1\t0\ndeliver\t0\nsend\t0\t2\t1\n\
        deliver\t1\nsend\t1\t2\t0\nrest\t1\ntick\t1\nrest\t0\nrest\t2";
    assert_eq!(after, expected);
}

/// Moves (M-108). Lines 3 and 4 are refused, 5 and 6 have the same unit, and line 8
/// delivers to the unit that 7 moves.
#[test]
fn exchanged_moves() {
    let script = b"board\t2\t0\t0\t1\t2\nstart\t3\nrest\t3\nmove\t0\t0\nmove\t4\t0\n\
        move\t3\t2\nrelease\t3\t0\nmove\t2\t0\ndeliver\t0\nmove\t3\t0\nmove\t2\t1\n";
    let found = exchanges(script);
    let lines: Vec<(usize, bool)> = found
        .iter()
        .map(|met| (met.line, met.through_other))
        .collect();
    assert_eq!(lines, [(6, false), (8, false), (9, false)]);
    let after = exchanged(script, 6);
    let expected = b"board\t2\t0\t0\t1\t2\nstart\t3\nrest\t3\nmove\t0\t0\nmove\t4\t0\n\
        move\t3\t2\nmove\t2\t0\nrelease\t3\t0\ndeliver\t0\nmove\t3\t0\nmove\t2\t1\n";
    assert_eq!(after, expected);
    // The p of line 1 is the unit of line 2.
    let script = b"board\t1\t0\t0\t0\nmove\t2\t1\nmove\t1\t0\n";
    let found = exchanges(script);
    assert_eq!((found.len(), found[0].through_other), (1, true));
}

/// The last line lacks its byte 10, and so does the one that comes there.
#[test]
fn last_lines_exchanged() {
    let script = b"board\t1\t0\t0\t0\nstart\t1\nsend\t1\t2\t0\ndeliver\t0\nrest\t2\nrest\t1";
    let found = exchanges(script);
    assert_eq!(found.len(), 1);
    assert!(!found[0].through_other);
    let after = b"board\t1\t0\t0\t0\nstart\t1\nsend\t1\t2\t0\ndeliver\t0\nrest\t1\nrest\t2";
    assert_eq!(exchanged(script, found[0].line), after);
    assert_eq!(tidied(script), (after.to_vec(), 1));
    let ended = [&script[..], b"\n"].concat();
    assert_eq!(exchanged(&ended, 4), [&after[..], b"\n"].concat());
    // Nothing is exchanged in a script that is refused.
    for refused in [&b""[..], b"\n", b"board\t0\t0\nstart\t0\nrest\t0\n"] {
        assert_eq!(exchanges(refused), []);
        assert_eq!(tidied(refused), (refused.to_vec(), 0));
    }
    let mut long = ended;
    long.resize(65_536, b'\n');
    assert_eq!(exchanges(&long), []);
}

/// The board that a script leaves.
fn last_board(script: &[u8]) -> Board {
    let mut last = Board::BLANK;
    let _ = walk(script, |_, _, _, board| last = board.clone());
    last
}

/// Exchanged lines keep the listing, byte for byte, since neither changes the
/// debt, and the last board, and may be exchanged back.
#[test]
fn exchanged_scripts() {
    let (mut singles, mut tidied_ones, mut many) = (0, 0, 0);
    for index in 0..2_000 {
        let script = script(SEED, index);
        let (listing, last) = (list(&script), last_board(&script));
        let found = exchanges(&script);
        // At most ten of a script, so that long ones do not take all the time.
        for met in found.iter().step_by(found.len() / 10 + 1) {
            let after = exchanged(&script, met.line);
            assert_ne!(after, script);
            assert_eq!(list(&after), listing, "script {index}, line {}", met.line);
            assert_eq!(last_board(&after), last);
            let back = exchanges(&after);
            let back = back.iter().find(|back| back.line == met.line);
            let back = back.expect("the two may be exchanged back");
            assert_eq!((back.first, back.second), (met.second, met.first));
            singles += 1;
        }
        let (after, count) = tidied(&script);
        assert_eq!(count > 0, !found.is_empty());
        assert_eq!(list(&after), listing, "script {index}");
        assert_eq!(last_board(&after), last);
        tidied_ones += usize::from(count > 0);
        many += count;
    }
    println!("{singles} exchanges, {tidied_ones} tidied scripts with {many}");
    assert!(singles > 5_000 && tidied_ones > 1_000 && many > 20_000);
}

#[test]
fn enough_exchanges() {
    let mut statistics = Statistics::default();
    for index in 0..2_000 {
        statistics.add(&script(SEED, index));
    }
    let (exchanges, lines) = (statistics.exchanges(), statistics.answered(0));
    println!("{exchanges} of {lines} accepted lines");
    assert!(exchanges > 50_000);
    assert!(exchanges < lines);
}
