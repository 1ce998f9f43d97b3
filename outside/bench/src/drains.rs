//! The longest drain (M-109): steps that lead to boards with long ones, and the list in plain Rust, written in place by
//! nested loops. The tests compare the proved calls with the reference on many boards.

use crate::library::Record;
use crate::plain::is_sound;
use reference::refusal::{Refusal, BUSY, LIST_TOO_SHORT, NO_FREE_SLOT, UNSOUND};
use reference::{Board, Kind, State, Step, UNITS};

/// What is added to the number that refuses a call. No list is as long.
pub const REFUSED: u64 = 1 << 32;

/// A board's opening and steps on it, in the forms that the calls take. Refused steps leave the board.
pub struct Approach {
    pub m: u16,
    pub d: u16,
    pub parents: Vec<u16>,
    pub steps: Vec<Step>,
    pub flat: Vec<u16>,
}

impl Approach {
    pub fn new(m: u16, d: u16, parents: Vec<u16>, steps: Vec<Step>) -> Approach {
        let flat = steps.iter().flat_map(|step| [step.kind, step.unit, step.other, step.slot]).collect();
        Approach { m, d, parents, steps, flat }
    }

    /// To a chain of 64 units with 256 slots: all units but 0 wait with the whole delay, and the lower slots hold as many
    /// returns as said, at most 255, from the end of the chain. With delay 255 and 255 returns no board has a longer drain.
    ///
    /// Unit 0 works meanwhile. For each return it sends work to unit 63, which rests, ticks its countdown down and is
    /// released. A return to 62 comes from 63 alone, and only ticks end its wait: there is no shorter way. Then unit 0
    /// sends work to all units by the last slot, they rest, and so does it.
    pub fn to_chain(d: u16, returns: u16) -> Approach {
        const LAST: u16 = 255;
        let mut steps = vec![Step::start(0)];
        for slot in 0..returns {
            steps.extend([Step::send(0, 63, slot), Step::deliver(slot), Step::rest(63)]);
            steps.extend((0..d).map(|_| Step::tick(63)));
            steps.push(Step::release(63, slot));
        }
        for unit in 1..64 {
            steps.extend([Step::send(0, unit, LAST), Step::deliver(LAST), Step::rest(unit)]);
        }
        steps.push(Step::rest(0));
        Approach::new(256, d, (0..63).collect(), steps)
    }

    /// By name: the longest list of all, a middle one, and one without delay.
    pub fn named(name: &str) -> Option<Approach> {
        match name {
            "largest" => Some(Approach::to_chain(255, 255)),
            "middle" => Some(Approach::to_chain(8, 0)),
            "no-delay" => Some(Approach::to_chain(0, 255)),
            _ => None,
        }
    }

    /// The board after the steps, each with its soundness test.
    fn taken(&self) -> Board {
        let mut board = Board::open(self.m, self.d, &self.parents).0;
        for step in &self.steps {
            if is_sound(&board) {
                board.step(*step);
            }
        }
        board
    }
}

/// What is told of a board before a list is written: the slot that serves all releases, and the length.
struct Measured {
    through: u16,
    length: usize,
}

/// [30, 48, 49]
fn measured(b: &Board) -> Result<Measured, Refusal> {
    if !is_sound(b) {
        return Err(UNSOUND);
    }
    let (n, m, wait) = (usize::from(b.n), usize::from(b.m), usize::from(b.d) + 2);
    let mut depths = [0; UNITS];
    let mut length = 0;
    for u in 0..n {
        let unit = &b.units[u];
        // A parent comes before its units.
        if u > 0 {
            depths[u] = depths[usize::from(b.parents[u])] + 1;
        }
        match unit.state {
            State::Active => return Err(BUSY),
            State::Waiting => length += usize::from(unit.countdown) + 2 + wait * (depths[u] - 1),
            State::Idle => {}
        }
    }
    let mut through = None;
    for s in 0..m {
        let slot = &b.slots[s];
        match slot.kind {
            Kind::Return => length += 1 + wait * depths[usize::from(slot.to)],
            Kind::Empty if through.is_none() => through = Some(s as u16),
            Kind::Empty => {}
            // A request or a supply has a unit that is active.
            Kind::Work | Kind::Request | Kind::Supply => return Err(BUSY),
        }
    }
    through.map(|through| Measured { through, length }).ok_or(NO_FREE_SLOT)
}

/// A unit's weight on its way to unit 0, from a place of the list on. Gives the place behind it.
fn write_way(b: &Board, through: u16, mut unit: u16, mut countdown: u16, list: &mut [Record], mut at: usize) -> usize {
    while unit != 0 {
        for _ in 0..countdown {
            list[at] = Record::of(&Step::tick(unit));
            at += 1;
        }
        list[at] = Record::of(&Step::release(unit, through));
        list[at + 1] = Record::of(&Step::deliver(through));
        at += 2;
        unit = b.parents[usize::from(unit)];
        countdown = b.d;
    }
    at
}

/// [30, 48, 49, 50]
fn write_longest(b: &Board, list: &mut [Record]) -> Result<usize, Refusal> {
    let Measured { through, length } = measured(b)?;
    if list.len() < length {
        return Err(LIST_TOO_SHORT);
    }
    let mut at = 0;
    for u in 0..b.n {
        let unit = &b.units[usize::from(u)];
        if unit.state == State::Waiting {
            at = write_way(b, through, u, unit.countdown, list, at);
        }
    }
    for s in 0..b.m {
        let slot = &b.slots[usize::from(s)];
        if slot.kind == Kind::Return {
            list[at] = Record::of(&Step::deliver(s));
            at = write_way(b, through, slot.to, b.d, list, at + 1);
        }
    }
    Ok(at)
}

/// A length, or the refusal.
fn number(outcome: Result<usize, Refusal>) -> u64 {
    outcome.map_or_else(|refusal| REFUSED + u64::from(refusal), |length| length as u64)
}

/// The length of the longest drain of the board after the steps.
pub fn length(approach: &Approach) -> u64 {
    number(measured(&approach.taken()).map(|measured| measured.length))
}

/// The same, and the list.
pub fn longest(approach: &Approach, list: &mut [Record]) -> u64 {
    number(write_longest(&approach.taken(), list))
}

#[cfg(test)]
mod tests {
    use super::*;
    use crate::library;
    use reference::refusal::ACCEPTED;
    use scripts::{settling, QuietList};

    const SEED: u64 = 20_261_119;

    /// What the entries of a list hold before a call: no step, and no two neighbours alike.
    fn pattern(room: usize) -> Vec<Record> {
        let entry = |at: usize| {
            let odd = at as u16 ^ 0xa5a5;
            Record::of(&Step { kind: odd, unit: !odd, other: odd.rotate_left(3), slot: 0x5a5a })
        };
        (0..room).map(entry).collect()
    }

    /// The board after the steps, by the reference alone.
    fn board_of(approach: &Approach) -> Board {
        let mut board = Board::open(approach.m, approach.d, &approach.parents).0;
        for step in &approach.steps {
            board.step_checked(*step);
        }
        board
    }

    /// Takes a written list on a board: each step is accepted, and the last one finishes the board.
    fn runs_to_the_end(board: &Board, list: &[Record]) {
        let mut board = board.clone();
        for record in list {
            assert_ne!(board.debt, 0, "finished before the end");
            let step = record.step();
            assert!(step.kind != Step::START && step.kind != Step::MOVE);
            assert_eq!(board.step(step), ACCEPTED, "{step:?}");
        }
        assert_eq!(board.finished(), Ok(true));
    }

    /// Both lent calls on a list of so much room give what the reference gives, the number and every entry.
    fn lists_agree(approach: &Approach, board: &Board, room: usize) -> u64 {
        let before = pattern(room);
        let mut steps = vec![Step::default(); room];
        let outcome = board.write_longest(&mut steps);
        let mut expected: Vec<Record> = steps.iter().map(Record::of).collect();
        let written = outcome.unwrap_or(0);
        expected[written..].copy_from_slice(&before[written..]);
        for call in [library::longest, longest] {
            let mut list = before.clone();
            assert_eq!(call(approach, &mut list), number(outcome), "{room} entries");
            assert!(list == expected, "{room} entries, of which {written} are the drain's: others stand there");
        }
        if outcome.is_ok() {
            runs_to_the_end(board, &expected[..written]);
        }
        number(outcome)
    }

    /// All calls agree with the reference on a board, with lists that are too short, that just fit and that are longer.
    /// Gives the length or the refusal.
    fn agrees(approach: &Approach) -> u64 {
        let board = board_of(approach);
        let told = number(board.longest_length());
        assert_eq!(library::length(approach), told);
        assert_eq!(length(approach), told);
        // Refused boards are refused with whatever list.
        let entries = if told < REFUSED { told as usize } else { 1 };
        for room in [0, entries.saturating_sub(1), entries, entries + 1, entries + 40] {
            let too_short = told < REFUSED && room < entries;
            let expected = if too_short { REFUSED + 50 } else { told };
            assert_eq!(lists_agree(approach, &board, room), expected);
        }
        told
    }

    fn approach(m: u16, d: u16, parents: &[u16], steps: &[Step]) -> Approach {
        Approach::new(m, d, parents.to_vec(), steps.to_vec())
    }

    /// Worked boards: what is told, and the list by hand.
    #[test]
    fn worked_boards() {
        let both_wait = [Step::start(2), Step::send(2, 1, 0), Step::deliver(0), Step::rest(1), Step::rest(2)];
        let way = |unit, slot| [Step::release(unit, slot), Step::deliver(slot)];
        let chain = [way(1, 0), way(2, 0), way(1, 0)].concat();
        let sender_moved = [Step::start(2), Step::rest(2), Step::release(2, 0), Step::move_under(2, 0)];
        let moved = [&[Step::deliver(0)][..], &way(1, 1)].concat();
        for (approach, list) in [
            (approach(2, 1, &[0], &[]), vec![]),
            (approach(1, 0, &[0, 1], &both_wait), chain),
            (approach(2, 0, &[0, 1], &sender_moved), moved),
        ] {
            assert_eq!(agrees(&approach), list.len() as u64);
            let mut written = pattern(list.len());
            library::longest(&approach, &mut written);
            assert!(written.iter().map(Record::step).eq(list));
        }
    }

    /// Each refusal, and each before those behind it: `agrees` has lists that are too short for every board.
    #[test]
    fn refusals() {
        let work = [Step::start(1), Step::send(1, 2, 0), Step::rest(1)];
        let active = [Step::start(1), Step::send(1, 2, 0), Step::deliver(0), Step::rest(2), Step::release(2, 0)];
        let filled = [&active[..], &[Step::rest(1)]].concat();
        let chain = [0, 1];
        for (approach, refusal) in [
            // A refused opening hands back a board that is not sound.
            (approach(0, 0, &chain, &[]), 30),
            (approach(257, 0, &chain, &work), 30),
            (approach(1, 256, &chain, &[]), 30),
            (approach(1, 0, &[0, 2], &filled), 30),
            (approach(1, 0, &[0; 64], &[]), 30),
            // An active unit alone, work alone, both; with no free slot, too.
            (approach(2, 0, &chain, &active[..1]), 48),
            (approach(2, 0, &chain, &active[..2]), 48),
            (approach(2, 0, &chain, &work), 48),
            (approach(1, 0, &chain, &work), 48),
            (approach(1, 0, &chain, &active[..2]), 48),
            (approach(1, 0, &chain, &active), 48),
            (approach(1, 0, &chain, &filled), 49),
        ] {
            assert_eq!(agrees(&approach), REFUSED + refusal);
        }
        // With a slot more there is a drain, and a list may be too short for it.
        let free = approach(2, 0, &chain, &filled);
        assert_eq!(agrees(&free), 5);
        assert_eq!(library::longest(&free, &mut []), REFUSED + 50);
        assert_eq!(library::longest(&free, &mut pattern(4)), REFUSED + 50);
        // A finished board needs no list.
        assert_eq!(library::longest(&approach(1, 0, &chain, &[]), &mut []), 0);
    }

    /// What a set of boards was answered.
    #[derive(Debug, Default)]
    struct Met {
        empty: u32,
        lists: u32,
        long: u32,
        busy: u32,
        filled: u32,
    }

    impl Met {
        fn add(&mut self, approach: &Approach) {
            let count = match agrees(approach) {
                0 => &mut self.empty,
                length if length < 512 => &mut self.lists,
                length if length < REFUSED => &mut self.long,
                refusal if refusal == REFUSED + 48 => &mut self.busy,
                refusal => {
                    assert_eq!(refusal, REFUSED + 49);
                    &mut self.filled
                }
            };
            *count += 1;
        }
    }

    /// Boards that lists with moves lead to, and on the way there.
    #[test]
    fn generated_lists() {
        let mut met = Met::default();
        for index in 0..1_500 {
            let QuietList { m, d, parents, mut steps } = QuietList::new(SEED, index);
            // Not the longest: each call takes all of its steps.
            if steps.len() > 1_000 {
                continue;
            }
            met.add(&Approach::new(m, d, parents.clone(), steps.clone()));
            steps.truncate(steps.len() * 2 / 3);
            met.add(&Approach::new(m, d, parents, steps));
        }
        println!("{met:?}");
        assert!(met.empty > 100 && met.lists > 500 && met.long > 20 && met.busy > 200 && met.filled > 100, "{met:?}");
    }

    /// Boards at the ends of scripts, as they are and settled. Lines that are no steps leave the board.
    #[test]
    fn generated_scripts() {
        let mut met = Met::default();
        for index in 0..600 {
            let script = scripts::script(SEED, index);
            let mut lines = reference::script_lines(&script);
            let first = lines.next().unwrap_or(&[]);
            let Ok(reference::Record::Board { m, d, parents }) = reference::read_line(first, true) else { continue };
            let read = |line| match reference::read_line(line, false) {
                Ok(reference::Record::Step(step)) => Some(step),
                _ => None,
            };
            let mut approach = Approach::new(m, d, parents, lines.filter_map(read).collect());
            let board = board_of(&approach);
            if approach.steps.len() > 1_500 || board.n == 0 {
                continue;
            }
            met.add(&approach);
            approach.steps.extend(settling(&board));
            met.add(&Approach::new(m, d, approach.parents, approach.steps));
        }
        println!("{met:?}");
        assert!(met.empty > 50 && met.lists > 150 && met.long > 20 && met.busy > 150, "{met:?}");
    }

    /// The lists that are timed, the longest of all among them, whole.
    #[test]
    fn named_lists() {
        for (name, steps, length) in
            [("largest", 66_236, 4_581_537), ("middle", 191, 20_160), ("no-delay", 1_211, 35_907)]
        {
            let approach = Approach::named(name).expect("it has the name");
            assert_eq!(approach.steps.len(), steps);
            let mut board = Board::open(approach.m, approach.d, &approach.parents).0;
            assert!(approach.steps.iter().all(|step| board.step(*step) == ACCEPTED));
            assert!(board.is_sound());
            assert_eq!(library::length(&approach), length);
            assert_eq!(super::length(&approach), length);
            let length = length as usize;
            for room in [length - 1, length, length + 3] {
                lists_agree(&approach, &board, room);
            }
        }
    }

    /// The board of the longest list is as it should be.
    #[test]
    fn the_largest_board() {
        let approach = Approach::to_chain(255, 255);
        let mut board = Board::open(approach.m, approach.d, &approach.parents).0;
        assert!(approach.steps.iter().all(|step| board.step(*step) == ACCEPTED));
        let waits = |u: usize| board.units[u].state == State::Waiting && board.units[u].countdown == 255;
        assert!((1..64).all(waits) && (1..64).all(|u| board.parents[u] + 1 == u as u16));
        assert!(board.slots[..255].iter().all(|slot| (slot.kind, slot.from, slot.to) == (Kind::Return, 63, 62)));
        assert_eq!(board.slots[255].kind, Kind::Empty);
        assert_eq!((board.units[0].state, board.d, board.m), (State::Idle, 255, 256));
    }
}
