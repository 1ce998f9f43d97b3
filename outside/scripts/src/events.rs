//! Lists of events, which are steps, beginnings and visits (M-105), made from a
//! seed as rows are written. A walk on the reference board chooses them, so that
//! most are accepted and rounds come to their end.

use crate::random::Random;
use reference::refusal::{Refusal, ACCEPTED};
use reference::{Board, Finding, Round, State, Step, WORDS};

#[derive(Clone, Copy, Debug, PartialEq, Eq)]
pub enum Event {
    Step(Step),
    Begin,
    Visit(u16),
}

impl Event {
    /// Takes place on a board. Only a visit finds something.
    pub fn take(self, board: &mut Board) -> Result<Option<Finding>, Refusal> {
        let answer = match self {
            Event::Step(step) => board.step(step),
            Event::Begin => board.begin(),
            Event::Visit(unit) => return board.visit(unit).map(Some),
        };
        match answer {
            ACCEPTED => Ok(None),
            refusal => Err(refusal),
        }
    }
}

/// A list of events behind its opening.
pub struct EventList {
    pub m: u16,
    pub d: u16,
    pub parents: Vec<u16>,
    pub events: Vec<Event>,
}

impl EventList {
    /// The list at `index` of the sequence that `seed` gives, on a board of 1 to
    /// 4 units, and of 1 slot to the most given.
    pub fn new(seed: u64, index: u64, most_slots: usize, length: usize) -> EventList {
        let random = &mut Random::new(seed, index);
        let m = random.within(1, most_slots) as u16;
        let d = random.below(3) as u16;
        let mut parents: Vec<u16> = (0..random.below(4) as u16).collect();
        // A chain, or all under unit 0 but for the last.
        if random.chance(1, 2) {
            if let Some((last, others)) = parents.split_last_mut() {
                *last = random.below(others.len() + 1) as u16;
                others.fill(0);
            }
        }
        let mut walk = Walk {
            board: Board::open(m, d, &parents).0,
            random,
            mood: Mood::Count,
            left: 4,
            long: length >= LONG,
        };
        let events = (0..length).map(|_| walk.next()).collect();
        EventList {
            m,
            d,
            parents,
            events,
        }
    }

    pub fn open(&self) -> Board {
        Board::open(self.m, self.d, &self.parents).0
    }

    /// The list in rows. Behind an event stands its refusal or its verdict.
    pub fn rows(&self, title: &str) -> String {
        let (m, d, count) = (self.m, self.d, self.parents.len());
        let last = self.parents.last().copied().unwrap_or(0);
        let chain = self.parents.iter().copied().eq(0..count as u16);
        let mut rows = match chain && count > 1 {
            true => format!("blank\nchain\t{m}\t{d}\t{count}\t0\nrun\t{title}\n"),
            false => format!("blank\nopen\t{m}\t{d}\t{count}\t{last}\nrun\t{title}\n"),
        };
        let mut board = self.open();
        for event in &self.events {
            rows += &match event {
                Event::Begin => "begin".to_string(),
                Event::Visit(unit) => format!("visit\t{unit}"),
                Event::Step(step) => {
                    let word = String::from_utf8_lossy(WORDS[usize::from(step.kind)]);
                    format!("{word}\t{}\t{}\t{}", step.unit, step.other, step.slot)
                }
            };
            rows += &match event.take(&mut board) {
                Err(refusal) => format!("\t# {refusal}\n"),
                Ok(Some(Finding::Quiet)) => "\t# quiet\n".to_string(),
                Ok(Some(Finding::Unsettled)) => "\t# unsettled\n".to_string(),
                Ok(_) => "\n".to_string(),
            };
        }
        rows
    }
}

/// What the walk strives for, for a while.
#[derive(Clone, Copy)]
enum Mood {
    /// Work goes round, under the visits of an open round, too.
    Work,
    /// All weight goes back to unit 0.
    Drain,
    /// The round comes to its end, whatever work is still under way.
    Count,
    /// The poorest unit sends until it must ask for more. That takes a while.
    Starve,
}

/// The places of a beginning and of a visit in a mood's weights, behind the steps.
const BEGIN: usize = 8;
const VISIT: usize = 9;

/// The least length of a list that has room to starve a unit.
const LONG: usize = 100;

impl Mood {
    /// How gladly each event is taken: the eight steps in their order, a
    /// beginning where no round is open, a visit.
    fn weights(self) -> [usize; 10] {
        match self {
            Mood::Work => [20, 30, 10, 16, 8, 2, 3, 4, 6, 10],
            Mood::Drain => [0, 0, 0, 20, 20, 12, 12, 4, 4, 6],
            Mood::Count => [1, 1, 0, 1, 12, 2, 1, 2, 20, 40],
            Mood::Starve => [20, 40, 10, 30, 1, 2, 2, 2, 6, 6],
        }
    }
}

struct Walk<'r> {
    random: &'r mut Random,
    board: Board,
    mood: Mood,
    /// How many events the mood still lasts.
    left: usize,
    /// Whether there is room to starve a unit.
    long: bool,
}

impl Walk<'_> {
    /// Chooses an event and takes it: one that is accepted, or now and then any.
    fn next(&mut self) -> Event {
        if self.left == 0 {
            // A finished board has nothing to drain and little to count.
            self.mood = match self.board.debt {
                0 => self
                    .random
                    .pick(&[Mood::Work, Mood::Work, Mood::Work, Mood::Count]),
                _ => self.random.pick(&[Mood::Work, Mood::Drain, Mood::Count]),
            };
            self.left = self.random.within(4, 14);
            if self.long && self.random.chance(1, 24) {
                (self.mood, self.left) = (Mood::Starve, 80);
            }
        }
        self.left -= 1;
        let any = self.random.chance(1, 8);
        // The unit or the slot behind the last is met on purpose alone.
        let past = usize::from(any && self.random.chance(1, 3));
        let mut weights = self.mood.weights();
        // A beginning that drops a round is rare, and a visit without one, too.
        if self.board.rounds.open != Round::None {
            weights[BEGIN] = 6 * usize::from(self.random.chance(1, 8));
        } else if !any {
            weights[VISIT] = 0;
        }
        // Of events that may be refused many are visits.
        if any {
            weights[VISIT] += 40;
        }
        loop {
            let place = self.random.weighted(&weights);
            let event = self.event(place, past);
            let outcome = event.take(&mut self.board);
            let verdict = matches!(outcome, Ok(Some(Finding::Quiet | Finding::Unsettled)));
            if verdict && !matches!(self.mood, Mood::Starve) {
                self.left = 0;
            }
            if outcome.is_ok() || any {
                return event;
            }
            // Nothing of what the mood likes may be left to do.
            weights[..BEGIN].iter_mut().for_each(|weight| *weight += 1);
        }
    }

    /// An event by its place in the weights. Fields that a step has no letter for
    /// are 0.
    fn event(&mut self, place: usize, past: usize) -> Event {
        let kind = place as u16 + Step::START;
        let (n, m) = (usize::from(self.board.n), usize::from(self.board.m));
        let mut unit = self.random.below(n + past) as u16;
        if let (Mood::Starve, Step::SEND | Step::REQUEST) = (self.mood, kind) {
            unit = self.poorest(kind).unwrap_or(unit);
        }
        let other = self.random.below(n + past) as u16;
        let slot = self.random.below(m + past) as u16;
        Event::Step(match kind {
            _ if place == BEGIN => return Event::Begin,
            _ if place == VISIT => return Event::Visit(unit),
            Step::START => Step::start(unit),
            Step::SEND => Step::send(unit, other, slot),
            Step::REQUEST => Step::request(unit, slot),
            Step::DELIVER => Step::deliver(slot),
            Step::REST => Step::rest(unit),
            Step::TICK => Step::tick(unit),
            Step::RELEASE => Step::release(unit, slot),
            _ => Step::move_under(unit, other),
        })
    }

    /// The active unit with the least weight that may still send, or ask.
    fn poorest(&self, kind: u16) -> Option<u16> {
        let units = &self.board.units;
        let ready = |u: &u16| {
            let unit = units[usize::from(*u)];
            let may = kind == Step::REQUEST || unit.weight > 1;
            unit.state == State::Active && !unit.suspended && may
        };
        let weight = |u: &u16| units[usize::from(*u)].weight;
        (0..self.board.n).filter(ready).min_by_key(weight)
    }
}
