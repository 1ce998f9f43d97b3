//! Writes a script line by line and simulates it on the reference board, so
//! that it can choose steps that are accepted, or refused for a reason that
//! it aims at.

use crate::forms;
use crate::random::Random;
use reference::{read_line, Board, Kind, Record, State, Step, LINE_LIMIT, WORDS};

/// What the walker strives for, for a while.
#[derive(Clone, Copy, PartialEq, Eq)]
enum Mood {
    /// Work spreads over all units.
    Spread,
    /// The poorest units send until they must ask for more.
    Starve,
    /// Messages pile up until no slot is empty.
    Fill,
    /// All weight goes back to unit 0.
    Drain,
    /// No aim.
    Even,
}

impl Mood {
    /// How gladly each kind of step is taken, from send on.
    fn weights(self) -> [usize; 7] {
        match self {
            Mood::Spread => [8, 3, 6, 1, 2, 1, 1],
            Mood::Starve => [10, 9, 7, 0, 1, 1, 1],
            Mood::Fill => [9, 4, 1, 1, 1, 3, 1],
            Mood::Drain => [0, 0, 6, 6, 9, 6, 1],
            Mood::Even => [1, 1, 1, 1, 1, 1, 1],
        }
    }
}

/// The units and slots of a board that each step can be about.
#[derive(Default)]
struct View {
    not_active: Vec<u16>,
    suspended: Vec<u16>,
    /// Active and not suspended.
    ready: Vec<u16>,
    /// Ready, of weight 2 or more.
    rich: Vec<u16>,
    /// Rich, of weight below 2^20: these give small shares.
    lean: Vec<u16>,
    /// Ready, of weight 1.
    poor: Vec<u16>,
    not_waiting: Vec<u16>,
    /// Waiting with a countdown above 0.
    counting: Vec<u16>,
    /// Waiting with countdown 0.
    due: Vec<u16>,
    empty: Vec<u16>,
    filled: Vec<u16>,
    /// Senders of returns that are under way.
    returning: Vec<u16>,
}

impl View {
    fn of(board: &Board) -> View {
        let mut view = View::default();
        for u in 0..board.n {
            let unit = &board.units[usize::from(u)];
            match unit.state {
                State::Active if unit.suspended => view.suspended.push(u),
                State::Active => {
                    view.ready.push(u);
                    let group = if unit.weight > 1 {
                        &mut view.rich
                    } else {
                        &mut view.poor
                    };
                    group.push(u);
                    if (2..1 << 20).contains(&unit.weight) {
                        view.lean.push(u);
                    }
                }
                State::Waiting if unit.countdown > 0 => view.counting.push(u),
                State::Waiting => view.due.push(u),
                State::Idle => (),
            }
            if unit.state != State::Active {
                view.not_active.push(u);
            }
            if unit.state != State::Waiting {
                view.not_waiting.push(u);
            }
        }
        for s in 0..board.m {
            let slot = &board.slots[usize::from(s)];
            match slot.kind {
                Kind::Empty => view.empty.push(s),
                _ => view.filled.push(s),
            }
            if slot.kind == Kind::Return {
                view.returning.push(slot.from);
            }
        }
        view
    }
}

pub struct Walker<'r> {
    random: &'r mut Random,
    board: Board,
    depths: Vec<u16>,
    text: Vec<u8>,
    mood: Mood,
    mood_left: usize,
    /// How many lines of a hundred are meant to be refused.
    refused_share: usize,
    /// How many lines of a hundred get a padded number.
    padded_share: usize,
}

impl<'r> Walker<'r> {
    /// A walker on a random board.
    pub fn new(random: &'r mut Random) -> Walker<'r> {
        let line = forms::board_line(random);
        Walker::on(random, &line)
    }

    /// A walker behind a first line of any form. If it is refused the steps
    /// are simulated on some small board.
    pub fn on(random: &'r mut Random, first_line: &[u8]) -> Walker<'r> {
        let opened = match read_line(first_line, true) {
            Ok(Record::Board { m, d, parents }) => Board::open(m, d, &parents).0,
            _ => Board::BLANK,
        };
        let board = if opened.is_sound() {
            opened
        } else {
            Board::open(3, 1, &[0, 1]).0
        };
        Walker {
            depths: depths(&board),
            board,
            text: [first_line, b"\n"].concat(),
            mood: Mood::Spread,
            mood_left: 0,
            refused_share: random.pick(&[0, 3, 8, 20]),
            padded_share: random.pick(&[0, 0, 0, 1]),
            random,
        }
    }

    pub fn into_script(self) -> Vec<u8> {
        self.text
    }

    /// Adds lines until the script has at least `length` bytes.
    pub fn walk_to(&mut self, length: usize) {
        while self.text.len() < length {
            if self.random.chance(self.refused_share, 100) {
                let line = self.refused_line();
                self.add(&line);
            } else if self.random.chance(self.padded_share, 100) {
                let line = self.padded_line();
                self.add(&line);
            } else {
                let step = self.accepted_step();
                self.add_step(step);
            }
        }
    }

    /// Starts a unit that sends to others so many times and receives nothing.
    /// Gives the length of the script.
    pub fn descend(&mut self, sends: usize) -> usize {
        let at_root = self.random.chance(3, 4);
        let unit = if at_root { 0 } else { self.any_unit() };
        self.add_step(Step::start(unit));
        // A unit alone has no other to send to.
        let sends = if self.board.n > 1 { sends } else { 0 };
        for _ in 0..sends {
            let slot = self.random.below(usize::from(self.board.m)) as u16;
            if self.board.slots[usize::from(slot)].kind != Kind::Empty {
                self.add_step(Step::deliver(slot));
            }
            let other = self.other_unit(unit);
            self.add_step(Step::send(unit, other, slot));
        }
        // A rest of unit 0 shows in the debt what it kept.
        if self.random.chance(2, 3) {
            self.add_step(Step::rest(unit));
        }
        self.text.len()
    }

    /// Adds accepted steps so that the script, which has some hundred bytes
    /// less, has exactly `length` bytes. No step's line can be stretched, so
    /// a line of no word fills the gap before the last of them.
    pub fn fill_to(&mut self, length: usize) {
        while length - self.text.len() > 40 {
            let step = self.accepted_step();
            self.add_step(step);
        }
        let step = self.accepted_step();
        let last = fields(step).join(&b'\t').len() + 1;
        let gap = length - self.text.len() - last;
        self.add(&vec![b'x'; gap - 1]);
        self.add_step(step);
        assert_eq!(self.text.len(), length);
    }

    fn add_step(&mut self, step: Step) {
        self.add(&fields(step).join(&b'\t'));
    }

    fn add(&mut self, line: &[u8]) {
        self.text.extend_from_slice(line);
        self.text.push(b'\n');
        if let Ok(Record::Step(step)) = read_line(line, false) {
            self.board.step(step);
            if step.kind == Step::MOVE {
                self.depths = depths(&self.board);
            }
        }
    }

    fn any_unit(&mut self) -> u16 {
        self.random.below(usize::from(self.board.n)) as u16
    }

    fn change_mood(&mut self) {
        let starting = self.board.debt == 0;
        let moods = [
            Mood::Spread,
            Mood::Starve,
            Mood::Fill,
            Mood::Even,
            Mood::Drain,
        ];
        self.mood = moods[self
            .random
            .weighted(&[3, 4, 2, 2, if starting { 0 } else { 4 }])];
        self.mood_left = match self.mood {
            Mood::Drain => self.random.within(30, 600),
            Mood::Starve => self.random.within(20, 65),
            _ => self.random.within(2, 40),
        };
    }

    /// A step that the board will accept. There always is one.
    fn accepted_step(&mut self) -> Step {
        if self.mood_left == 0 || self.board.debt == 0 {
            self.change_mood();
        }
        self.mood_left -= 1;
        let view = View::of(&self.board);
        // A move is accepted on any board but that of a unit alone. Of two units only
        // 1 can be moved, and it stays where it is: that is rare.
        let moving = match self.board.n {
            1 => false,
            2 => self.random.chance(1, 10),
            _ => self.random.chance(1, 2),
        };
        if self.board.debt == 0 {
            if moving && self.random.chance(1, 6) {
                return self.accepted_move(&view);
            }
            let at_root = self.random.chance(1, 2);
            return Step::start(if at_root { 0 } else { self.any_unit() });
        }

        let room = !view.empty.is_empty();
        let possible = [
            room && !view.rich.is_empty(),
            room && !view.poor.is_empty(),
            !view.filled.is_empty(),
            !view.ready.is_empty(),
            !view.counting.is_empty(),
            room && !view.due.is_empty(),
            moving,
        ];
        let mut weights = self.mood.weights();
        // Who gets a large share is far from weight 1.
        if self.mood == Mood::Starve && view.lean.is_empty() {
            weights[0] = 1;
        }
        for (weight, possible) in weights.iter_mut().zip(possible) {
            *weight *= usize::from(possible);
        }
        if weights == [0; 7] {
            weights = possible.map(usize::from);
        }
        let step = match Step::SEND + self.random.weighted(&weights) as u16 {
            Step::SEND => {
                let unit = self.giver(&view);
                let other = self.receiver(unit);
                Step::send(unit, other, self.random.pick(&view.empty))
            }
            Step::REQUEST => {
                Step::request(self.random.pick(&view.poor), self.random.pick(&view.empty))
            }
            Step::DELIVER => Step::deliver(self.message(&view.filled)),
            Step::REST => Step::rest(self.random.pick(&view.ready)),
            Step::TICK => Step::tick(self.waiter(&view.counting)),
            Step::RELEASE => Step::release(self.waiter(&view.due), self.random.pick(&view.empty)),
            _ => self.accepted_move(&view),
        };
        debug_assert_eq!(self.board.clone().step(step), 0, "{step:?}");
        step
    }

    /// A move that is accepted, now and then of a unit whose return is under way or
    /// that is suspended, and now and then under the parent that it already has.
    fn accepted_move(&mut self, view: &View) -> Step {
        let group = self.random.pick(&[&view.returning, &view.suspended]);
        let unit = if !group.is_empty() && self.random.chance(1, 3) {
            // Unit 0 may be suspended, but is not moved.
            self.random.pick(group).max(1)
        } else {
            // Unit 1 has but one parent to be under.
            let last = usize::from(self.board.n) - 1;
            let least = if self.random.chance(1, 8) { 1 } else { 2 };
            self.random.within(last.min(least), last) as u16
        };
        let parent = if self.random.chance(1, 6) {
            self.board.parents[usize::from(unit)]
        } else {
            self.random.below(usize::from(unit)) as u16
        };
        Step::move_under(unit, parent)
    }

    /// The sender among the rich units, mostly a lean one: large shares soon
    /// leave no unit that can be starved.
    fn giver(&mut self, view: &View) -> u16 {
        let weight = |unit: &u16| self.board.units[usize::from(*unit)].weight;
        match (self.mood, view.rich.iter().copied().min_by_key(weight)) {
            (Mood::Starve, Some(poorest)) => poorest,
            _ if !view.lean.is_empty() && self.random.chance(9, 10) => self.random.pick(&view.lean),
            _ => self.random.pick(&view.rich),
        }
    }

    /// The receiver of a send, now and then the sender itself.
    fn receiver(&mut self, sender: u16) -> u16 {
        if self.board.n == 1 || self.random.chance(1, 12) {
            return sender;
        }
        self.other_unit(sender)
    }

    fn other_unit(&mut self, unit: u16) -> u16 {
        let n = self.board.n;
        let further = self.random.within(1, usize::from(n) - 1) as u16;
        (unit + further) % n
    }

    /// The message to deliver. A starving walker prefers the light ones,
    /// which leave their receivers poor.
    fn message(&mut self, filled: &[u16]) -> u16 {
        let some = [(); 3].map(|()| self.random.pick(filled));
        let weight = |slot: &u16| self.board.slots[usize::from(*slot)].weight;
        match (self.mood, some.iter().copied().min_by_key(weight)) {
            (Mood::Starve, Some(lightest)) => lightest,
            _ => some[0],
        }
    }

    /// The waiting unit to go on with. A drain mostly takes the deepest, for
    /// a parent that is released before a return comes has to wait again.
    fn waiter(&mut self, waiting: &[u16]) -> u16 {
        let depth = |unit: &u16| self.depths[usize::from(*unit)];
        match (self.mood, waiting.iter().copied().max_by_key(depth)) {
            (Mood::Drain, Some(deepest)) if self.random.chance(9, 10) => deepest,
            _ => self.random.pick(waiting),
        }
    }

    /// A line that mostly is refused.
    fn refused_line(&mut self) -> Vec<u8> {
        if self.random.chance(1, 4) {
            let step = self.mostly_accepted_step();
            return forms::refused_line(self.random, &fields(step));
        }
        let step = match self.aimed_step() {
            Some(step) => step,
            None => self.careless_step(),
        };
        fields(step).join(&b'\t')
    }

    /// A line with a padded number. Mostly its step would be accepted.
    fn padded_line(&mut self) -> Vec<u8> {
        let step = self.mostly_accepted_step();
        forms::padded_line(self.random, &fields(step))
    }

    fn mostly_accepted_step(&mut self) -> Step {
        if self.random.chance(3, 4) {
            self.accepted_step()
        } else {
            self.careless_step()
        }
    }

    /// A step refused for the reason that it aims at, where the board allows
    /// it, or for another that is checked before.
    fn aimed_step(&mut self) -> Option<Step> {
        let view = View::of(&self.board);
        let random = &mut *self.random;
        let form = random.below(8);
        let mut pick = |from: &[u16]| (!from.is_empty()).then(|| random.pick(from));
        let (n, m) = (self.board.n, self.board.m);
        let any_unit = pick(&(0..n).collect::<Vec<_>>())?;
        let any_slot = pick(&(0..m).collect::<Vec<_>>())?;
        // Empty or filled: the checks before the slot's come first.
        let empty_slot = pick(&view.empty).unwrap_or(any_slot);
        let slot = pick(&[empty_slot, any_slot])?;
        let step = match pick(&(0..13).collect::<Vec<_>>())? {
            // 13
            0 => {
                let unit = pick(&[n, n + 1, 64, 256, 65_535])?;
                match form {
                    0 => Step::start(unit),
                    1 => Step::send(unit, any_unit, slot),
                    2 => Step::send(pick(&view.ready)?, unit, slot),
                    3 => Step::request(unit, slot),
                    4 => Step::rest(unit),
                    5 => Step::tick(unit),
                    6 => Step::release(unit, slot),
                    // The p is lower, or 47 would hold, too.
                    _ => Step::move_under(unit, pick(&[any_unit, unit, 65_535])?),
                }
            }
            // 14
            1 => {
                let slot = pick(&[m, m + 1, 256, 65_535])?;
                match form {
                    0 => Step::send(pick(&view.ready)?, any_unit, slot),
                    1 => Step::send(any_unit, any_unit, slot),
                    2 => Step::request(pick(&view.poor)?, slot),
                    3 => Step::request(any_unit, slot),
                    4 => Step::release(pick(&view.due)?, slot),
                    5 => Step::release(any_unit, slot),
                    _ => Step::deliver(slot),
                }
            }
            // 31 and 32
            group @ (2 | 3) => {
                let units = [&view.not_active, &view.suspended];
                let unit = pick(units[usize::from(group - 2)])?;
                match form {
                    0 | 1 => Step::rest(unit),
                    2..=4 => Step::send(unit, any_unit, slot),
                    _ => Step::request(unit, slot),
                }
            }
            // 33
            4 => Step::send(pick(&view.poor)?, any_unit, slot),
            // 34
            5 => {
                let slot = pick(&view.filled)?;
                match form {
                    0..=2 => Step::send(pick(&view.ready)?, any_unit, slot),
                    3 | 4 => Step::request(pick(&view.poor)?, slot),
                    _ => Step::release(pick(&view.due)?, slot),
                }
            }
            // 35
            6 => Step::deliver(pick(&view.empty)?),
            // 37
            7 if self.board.debt > 0 => Step::start(any_unit),
            // 38
            8 if form < 3 => Step::tick(pick(&view.not_waiting)?),
            8 => Step::release(pick(&view.not_waiting)?, slot),
            // 39
            9 => Step::tick(pick(&view.due)?),
            // 40
            10 => Step::release(pick(&view.counting)?, slot),
            // 41
            11 => Step::request(pick(&view.rich)?, slot),
            // 47: unit 0, p the unit itself, p above it, p not on the board
            12 => match form {
                0 | 1 => Step::move_under(0, pick(&[any_unit, 0, n])?),
                2 | 3 => Step::move_under(any_unit, any_unit),
                4 | 5 => {
                    let above = (any_unit + 1..n).collect::<Vec<_>>();
                    Step::move_under(any_unit, pick(&above)?)
                }
                _ => Step::move_under(any_unit, pick(&[n, n + 1, 64, 256, 65_535])?),
            },
            _ => return None,
        };
        Some(step)
    }

    /// A step with any fields, some just out of range, so that several
    /// reasons to refuse it may hold at once.
    fn careless_step(&mut self) -> Step {
        let random = &mut *self.random;
        let n = usize::from(self.board.n);
        let m = usize::from(self.board.m);
        Step {
            kind: random.within(1, 8) as u16,
            unit: random.within(0, n) as u16,
            other: random.within(0, n) as u16,
            slot: random.within(0, m) as u16,
        }
    }
}

/// The depths of all units. A parent comes before its units.
fn depths(board: &Board) -> Vec<u16> {
    let mut depths: Vec<u16> = vec![0];
    for unit in 1..usize::from(board.n) {
        depths.push(depths[usize::from(board.parents[unit])] + 1);
    }
    depths
}

/// The fields of a step's line, the word first.
pub fn fields(step: Step) -> Vec<Vec<u8>> {
    let numbers = match step.kind {
        Step::SEND => vec![step.unit, step.other, step.slot],
        Step::MOVE => vec![step.unit, step.other],
        Step::REQUEST | Step::RELEASE => vec![step.unit, step.slot],
        Step::DELIVER => vec![step.slot],
        _ => vec![step.unit],
    };
    let mut fields = vec![WORDS[usize::from(step.kind)].to_vec()];
    fields.extend(numbers.iter().map(|number| number.to_string().into_bytes()));
    debug_assert!(fields.join(&b'\t').len() <= LINE_LIMIT);
    fields
}
