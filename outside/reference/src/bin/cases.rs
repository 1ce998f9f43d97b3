//! Prints what the calls answer where no script reaches, one line a board or a
//! call, so that another program can print the same tables and be compared.
//!
//! `cases [table]`, where the table is `damaged` (the default), `balanced`,
//! `suspended`, `limits`, `runs`, `writes`, `heads` or `censuses`. Lines end with
//! byte 10, columns are decimal numbers parted by one tab, there is no heading.
//! The first column is the index of the board or the call, from 0 on in the order
//! below. Ranges written a..=b include b. Every call gets a copy of the board.
//!
//! `cases boards` prints the first four tables in this order, and `cases calls`
//! the last four, each behind a line with its name. `cases rows` reads cases from
//! standard input and prints what is to be told for them; their format stands at
//! the top of `rows.rs`. `cases census` prints the table of all censuses for a
//! reader. `cases orders` reads pairs of steps from standard input and prints what
//! they answer in either order, and `cases drains` reads scripts and prints the
//! longest drains of the boards that they come to; these three forms are described
//! last.
//!
//! # damaged, balanced, suspended
//!
//! Columns:
//! 1. index
//! 2. sound: 1 or 0
//! 3. finished: 0 finished, 1 working, 30 refused
//! 4. depth of unit 4, 0 where the call is refused
//! 5. refusal of that call, 0 where it is not refused
//! 6. answer of the step of kind 6 (tick), unit 2, other 0, slot 0
//!
//! Boards: index 0 is the base board itself. Then, each on a fresh copy of
//! the base board, one field set:
//! - for each of n, M, d in this order: to 0, 1, its value minus 1, its value
//!   plus 1, 65535 (15 boards);
//! - for each parent entry 0..=63: to 0, 1, its unit, 65535 (256 boards);
//! - for each of the units 0..=6 and 63: weight plus 1, weight 0, countdown
//!   1, countdown 3, state idle, state active, state waiting, suspended
//!   flipped (64 boards);
//! - for each of the slots 0..=5 and 255: kind empty, work, return, request,
//!   supply; from 0, 1, 5, 65535; to 0, 1, 5, 65535; weight 0, its value plus
//!   1, 2^24 (112 boards);
//! - in `damaged` only: the debt plus 1, minus 1, 0, 2^40, 2^40 + 1, 2^64 - 1
//!   (6 boards).
//!
//! In `balanced` and `suspended` the debt is set after that to the sum of all
//! 64 unit weights and all 256 slot weights, so that S5 does not hide the
//! other conditions. And unit 0's created count is set so that the created
//! counts of all 64 units sum to their processed counts and the number of work
//! slots among all 256, added exactly, so that this equality does not hide them
//! either; what does not fit in 32 bits is taken modulo 2^32.
//!
//! Base board of `damaged` and `balanced`: opened with M = 4, d = 2, parents
//! 0, 0, 1, 2, then start 0, send 0 1 0, deliver 0, send 0 2 1, deliver 1,
//! send 1 3 0, rest 2, send 0 4 2.
//!
//! Base board of `suspended`: the same opening, then start 1, send 1 2 0,
//! deliver 0, twenty-five times (send 2 3 0, deliver 0), send 1 4 1,
//! deliver 1, twenty-five times (send 4 3 1, deliver 1), request 2 0,
//! request 4 1, deliver 1, rest 3, tick 3, tick 3, release 3 2, send 1 3 3,
//! deliver 3, rest 3. Unit 2 has a request under way, unit 4 a supply, slot 2
//! is a return, unit 3 waits.
//!
//! # limits
//!
//! Columns:
//! 1. index
//! 2. sound: 1 or 0
//! 3. finished: 0 finished, 1 working, 30 refused
//! 4. answer of the step of kind 4 (deliver), slot 0, other fields 0
//! 5. the debt after that step
//!
//! Boards: all have n = 3, M = 3, d = 0, parents 0, and are blank but for what
//! is named. Active units have countdown 0. R(w): unit 1 active of weight w,
//! unit 2 active of weight 1 and suspended, slot 0 a request from 2 to 0 of
//! weight 0. W(w, x): unit 1 active of weight w with created count 1, slot 0
//! work from 1 to 2 of weight x. "Supply to 2" is from 0 to 2 with weight 2^24.
//! - 0: R(2^40 - 2^24 - 1), debt 2^40 - 2^24
//! - 1: R(2^40 - 2^24), debt 2^40 - 2^24 + 1
//! - 2: R(2^40 - 1), debt 2^40
//! - 3: R(2^40), debt 2^40 + 1
//! - 4: R(2^64 - 1), debt 0
//! - 5: R(2^64 - 1), debt 2^64 - 1
//! - 6: W(2^63, 2^63), debt 0
//! - 7: W(2^63, 2^63 + 2^24), debt 2^24
//! - 8: W(2^40 - 1, 1), debt 2^40
//! - 9: W(2^40, 1), debt 2^40 + 1
//! - 10: W(1, 1), debt 2
//! - 11: R(1) and slot 1 a request from 2 to 0, debt 2
//! - 12: R(1) and slot 1 a supply to 2, debt 2 + 2^24
//! - 13: R(1) with slot 0 a supply to 2 instead, debt 2 + 2^24
//! - 14: as 13, and slot 1 a supply to 2 too, debt 2 + 2^25
//! - 15: R(1) with unit 1 suspended too and slot 1 a request from 1 to 0,
//!   debt 2
//! - 16: R(1) with the request in slot 0 from 1 instead, debt 2
//! - 17: R(1) with slot 0 empty, debt 2
//!
//! # runs
//!
//! The run over the first steps of the list start 0, kind 8 (a move, which 47
//! refuses for unit 0), send 0 1 0, kind 65535, whose other fields are 0. The
//! buffer is the first part of five entries that all are 99 before the run.
//!
//! Columns:
//! 1. index
//! 2. sound: 1 or 0
//! 3. length of the list
//! 4. length of the buffer
//! 5. refusal of the run, 0 where it is not refused
//! 6. zeros that the run gives, 0 where it is refused
//! 7. to 11. the five entries after the run
//! 12. the debt after the run
//!
//! Boards: opened with M = 2, d = 1, parents 0; then the same with debt 1,
//! which is not sound. On each the list lengths 0..=4, with each of them the
//! buffer lengths 0..=5.
//!
//! # writes, heads
//!
//! A writer gets the first bytes of 40 that all are 46, the room, and a place.
//!
//! Columns:
//! 1. index
//! 2. the kind of the step; in `heads` the number of the text
//! 3. room
//! 4. place
//! 5. refusal, 0 where there is none
//! 6. the bytes written, 0 where the call is refused
//! 7. checksum: the sum over all 40 bytes after the call of each byte times
//!    one more than its index
//!
//! In `writes` the step writer, for each kind of 0..=8 and 65535 first with
//! unit 10, other 200, slot 65535, then with these fields 0. In `heads` the
//! writers of a listing's lines: 0 the heading; the lines 1 (number 0, answer
//! 0, debt 0), 2 (10, 41, 2^24), 3 (65535, 9, 2^40); 4 the line of a script
//! whose first line is missing.
//!
//! For each the rooms 0, one byte less than the line has, as many as it has,
//! one more, 40; a step that is refused whatever the room counts as one byte.
//! With each room the places 0, 1, the room, one more than the room, 2^64 - 1.
//!
//! # censuses
//!
//! A call has six numbers: M, d, first, second, count and L. Its list of parents
//! has `count` entries, which begin with first and second, as far as the count
//! reaches, and go on with 0.
//!
//! Columns:
//! 1. index
//! 2. M
//! 3. d
//! 4. count, the number of parents
//! 5. first
//! 6. second
//! 7. L
//! 8. refusal, 0 where there is none
//! 9. to 11. the lists after which the board is finished, is busy, is neither;
//!    0 where the call is refused
//!
//! Calls, as M d first second count L:
//! - 0: 1 0 0 0 0 0, the least; 1: 2 1 0 1 2 4, the largest
//! - 2: 0 0 0 0 0 0; 3: 3 0 0 0 0 0; 4: 65535 0 0 0 0 0; 5: 258 0 0 0 0 0
//! - 6: 1 2 0 0 0 0; 7: 1 256 0 0 0 0; 8: 1 65535 0 0 0 0
//! - 9: 1 0 0 0 0 5; 10: 1 0 0 0 0 256; 11: 1 0 0 0 0 65535
//! - 12: 1 0 0 0 3 0; 13: 1 0 0 0 64 0; 14: 1 0 0 0 65537 0
//! - 15: 1 0 1 0 1 0; 16: 1 0 0 2 2 0; 17: 1 0 0 65535 2 1; 18: 1 0 256 0 1 0
//! - 19: 0 0 1 0 1 0; 20: 3 0 1 0 1 0; 21: 1 2 1 0 1 0; 22: 1 0 1 0 1 5;
//!   23: 1 0 1 0 3 0
//!
//! # census
//!
//! Cells are filled with spaces on the left to these widths, and each line ends
//! with byte 10: slots 5, delay 7, parents 9, length 8, lists 9, then three times
//! a count 11 and its share 8. The first line is the heading: slots, delay,
//! parents, length, lists, finished, share, busy, share, other, share.
//!
//! Boards: for no parents, the parents 0, then 0 and 0, then 0 and 1; for each of
//! them 1 slot, then 2; for each the delay 0, then 1. Each has an empty line and
//! then five rows, for the lengths 0..=4. The parents are parted by a space; none
//! are written as -. The lists are the sum of the three counts. A share is the
//! count in percent of the lists, rounded to one decimal, a tie up, and %. Numbers
//! are plain digits.
//!
//! # orders
//!
//! Lines of standard input, each ended by byte 10, which the last may lack:
//! - an empty line is skipped;
//! - one that begins with # is told as it stands;
//! - a script's board line opens the board on which the lines behind it build,
//!   and is not told; a refused opening hands back a blank board;
//! - `round` begins a counting round on that board and visits units 0 to n - 1 in
//!   ascending order, each on the board that the visit before left, a refused
//!   visit too; it is not told;
//! - a line with a semicolon is a pair `FIRST;SECOND`, two step lines of a
//!   script. The board on which the lines behind it build stays as it was;
//! - a step line of a script is a step on that board, which it replaces by what
//!   it leaves; it is not told.
//!
//! Any other line is an error, and nothing is told.
//!
//! Columns of a pair: the line as it stands, which has tabs of its own; `gives`;
//! the answer of FIRST on the board, and of SECOND on the board that FIRST left;
//! `and`; the answer of SECOND on the board, and of FIRST on the board that SECOND
//! left; `same` where the boards after both orders are equal in every field, counts
//! and rounds too, else `differ`.
//!
//! # drains
//!
//! Standard input has blocks, with one empty line between two of them. The first
//! line of a block is its title, any text but none; the others are a script, as
//! `sheetboard` reads it. Lines end with byte 10, which the last may lack. A block
//! without a title is an error, and nothing is told.
//!
//! A block is told in these lines, and with an empty line behind them, the last
//! block too:
//! - the title as it stands;
//! - `length` and the length of the longest drain from the board after the
//!   script's last line, or `refused` and the number that refuses it. Where the
//!   script's first line is refused, its number stands here, and nothing more is
//!   told of the block;
//! - `damaged` and the number that refuses the length on the same board with the
//!   delay 256;
//! - `list` and the number of steps that the call gives that hands back up to 512
//!   of them, or `refused` and the number that refuses it;
//! - each of these steps as a line of a script.

use reference::refusal::{Refusal, ACCEPTED, NO_ROOM, UNSOUND};
use reference::{
    census, list, tell_drains, tell_orders, tell_rows, write_heading, write_listing_line,
    write_step, Board, Counts, Kind, Slot, State, Step, Unit, DEBT_LIMIT, FULL_WEIGHT, HEADING,
};
use std::io::{self, Write};
use std::process::ExitCode;

const BOARDS: [&str; 4] = ["damaged", "balanced", "suspended", "limits"];
const CALLS: [&str; 4] = ["runs", "writes", "heads", "censuses"];

fn main() -> ExitCode {
    let word = std::env::args().nth(1).unwrap_or("damaged".to_string());
    let lines = match word.as_str() {
        "boards" => named(&BOARDS),
        "calls" => named(&CALLS),
        "rows" => told(tell_rows),
        "orders" => told(tell_orders),
        "drains" => told(tell_drains),
        "census" => Some(census_table()),
        name => table(name),
    };
    let Some(lines) = lines else {
        let tables = [&BOARDS[..], &CALLS].concat().join(" | ");
        eprintln!("usage: cases [{tables} | boards | calls | rows | census | orders | drains]");
        return ExitCode::FAILURE;
    };
    match io::stdout().lock().write_all(lines.as_bytes()) {
        Ok(()) => ExitCode::SUCCESS,
        Err(_) => ExitCode::FAILURE,
    }
}

fn table(name: &str) -> Option<String> {
    match name {
        "damaged" => Some(damaged(&working_base(), false)),
        "balanced" => Some(damaged(&working_base(), true)),
        "suspended" => Some(damaged(&suspended_base(), true)),
        "limits" => Some(limits()),
        "runs" => Some(runs()),
        "writes" => Some(writes()),
        "heads" => Some(heads()),
        "censuses" => Some(censuses()),
        _ => None,
    }
}

/// Tables one after the other, each behind its name.
fn named(names: &[&str]) -> Option<String> {
    let part = |name: &&str| Some(format!("{name}\n{}", table(name)?));
    names.iter().map(part).collect()
}

/// What is to be told for the rows of standard input.
fn told(tell: fn(&str) -> Result<String, String>) -> Option<String> {
    let rows = io::read_to_string(io::stdin()).ok()?;
    match tell(&rows) {
        Ok(told) => Some(told),
        Err(line) => {
            eprintln!("cases: no case: {line}");
            None
        }
    }
}

fn opened(steps: impl IntoIterator<Item = Step>) -> Board {
    let (mut board, answer) = Board::open(4, 2, &[0, 0, 1, 2]);
    assert_eq!(answer, 0);
    for step in steps {
        assert_eq!(board.step_checked(step), 0, "{step:?}");
    }
    assert!(board.is_sound());
    board
}

fn working_base() -> Board {
    opened([
        Step::start(0),
        Step::send(0, 1, 0),
        Step::deliver(0),
        Step::send(0, 2, 1),
        Step::deliver(1),
        Step::send(1, 3, 0),
        Step::rest(2),
        Step::send(0, 4, 2),
    ])
}

fn suspended_base() -> Board {
    let mut steps = vec![Step::start(1)];
    for (unit, slot) in [(2, 0), (4, 1)] {
        steps.extend([Step::send(1, unit, slot), Step::deliver(slot)]);
        for _ in 0..25 {
            steps.extend([Step::send(unit, 3, slot), Step::deliver(slot)]);
        }
    }
    steps.extend([
        Step::request(2, 0),
        Step::request(4, 1),
        Step::deliver(1),
        Step::rest(3),
        Step::tick(3),
        Step::tick(3),
        Step::release(3, 2),
        Step::send(1, 3, 3),
        Step::deliver(3),
        Step::rest(3),
    ]);
    opened(steps)
}

fn finished(board: &Board) -> u16 {
    match board.finished() {
        Ok(true) => 0,
        Ok(false) => 1,
        Err(refusal) => refusal,
    }
}

/// The tables of one damage a board.
fn damaged(base: &Board, balanced: bool) -> String {
    let mut lines = String::new();
    for (index, mut board) in damages(base, !balanced).into_iter().enumerate() {
        if balanced {
            board.debt = u64::try_from(board.weight()).expect("damages keep weights small");
            let others = board.created_total() - u128::from(board.created[0]);
            let whole = board.processed_total() + board.work_under_way();
            // The cast takes it modulo 2^32, below 0 too.
            board.created[0] = whole.wrapping_sub(others) as u32;
        }
        let sound = u16::from(board.is_sound());
        let finished = finished(&board);
        let (depth, refusal) = match board.depth(4) {
            Ok(depth) => (depth, 0),
            Err(refusal) => (0, refusal),
        };
        let before = board.clone();
        let answer = board.step_checked(Step::tick(2));
        assert!(answer != UNSOUND || board == before);
        lines += &format!("{index}\t{sound}\t{finished}\t{depth}\t{refusal}\t{answer}\n");
    }
    lines
}

fn damages(base: &Board, with_debt: bool) -> Vec<Board> {
    let mut boards = vec![base.clone()];
    let mut damage = |change: &dyn Fn(&mut Board)| {
        let mut board = base.clone();
        change(&mut board);
        boards.push(board);
    };

    let sizes: [fn(&mut Board) -> &mut u16; 3] = [|b| &mut b.n, |b| &mut b.m, |b| &mut b.d];
    for size in sizes {
        damage(&|b| *size(b) = 0);
        damage(&|b| *size(b) = 1);
        damage(&|b| *size(b) -= 1);
        damage(&|b| *size(b) += 1);
        damage(&|b| *size(b) = 65_535);
    }
    for unit in 0..64 {
        for parent in [0, 1, unit as u16, 65_535] {
            damage(&|b| b.parents[unit] = parent);
        }
    }
    for unit in [0, 1, 2, 3, 4, 5, 6, 63] {
        damage(&|b| b.units[unit].weight += 1);
        damage(&|b| b.units[unit].weight = 0);
        damage(&|b| b.units[unit].countdown = 1);
        damage(&|b| b.units[unit].countdown = 3);
        for state in [State::Idle, State::Active, State::Waiting] {
            damage(&|b| b.units[unit].state = state);
        }
        damage(&|b| b.units[unit].suspended ^= true);
    }
    for slot in [0, 1, 2, 3, 4, 5, 255] {
        for kind in [
            Kind::Empty,
            Kind::Work,
            Kind::Return,
            Kind::Request,
            Kind::Supply,
        ] {
            damage(&|b| b.slots[slot].kind = kind);
        }
        for from in [0, 1, 5, 65_535] {
            damage(&|b| b.slots[slot].from = from);
        }
        for to in [0, 1, 5, 65_535] {
            damage(&|b| b.slots[slot].to = to);
        }
        damage(&|b| b.slots[slot].weight = 0);
        damage(&|b| b.slots[slot].weight += 1);
        damage(&|b| b.slots[slot].weight = FULL_WEIGHT);
    }
    if with_debt {
        damage(&|b| b.debt += 1);
        damage(&|b| b.debt -= 1);
        for debt in [0, DEBT_LIMIT, DEBT_LIMIT + 1, u64::MAX] {
            damage(&|b| b.debt = debt);
        }
    }
    boards
}

fn limits() -> String {
    let request = |from| Slot {
        kind: Kind::Request,
        from,
        to: 0,
        weight: 0,
    };
    let supply = Slot {
        kind: Kind::Supply,
        from: 0,
        to: 2,
        weight: FULL_WEIGHT,
    };
    let active = |weight| Unit {
        state: State::Active,
        weight,
        countdown: 0,
        suspended: false,
    };
    let small = |weight, debt| {
        let mut board = Board {
            n: 3,
            m: 3,
            debt,
            ..Board::BLANK
        };
        board.units[1] = active(weight);
        board
    };
    let r = |weight, debt| {
        let mut board = small(weight, debt);
        board.units[2] = active(1);
        board.units[2].suspended = true;
        board.slots[0] = request(2);
        board
    };
    let w = |weight, under_way, debt| {
        let mut board = small(weight, debt);
        board.created[1] = 1;
        board.slots[0] = Slot {
            kind: Kind::Work,
            from: 1,
            to: 2,
            weight: under_way,
        };
        board
    };
    let changed = |mut board: Board, change: &dyn Fn(&mut Board)| {
        change(&mut board);
        board
    };

    let boards = [
        r(DEBT_LIMIT - FULL_WEIGHT - 1, DEBT_LIMIT - FULL_WEIGHT),
        r(DEBT_LIMIT - FULL_WEIGHT, DEBT_LIMIT - FULL_WEIGHT + 1),
        r(DEBT_LIMIT - 1, DEBT_LIMIT),
        r(DEBT_LIMIT, DEBT_LIMIT + 1),
        r(u64::MAX, 0),
        r(u64::MAX, u64::MAX),
        w(1 << 63, 1 << 63, 0),
        w(1 << 63, (1 << 63) + FULL_WEIGHT, FULL_WEIGHT),
        w(DEBT_LIMIT - 1, 1, DEBT_LIMIT),
        w(DEBT_LIMIT, 1, DEBT_LIMIT + 1),
        w(1, 1, 2),
        changed(r(1, 2), &|b| b.slots[1] = request(2)),
        changed(r(1, 2 + FULL_WEIGHT), &|b| b.slots[1] = supply),
        changed(r(1, 2 + FULL_WEIGHT), &|b| b.slots[0] = supply),
        changed(r(1, 2 + 2 * FULL_WEIGHT), &|b| {
            b.slots[0] = supply;
            b.slots[1] = supply;
        }),
        changed(r(1, 2), &|b| {
            b.units[1].suspended = true;
            b.slots[1] = request(1);
        }),
        changed(r(1, 2), &|b| b.slots[0] = request(1)),
        changed(r(1, 2), &|b| b.slots[0] = Slot::BLANK),
    ];
    let mut lines = String::new();
    for (index, mut board) in boards.into_iter().enumerate() {
        let sound = u16::from(board.is_sound());
        let finished = finished(&board);
        let answer = board.step_checked(Step::deliver(0));
        let debt = board.debt;
        lines += &format!("{index}\t{sound}\t{finished}\t{answer}\t{debt}\n");
    }
    lines
}

fn runs() -> String {
    let odd = |kind| Step {
        kind,
        ..Step::default()
    };
    let steps = [Step::start(0), odd(8), Step::send(0, 1, 0), odd(65_535)];
    let (sound, answer) = Board::open(2, 1, &[0]);
    assert_eq!(answer, ACCEPTED);
    let mut unsound = sound.clone();
    unsound.debt = 1;

    let mut lines = Lines::default();
    for before in [sound, unsound] {
        for count in 0..=4 {
            for room in 0..=5 {
                let mut board = before.clone();
                let mut buffer = [99; 5];
                let outcome = board.run(&steps[..count], &mut buffer[..room]);
                let (refusal, zeros) = parted(outcome);
                let sound = u64::from(before.is_sound());
                let mut cells = vec![sound, count as u64, room as u64, refusal, zeros];
                cells.extend(buffer.map(u64::from));
                cells.push(board.debt);
                lines.push(&cells);
            }
        }
    }
    lines.text
}

fn writes() -> String {
    let mut lines = Lines::default();
    for kind in (0..=8).chain([65_535]) {
        for [unit, other, slot] in [[10, 200, 65_535], [0; 3]] {
            let step = Step {
                kind,
                unit,
                other,
                slot,
            };
            edges(&mut lines, kind, &|out, at| write_step(step, out, at));
        }
    }
    lines.text
}

fn heads() -> String {
    let refused = list(b"").split_off(HEADING.len());
    let writers: [Writer; 5] = [
        &write_heading,
        &|out, at| write_listing_line(0, 0, 0, out, at),
        &|out, at| write_listing_line(10, 41, FULL_WEIGHT, out, at),
        &|out, at| write_listing_line(65_535, 9, DEBT_LIMIT, out, at),
        &|out, at| {
            let rest = out.get_mut(at..).ok_or(NO_ROOM)?;
            let line = rest.get_mut(..refused.len()).ok_or(NO_ROOM)?;
            line.copy_from_slice(&refused);
            Ok(refused.len())
        },
    ];
    let mut lines = Lines::default();
    for (number, writer) in (0..).zip(writers) {
        edges(&mut lines, number, writer);
    }
    lines.text
}

/// The calls of `censuses`: M, d, first, second, count, L.
const CENSUSES: [(u16, u16, u16, u16, usize, u16); 24] = [
    (1, 0, 0, 0, 0, 0),
    (2, 1, 0, 1, 2, 4),
    // M, also one that is in reach in its last eight bits.
    (0, 0, 0, 0, 0, 0),
    (3, 0, 0, 0, 0, 0),
    (65_535, 0, 0, 0, 0, 0),
    (258, 0, 0, 0, 0, 0),
    // The delay.
    (1, 2, 0, 0, 0, 0),
    (1, 256, 0, 0, 0, 0),
    (1, 65_535, 0, 0, 0, 0),
    // The length.
    (1, 0, 0, 0, 0, 5),
    (1, 0, 0, 0, 0, 256),
    (1, 0, 0, 0, 0, 65_535),
    // The number of parents, also one that is in reach in its last 16 bits.
    (1, 0, 0, 0, 3, 0),
    (1, 0, 0, 0, 64, 0),
    (1, 0, 0, 0, 65_537, 0),
    // Parents that are not below their units.
    (1, 0, 1, 0, 1, 0),
    (1, 0, 0, 2, 2, 0),
    (1, 0, 0, 65_535, 2, 1),
    (1, 0, 256, 0, 1, 0),
    // Such a parent, and a size or the length out of reach, too.
    (0, 0, 1, 0, 1, 0),
    (3, 0, 1, 0, 1, 0),
    (1, 2, 1, 0, 1, 0),
    (1, 0, 1, 0, 1, 5),
    (1, 0, 1, 0, 3, 0),
];

fn censuses() -> String {
    let mut lines = Lines::default();
    for (m, d, first, second, count, length) in CENSUSES {
        let mut parents = vec![first, second];
        parents.resize(count, 0);
        let (refusal, counts) = match census(m, d, &parents, length) {
            Ok(counts) => (ACCEPTED, counts),
            Err(refusal) => (refusal, Counts::default()),
        };
        lines.push(&[
            u64::from(m),
            u64::from(d),
            count as u64,
            u64::from(first),
            u64::from(second),
            u64::from(length),
            u64::from(refusal),
            counts.finished,
            counts.busy,
            counts.other,
        ]);
    }
    lines.text
}

/// The table of all censuses, for a reader.
fn census_table() -> String {
    let heading = [
        "slots", "delay", "parents", "length", "lists", "finished", "share", "busy", "share",
        "other", "share",
    ];
    let mut table = aligned(heading.map(String::from));
    for (name, parents) in [
        ("-", &[][..]),
        ("0", &[0]),
        ("0 0", &[0, 0]),
        ("0 1", &[0, 1]),
    ] {
        for (m, d) in [(1, 0), (1, 1), (2, 0), (2, 1)] {
            table.push('\n');
            for length in 0..=4 {
                let counts = census(m, d, parents, length).expect("a board in reach");
                table += &aligned(census_row(m, d, name, length, counts));
            }
        }
    }
    table
}

fn census_row(m: u16, d: u16, parents: &str, length: u16, counts: Counts) -> [String; 11] {
    let lists = counts.lists();
    [
        m.to_string(),
        d.to_string(),
        parents.to_string(),
        length.to_string(),
        lists.to_string(),
        counts.finished.to_string(),
        share_of(counts.finished, lists),
        counts.busy.to_string(),
        share_of(counts.busy, lists),
        counts.other.to_string(),
        share_of(counts.other, lists),
    ]
}

/// A count in percent of the whole, to the nearest tenth, a tie up.
fn share_of(count: u64, whole: u64) -> String {
    // Half of the whole more before the division, so that cutting off rounds.
    let tenths = (2_000 * count + whole) / (2 * whole);
    format!("{}.{}%", tenths / 10, tenths % 10)
}

/// A line of the census, its cells filled up to their widths.
fn aligned(cells: [String; 11]) -> String {
    const WIDTHS: [usize; 11] = [5, 7, 9, 8, 9, 11, 8, 11, 8, 11, 8];
    let cell = |(cell, width)| format!("{cell:>width$}");
    let cells: String = cells.iter().zip(WIDTHS).map(cell).collect();
    cells + "\n"
}

/// Writes one line at a place, and gives the number of bytes written.
type Writer<'a> = &'a dyn Fn(&mut [u8], usize) -> Result<usize, Refusal>;

/// The lines of one writer, around the edges of its room.
fn edges(lines: &mut Lines, name: u16, write: Writer) {
    let length = write(&mut [0; 40], 0).unwrap_or(1);
    for room in [0, length - 1, length, length + 1, 40] {
        for place in [0, 1, room, room + 1, usize::MAX] {
            let mut bytes = [46; 40];
            let (refusal, count) = parted(write(&mut bytes[..room], place));
            let checksum = (1..).zip(bytes).map(|(i, byte)| i * u64::from(byte)).sum();
            lines.push(&[
                u64::from(name),
                room as u64,
                place as u64,
                refusal,
                count,
                checksum,
            ]);
        }
    }
}

/// The refusal and the count of a call, 0 where there is none.
fn parted(outcome: Result<usize, Refusal>) -> (u64, u64) {
    match outcome {
        Ok(count) => (u64::from(ACCEPTED), count as u64),
        Err(refusal) => (u64::from(refusal), 0),
    }
}

/// Lines of cells, each behind its index.
#[derive(Default)]
struct Lines {
    count: u64,
    text: String,
}

impl Lines {
    fn push(&mut self, cells: &[u64]) {
        self.text += &self.count.to_string();
        for cell in cells {
            self.text += &format!("\t{cell}");
        }
        self.text.push('\n');
        self.count += 1;
    }
}
