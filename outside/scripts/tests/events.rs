//! What holds of every list of steps, beginnings and visits (M-105), over
//! generated lists.

use reference::{tell_rows, Board, Finding, Kind, Round, Rounds, State, Step};
use scripts::{Event, EventList};
use std::collections::BTreeMap;

const SEED: u64 = 20_261_116;
const LISTS: u64 = 2_000;
const LENGTH: usize = 200;

/// No unit is active and no work under way.
fn calm(board: &Board) -> bool {
    let idle = board.units.iter().all(|unit| unit.state != State::Active);
    idle && board.slots.iter().all(|slot| slot.kind != Kind::Work)
}

/// What was met, by name.
type Met = BTreeMap<String, u32>;

/// Goes through a list and checks each event.
fn check(list: &EventList, met: &mut Met) {
    let mut board = list.open();
    // What the units created and processed, counted apart from the board.
    let (mut created, mut processed) = ([0; 64], [0; 64]);
    // Whether the board that the last beginning left was calm, whether a start
    // came since, and whether all boards since round two opened were calm.
    let (mut calm_at_first, mut started, mut calm_since) = (false, false, false);
    for &event in &list.events {
        let before = board.clone();
        let outcome = event.take(&mut board);
        let mut meet = |what: String| *met.entry(what).or_default() += 1;
        assert!(board.is_sound());
        if let Err(refusal) = outcome {
            assert_eq!(board, before, "a refused event changed the board");
            let suspended = match event {
                Event::Visit(unit) => before.units[usize::from(unit)].suspended,
                _ => false,
            };
            let mark = if suspended { " suspended" } else { "" };
            meet(format!("{refusal}{mark}"));
            continue;
        }

        match event {
            Event::Step(step) => {
                let unit = usize::from(step.unit);
                let message = before.slots[usize::from(step.slot)];
                match step.kind {
                    Step::START => {
                        created[unit] += 1;
                        processed[unit] += 1;
                    }
                    Step::SEND => created[unit] += 1,
                    Step::REQUEST => meet("request".to_string()),
                    Step::DELIVER if message.kind == Kind::Work => {
                        processed[usize::from(message.to)] += 1;
                    }
                    // A move changes the parent and nothing else, counts and rounds
                    // least of all (M-108).
                    Step::MOVE => {
                        let mut expected = before.clone();
                        expected.parents[unit] = step.other;
                        assert_eq!(board, expected);
                        let visited = before.rounds.visited[unit];
                        meet(format!("move, round {:?}", before.rounds.open));
                        meet(format!("move, unit visited: {visited}"));
                        meet(format!("move, unit {:?}", before.units[unit].state));
                    }
                    _ => (),
                }
                if step.kind == Step::START {
                    started = true;
                    assert_eq!(board.rounds, Rounds::BLANK);
                    meet(format!("start, round {:?}", before.rounds.open));
                } else {
                    assert_eq!(board.rounds, before.rounds);
                }
            }
            Event::Begin => {
                (calm_at_first, started) = (calm(&board), false);
                meet(format!("begin, round {:?}", before.rounds.open));
            }
            Event::Visit(unit) => {
                let unit = &before.units[usize::from(unit)];
                assert_ne!(unit.state, State::Active);
                if (before.rounds.open, board.rounds.open) == (Round::One, Round::Two) {
                    calm_since = true;
                }
            }
        }
        calm_since &= calm(&board);
        assert_eq!((board.created, board.processed), (created, processed));
        let (created, processed) = (board.created_total(), board.processed_total());
        assert_eq!(created, processed + board.work_under_way());

        match outcome {
            // Quiet only if all was calm when round two opened, and ever since.
            Ok(Some(Finding::Quiet)) => {
                assert!(calm_since);
                meet(format!("quiet, calm at first: {calm_at_first}"));
            }
            // Calm when round one opened, and no start since: the verdict is quiet.
            Ok(Some(Finding::Unsettled)) => {
                assert!(started || !calm_at_first);
                meet(format!("unsettled, calm since round two: {calm_since}"));
            }
            _ => continue,
        }
        assert!(!started, "a start drops the rounds");
        assert_eq!(board.rounds, Rounds::BLANK);
    }
}

#[test]
fn verdicts_of_every_list() {
    let mut met = Met::new();
    for index in 0..LISTS {
        check(&EventList::new(SEED, index, 3, LENGTH), &mut met);
    }
    println!("{met:#?}");
    for (what, least) in [
        ("quiet, calm at first: false", 500),
        ("quiet, calm at first: true", 3_000),
        ("unsettled, calm since round two: false", 2_000),
        ("unsettled, calm since round two: true", 300),
        ("start, round One", 1_000),
        ("start, round Two", 500),
        ("begin, round One", 500),
        ("begin, round Two", 200),
        ("request", 200),
        ("move, round None", 5_000),
        ("move, round One", 5_000),
        ("move, round Two", 1_000),
        ("move, unit visited: true", 1_000),
        ("move, unit Idle", 5_000),
        ("move, unit Active", 1_000),
        ("move, unit Waiting", 1_000),
        ("13", 1_000),
        ("37", 1_000),
        ("42", 1_000),
        ("42 suspended", 10),
        ("43", 1_000),
        ("47", 500),
    ] {
        let count = met.get(what).copied().unwrap_or_default();
        assert!(count >= least, "{what}: {count}");
    }
}

/// What is told for a written list is what its comments say.
#[test]
fn written_lists_are_told() {
    for index in 0..50 {
        let list = EventList::new(SEED, index, 4, LENGTH);
        let rows = list.rows("a list");
        let told = tell_rows(&rows).expect("every line is a case");
        let mut told = told.lines().filter(|line| !line.starts_with('\t'));
        let mut rows = rows.lines().skip(2);
        assert_eq!(rows.next(), Some("run\ta list"));
        assert_eq!(told.next(), Some("a list"));
        for _ in 0..LENGTH {
            let (row, told) = (rows.next().unwrap(), told.next().unwrap());
            let comment = row.split_once("\t# ").map_or("0", |(_, comment)| comment);
            let event = row.split("\t#").next().unwrap();
            assert!(told.starts_with(event), "{row}: {told}");
            assert!(
                told.split('\t').any(|cell| cell == comment),
                "{row}: {told}"
            );
        }
        assert_eq!((rows.next(), told.next()), (None, None));
    }
}
