//! Two steps in either order (M-107): what a step touches, which two steps are
//! independent, and what is told for a file of pairs.

use reference::refusal::*;
use reference::*;

fn open(m: u16, d: u16, parents: &[u16], steps: &[Step]) -> Board {
    let (mut board, answer) = Board::open(m, d, parents);
    assert_eq!(answer, ACCEPTED);
    for &step in steps {
        assert_eq!(board.step_checked(step), ACCEPTED, "{step:?}");
    }
    board
}

/// n = 4, M = 4, d = 1; 1 and 2 under 0, 3 under 1. 0, 1 and 2 are active, 3 waits,
/// slot 0 is work from 2 to 1.
fn busy() -> Board {
    open(
        4,
        1,
        &[0, 0, 1],
        &[
            Step::start(0),
            Step::send(0, 1, 0),
            Step::deliver(0),
            Step::send(0, 2, 0),
            Step::deliver(0),
            Step::send(1, 3, 0),
            Step::deliver(0),
            Step::rest(3),
            Step::send(2, 1, 0),
        ],
    )
}

/// A step of each kind, its fields all different. Fields without a letter are not
/// read, and a send's v and a move's p have one, but are not touched.
#[test]
fn touched_by_each_kind() {
    let step = |kind| Step {
        kind,
        unit: 7,
        other: 8,
        slot: 3,
    };
    let mut board = busy();
    let is = |board: &Board, kind, unit, slot| {
        assert_eq!(touched(board, step(kind)), Touched { unit, slot }, "{kind}");
    };
    is(&board, Step::START, Some(7), None);
    is(&board, Step::SEND, Some(7), Some(3));
    is(&board, Step::REQUEST, Some(7), Some(3));
    is(&board, Step::DELIVER, None, Some(3));
    is(&board, Step::REST, Some(7), None);
    is(&board, Step::TICK, Some(7), None);
    is(&board, Step::RELEASE, Some(7), Some(3));
    is(&board, Step::MOVE, Some(7), None);
    is(&board, 0, None, None);
    is(&board, 9, None, None);
    is(&board, 65_535, None, None);

    // A delivery touches whom its message goes to, whatever its kind.
    for kind in [Kind::Work, Kind::Return, Kind::Request, Kind::Supply] {
        board.slots[3] = Slot {
            kind,
            from: 1,
            to: 2,
            weight: 1,
        };
        is(&board, Step::DELIVER, Some(2), Some(3));
    }
    // No slot of the board's record has such a number.
    let none = Touched {
        unit: None,
        slot: Some(256),
    };
    assert_eq!(touched(&board, Step::deliver(256)), none);
}

#[test]
fn shared() {
    let touched = |unit, slot| Touched { unit, slot };
    let all = touched(Some(1), Some(2));
    assert!(all.shares(all));
    assert!(all.shares(touched(Some(1), None)));
    assert!(all.shares(touched(Some(0), Some(2))));
    // A unit and a slot of the same number are not the same.
    assert!(!all.shares(touched(Some(2), Some(1))));
    assert!(!touched(None, Some(2)).shares(touched(None, Some(1))));
    assert!(!touched(Some(1), None).shares(touched(Some(2), None)));
    assert!(!touched(Some(1), None).shares(touched(None, Some(1))));
    assert!(!Touched::default().shares(Touched::default()));
}

/// Each premise by itself keeps a pair out.
#[test]
fn premises() {
    let board = busy();
    let both = |first, second| {
        let orders = (
            independent(&board, first, second),
            independent(&board, second, first),
        );
        assert_eq!(orders.0, orders.1, "{first:?} {second:?}");
        orders.0
    };
    assert!(both(Step::send(1, 0, 1), Step::send(2, 0, 2)));
    assert!(both(Step::deliver(0), Step::tick(3)));
    assert!(both(Step::rest(1), Step::rest(2)));
    // A send's v.
    assert!(both(Step::send(0, 1, 1), Step::rest(1)));
    assert!(both(Step::send(1, 2, 1), Step::send(2, 1, 2)));
    assert!(both(Step::deliver(0), Step::send(0, 1, 1)));
    // The unit, the slot, the receiver.
    assert!(!both(Step::send(1, 0, 1), Step::send(1, 0, 2)));
    assert!(!both(Step::deliver(0), Step::send(2, 1, 0)));
    assert!(!both(Step::deliver(0), Step::send(1, 0, 1)));
    // Moves: of two units, beside other steps, and with a p that the other step
    // touches or that is its v or p (M-108).
    assert!(both(Step::move_under(1, 0), Step::move_under(2, 0)));
    assert!(both(Step::move_under(2, 1), Step::move_under(3, 2)));
    assert!(both(Step::move_under(3, 2), Step::rest(2)));
    assert!(both(Step::move_under(2, 1), Step::deliver(0)));
    assert!(both(Step::move_under(3, 2), Step::send(1, 3, 1)));
    assert!(both(Step::move_under(2, 1), Step::send(0, 1, 1)));
    assert!(both(Step::move_under(1, 0), Step::tick(3)));
    // The unit of a move, and its being a receiver.
    assert!(!both(Step::move_under(3, 2), Step::move_under(3, 0)));
    assert!(!both(Step::move_under(3, 2), Step::tick(3)));
    assert!(!both(Step::move_under(1, 0), Step::deliver(0)));
    // A refused move.
    assert!(!both(Step::move_under(1, 1), Step::rest(2)));
    assert!(!both(Step::move_under(4, 0), Step::rest(2)));
    // Unit 0's rest changes the debt.
    assert!(!both(Step::rest(0), Step::rest(1)));
    assert!(!both(Step::rest(0), Step::move_under(1, 0)));
    // Refused.
    assert!(!both(Step::rest(1), Step::rest(3)));
    assert!(!both(Step::rest(1), Step::start(2)));
    let no_kind = Step {
        kind: 9,
        ..Step::default()
    };
    assert!(!both(Step::rest(1), no_kind));
}

/// What the debt's premise keeps out: in the other order the start comes too soon.
#[test]
fn start_behind_the_end() {
    let board = open(1, 0, &[0], &[Step::start(0)]);
    let (first, second) = (Step::rest(0), Step::start(1));
    assert!(!touched(&board, first).shares(touched(&board, second)));
    let mut given = board.clone();
    assert_eq!([given.step(first), given.step(second)], [0, 0]);
    let mut other = board.clone();
    assert_eq!([other.step(second), other.step(first)], [37, 0]);
    assert!(!independent(&board, first, second));
}

/// Rows are written with bars for tabs here.
fn tells(rows: &str, told: &str) {
    let told = told.replace('|', "\t");
    assert_eq!(tell_orders(&rows.replace('|', "\t")), Ok(told));
}

#[test]
fn building_is_not_told() {
    tells("", "");
    tells("\n\nboard|1|0|0\nstart|1\nround\nstart|9\n", "");
    tells("# a; b|c\n#\nboard|1|0\n#d", "# a; b|c\n#\n#d\n");
}

#[test]
fn pairs() {
    // A pair leaves the board on which the lines behind it build.
    tells(
        "board|2|0|0\nstart|0;start|1\nstart|0\nsend|0|1|0;send|0|1|1\nsend|0|1|0;rest|0\n\
         send|0|1|0\ndeliver|0\nsend|0|1|0;rest|1\nsend|0|9|0;deliver|2",
        "start|0;start|1|gives|0|37|and|0|37|differ\n\
         send|0|1|0;send|0|1|1|gives|0|0|and|0|0|same\n\
         send|0|1|0;rest|0|gives|0|0|and|0|31|differ\n\
         send|0|1|0;rest|1|gives|0|0|and|0|0|same\n\
         send|0|9|0;deliver|2|gives|13|14|and|14|13|same\n",
    );
    // A release before the move goes to the old parent (M-108).
    tells(
        "board|2|0|0|1|2\nstart|3\nsend|3|2|0\nmove|3|0;rest|3\nmove|3|2;move|2|0\n\
         move|3|3;move|2|2\nmove|3|0;deliver|0\nrest|3\nmove|3|0;release|3|1\n\
         release|3|1;move|2|0\nmove|3|1\nrelease|3|1\nmove|3|0;deliver|1\nmove|1|0;deliver|1\n",
        "move|3|0;rest|3|gives|0|0|and|0|0|same\n\
         move|3|2;move|2|0|gives|0|0|and|0|0|same\n\
         move|3|3;move|2|2|gives|47|47|and|47|47|same\n\
         move|3|0;deliver|0|gives|0|0|and|0|0|same\n\
         move|3|0;release|3|1|gives|0|0|and|0|0|differ\n\
         release|3|1;move|2|0|gives|0|0|and|0|0|same\n\
         move|3|0;deliver|1|gives|0|0|and|0|0|same\n\
         move|1|0;deliver|1|gives|0|0|and|0|0|same\n",
    );
    // Before a board line, and behind a refused one, the board is not sound.
    let unsound = "rest|0;rest|1|gives|30|30|and|30|30|same\n";
    tells("round\nrest|0;rest|1\n", unsound);
    tells("board|1|0\nboard|0|0\nround\nrest|0;rest|1\n", unsound);
}

#[test]
fn what_is_no_line() {
    for line in [
        "bored\t1",
        "board\t1",
        "rounds",
        "start\t00",
        "start\t0\r",
        "start",
        " ",
        ";",
        "start\t0;",
        "start\t0;round",
        "move\t1",
        "move\t1\t0\t0",
        "move\t1\t0;move\t1\t00",
        "start\t0; start\t0",
        "start\t0;start\t0;start\t0",
        "board\t1\t0;start\t0",
    ] {
        let rows = format!("board\t1\t0\n{line}\n");
        assert_eq!(tell_orders(&rows), Err(line.to_string()));
    }
}
