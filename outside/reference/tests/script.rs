//! Fields, numbers, lines and the step writer.

use reference::refusal::*;
use reference::*;
use std::collections::HashSet;

#[test]
fn fields() {
    let line = b"send\t1\t\t3";
    assert_eq!(field_count(line), 4);
    assert_eq!(field(line, 0), b"send");
    assert_eq!(field(line, 1), b"1");
    assert_eq!(field(line, 2), b"");
    assert_eq!(field(line, 3), b"3");
    for past in [4, 5, usize::MAX] {
        let rest = field(line, past);
        assert!(rest.is_empty());
        assert_eq!(rest.as_ptr(), line[line.len()..].as_ptr());
    }
    assert_eq!(field_count(b""), 1);
    assert_eq!(field(b"", 0), b"");
    assert_eq!(field_count(b"\t"), 2);
}

#[test]
fn numbers() {
    for (field, number) in [
        ("0", 0),
        ("7", 7),
        ("00", 0),
        ("65535", 65_535),
        ("000000000000000000000065535", 65_535),
    ] {
        assert_eq!(read_number(field.as_bytes()), Ok(number));
    }
    for field in [
        "",
        "-1",
        "+1",
        " 1",
        "1 ",
        "1\r",
        "1a",
        "0x1",
        "/",
        ":",
        "65536",
        "65537",
        "99999",
        "100000",
        "131072",
        "4294967296",
        "18446744073709551616",
        "\u{0661}",
    ] {
        assert_eq!(
            read_number(field.as_bytes()),
            Err(NOT_A_NUMBER),
            "{field:?}"
        );
    }
    assert_eq!(read_number(&[b'0'; 255]), Ok(0));
    assert_eq!(read_number(&[b'9'; 255]), Err(NOT_A_NUMBER));
    assert_eq!(read_number(&[0xb1]), Err(NOT_A_NUMBER));
}

#[test]
fn padded() {
    for field in ["00", "01", "09", "000", "065535", "0070000"] {
        assert!(is_padded(field.as_bytes()), "{field:?}");
    }
    for field in ["", "0", "1", "10", "65536", "0x", "00x", "x00", "0 ", "-00"] {
        assert!(!is_padded(field.as_bytes()), "{field:?}");
    }
    assert!(is_padded(&[b'0'; 255]));
    assert!(!is_padded(&[b'0', 0xb1]));
}

#[test]
fn lines_read() {
    for (line, step) in [
        ("start\t1", Step::start(1)),
        ("send\t1\t20\t65535", Step::send(1, 20, 65_535)),
        ("request\t1\t2", Step::request(1, 2)),
        ("deliver\t300", Step::deliver(300)),
        ("deliver\t0", Step::deliver(0)),
        ("rest\t1", Step::rest(1)),
        ("tick\t0", Step::tick(0)),
        ("release\t1\t2", Step::release(1, 2)),
        ("move\t63\t0", Step::move_under(63, 0)),
        ("move\t0\t65535", Step::move_under(0, 65_535)),
    ] {
        let read = read_line(line.as_bytes(), false);
        assert_eq!(read, Ok(Record::Step(step)));
        assert_eq!(read_line(line.as_bytes(), true), Err(BOARD_MISPLACED));
    }
    let board = |m, d, parents| Ok(Record::Board { m, d, parents });
    assert_eq!(read_line(b"board\t2\t1", true), board(2, 1, vec![]));
    assert_eq!(
        read_line(b"board\t0\t65535\t7\t0", true),
        board(0, 65_535, vec![7, 0])
    );
    let mut line = b"board\t1\t0".to_vec();
    line.extend_from_slice(&b"\t0".repeat(123));
    assert_eq!(line.len(), LINE_LIMIT);
    assert_eq!(read_line(&line, true), board(1, 0, vec![0; 123]));
}

#[test]
fn lines_refused() {
    for (line, first, refusal) in [
        ("", false, UNKNOWN_WORD),
        ("", true, UNKNOWN_WORD),
        ("\t", true, UNKNOWN_WORD),
        ("\r", false, UNKNOWN_WORD),
        ("stop\t1", false, UNKNOWN_WORD),
        ("Start\t1", false, UNKNOWN_WORD),
        ("star\t1", false, UNKNOWN_WORD),
        ("starts\t1", false, UNKNOWN_WORD),
        ("start 1", false, UNKNOWN_WORD),
        (" start\t1", false, UNKNOWN_WORD),
        ("\tstart\t1", false, UNKNOWN_WORD),
        ("Move\t1\t0", false, UNKNOWN_WORD),
        ("mov\t1\t0", false, UNKNOWN_WORD),
        ("moved\t1\t0", false, UNKNOWN_WORD),
        ("move 1 0", false, UNKNOWN_WORD),
        ("8\t1\t0", false, UNKNOWN_WORD),
        // 22 before 25.
        ("boards\t2\t1", true, UNKNOWN_WORD),
        ("start\t1", true, BOARD_MISPLACED),
        ("board\t2\t1", false, BOARD_MISPLACED),
        // 25 before 23 and 24.
        ("board", false, BOARD_MISPLACED),
        ("start", true, BOARD_MISPLACED),
        ("start\tx", true, BOARD_MISPLACED),
        ("move\t1\t0", true, BOARD_MISPLACED),
        ("move", true, BOARD_MISPLACED),
        ("board", true, FIELD_COUNT),
        ("board\t2", true, FIELD_COUNT),
        ("start", false, FIELD_COUNT),
        ("start\t1\t2", false, FIELD_COUNT),
        ("start\t1\t", false, FIELD_COUNT),
        ("send\t1\t2", false, FIELD_COUNT),
        ("send\t1\t2\t3\t4", false, FIELD_COUNT),
        ("request\t1", false, FIELD_COUNT),
        ("deliver\t1\t2", false, FIELD_COUNT),
        ("rest", false, FIELD_COUNT),
        ("tick\t1\t2", false, FIELD_COUNT),
        ("release\t1", false, FIELD_COUNT),
        ("move", false, FIELD_COUNT),
        ("move\t1", false, FIELD_COUNT),
        ("move\t1\t0\t0", false, FIELD_COUNT),
        ("move\t1\t0\t", false, FIELD_COUNT),
        // 23 before 24.
        ("send\tx", false, FIELD_COUNT),
        ("board\tx", true, FIELD_COUNT),
        // 22, 25 and 23 before 28.
        ("starts\t00", false, UNKNOWN_WORD),
        ("00", false, UNKNOWN_WORD),
        ("start\t00", true, BOARD_MISPLACED),
        ("board\t01\t0", false, BOARD_MISPLACED),
        ("start\t00\t0", false, FIELD_COUNT),
        ("send\t1\t02", false, FIELD_COUNT),
        ("move\t01", false, FIELD_COUNT),
        ("board\t01", true, FIELD_COUNT),
        ("start\t00", false, PADDED_NUMBER),
        ("start\t07", false, PADDED_NUMBER),
        ("send\t01\t2\t3", false, PADDED_NUMBER),
        ("send\t1\t02\t3", false, PADDED_NUMBER),
        ("send\t1\t2\t03", false, PADDED_NUMBER),
        ("send\t01\t02\t03", false, PADDED_NUMBER),
        ("move\t01\t0", false, PADDED_NUMBER),
        ("move\t1\t00", false, PADDED_NUMBER),
        ("board\t01\t0\t0\t0", true, PADDED_NUMBER),
        ("board\t1\t00\t0\t0", true, PADDED_NUMBER),
        ("board\t1\t0\t00\t0", true, PADDED_NUMBER),
        ("board\t1\t0\t0\t00", true, PADDED_NUMBER),
        // 28 before 24, in one field and whichever field comes first.
        ("start\t0070000", false, PADDED_NUMBER),
        ("send\t01\tx\t3", false, PADDED_NUMBER),
        ("send\tx\t2\t03", false, PADDED_NUMBER),
        ("send\t\t02\t65536", false, PADDED_NUMBER),
        ("move\tx\t00", false, PADDED_NUMBER),
        ("move\t01\t", false, PADDED_NUMBER),
        ("board\t01\t\t0", true, PADDED_NUMBER),
        ("board\t\t0\t00", true, PADDED_NUMBER),
        ("start\t", false, NOT_A_NUMBER),
        ("start\t0x", false, NOT_A_NUMBER),
        ("start\t00\r", false, NOT_A_NUMBER),
        ("start\t-01", false, NOT_A_NUMBER),
        ("start\t1\r", false, NOT_A_NUMBER),
        ("start\t65536", false, NOT_A_NUMBER),
        ("send\t1\t2\t", false, NOT_A_NUMBER),
        ("send\t1\t\t2", false, NOT_A_NUMBER),
        ("move\t\t0", false, NOT_A_NUMBER),
        ("move\t1\t", false, NOT_A_NUMBER),
        ("move\t1\t-1", false, NOT_A_NUMBER),
        ("move\t1\t65536", false, NOT_A_NUMBER),
        ("move\t1\t0\r", false, NOT_A_NUMBER),
        ("board\t\t", true, NOT_A_NUMBER),
        ("board\t2\t1\t", true, NOT_A_NUMBER),
        ("board\t2\t1\t0\t-1", true, NOT_A_NUMBER),
    ] {
        let answer = read_line(line.as_bytes(), first);
        assert_eq!(answer, Err(refusal), "{line:?}");
    }
    let mut line = b"start\t".to_vec();
    line.resize(LINE_LIMIT, b'0');
    assert_eq!(read_line(&line, false), Err(PADDED_NUMBER));
    line.push(b'0');
    // 21 before all.
    assert_eq!(read_line(&line, false), Err(LINE_TOO_LONG));
    assert_eq!(read_line(&[b'x'; 256], true), Err(LINE_TOO_LONG));
}

#[test]
fn steps_written() {
    for (step, line) in [
        (Step::start(0), "start\t0\n"),
        (Step::send(65_535, 10, 100), "send\t65535\t10\t100\n"),
        (Step::request(1, 2), "request\t1\t2\n"),
        (Step::deliver(3), "deliver\t3\n"),
        (Step::rest(4), "rest\t4\n"),
        (Step::tick(63), "tick\t63\n"),
        (Step::release(9, 99), "release\t9\t99\n"),
        (Step::move_under(10, 9), "move\t10\t9\n"),
        (Step::move_under(65_535, 0), "move\t65535\t0\n"),
    ] {
        let line = line.as_bytes();
        let mut out = [b'.'; 30];
        assert_eq!(write_step(step, &mut out, 3), Ok(line.len()));
        assert_eq!(out[..3], *b"...");
        assert_eq!(out[3..3 + line.len()], *line);
        assert!(out[3 + line.len()..].iter().all(|&byte| byte == b'.'));
        let text = &line[..line.len() - 1];
        assert_eq!(read_line(text, false), Ok(Record::Step(step)));
        // It must fit with its byte 10.
        let mut out = vec![b'.'; line.len()];
        assert_eq!(write_step(step, &mut out, 1), Err(NO_ROOM));
        assert!(out.iter().all(|&byte| byte == b'.'));
        assert_eq!(write_step(step, &mut out, 0), Ok(line.len()));
    }
}

/// Every text of at most `most` of the given bytes.
fn texts(bytes: &[u8], most: usize) -> Vec<Vec<u8>> {
    let mut texts = vec![vec![]];
    let mut longest = 0;
    for _ in 0..most {
        let shorter = texts[longest..].to_vec();
        longest = texts.len();
        for text in shorter {
            texts.extend(bytes.iter().map(|&byte| [&text[..], &[byte]].concat()));
        }
    }
    texts
}

/// What stands behind the word in many lines: one, two or three fields.
fn rows() -> Vec<Vec<u8>> {
    let few = texts(b"016x", 2);
    let mut rows = texts(b"0356x", 6);
    for first in &few {
        for second in &few {
            rows.push([&first[..], second].join(&b'\t'));
            for third in &few {
                rows.push([&first[..], second, third].join(&b'\t'));
            }
        }
    }
    rows
}

/// A step line with the right count of fields is accepted exactly if each is
/// how a number is written. It is then, with byte 10 put after it, what the
/// writer makes of its step.
#[test]
fn accepted_lines_are_written_so() {
    let numbers: HashSet<Vec<u8>> = (0..=65_535).map(|n: u16| n.to_string().into()).collect();
    let mut accepted = 0;
    for row in rows() {
        let mut fields = row.split(|&byte| byte == b'\t');
        let plain = fields.all(|field| numbers.contains(field));
        for word in &WORDS[1..] {
            let mut line = [*word, &row[..]].join(&b'\t');
            match read_line(&line, false) {
                Ok(Record::Step(step)) => {
                    assert!(plain, "{line:?}");
                    let mut out = [0; 32];
                    let length = write_step(step, &mut out, 0).unwrap();
                    line.push(b'\n');
                    assert_eq!(out[..length], line);
                    accepted += 1;
                }
                answer => assert!(!plain || answer == Err(FIELD_COUNT), "{line:?}"),
            }
        }
    }
    // Of the texts of one field 935 are numbers, of the few texts 9. Four words
    // take one number, three take two, and one takes three.
    assert_eq!(accepted, 4 * 935 + 3 * 9 * 9 + 9 * 9 * 9);
}

#[test]
fn accepted_boards_of_the_same_numbers_are_the_same_bytes() {
    let mut accepted = 0;
    for row in rows() {
        let line = [&b"board"[..], &row].join(&b'\t');
        if let Ok(Record::Board { m, d, parents }) = read_line(&line, true) {
            let numbers = [&[m, d], &parents[..]].concat();
            let written: String = numbers.iter().map(|number| format!("\t{number}")).collect();
            assert_eq!(line, [b"board", written.as_bytes()].concat());
            accepted += 1;
        }
    }
    assert_eq!(accepted, 9 * 9 + 9 * 9 * 9);
}

#[test]
fn steps_not_written() {
    let step = Step::rest(0);
    let mut out = [b'.'; 9];
    for at in [3, 8, 9, 10, usize::MAX] {
        assert_eq!(write_step(step, &mut out, at), Err(NO_ROOM));
    }
    for kind in [0, 9, 65_535] {
        let step = Step { kind, ..step };
        assert_eq!(write_step(step, &mut out, 0), Err(NO_SUCH_KIND));
        assert_eq!(write_step(step, &mut out, 10), Err(NO_SUCH_KIND));
    }
    assert_eq!(out, [b'.'; 9]);
    // Unread fields are not written.
    let junk = Step {
        kind: Step::REST,
        unit: 1,
        other: 2,
        slot: 3,
    };
    assert_eq!(write_step(junk, &mut out, 0), Ok(7));
    assert_eq!(out, *b"rest\t1\n..");
    let junk = Step {
        kind: Step::MOVE,
        ..junk
    };
    assert_eq!(write_step(junk, &mut out, 0), Ok(9));
    assert_eq!(out, *b"move\t1\t2\n");
}
