//! Listings of whole scripts.

use reference::refusal::*;
use reference::*;

fn listing(script: &[u8]) -> String {
    String::from_utf8(list(script)).unwrap()
}

/// The answers of a listing that is not the refused one.
fn answers(script: &[u8]) -> Vec<u16> {
    let listing = listing(script);
    listing
        .lines()
        .skip(1)
        .map(|line| {
            assert!(!line.ends_with("refused"), "{line}");
            line.split('\t').nth(1).unwrap().parse().unwrap()
        })
        .collect()
}

fn refused(script: &[u8], refusal: u16) {
    let expected = format!("step\tanswer\tdebt\tstate\n0\t{refusal}\t0\trefused\n");
    assert_eq!(listing(script), expected);
}

#[test]
fn whole_case() {
    let script = "board|2|1|0\nstart|0\nsend|0|1|0\nrest|0\ndeliver|0\nrest|1\n\
        release|1|1\ntick|1\nrelease|1|1\ndeliver|1\n"
        .replace('|', "\t");
    let expected = "step|answer|debt|state\n\
        0|0|0|finished\n\
        1|0|16777216|working\n\
        2|0|16777216|working\n\
        3|0|16384|working\n\
        4|0|16384|working\n\
        5|0|16384|working\n\
        6|40|16384|working\n\
        7|0|16384|working\n\
        8|0|16384|working\n\
        9|0|0|finished\n"
        .replace('|', "\t");
    assert_eq!(listing(script.as_bytes()), expected);
    assert_eq!(listing(script.trim_end().as_bytes()), expected);
    walk(script.as_bytes(), |number, _, _, board| {
        assert!(board.is_sound());
        assert_eq!(board.finished(), Ok(number == 0 || number == 9));
    })
    .unwrap();
}

/// The units 2 and 3 under 1, with d = 2. Returns find unit 1 waiting with
/// countdown 1 in line 15 and with 0 in line 22, and let both stand (M-104).
/// With restarts the board would be working until the last line.
#[test]
fn returns_to_a_waiting_unit() {
    let script = "board|2|2|0|1|1\nstart|0\nsend|0|1|0\nrest|0\ndeliver|0\n\
        send|1|2|0\nsend|1|3|1\nrest|1\ndeliver|0\ndeliver|1\n\
        rest|2\ntick|2\ntick|2\ntick|1\nrelease|2|0\ndeliver|0\n\
        release|1|0\ntick|1\nrest|3\ntick|3\ntick|3\nrelease|3|1\ndeliver|1\n\
        tick|1\nrelease|1|0\ndeliver|0\ntick|1\nrelease|1|0\ndeliver|0\n";
    let expected = "step|answer|debt|state\n\
        0|0|0|finished\n\
        1|0|16777216|working\n\
        2|0|16777216|working\n\
        3|0|16384|working\n\
        4|0|16384|working\n\
        5|0|16384|working\n\
        6|0|16384|working\n\
        7|0|16384|working\n\
        8|0|16384|working\n\
        9|0|16384|working\n\
        10|0|16384|working\n\
        11|0|16384|working\n\
        12|0|16384|working\n\
        13|0|16384|working\n\
        14|0|16384|working\n\
        15|0|16384|working\n\
        16|40|16384|working\n\
        17|0|16384|working\n\
        18|0|16384|working\n\
        19|0|16384|working\n\
        20|0|16384|working\n\
        21|0|16384|working\n\
        22|0|16384|working\n\
        23|39|16384|working\n\
        24|0|16384|working\n\
        25|0|0|finished\n\
        26|38|0|finished\n\
        27|38|0|finished\n\
        28|35|0|finished\n";
    let listing = listing(script.replace('|', "\t").as_bytes());
    assert_eq!(listing, expected.replace('|', "\t"));
}

/// The chain 0, 1, 2 with d = 1. Unit 1 is released at once after the return
/// in line 10 (M-104); the one in line 18 finds it idle, and it waits again.
#[test]
fn return_after_a_release() {
    let script = "board|2|1|0|1\nstart|2\nsend|2|1|0\ndeliver|0\nrest|1\ntick|1\n\
        send|2|2|1\nrest|2\ntick|2\nrelease|2|0\ndeliver|0\n\
        tick|1\nrelease|1|0\ndeliver|0\n\
        deliver|1\nrest|2\ntick|2\nrelease|2|1\ndeliver|1\n\
        release|1|0\ntick|1\nrelease|1|0\ndeliver|0\n";
    let expected = "step|answer|debt|state\n\
        0|0|0|finished\n\
        1|0|16777216|working\n\
        2|0|16777216|working\n\
        3|0|16777216|working\n\
        4|0|16777216|working\n\
        5|0|16777216|working\n\
        6|0|16777216|working\n\
        7|0|16777216|working\n\
        8|0|16777216|working\n\
        9|0|16777216|working\n\
        10|0|16777216|working\n\
        11|39|16777216|working\n\
        12|0|16777216|working\n\
        13|0|16384|working\n\
        14|0|16384|working\n\
        15|0|16384|working\n\
        16|0|16384|working\n\
        17|0|16384|working\n\
        18|0|16384|working\n\
        19|40|16384|working\n\
        20|0|16384|working\n\
        21|0|16384|working\n\
        22|0|0|finished\n";
    let listing = listing(script.replace('|', "\t").as_bytes());
    assert_eq!(listing, expected.replace('|', "\t"));
}

/// The chain 0, 1, 2 with d = 1. Unit 2 is moved while it is active, and its
/// release goes to 0; then it is moved while that return is under way (M-108).
#[test]
fn moves() {
    let script = "board|2|1|0|1\nstart|2\nsend|2|1|0\nmove|2|0\nmove|0|0\nmove|1|1\n\
        move|2|3\nmove|3|0\nmove|1|0\ndeliver|0\nrest|2\ntick|2\nrelease|2|0\nmove|2|1\n\
        rest|1\ndeliver|0\nmove|2\nmove|2|00\nmove|2|x\nMove|2|0\ntick|1\nrelease|1|1\n\
        deliver|1\nmove|2|0\ndeliver|1\nmove|2|0\n";
    let expected = "step|answer|debt|state\n\
        0|0|0|finished\n\
        1|0|16777216|working\n\
        2|0|16777216|working\n\
        3|0|16777216|working\n\
        4|47|16777216|working\n\
        5|47|16777216|working\n\
        6|47|16777216|working\n\
        7|13|16777216|working\n\
        8|0|16777216|working\n\
        9|0|16777216|working\n\
        10|0|16777216|working\n\
        11|0|16777216|working\n\
        12|0|16777216|working\n\
        13|0|16777216|working\n\
        14|0|16777216|working\n\
        15|0|16384|working\n\
        16|23|16384|working\n\
        17|28|16384|working\n\
        18|24|16384|working\n\
        19|22|16384|working\n\
        20|0|16384|working\n\
        21|0|16384|working\n\
        22|0|0|finished\n\
        23|0|0|finished\n\
        24|35|0|finished\n\
        25|0|0|finished\n";
    let listing = listing(script.replace('|', "\t").as_bytes());
    assert_eq!(listing, expected.replace('|', "\t"));
}

/// The same tree with d = 0. The return goes to unit 1, where it was sent, and the
/// debt stands, although its sender is under 0 when it arrives (M-108).
#[test]
fn a_return_goes_where_it_was_sent() {
    let script = "board|1|0|0|1\nstart|2\nrest|2\nrelease|2|0\nmove|2|0\ndeliver|0\n\
        release|1|0\ndeliver|0";
    let expected = "step|answer|debt|state\n\
        0|0|0|finished\n\
        1|0|16777216|working\n\
        2|0|16777216|working\n\
        3|0|16777216|working\n\
        4|0|16777216|working\n\
        5|0|16777216|working\n\
        6|0|16777216|working\n\
        7|0|0|finished\n";
    let listing = listing(script.replace('|', "\t").as_bytes());
    assert_eq!(listing, expected.replace('|', "\t"));
}

#[test]
fn first_line() {
    refused(b"", BOARD_MISPLACED);
    refused(b"\n", UNKNOWN_WORD);
    refused(b"\nboard\t1\t0\n", UNKNOWN_WORD);
    refused(b"start\t0\nboard\t1\t0\n", BOARD_MISPLACED);
    refused(b"board\t1\nstart\t0\n", FIELD_COUNT);
    refused(b"board\t1\t0\r\nstart\t0\r\n", NOT_A_NUMBER);
    refused(b"board\t0\t0\nstart\t0\n", OUT_OF_RANGE);
    refused(b"board\t257\t0", OUT_OF_RANGE);
    refused(b"board\t1\t256", OUT_OF_RANGE);
    refused(b"board\t1\t0\t1", PARENT_NOT_BELOW);
    refused(b"board\t0\t0\t1", OUT_OF_RANGE);
    refused(b"board\t01\t0\nstart\t0\n", PADDED_NUMBER);
    // 28 before 11 and 12.
    refused(b"board\t00\t0", PADDED_NUMBER);
    refused(b"board\t257\t00", PADDED_NUMBER);
    refused(b"board\t1\t0\t01", PADDED_NUMBER);
    refused(b"board\t1\t00\t1", PADDED_NUMBER);
    refused(&[b'x'; 256], LINE_TOO_LONG);
    let mut board = b"board\t1\t0".to_vec();
    for _ in 0..63 {
        board.extend_from_slice(b"\t0");
    }
    assert_eq!(answers(&board), [0]);
    for _ in 63..123 {
        board.extend_from_slice(b"\t0");
        refused(&board, OUT_OF_RANGE);
    }
    board.extend_from_slice(b"\t0");
    refused(&board, LINE_TOO_LONG);
    // The longest line that opens a board.
    let parents: String = (0..63).map(|parent| format!("\t{parent}")).collect();
    let board = format!("board\t256\t255{parents}");
    assert_eq!(board.len(), 192);
    assert_eq!(answers(board.as_bytes()), [0]);
}

#[test]
fn later_lines() {
    let script = b"board\t1\t0\n\nboard\t1\t0\nstart\t0\nstart\t0\r\nstart\nrest\t65536\n\
        rest\t00\nrest\t0\n\n";
    assert_eq!(answers(script), [0, 22, 25, 0, 24, 23, 24, 28, 0, 22]);
    // 28 before the step's own 13, 37 and 14.
    let script = b"board\t1\t0\nstart\t0\nstart\t01\nstart\t00\ndeliver\t01\nrest\t0\n";
    assert_eq!(answers(script), [0, 0, 28, 28, 28, 0]);
    // After a last byte 10 no further line begins.
    assert_eq!(answers(b"board\t1\t0\n"), [0]);
    assert_eq!(answers(b"board\t1\t0\n\n"), [0, 22]);
    assert_eq!(answers(b"board\t1\t0\n\n\n"), [0, 22, 22]);
    assert_eq!(answers(b"board\t1\t0\nstart\t0"), [0, 0]);
}

/// One unit and one slot: what a rest leaves under way is all that comes back.
#[test]
fn weight_one_and_the_only_slot_filled() {
    let mut script = "board|1|0\nstart|0\n".to_string();
    // 16,384 comes back, then 1,024, then each time half of it, until 2.
    script += &"send|0|0|0\nrest|0\ndeliver|0\n".repeat(11);
    script += "send|0|0|0\nsend|0|0|0\nrequest|0|0\nrest|0\nsend|0|0|0\ndeliver|0\n\
        send|0|0|0\nrequest|0|0\nsend|0|0|0\ndeliver|0\nsend|0|0|0\ndeliver|0\n\
        send|0|0|0\nsend|0|0|0\n";
    // Both hold in line 36, where 33 comes before 34 (M-103), and in 43, where
    // 32 comes before both; a filled slot alone in 48, weight 1 alone in 41.
    let expected = "\
        35|0|2|working\n\
        36|33|2|working\n\
        37|34|2|working\n\
        38|0|1|working\n\
        39|31|1|working\n\
        40|0|1|working\n\
        41|33|1|working\n\
        42|0|1|working\n\
        43|32|1|working\n\
        44|0|16777217|working\n\
        45|32|16777217|working\n\
        46|0|16777217|working\n\
        47|0|16777217|working\n\
        48|34|16777217|working\n";
    let listing = listing(script.replace('|', "\t").as_bytes()).replace('\t', "|");
    let lines: Vec<&str> = listing.lines().skip(1).collect();
    assert!(lines[..35]
        .iter()
        .all(|line| line.split('|').nth(1) == Some("0")));
    assert_eq!(lines[35..], expected.lines().collect::<Vec<_>>());
}

#[test]
fn script_length() {
    let mut script = b"board\t1\t0\n".to_vec();
    script.resize(SCRIPT_LIMIT, b'\n');
    let lines = answers(&script);
    assert_eq!(lines.len(), SCRIPT_LIMIT - 9);
    assert!(lines[1..].iter().all(|&answer| answer == UNKNOWN_WORD));
    script.push(b'\n');
    refused(&script, SCRIPT_TOO_LONG);
    refused(&vec![b'x'; SCRIPT_LIMIT], LINE_TOO_LONG);
    refused(&vec![b'x'; SCRIPT_LIMIT + 1], SCRIPT_TOO_LONG);
}

#[test]
fn into_a_buffer() {
    let script = b"board\t1\t0\nstart\t0";
    let listing = list(script);
    assert_eq!(listing_length(script), listing.len());
    let mut out = vec![b'.'; listing.len() + 2];
    assert_eq!(list_into(script, &mut out), Ok(listing.len()));
    assert_eq!(out[..listing.len()], listing[..]);
    assert_eq!(out[listing.len()..], *b"..");
    let mut out = vec![b'.'; listing.len() - 1];
    assert_eq!(list_into(script, &mut out), Err(NO_ROOM));
    assert!(out.iter().all(|&byte| byte == b'.'));
}

#[test]
fn line_by_line() {
    let script = b"board\t1\t0\nstart\t0\nrest\t1\nrest\t0\n";
    let mut out = vec![b'.'; listing_length(script)];
    let mut at = write_heading(&mut out, 0).unwrap();
    walk(script, |number, _, answer, board| {
        at += write_listing_line(number, answer, board.debt, &mut out, at).unwrap();
    })
    .unwrap();
    assert_eq!(out, list(script));
    assert_eq!(write_listing_line(4, 0, 0, &mut out, at), Err(NO_ROOM));
    assert_eq!(write_listing_line(4, 0, 0, &mut out, at + 1), Err(NO_ROOM));
    assert_eq!(write_heading(&mut out, at), Err(NO_ROOM));
    assert_eq!(out, list(script));
}
