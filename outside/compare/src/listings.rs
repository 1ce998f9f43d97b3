//! The library against the reference: a script's listing, its listing with lines exchanged, and each of its lines.

use reference::Record;

/// What a buffer holds before a call.
const MARK: u8 = 0xa5;

/// What is wrong with the library's listing of a script, if anything.
pub fn difference(script: &[u8], expected: &[u8], out: &mut Vec<u8>) -> Option<String> {
    let length = compare::listing_length(script);
    if length != expected.len() {
        return Some(format!("the length is {length}, not {}", expected.len()));
    }
    // One byte too few is refused and touches nothing.
    out.clear();
    out.resize(length, MARK);
    if compare::list(script, &mut out[..length - 1]) != Err(27) {
        return Some("a buffer that is one byte short is not refused by 27".into());
    }
    if out.iter().any(|&byte| byte != MARK) {
        return Some("a refused call wrote to the buffer".into());
    }
    // An exact fit, for which the library counts the listing's bytes, and room for the longest lines, for which it does not.
    let longest = 38 + 37 * script.iter().filter(|&&byte| byte == b'\n').count();
    let rooms = [length, length.max(longest)];
    let wrong = rooms.into_iter().find_map(|room| difference_in(room, script, expected, out));
    wrong.or_else(|| scripts::check_listing(script, &out[..length]).err())
}

/// What is wrong with the library's listing in a buffer of so many bytes, if anything.
fn difference_in(room: usize, script: &[u8], expected: &[u8], out: &mut Vec<u8>) -> Option<String> {
    let length = expected.len();
    out.clear();
    out.resize(room, MARK);
    match compare::list(script, out) {
        Err(number) => return Some(format!("the listing is refused by {number}")),
        Ok(count) if count != length => return Some(format!("the count is {count}, not {length}")),
        Ok(_) => {}
    }
    if out[..length] != expected[..] {
        return Some(format!(
            "the listings differ\n--- library\n{}\n--- reference\n{}",
            String::from_utf8_lossy(&out[..length]),
            String::from_utf8_lossy(expected)
        ));
    }
    let behind = out[length..].iter().any(|&byte| byte != MARK);
    behind.then(|| "bytes behind the listing were written".into())
}

/// How many scripts with lines exchanged were compared.
#[derive(Default)]
pub struct Exchanges {
    /// Scripts with two lines exchanged.
    pub single: u64,
    /// Scripts with lines exchanged one after another, and how often.
    pub tidied: u64,
    pub many: u64,
}

/// What is wrong with the library's listings of a script with lines exchanged that may come in either order, if
/// anything (M-107). Each is the script's own listing, byte for byte: both lines are accepted in both orders, neither
/// changes the debt, and the boards after them are equal. `index` chooses among the lines of a script.
pub fn exchange_difference(
    script: &[u8],
    index: u64,
    expected: &[u8],
    out: &mut Vec<u8>,
    counts: &mut Exchanges,
) -> Option<String> {
    let found = scripts::exchanges(script);
    let first = found.first()?.line;
    let mut lines = vec![first, found[index as usize % found.len()].line];
    lines.dedup();
    for line in lines {
        let exchanged = scripts::exchanged(script, line);
        if let Some(what) = difference_in(expected.len(), &exchanged, expected, out) {
            return Some(format!("with lines {line} and {} exchanged {what}", line + 1));
        }
        counts.single += 1;
    }
    let (tidied, count) = scripts::tidied(script);
    if let Some(what) = difference_in(expected.len(), &tidied, expected, out) {
        let tidied = String::from_utf8_lossy(&tidied);
        return Some(format!("after {count} exchanges {what}\n--- exchanged\n{tidied}"));
    }
    counts.tidied += 1;
    counts.many += count as u64;
    None
}

/// What is wrong with a line as the library reads it, or with the step as it writes it, if anything.
pub fn line_difference(line: &[u8]) -> Option<String> {
    let expected = match reference::read_line(line, false) {
        Ok(Record::Step(step)) => Ok(step),
        Ok(Record::Board { .. }) => Err(reference::refusal::BOARD_MISPLACED),
        Err(number) => Err(number),
    };
    let step = compare::read_step(line);
    if step != expected {
        let line = String::from_utf8_lossy(line);
        return Some(format!("line {line:?} is read as {step:?}, not {expected:?}"));
    }
    let step = step.ok()?;
    let (mut written, mut wanted) = ([0; 32], [0; 32]);
    let count = compare::write_step(step, &mut written, 1);
    let length = reference::write_step(step, &mut wanted, 1);
    if count != length || written != wanted {
        return Some(format!("{step:?} is written as {written:?}, {count:?}, not {wanted:?}, {length:?}"));
    }
    let back = compare::read_step(&written[1..length.ok()?]);
    (back != Ok(step)).then(|| format!("{step:?} is read back as {back:?}"))
}
