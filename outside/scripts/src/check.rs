//! What holds of every listing, told from the script and the listing alone,
//! without a second implementation of the board.

/// The weight of a start and of a granted request.
const FULL_WEIGHT: u64 = 1 << 24;
const DEBT_LIMIT: u64 = 1 << 40;
const SCRIPT_LIMIT: usize = 65_535;

/// The refusals of a first line or of a whole script.
const OPENING: [u64; 9] = [11, 12, 21, 22, 23, 24, 25, 26, 28];
/// The answers of the later lines. 36 needs more grants than a script has room
/// for, and 44 more sends and starts; 11, 12 and 26 are never theirs.
const LATER: [u64; 20] = [
    0, 13, 14, 21, 22, 23, 24, 25, 28, 31, 32, 33, 34, 35, 37, 38, 39, 40, 41, 47,
];

/// Checks a listing against its script and names the first fault.
pub fn check_listing(script: &[u8], listing: &[u8]) -> Result<(), String> {
    let body = listing
        .strip_prefix(b"step\tanswer\tdebt\tstate\n")
        .ok_or("the heading is missing")?;
    let body = body
        .strip_suffix(b"\n")
        .ok_or("the last line has no byte 10")?;
    let mut script_lines: Vec<&[u8]> = script.split(|&byte| byte == b'\n').collect();
    if script_lines.last() == Some(&&b""[..]) {
        script_lines.pop();
    }

    // An accepted board line has a word, M and d before the parents of units 1 on.
    let units = script_lines.first().map_or(0, |line| fields_of(line).len());
    let units = (units as u64).saturating_sub(2);
    let mut debt = 0;
    let mut count = 0;
    for (number, line) in body.split(|&byte| byte == b'\n').enumerate() {
        let fault = |what: &str| {
            let line = String::from_utf8_lossy(line);
            format!("listing line {number} ({line:?}): {what}")
        };
        let fields: Vec<&[u8]> = line.split(|&byte| byte == b'\t').collect();
        let [place, answer, next_debt, state] = fields[..] else {
            return Err(fault("not four fields"));
        };
        let place = number_of(place).ok_or_else(|| fault("the line number is no number"))?;
        let answer = number_of(answer).ok_or_else(|| fault("the answer is no number"))?;
        let next_debt = number_of(next_debt).ok_or_else(|| fault("the debt is no number"))?;
        if place != number as u64 {
            return Err(fault("not the next line number"));
        }
        if state == b"refused" {
            let alone = number == 0 && body.len() == line.len();
            return if !alone {
                Err(fault("refused, but not the only line"))
            } else if !OPENING.contains(&answer) || next_debt != 0 {
                Err(fault("not the line of a refused script"))
            } else if (answer == 26) != (script.len() > SCRIPT_LIMIT) {
                Err(fault("26 does not fit the length of the script"))
            } else if script.is_empty() && answer != 25 {
                Err(fault("an empty script is refused with 25"))
            } else if answer == 28 && script_lines.first().is_some_and(|line| is_plain(line)) {
                Err(fault("28, but no number is padded"))
            } else {
                Ok(())
            };
        }
        let expected: &[u8] = if next_debt == 0 {
            b"finished"
        } else {
            b"working"
        };
        if state != expected {
            return Err(fault("the state does not fit the debt"));
        }
        let Some(script_line) = script_lines.get(number) else {
            return Err(fault("the script has no such line"));
        };
        let word = script_line.split(|&byte| byte == b'\t').next();
        let word = word.unwrap_or_default();
        if number == 0 && (answer != 0 || next_debt != 0 || word != b"board") {
            return Err(fault("not the line of an accepted board"));
        }
        if number > 0 && !LATER.contains(&answer) {
            return Err(fault("no answer of a later line"));
        }
        if answer == 0 && !is_plain(script_line) {
            return Err(fault(
                "accepted, but a field is not how a number is written",
            ));
        }
        if answer == 28 && is_plain(script_line) {
            return Err(fault("28, but no number is padded"));
        }
        match move_answer(script_line, units) {
            Some(expected) if answer != expected => {
                return Err(fault("not the answer of this move"));
            }
            None if answer == 47 || answer == 0 && word == b"move" => {
                return Err(fault("not a move that can be read"));
            }
            _ => (),
        }
        if answer != 0 && next_debt != debt {
            return Err(fault("refused, but the debt changed"));
        }
        if next_debt > debt {
            if next_debt - debt != FULL_WEIGHT {
                return Err(fault("the debt rose by another weight than 2^24"));
            }
            if word != b"deliver" && (word != b"start" || debt != 0) {
                return Err(fault("the debt rose where nothing is granted"));
            }
        }
        if next_debt < debt && word != b"deliver" && word != b"rest" {
            return Err(fault("the debt fell where nothing is taken back"));
        }
        if answer == 0 && word == b"start" && (debt != 0 || next_debt != FULL_WEIGHT) {
            return Err(fault("not the debt of a start"));
        }
        if next_debt > DEBT_LIMIT {
            return Err(fault("the debt is above 2^40"));
        }
        debt = next_debt;
        count += 1;
    }
    if script.len() > SCRIPT_LIMIT {
        return Err("a script too long is not refused".to_string());
    }
    if count != script_lines.len() {
        let lines = script_lines.len();
        return Err(format!("{count} lines for {lines} lines of the script"));
    }
    Ok(())
}

fn fields_of(line: &[u8]) -> Vec<&[u8]> {
    line.split(|&byte| byte == b'\t').collect()
}

/// What a move that can be read is answered on a board of so many units, whatever
/// its state (M-108).
fn move_answer(line: &[u8], units: u64) -> Option<u64> {
    let [b"move", unit, parent] = fields_of(line)[..] else {
        return None;
    };
    let read = |field| number_of(field).filter(|&number| number <= 65_535);
    let (unit, parent) = (read(unit)?, read(parent)?);
    Some(match unit {
        _ if unit >= units => 13,
        _ if parent >= unit => 47,
        _ => 0,
    })
}

/// Whether all fields behind the word are numbers without leading zeros.
fn is_plain(line: &[u8]) -> bool {
    let mut fields = line.split(|&byte| byte == b'\t').skip(1);
    fields.all(|field| number_of(field).is_some())
}

/// A number as a listing writes it: digits without leading zeros.
fn number_of(field: &[u8]) -> Option<u64> {
    let plain = match field {
        [b'0'] => true,
        [b'1'..=b'9', rest @ ..] => rest.iter().all(u8::is_ascii_digit),
        _ => false,
    };
    let text = std::str::from_utf8(field).ok()?;
    text.parse().ok().filter(|_| plain)
}
