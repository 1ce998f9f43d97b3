//! The script: fields, numbers, the reader of one line and the step writer.

use crate::refusal::*;
use crate::step::Step;

/// The most bytes of a line, its byte 10 not counted.
pub const LINE_LIMIT: usize = 255;

/// The words of the script. From 1 on a word stands at its step's kind.
pub const WORDS: [&[u8]; 9] = [
    b"board", b"start", b"send", b"request", b"deliver", b"rest", b"tick", b"release", b"move",
];

#[derive(Clone, Copy)]
pub(crate) enum Letter {
    Unit,
    Other,
    Slot,
}

impl Letter {
    pub(crate) fn of(self, step: &mut Step) -> &mut u16 {
        match self {
            Letter::Unit => &mut step.unit,
            Letter::Other => &mut step.other,
            Letter::Slot => &mut step.slot,
        }
    }
}

/// The arguments of each kind of step, in the order in which they stand.
pub(crate) fn letters(kind: u16) -> &'static [Letter] {
    match kind {
        Step::START | Step::REST | Step::TICK => &[Letter::Unit],
        Step::SEND => &[Letter::Unit, Letter::Other, Letter::Slot],
        Step::REQUEST | Step::RELEASE => &[Letter::Unit, Letter::Slot],
        Step::DELIVER => &[Letter::Slot],
        Step::MOVE => &[Letter::Unit, Letter::Other],
        _ => unreachable!("kind {kind} has no word"),
    }
}

/// What one line of a script says.
#[derive(Clone, Debug, PartialEq, Eq)]
pub enum Record {
    Board { m: u16, d: u16, parents: Vec<u16> },
    Step(Step),
}

/// How many fields a line has. Even an empty line has one, an empty one.
pub fn field_count(line: &[u8]) -> usize {
    line.iter().filter(|&&byte| byte == b'\t').count() + 1
}

/// The field at `index`, counted from 0: a part of the line. Past the last
/// field it is the empty part at the line's end.
pub fn field(line: &[u8], index: usize) -> &[u8] {
    line.split(|&byte| byte == b'\t')
        .nth(index)
        .unwrap_or(&line[line.len()..])
}

/// Whether a field is two or more digits and nothing else, the first of them
/// 0 (M-101).
pub fn is_padded(field: &[u8]) -> bool {
    field.len() > 1 && field[0] == b'0' && field.iter().all(u8::is_ascii_digit)
}

/// A number of one or more digits, at most 65,535. Leading zeros are read: a
/// line with a padded number is refused before its numbers are read. [24]
pub fn read_number(field: &[u8]) -> Result<u16, Refusal> {
    if field.is_empty() {
        return Err(NOT_A_NUMBER);
    }
    let mut number: u16 = 0;
    for byte in field {
        if !byte.is_ascii_digit() {
            return Err(NOT_A_NUMBER);
        }
        number = number
            .checked_mul(10)
            .and_then(|tens| tens.checked_add(u16::from(byte - b'0')))
            .ok_or(NOT_A_NUMBER)?;
    }
    Ok(number)
}

/// Reads one line, without its byte 10. `first` says whether it is the line
/// that must open the board. [21, 22, 25, 23, 28, 24]
pub fn read_line(line: &[u8], first: bool) -> Result<Record, Refusal> {
    if line.len() > LINE_LIMIT {
        return Err(LINE_TOO_LONG);
    }
    let word = field(line, 0);
    let kind = match WORDS.iter().position(|known| *known == word) {
        Some(position) => position as u16,
        None => return Err(UNKNOWN_WORD),
    };
    let opens = kind == 0;
    if opens != first {
        return Err(BOARD_MISPLACED);
    }
    let arguments = field_count(line) - 1;
    let count_fits = if opens {
        arguments >= 2
    } else {
        arguments == letters(kind).len()
    };
    if !count_fits {
        return Err(FIELD_COUNT);
    }
    let fields = line.split(|&byte| byte == b'\t').skip(1);
    // A padded field comes before one that is no number, wherever they stand.
    if fields.clone().any(is_padded) {
        return Err(PADDED_NUMBER);
    }
    let numbers = fields.map(read_number);
    if opens {
        let mut numbers = numbers.collect::<Result<Vec<u16>, Refusal>>()?;
        let parents = numbers.split_off(2);
        return Ok(Record::Board {
            m: numbers[0],
            d: numbers[1],
            parents,
        });
    }
    let mut step = Step {
        kind,
        ..Step::default()
    };
    for (letter, number) in letters(kind).iter().zip(numbers) {
        *letter.of(&mut step) = number?;
    }
    Ok(Record::Step(step))
}

/// Writes a step as a line with its byte 10, from place `at` on, and gives
/// the number of bytes written. [16, 27]
pub fn write_step(mut step: Step, out: &mut [u8], at: usize) -> Result<usize, Refusal> {
    if !Step::KINDS.contains(&step.kind) {
        return Err(NO_SUCH_KIND);
    }
    let mut line = WORDS[usize::from(step.kind)].to_vec();
    for letter in letters(step.kind) {
        line.push(b'\t');
        push_number(&mut line, u64::from(*letter.of(&mut step)));
    }
    line.push(b'\n');
    put(&line, out, at)
}

/// Puts a whole line at its place, or nothing at all. [27]
pub(crate) fn put(line: &[u8], out: &mut [u8], at: usize) -> Result<usize, Refusal> {
    let room = out.get_mut(at..).ok_or(NO_ROOM)?;
    let room = room.get_mut(..line.len()).ok_or(NO_ROOM)?;
    room.copy_from_slice(line);
    Ok(line.len())
}

/// Appends a number in decimal, without leading zeros.
pub(crate) fn push_number(line: &mut Vec<u8>, mut number: u64) {
    let mut digits = [0; 20];
    let mut at = digits.len();
    loop {
        at -= 1;
        digits[at] = b'0' + (number % 10) as u8;
        number /= 10;
        if number == 0 {
            break;
        }
    }
    line.extend_from_slice(&digits[at..]);
}
