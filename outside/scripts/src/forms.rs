//! Lines and scripts of special form: board lines, refused lines, lines at
//! the limit of length, numbers that are padded or none.

use crate::random::Random;
use crate::walker::Walker;
use reference::{LINE_LIMIT, WORDS};

/// A board line that is accepted.
pub fn board_line(random: &mut Random) -> Vec<u8> {
    let units = match random.below(100) {
        0..=7 => 1,
        8..=54 => random.within(2, 5),
        55..=79 => random.within(6, 16),
        80..=94 => random.within(17, 63),
        _ => 64,
    };
    let slots = match random.below(100) {
        0..=9 => 1,
        10..=54 => random.within(2, 4),
        55..=84 => random.within(5, 16),
        85..=92 => random.within(17, 64),
        93..=97 => random.within(65, 255),
        _ => 256,
    };
    let delay = match random.below(100) {
        0..=24 => 0,
        25..=44 => 1,
        45..=74 => random.within(2, 4),
        75..=89 => random.within(5, 20),
        90..=97 => random.within(21, 254),
        _ => 255,
    };
    let shape = random.below(6);
    let mut numbers = vec![slots, delay];
    numbers.extend((1..units).map(|unit| match shape {
        0 => unit - 1,
        1 => 0,
        2 => (unit - 1) / 2,
        3 => unit - 1 - random.below(unit.min(3)),
        // A chain with all further units under its end.
        4 => (unit - 1).min(units / 2),
        _ => random.below(unit),
    }));
    board_of(&numbers)
}

fn board_of(numbers: &[usize]) -> Vec<u8> {
    let mut line = b"board".to_vec();
    for number in numbers {
        line.push(b'\t');
        line.extend_from_slice(number.to_string().as_bytes());
    }
    line
}

/// A line with so many digits before its last number that it has `length`
/// bytes: zeros, which pad the number, or now and then nines.
fn stretched(random: &mut Random, fields: &[Vec<u8>], length: usize) -> Vec<u8> {
    let mut line = fields.join(&b'\t');
    if let Some(last) = fields.last() {
        let digits = length.saturating_sub(line.len());
        let at = line.len() - last.len();
        let digit = if random.chance(1, 8) { b'9' } else { b'0' };
        line.splice(at..at, vec![digit; digits]);
    }
    line
}

/// A line with a padded number. Now and then a number of it is odd too: one
/// before the padded one, one behind it, or the padded one itself.
pub fn padded_line(random: &mut Random, fields: &[Vec<u8>]) -> Vec<u8> {
    let mut fields = fields.to_vec();
    let last = fields.len() - 1;
    if random.chance(1, 8) {
        let field = random.within(1, last);
        fields[field] = odd_number(random, &fields[field]);
    }
    let field = random.within(1, last);
    fields[field] = padded(random, &fields[field]);
    fields.join(&b'\t')
}

/// A number with zeros before it, mostly few.
fn padded(random: &mut Random, number: &[u8]) -> Vec<u8> {
    let most = random.pick(&[1, 6, 6, 230]);
    let zeros = vec![b'0'; random.within(1, most)];
    [&zeros[..], number].concat()
}

/// The text of a number that mostly is none, or lies at the limit, or is
/// padded. Several would be `number` if they wrapped.
pub fn odd_number(random: &mut Random, number: &[u8]) -> Vec<u8> {
    let value: u128 = std::str::from_utf8(number)
        .ok()
        .and_then(|text| text.parse().ok())
        .unwrap_or(0);
    match random.below(22) {
        0 => vec![],
        1 => [b"-", number].concat(),
        2 => [b"+", number].concat(),
        3 => [b" ", number].concat(),
        4 => [number, b" "].concat(),
        5 => [number, b"\r"].concat(),
        6 => [number, b"a"].concat(),
        7 => [b"0x", number].concat(),
        8 => [number, b".0"].concat(),
        9 => [number, b"\0"].concat(),
        10 => vec![random.pick(b"/:;AFaf!~\x7f")],
        11 => vec![random.byte() | 128],
        12 => "\u{0661}".into(),
        13 => "65535".into(),
        14 => "65536".into(),
        15 => (value + (1 << 16)).to_string().into(),
        16 => (value + (1 << 32)).to_string().into(),
        17 => (value + (1 << 64)).to_string().into(),
        18 => {
            let digits = random.within(5, 240);
            (0..digits).map(|_| b'0' + random.below(10) as u8).collect()
        }
        19 => "65537".into(),
        20 => padded(random, number),
        _ => random.below(100_000).to_string().into(),
    }
}

/// A line that mostly is refused by the reader, made from the fields of a
/// step that the board would accept.
pub fn refused_line(random: &mut Random, fields: &[Vec<u8>]) -> Vec<u8> {
    let mut fields = fields.to_vec();
    let last = fields.len() - 1;
    match random.below(13) {
        // 21, or a line that just fits.
        0 => {
            let length = LINE_LIMIT + random.pick(&[0, 1, 2, 50]);
            return stretched(random, &fields, length);
        }
        1 => return vec![random.byte() | 1; random.pick(&[254, 255, 256, 257, 400])],
        // 22
        2 => return vec![],
        3 => return odd_word(random, &fields),
        // 25
        4 => return board_line(random),
        5 => {
            let board: [&[u8]; 4] = [b"board", b"board\t", b"board\tx\ty", b"board\t1\t0\t1"];
            return random.pick(&board).to_vec();
        }
        6 => return long_board_line(random),
        // 23
        7 => fields.truncate(random.within(1, last)),
        8 => fields.push(random.pick(&[&b""[..], b"0", b"1", b"x", b"00"]).to_vec()),
        9 => fields.insert(random.within(1, last), vec![]),
        // 24
        _ => {
            let field = random.within(1, last);
            fields[field] = odd_number(random, &fields[field]);
        }
    }
    let mut line = fields.join(&b'\t');
    line.retain(|&byte| byte != b'\n');
    line
}

/// A line whose word is no word any more, now and then with a padded number.
fn odd_word(random: &mut Random, fields: &[Vec<u8>]) -> Vec<u8> {
    let mut line = if random.chance(1, 4) {
        padded_line(random, fields)
    } else {
        fields.join(&b'\t')
    };
    match random.below(8) {
        0 => line[0] = line[0].to_ascii_uppercase(),
        1 => line.insert(0, random.pick(b" \t\r\0x")),
        2 => drop(line.remove(0)),
        3 => line.iter_mut().for_each(|byte| {
            if *byte == b'\t' {
                *byte = b' ';
            }
        }),
        4 => line[0] |= 128,
        5 => line = vec![random.pick(b"\r\t\0 #")],
        6 => {
            let end = line.iter().position(|&byte| byte == b'\t');
            line.insert(end.unwrap_or(line.len()), random.pick(b"s \r\0"));
        }
        _ => line.splice(0..0, *b"\xef\xbb\xbf").for_each(drop),
    }
    line
}

/// A script with a special first line, mostly one that is refused.
pub fn script(random: &mut Random) -> Vec<u8> {
    let line = first_line(random);
    if random.chance(1, 6) {
        return line;
    }
    let length = line.len() + random.below(200);
    let mut walker = Walker::on(random, &line);
    walker.walk_to(length);
    walker.into_script()
}

fn first_line(random: &mut Random) -> Vec<u8> {
    let mut line = special_board_line(random);
    // A second fault, to see which of the two is named.
    if random.chance(1, 4) {
        let tails: [&[u8]; 7] = [
            b"\t",
            b"\tx",
            b"\t65536",
            b"\t65535",
            b"\r",
            b"\t00",
            b"\t065536",
        ];
        line.extend_from_slice(random.pick(&tails));
    }
    line
}

fn special_board_line(random: &mut Random) -> Vec<u8> {
    let good = board_line(random);
    match random.below(20) {
        // 25
        0 => {
            let word = random.pick(&WORDS[1..]);
            let tail: [&[u8]; 5] = [b"", b"\t0", b"\t0\t0\t0", b"\tx", b"\t00"];
            [word, random.pick(&tail)].concat()
        }
        // 22
        1 => vec![],
        2 => odd_word(random, &fields_of(&good)),
        // 11, 12, and both
        3..=9 => misfit_board_line(random),
        // 23
        10 => {
            let short: [&[u8]; 7] = [
                b"board",
                b"board\t",
                b"board\t4",
                b"board\tx",
                b"board\t0",
                b"board\t00",
                b"board\t04",
            ];
            random.pick(&short).to_vec()
        }
        // 24
        11 | 12 => {
            let mut fields = fields_of(&good);
            let field = random.within(1, fields.len() - 1);
            fields[field] = odd_number(random, &fields[field]);
            fields.join(&b'\t')
        }
        13 => [&good[..], b"\t"].concat(),
        14 => [&good[..], b"\r"].concat(),
        // 21, or a line that just fits.
        15 => vec![random.pick(b"xb0"); random.pick(&[254, 255, 256, 300])],
        16 | 17 => long_board_line(random),
        // 28, alone, or mostly with 11 or 12
        18 => padded_line(random, &fields_of(&good)),
        _ => {
            let misfit = misfit_board_line(random);
            padded_line(random, &fields_of(&misfit))
        }
    }
}

/// A board line that is refused by 11 or 12, or by both, or that just fits.
fn misfit_board_line(random: &mut Random) -> Vec<u8> {
    match random.below(7) {
        0 => board_of(&[random.pick(&[0, 257, 1000, 65_535]), random.below(256)]),
        1 => board_of(&[
            random.within(1, 256),
            random.pick(&[255, 256, 257, 65_535]),
            random.below(2),
        ]),
        2 => {
            let units = random.within(1, 20);
            let mut numbers = vec![random.within(1, 4), random.within(0, 4)];
            numbers.extend((1..=units).map(|unit| random.below(unit)));
            let wrong = random.within(1, units);
            numbers[wrong + 1] = random.pick(&[wrong, wrong + 1, 64, 65_535]);
            board_of(&numbers)
        }
        3 => board_of(&[random.pick(&[0, 1, 257]), random.pick(&[0, 256]), 1]),
        // Any count of parents that a line can hold, and some more.
        4 | 5 => {
            let parents = random.within(0, 126);
            let mut numbers = vec![random.within(1, 9), random.within(0, 9)];
            numbers.resize(parents + 2, 0);
            board_of(&numbers)
        }
        _ => {
            let parents = random.within(60, 66);
            let mut numbers = vec![random.within(1, 9), random.within(0, 9)];
            numbers.extend((0..parents).map(|unit| random.below(unit + 1)));
            board_of(&numbers)
        }
    }
}

/// A board line with a stretched number or too many parents, mostly one byte
/// or more too long. The longest that is accepted has 192 bytes.
fn long_board_line(random: &mut Random) -> Vec<u8> {
    let length = random.pick(&[254, 255, 256, 257, 600]);
    let mut line = board_line(random);
    if random.chance(2, 3) {
        return stretched(random, &fields_of(&line), length);
    }
    let parents = (length - line.len()) / 2;
    line.extend_from_slice(&b"\t1".repeat(parents));
    // One byte may be missing: the last parent is 10 then.
    line.resize(length, b'0');
    line
}

fn fields_of(line: &[u8]) -> Vec<Vec<u8>> {
    let fields = line.split(|&byte| byte == b'\t');
    fields.map(<[u8]>::to_vec).collect()
}

/// A script of words, numbers and parting bytes in any order, or of any
/// bytes, or of none.
pub fn soup(random: &mut Random) -> Vec<u8> {
    let mut script = vec![];
    let any_bytes = random.chance(1, 4);
    if random.chance(2, 3) {
        script = board_line(random);
        script.push(b'\n');
    }
    for _ in 0..random.below(80) {
        if any_bytes {
            script.push(random.byte());
            continue;
        }
        match random.below(10) {
            0..=2 => script.extend_from_slice(random.pick(&WORDS)),
            3..=4 => script.extend_from_slice(random.below(4).to_string().as_bytes()),
            5..=7 => script.push(b'\t'),
            8 => script.push(b'\n'),
            _ => script.extend_from_slice(random.pick(&[
                &b"start\t0\n"[..],
                b"send\t0\t0\t0\n",
                b"deliver\t0\n",
                b"rest\t0\n",
                b"move\t1\t0\n",
            ])),
        }
    }
    script
}
