//! Damage to the bytes and lines of a script.

use crate::forms::odd_number;
use crate::random::Random;
use reference::LINE_LIMIT;
use std::ops::Range;

/// Damages a script in one to four places.
pub fn damage(script: &mut Vec<u8>, random: &mut Random) {
    // Mostly the first line stays, for with it refused nothing else is read.
    let keep_first = random.chance(4, 5);
    for _ in 0..random.within(1, 4) {
        let end = script.iter().position(|&byte| byte == b'\n');
        let from = match end {
            Some(end) if keep_first && end + 1 < script.len() => end + 1,
            _ => 0,
        };
        if script.len() > from {
            damage_once(script, from, random);
        }
    }
}

fn damage_once(script: &mut Vec<u8>, from: usize, random: &mut Random) {
    let at = random.within(from, script.len() - 1);
    match random.below(18) {
        0 => script[at] = random.byte(),
        1 => script[at] = odd_byte(random),
        2 => script.insert(at, odd_byte(random)),
        3 => drop(script.remove(at)),
        4 => {
            let end = script.len().min(at + random.within(2, 12));
            script.drain(at..end);
        }
        5 => script.truncate(at),
        6 => {
            let line = script[line_at(script, at)].to_vec();
            let place = line_at(script, random.within(from, script.len() - 1)).start;
            script.splice(place..place, line);
        }
        7 => drop(script.drain(line_at(script, at))),
        8 => {
            let number = number_after(script, at);
            let odd = odd_number(random, &script[number.clone()]);
            script.splice(number, odd);
        }
        9 => {
            let number = number_after(script, at).start;
            let zeros = random.pick(&[1, 4, 20, 240, 260]);
            script.splice(number..number, vec![b'0'; zeros]);
        }
        10 => {
            let place = line_at(script, at).start;
            script.insert(place, b'\n');
        }
        11 => {
            let end = line_at(script, at).end - 1;
            script.insert(end, b'\r');
        }
        12 => {
            let rest = script.split_off(from);
            for byte in rest {
                if byte == b'\n' {
                    script.push(b'\r');
                }
                script.push(byte);
            }
        }
        13 => drop(script.pop_if(|last| *last == b'\n')),
        14 => {
            let place = random.pick(&[line_at(script, at).start, line_at(script, at).end - 1]);
            script.insert(place, b'\t');
        }
        // A line of just the longest length, or one byte more.
        15 => {
            let line = line_at(script, at);
            let number = number_after(script, line.start).start;
            if line.contains(&number) {
                let length = LINE_LIMIT + 1 + random.below(2);
                let digits = length.saturating_sub(line.len());
                script.splice(number..number, vec![random.pick(b"0009"); digits]);
            }
        }
        16 => {
            let above: [&[u8]; 4] = [b"\xff", b"\x80", "\u{e9}".as_bytes(), b"\xef\xbb\xbf"];
            script.splice(at..at, random.pick(&above).iter().copied());
        }
        _ => {
            let end = script.len().min(at + random.within(1, 40));
            let part = script[at..end].to_vec();
            let place = random.within(from, script.len());
            script.splice(place..place, part);
        }
    }
}

fn odd_byte(random: &mut Random) -> u8 {
    random.pick(b"\0\t\t\n\n\r 0019-+azA/:\x7f\x80\xff")
}

/// The line around a place, with its byte 10 if it has one.
fn line_at(script: &[u8], at: usize) -> Range<usize> {
    let ended = |byte: &u8| *byte == b'\n';
    let start = script[..at]
        .iter()
        .rposition(ended)
        .map_or(0, |end| end + 1);
    let end = script[at..].iter().position(ended);
    start..end.map_or(script.len(), |end| at + end + 1)
}

/// The next run of digits from a place on, maybe empty.
fn number_after(script: &[u8], at: usize) -> Range<usize> {
    let digit = |byte: &u8| byte.is_ascii_digit();
    let start = script[at..].iter().position(digit);
    let start = start.map_or(script.len(), |start| at + start);
    let length = script[start..].iter().position(|byte| !digit(byte));
    start..length.map_or(script.len(), |length| start + length)
}
