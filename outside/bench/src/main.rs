//! Times the proved code beside plain Rust, in one run: `bench PROGRAM PLAIN`, where the two are the programs to compare.
//! `bench drains` times the longest drains alone.
//! `bench once WHAT UNITS SLOTS STEPS` does one piece of work once, `bench list SIDE BYTES TIMES` lists a script of that
//! size as often, `bench census SIDE TIMES` takes the largest census as often, where the side is proved, plain or
//! tested, and `bench drain SIDE NAME CALL` finds the longest drain of the board of that name (largest, middle, no-delay)
//! once, where the call is list, or length for its length alone: for a count of instructions. `bench script BYTES` writes
//! such a script.

mod census;
mod drains;
mod library;
mod lists;
mod plain;
mod timing;

use drains::Approach;
use library::Record;
use lists::Case;
use std::fs::File;
use std::hint::black_box;
use std::io::Write;
use std::process::{Command, ExitCode, Stdio};
use timing::{beside, beside_without_part, Beside};

type Work = fn(&mut Case) -> u64;

/// From M, d, the parents, the length and the sort to the count of that sort, or the refusal.
type Census = fn(u16, u16, &[u16], u16, u16) -> u64;

/// The sizes of boards: the least, a small boat's, the largest.
const SIZES: [(u16, u16); 3] = [(1, 1), (8, 16), (64, 256)];

/// The sizes of scripts in bytes.
const SCRIPTS: [usize; 3] = [1_024, 8_192, 65_535];

/// The pieces of work that `once` knows by name.
const WORKS: [(&str, Work); 8] = [
    ("by-value", library::by_value),
    ("lent", library::lent),
    ("tested", plain::tested),
    ("run", library::run),
    ("batches", library::batches),
    ("untested", plain::untested),
    ("soundness", library::soundness),
    ("plain-soundness", plain::soundness),
];

/// One line: what, for which size, nanoseconds of the proved and of the plain, the ratio. `per` items were worked off.
fn line(what: &str, size: &str, per: usize, proved: &mut dyn FnMut() -> u64, plain: &mut dyn FnMut() -> u64) {
    print(what, size, per, 1, beside(proved, plain));
}

/// The line with so many decimals.
fn print(what: &str, size: &str, per: usize, decimals: usize, times: Beside) {
    let (proved, plain) = (times.proved / per as f64, times.plain / per as f64);
    println!("{what:<28}{size:>16}{proved:>12.decimals$}{plain:>12.decimals$}{:>8.2}", times.ratio);
}

fn heading(text: &str) {
    println!("\n{text}\n{:<28}{:>16}{:>12}{:>12}{:>8}", "", "", "proved ns", "plain ns", "ratio");
}

fn pair(what: &str, size: &str, per: usize, mut case: (Case, Case), proved: Work, plain: Work) {
    line(what, size, per, &mut || proved(&mut case.0), &mut || plain(&mut case.1));
}

fn steps() {
    heading("a step with its soundness test");
    const STEPS: usize = 4_000;
    for (n, m) in SIZES {
        let cases = || (Case::new(n, m, STEPS), Case::new(n, m, STEPS));
        let size = format!("{n} and {m}");
        pair("step, by value", &size, STEPS, cases(), library::by_value, plain::tested);
        pair("step, lent board", &size, STEPS, cases(), library::lent, plain::tested);
    }
}

fn soundness() {
    heading("the soundness test alone");
    const TESTS: usize = 10_000;
    for (n, m) in SIZES {
        let case = || Case::new(n, m, 1_000).with_tests(TESTS);
        pair("soundness", &format!("{n} and {m}"), TESTS, (case(), case()), library::soundness, plain::soundness);
    }
}

fn runs() {
    heading("a step of a list, beside plain steps without tests");
    let long = [1_000, 10_000, 100_000, 1_000_000].map(|length| (64, 256, length));
    let small = [(1, 1, 100_000), (8, 16, 100_000)];
    for (n, m, length) in long.into_iter().chain(small) {
        let cases = || (Case::new(n, m, length), Case::new(n, m, length));
        let size = format!("{n}, {m}, {length}");
        pair("run", &size, length, cases(), library::run, plain::untested);
        pair("batches", &size, length, cases(), library::batches, plain::untested);
    }
}

fn listings() {
    heading("the listing at once, in the process");
    for bytes in SCRIPTS {
        let script = lists::script(bytes);
        let mut out = vec![0; 65_536 * 40];
        let mut proved = || compare::list(&script, &mut out).expect("it fits") as u64;
        let mut again = vec![0; 65_536 * 40];
        let mut plain = || reference::list_into(&script, &mut again).expect("it fits") as u64;
        line("listing", &format!("{bytes} bytes"), 1, &mut proved, &mut plain);
    }
}

/// Lists a script of so many bytes as often as said, for a count of instructions.
fn list(side: &str, bytes: usize, times: usize) -> Option<()> {
    let script = lists::script(bytes);
    let mut out = vec![0; 65_536 * 40];
    for _ in 0..times {
        match side {
            "proved" => compare::list(&script, &mut out).ok()?,
            _ => reference::list_into(&script, &mut out).ok()?,
        };
    }
    Some(())
}

/// The lists that end well in the census of the largest size. Its numbers are hidden, so that no side is built for them.
fn largest(census: Census) -> u64 {
    let (m, d, parents, length) = black_box((2, 1, [0, 1], 4));
    census(m, d, &parents, length, 0)
}

fn censuses() {
    heading("the census of the largest size");
    let mut proved = || largest(library::census);
    line("census", "3, 2, 4", 1, &mut proved, &mut || largest(census::census));
    line("census, tested", "3, 2, 4", 1, &mut proved, &mut || largest(census::census_tested));
}

/// The census of the largest size as often as said, for a count of instructions.
fn repeat_census(side: &str, times: usize) -> Option<()> {
    let census: Census = match side {
        "proved" => library::census,
        "plain" => census::census,
        "tested" => census::census_tested,
        _ => return None,
    };
    for _ in 0..times {
        black_box(largest(census));
    }
    Some(())
}

/// At most 3 times plain Rust is wanted for an entry. What it costs is told by the call for the list without the call for
/// the length: both open the board, take the steps and find the length. Then the whole call is shown, for an entry, too.
fn longest_drains() {
    heading("an entry of the longest drain, alone and with the steps to the board");
    for name in ["largest", "middle", "no-delay"] {
        let approach = Approach::named(name).expect("it has the name");
        let length = drains::length(&approach) as usize;
        let size = format!("64, {}, {length}", approach.d);
        let mut lists = (vec![Record::default(); length], vec![Record::default(); length]);
        let mut proved = || library::longest(&approach, &mut lists.0);
        let mut plain = || drains::longest(&approach, &mut lists.1);
        let proved_length = &mut || library::length(&approach);
        let plain_length = &mut || drains::length(&approach);
        let entries = beside_without_part([&mut proved, proved_length], [&mut plain, plain_length]);
        print("entry", &size, length, 2, entries);
        print("entry, with the steps", &size, length, 2, beside(&mut proved, &mut plain));
    }
}

/// The longest drain of a board by its name, once, for a count of instructions. The length alone has a list, too, so that
/// the two differ in nothing else.
fn drain(side: &str, name: &str, call: &str) -> Option<u64> {
    let approach = Approach::named(name)?;
    let mut list = vec![Record::default(); drains::length(&approach) as usize];
    match (side, call) {
        ("proved", "list") => Some(library::longest(&approach, &mut list)),
        ("proved", "length") => Some(library::length(&approach)),
        ("plain", "list") => Some(drains::longest(&approach, &mut list)),
        ("plain", "length") => Some(drains::length(&approach)),
        _ => None,
    }
}

/// Runs a program on a script in a file; what it writes is dropped.
fn process(program: &str, script: &str) -> u64 {
    let input = File::open(script).expect("the script is there");
    let status = Command::new(program).stdin(input).stdout(Stdio::null()).status().expect("the program runs");
    u64::from(status.success())
}

fn programs(proved: &str, plain: &str) -> std::io::Result<()> {
    heading("the program on a script, process and all");
    for bytes in SCRIPTS {
        let script = std::env::temp_dir().join(format!("bench-{}-{bytes}.script", std::process::id()));
        std::fs::write(&script, lists::script(bytes))?;
        let name = script.to_str().expect("a plain path");
        line("program", &format!("{bytes} bytes"), 1, &mut || process(proved, name), &mut || process(plain, name));
        std::fs::remove_file(&script)?;
    }
    Ok(())
}

/// One piece of work, once: as many steps, or as many tests of soundness.
fn once(what: &str, n: u16, m: u16, count: usize) -> Option<u64> {
    let work = WORKS.iter().find(|(name, _)| *name == what)?.1;
    let mut case = match what {
        "soundness" | "plain-soundness" => Case::new(n, m, 1_000).with_tests(count),
        _ => Case::new(n, m, count),
    };
    Some(work(&mut case))
}

fn main() -> ExitCode {
    let words: Vec<String> = std::env::args().skip(1).collect();
    let words: Vec<&str> = words.iter().map(String::as_str).collect();
    match words[..] {
        ["once", what, n, m, count] => {
            let numbers = (n.parse(), m.parse(), count.parse());
            let (Ok(n), Ok(m), Ok(count)) = numbers else { return ExitCode::FAILURE };
            once(what, n, m, count).map_or(ExitCode::FAILURE, |_| ExitCode::SUCCESS)
        }
        ["list", side, bytes, times] => {
            let (Ok(bytes), Ok(times)) = (bytes.parse(), times.parse()) else { return ExitCode::FAILURE };
            list(side, bytes, times).map_or(ExitCode::FAILURE, |()| ExitCode::SUCCESS)
        }
        ["census", side, times] => {
            let Ok(times) = times.parse() else { return ExitCode::FAILURE };
            repeat_census(side, times).map_or(ExitCode::FAILURE, |()| ExitCode::SUCCESS)
        }
        ["drains"] => {
            longest_drains();
            ExitCode::SUCCESS
        }
        ["drain", side, name, call] => drain(side, name, call).map_or(ExitCode::FAILURE, |_| ExitCode::SUCCESS),
        ["script", bytes] => {
            let Ok(bytes) = bytes.parse() else { return ExitCode::FAILURE };
            let written = std::io::stdout().write_all(&lists::script(bytes));
            written.map_or(ExitCode::FAILURE, |()| ExitCode::SUCCESS)
        }
        [proved, plain] => {
            steps();
            soundness();
            runs();
            censuses();
            longest_drains();
            listings();
            programs(proved, plain).map_or(ExitCode::FAILURE, |()| ExitCode::SUCCESS)
        }
        _ => {
            eprintln!("usage: bench PROGRAM PLAIN | bench drains | bench once WHAT UNITS SLOTS STEPS");
            eprintln!("       bench list SIDE BYTES TIMES | bench census SIDE TIMES | bench drain SIDE NAME CALL");
            eprintln!("       bench script BYTES");
            ExitCode::FAILURE
        }
    }
}

#[cfg(test)]
mod tests {
    use super::*;
    use reference::Step;

    /// Steps of any kind on units and slots in use and past the end: most are refused, many are not.
    fn mixed_steps(n: u16, m: u16, length: usize) -> Vec<Step> {
        let mut state = 20_261_115u64;
        let mut below = |most: u16| {
            state = state.wrapping_mul(6_364_136_223_846_793_005).wrapping_add(1_442_695_040_888_963_407);
            ((state >> 33) % u64::from(most)) as u16
        };
        let record = |_| Step { kind: below(9), unit: below(n + 1), other: below(n + 1), slot: below(m + 1) };
        (0..length).map(record).collect()
    }

    /// Each call on each list gives as many accepted steps as the plain steps, and the run the same answers.
    #[test]
    fn calls_agree_with_plain_steps() {
        let sizes = SIZES.into_iter().chain([(0, 1), (2, 0), (64, 257)]);
        for (n, m) in sizes {
            for length in [0, 1, 511, 512, 513, 3_000] {
                for steps in [mixed_steps(n, m, length), Case::new(n.max(1), m.max(1), length).steps] {
                    let mut case = Case::of(n, m, steps);
                    let tested = plain::tested(&mut case);
                    assert_eq!(library::by_value(&mut case), tested);
                    assert_eq!(library::lent(&mut case), tested);
                    assert_eq!(library::batches(&mut case), tested);
                    case.answers.fill(99);
                    assert_eq!(library::run(&mut case), tested);
                    let answers = case.answers.clone();
                    let opened = plain::tested(&mut Case::of(n, m, vec![Step::start(0)])) == 1;
                    plain::untested(&mut case);
                    assert!(!opened || answers == case.answers);
                    assert!(opened || answers.iter().all(|&answer| answer == 99));
                }
            }
        }
    }

    /// The proved census, the two plain ones and the reference's enumeration give the same count of each sort, or the
    /// same refusal.
    fn censuses_agree(m: u16, d: u16, parents: &[u16], length: u16) {
        let enumerated = match reference::census(m, d, parents, length) {
            Ok(counts) => [counts.finished, counts.busy, counts.other, counts.other],
            Err(refusal) => [u64::from(refusal); 4],
        };
        for (sort, count) in [0, 1, 2, 256].into_iter().zip(enumerated) {
            for census in [library::census, census::census, census::census_tested] {
                let begin = &parents[..parents.len().min(3)];
                assert_eq!(census(m, d, parents, length, sort), count, "{m} {d} {begin:?} {length} {sort}");
            }
        }
    }

    #[test]
    fn censuses_agree_on_all_boards() {
        for parents in [&[][..], &[0], &[0, 0], &[0, 1]] {
            for (m, d) in [(1, 0), (1, 1), (2, 0), (2, 1)] {
                for length in 0..=4 {
                    censuses_agree(m, d, parents, length);
                }
            }
        }
    }

    /// Parents that fit and that do not, too many of them too, and with each of them every mixture of the other numbers
    /// in and out of reach. The calls of the table `censuses` are among these.
    #[test]
    fn censuses_agree_on_refusals() {
        for (first, second) in [(0, 0), (0, 1), (0, 2), (0, 65_535), (1, 0), (256, 0)] {
            for count in [0, 1, 2, 3, 64, 65_537] {
                let mut parents = vec![first, second];
                parents.resize(count, 0);
                censuses_agree_with(&parents);
            }
        }
    }

    fn censuses_agree_with(parents: &[u16]) {
        for m in [0, 1, 2, 3, 258, 65_535] {
            for d in [0, 1, 2, 256, 65_535] {
                for length in [0, 1, 4, 5, 256, 65_535] {
                    censuses_agree(m, d, parents, length);
                }
            }
        }
    }
}
