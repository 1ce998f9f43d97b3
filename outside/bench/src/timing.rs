//! Two pieces of work timed beside each other: in turn, several times, medians.

use std::time::Instant;

/// How often each of the two is timed.
const REPEATS: usize = 21;

/// The least time of one measurement, in nanoseconds: shorter work is done several times.
const LEAST: f64 = 4e6;

fn median(mut values: Vec<f64>) -> f64 {
    values.sort_by(f64::total_cmp);
    values[values.len() / 2]
}

fn nanoseconds(rounds: u32, work: &mut dyn FnMut() -> u64) -> f64 {
    let begin = Instant::now();
    for _ in 0..rounds {
        std::hint::black_box(work());
    }
    begin.elapsed().as_nanos() as f64 / f64::from(rounds)
}

/// Nanoseconds of each, and the ratio of the first to the second: medians over the repeats.
pub struct Beside {
    pub proved: f64,
    pub plain: f64,
    pub ratio: f64,
}

type Work<'w> = &'w mut dyn FnMut() -> u64;

/// How often a piece of work is done in one measurement.
fn rounds(work: Work) -> u32 {
    (LEAST / nanoseconds(1, work)).clamp(1.0, 1e6) as u32
}

pub fn beside(proved: Work, plain: Work) -> Beside {
    assert_eq!(proved(), plain(), "the two do not give the same");
    let (proved_rounds, plain_rounds) = (rounds(proved), rounds(plain));
    let mut times = (Vec::new(), Vec::new(), Vec::new());
    for _ in 0..REPEATS {
        let (a, b) = (nanoseconds(proved_rounds, proved), nanoseconds(plain_rounds, plain));
        times.0.push(a);
        times.1.push(b);
        times.2.push(a / b);
    }
    Beside { proved: median(times.0), plain: median(times.1), ratio: median(times.2) }
}

/// The same of what a piece of work costs beyond a part of it, which is timed alone: each pair has the whole first. The
/// part may cost far more than the rest. So short work is timed more often, and the ratio is that of the medians.
pub fn beside_without_part([proved, proved_part]: [Work; 2], [plain, plain_part]: [Work; 2]) -> Beside {
    assert_eq!(proved(), plain(), "the two do not give the same");
    assert_eq!(proved_part(), plain_part(), "their parts do not give the same");
    let (proved_rounds, plain_rounds) = (rounds(proved), rounds(plain));
    let repeats = if proved_rounds > 1 { 10 * REPEATS } else { REPEATS };
    let mut times = (Vec::new(), Vec::new());
    for _ in 0..repeats {
        times.0.push(nanoseconds(proved_rounds, proved) - nanoseconds(proved_rounds, proved_part));
        times.1.push(nanoseconds(plain_rounds, plain) - nanoseconds(plain_rounds, plain_part));
    }
    let (proved, plain) = (median(times.0), median(times.1));
    Beside { proved, plain, ratio: proved / plain }
}
