//! Scripts for the weight board, made from a seed, and checks on listings.
//!
//! * [`script`]: the script at an index of the sequence that a seed gives.
//! * [`check_listing`]: what holds of every listing, whoever wrote it.
//! * [`Statistics`]: what a set of scripts has met, to see that the scripts
//!   walk the state space and meet every refusal that a script can meet.
//! * [`exchanges`], [`exchanged`], [`tidied`]: scripts with neighbouring lines
//!   exchanged that may come in either order.
//! * [`EventList`]: a list of steps, beginnings and visits. A script has no words
//!   for the last two.
//! * [`QuietList`]: a list of steps that leaves a board from which drains begin;
//!   [`settling`]: the steps that bring any board there.
//!
//! Steps are chosen by simulating with the reference board, so that most are
//! accepted. Refusals 36 and 44 are out of reach: they need 65,536 grants and 2^32
//! sends or starts, and a script of 65,535 bytes has no room for as many lines.

mod check;
mod damage;
mod events;
mod exchanges;
mod forms;
mod quiet;
mod random;
mod reasons;
mod statistics;
mod walker;

pub use check::check_listing;
pub use events::{Event, EventList};
pub use exchanges::{exchanged, exchanges, through_other, tidied, Exchange};
pub use quiet::{settling, QuietList};
pub use random::Random;
pub use statistics::{Statistics, REACHABLE};

use reference::SCRIPT_LIMIT;
use walker::Walker;

/// The script at `index` of the sequence that `seed` gives. It depends on
/// nothing else.
pub fn script(seed: u64, index: u64) -> Vec<u8> {
    let mut random = Random::new(seed, index);
    match random.below(2000) {
        0..=8 => full_size(&mut random),
        9..=12 => descent(&mut random),
        13..=1284 => walk(&mut random),
        1285..=1426 => forms::script(&mut random),
        1427..=1476 => forms::soup(&mut random),
        _ => {
            let mut script = walk(&mut random);
            damage::damage(&mut script, &mut random);
            script
        }
    }
}

/// A script of lines that mostly are accepted.
fn walk(random: &mut Random) -> Vec<u8> {
    let length = match random.below(100) {
        0..=54 => random.within(20, 400),
        55..=84 => random.within(400, 1_500),
        85..=97 => random.within(1_500, 8_000),
        _ => random.within(8_000, 30_000),
    };
    let mut walker = Walker::new(random);
    walker.walk_to(length);
    let mut script = walker.into_script();
    if random.chance(1, 4) {
        script.pop();
    }
    script
}

/// A walk behind a descent, which brings a unit to a weight that no other
/// walk comes by: just 2^20, where the larger share ends.
fn descent(random: &mut Random) -> Vec<u8> {
    // 960 sends leave 2^20, 1,978 leave weight 1, the next is refused.
    let sends = match random.below(4) {
        0 => 1_979,
        _ => random.within(960, 980),
    };
    let further = random.within(20, 1_500);
    let mut walker = Walker::new(random);
    let length = walker.descend(sends);
    walker.walk_to(length + further);
    walker.into_script()
}

/// A script at the limit of length, just under it or over it.
fn full_size(random: &mut Random) -> Vec<u8> {
    let length = match random.below(9) {
        0 => SCRIPT_LIMIT - 1,
        1..=5 => SCRIPT_LIMIT,
        6..=7 => SCRIPT_LIMIT + 1,
        _ => SCRIPT_LIMIT + random.within(2, 3_000),
    };
    let shape = random.below(12);
    let mut walker = Walker::new(random);
    match shape {
        // The rest are empty lines, as many as a script can have.
        0 if length >= SCRIPT_LIMIT => walker.walk_to(2_000),
        // The last line is cut off.
        1..=3 => walker.walk_to(length),
        _ => {
            walker.walk_to(length - 1_000);
            walker.fill_to(length);
        }
    }
    let mut script = walker.into_script();
    script.resize(length, b'\n');
    script
}
