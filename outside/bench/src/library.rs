//! The proved loops over the public functions, as Rust sees them. Each opens a board whose units form a binary tree,
//! runs a list of steps on it and gives how many were accepted; but for the census, which gives a count of lists, and the
//! longest drain, which gives its length.

use crate::drains::Approach;
use crate::lists::Case;
use reference::Step;

/// The record that a lent list holds: four numbers of 16 bits, in this order.
#[repr(C)]
#[derive(Clone, Copy, Debug, Default, PartialEq, Eq)]
pub struct Record {
    kind: u16,
    unit: u16,
    other: u16,
    slot: u16,
}

impl Record {
    pub fn of(step: &Step) -> Record {
        Record { kind: step.kind, unit: step.unit, other: step.other, slot: step.slot }
    }

    #[cfg(test)]
    pub fn step(&self) -> Step {
        Step { kind: self.kind, unit: self.unit, other: self.other, slot: self.slot }
    }
}

extern "C" {
    fn bench_steps(n: u16, m: u16, d: u16, list: *const u16, length: usize) -> u64;
    fn bench_batches(n: u16, m: u16, d: u16, list: *const u16, length: usize) -> u64;
    fn bench_soundness(n: u16, m: u16, d: u16, list: *const u16, length: usize, delays: *const u16, tests: usize) -> u64;
    fn bench_lent(n: u16, m: u16, d: u16, steps: *const Record, length: usize) -> u64;
    fn bench_run(n: u16, m: u16, d: u16, steps: *const Record, length: usize, answers: *mut u16, room: usize) -> u64;
    fn bench_census(m: u16, d: u16, parents: *const u16, count: usize, length: u16, sort: u16) -> u64;
    fn bench_length(m: u16, d: u16, parents: *const u16, count: usize, steps: *const u16, numbers: usize) -> u64;
    fn bench_longest(
        m: u16,
        d: u16,
        parents: *const u16,
        count: usize,
        steps: *const u16,
        numbers: usize,
        list: *mut Record,
        room: usize,
    ) -> u64;
}

// SAFETY, of all eight: the pointers and lengths are those of live slices, and a buffer is borrowed for its call alone.

/// The public step, by value, on each record.
pub fn by_value(case: &mut Case) -> u64 {
    unsafe { bench_steps(case.n, case.m, case.d, case.flat.as_ptr(), case.flat.len()) }
}

/// The public step on a lent board, on each record.
pub fn lent(case: &mut Case) -> u64 {
    unsafe { bench_lent(case.n, case.m, case.d, case.records.as_ptr(), case.records.len()) }
}

/// The run over the lent list.
pub fn run(case: &mut Case) -> u64 {
    let (steps, answers) = (&case.records, &mut case.answers);
    unsafe { bench_run(case.n, case.m, case.d, steps.as_ptr(), steps.len(), answers.as_mut_ptr(), answers.len()) }
}

/// Batches of 64 records.
pub fn batches(case: &mut Case) -> u64 {
    unsafe { bench_batches(case.n, case.m, case.d, case.flat.as_ptr(), case.flat.len()) }
}

/// The soundness test alone, on the board after the list, once for each delay.
pub fn soundness(case: &mut Case) -> u64 {
    let (list, delays) = (&case.flat, &case.delays);
    unsafe { bench_soundness(case.n, case.m, case.d, list.as_ptr(), list.len(), delays.as_ptr(), delays.len()) }
}

/// The census from the board with these parents: the count of one sort (0 finished, 1 busy, from 2 on other), or the
/// refusal.
pub fn census(m: u16, d: u16, parents: &[u16], length: u16, sort: u16) -> u64 {
    unsafe { bench_census(m, d, parents.as_ptr(), parents.len(), length, sort) }
}

/// The length of the longest drain of the board after the steps, or 2^32 and the refusal.
pub fn length(approach: &Approach) -> u64 {
    let Approach { m, d, parents, flat, .. } = approach;
    unsafe { bench_length(*m, *d, parents.as_ptr(), parents.len(), flat.as_ptr(), flat.len()) }
}

/// The same, and the drain goes to the first entries of the list.
pub fn longest(approach: &Approach, list: &mut [Record]) -> u64 {
    let Approach { m, d, parents, flat, .. } = approach;
    let (parents, count, steps, numbers) = (parents.as_ptr(), parents.len(), flat.as_ptr(), flat.len());
    unsafe { bench_longest(*m, *d, parents, count, steps, numbers, list.as_mut_ptr(), list.len()) }
}
