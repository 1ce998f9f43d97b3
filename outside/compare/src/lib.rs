//! The proved library as Rust sees it: the declarations of `include/ayokwelifu.h` in safe functions.

use reference::Step;

extern "C" {
    fn ayokwelifu_listing_length(script: *const u8, script_length: usize, count: *mut u64) -> u16;
    fn ayokwelifu_list(script: *const u8, script_length: usize, out: *mut u8, out_length: usize, count: *mut u64) -> u16;
    fn ayokwelifu_write_step(
        kind: u16,
        unit: u16,
        other: u16,
        slot: u16,
        out: *mut u8,
        out_length: usize,
        at: usize,
        count: *mut u64,
    ) -> u16;
    fn ayokwelifu_read_step(
        line: *const u8,
        line_length: usize,
        kind: *mut u16,
        unit: *mut u16,
        other: *mut u16,
        slot: *mut u16,
    ) -> u16;
}

// What a cell holds before a call, to see that a refusal leaves it.
const UNTOUCHED: u64 = 0x5555_5555_5555_5555;

/// The length of a script's listing.
pub fn listing_length(script: &[u8]) -> usize {
    let mut count = u64::MAX;
    // SAFETY: the pointers and lengths are those of live slices, and the cell is a live number of 64 bits.
    let answer = unsafe { ayokwelifu_listing_length(script.as_ptr(), script.len(), &mut count) };
    assert_eq!(answer, 0, "every script has a listing");
    count as usize
}

/// Writes a script's listing to the start of `out`: how many bytes, or the number that refuses.
pub fn list(script: &[u8], out: &mut [u8]) -> Result<usize, u16> {
    let mut count = UNTOUCHED;
    // SAFETY: as above; the buffer is borrowed for this call alone.
    let answer = unsafe { ayokwelifu_list(script.as_ptr(), script.len(), out.as_mut_ptr(), out.len(), &mut count) };
    counted(answer, count)
}

/// Writes a step as a line to `out` from place `at` on: how many bytes, or the number that refuses.
pub fn write_step(step: Step, out: &mut [u8], at: usize) -> Result<usize, u16> {
    let mut count = UNTOUCHED;
    let Step { kind, unit, other, slot } = step;
    // SAFETY: as above.
    let answer =
        unsafe { ayokwelifu_write_step(kind, unit, other, slot, out.as_mut_ptr(), out.len(), at, &mut count) };
    counted(answer, count)
}

/// The step that a line without its byte 10 says, or the number that refuses.
pub fn read_step(line: &[u8]) -> Result<Step, u16> {
    const CELL: u16 = UNTOUCHED as u16;
    let (mut kind, mut unit, mut other, mut slot) = (CELL, CELL, CELL, CELL);
    // SAFETY: as above; the cells are live numbers of 16 bits.
    let answer =
        unsafe { ayokwelifu_read_step(line.as_ptr(), line.len(), &mut kind, &mut unit, &mut other, &mut slot) };
    if answer != 0 {
        assert_eq!([kind, unit, other, slot], [CELL; 4], "a refusal leaves the cells as they were");
        return Err(answer);
    }
    Ok(Step { kind, unit, other, slot })
}

fn counted(answer: u16, count: u64) -> Result<usize, u16> {
    if answer != 0 {
        assert_eq!(count, UNTOUCHED, "a refusal leaves the count as it was");
        return Err(answer);
    }
    Ok(count as usize)
}
