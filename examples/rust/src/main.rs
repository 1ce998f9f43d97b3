//! Lists a small script through the library: asks for the length, makes room, lists, prints. Before that, a step goes
//! through a line and back.

use std::io::Write;

extern "C" {
    fn ayokwelifu_listing_length(script: *const u8, script_length: usize, count: *mut u64) -> u16;
    fn ayokwelifu_list(script: *const u8, script_length: usize, out: *mut u8, out_length: usize, count: *mut u64) -> u16;
    fn ayokwelifu_write_step(
        kind: u16,
        unit: u16,
        other: u16,
        slot: u16,
        out: *mut u8,
        out_length: usize,
        at: usize,
        count: *mut u64,
    ) -> u16;
    fn ayokwelifu_read_step(
        line: *const u8,
        line_length: usize,
        kind: *mut u16,
        unit: *mut u16,
        other: *mut u16,
        slot: *mut u16,
    ) -> u16;
}

// SAFETY, of all calls: each pointer and length is that of a live slice, and each cell is a live number of its width.

/// A script's listing.
fn list(script: &[u8]) -> Vec<u8> {
    let mut count = 0u64;
    unsafe {
        assert_eq!(ayokwelifu_listing_length(script.as_ptr(), script.len(), &mut count), 0);
        let mut out = vec![0u8; count as usize];
        assert_eq!(ayokwelifu_list(script.as_ptr(), script.len(), out.as_mut_ptr(), out.len(), &mut count), 0);
        out
    }
}

/// A step's kind, unit, other and slot, written as a line and read back.
fn there_and_back([kind, unit, other, slot]: [u16; 4]) -> [u16; 4] {
    let (mut line, mut count, mut step) = ([0u8; 32], 0u64, [0u16; 4]);
    let [a, b, c, d] = &mut step;
    unsafe {
        assert_eq!(ayokwelifu_write_step(kind, unit, other, slot, line.as_mut_ptr(), line.len(), 0, &mut count), 0);
        // The reader takes a line without its byte 10.
        assert_eq!(ayokwelifu_read_step(line.as_ptr(), count as usize - 1, a, b, c, d), 0);
    }
    step
}

fn main() {
    let send = [2, 0, 1, 300];
    assert_eq!(there_and_back(send), send);
    let listing = list(b"board\t2\t1\t0\nstart\t0\nrest\t0\n");
    std::io::stdout().write_all(&listing).expect("standard output takes the listing");
}
