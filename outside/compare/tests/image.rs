//! What users link and run holds no list of the powers of ten, neither as data nor as operands of instructions (M-102).
//! No contract speaks of compiled code: a loop over the powers would bring them back, worked out by the compiler.

use std::fs;

const TARGET: &str = concat!(env!("CARGO_MANIFEST_DIR"), "/../../target");

/// The exponents from 9 to 19 whose powers stand in a file. Smaller powers could stand there by chance.
fn powers_in(file: &str) -> Vec<u32> {
    let image = fs::read(format!("{TARGET}/{file}")).expect("it is built");
    let stands = |k: &u32| {
        let bytes = 10_u64.pow(*k).to_le_bytes();
        let width = if *k < 10 { 4 } else { 8 };
        image.windows(width).any(|part| part == &bytes[..width])
    };
    (9..20).filter(stands).collect()
}

/// The compiler may multiply several tens at once, and a power or two come of that; a list has them all.
fn has_no_list_of_powers(file: &str) {
    let powers = powers_in(file);
    assert!(powers.len() <= 2, "{file} has 10 to the power of each of {powers:?}");
}

#[test]
fn the_program_has_no_list_of_powers() {
    has_no_list_of_powers("bin/sheetboard");
}

#[test]
fn the_library_has_no_list_of_powers() {
    has_no_list_of_powers("staticlib/libayokwelifu.a");
}
