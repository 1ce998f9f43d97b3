//! Compares the proved code with the reference over generated scripts.
//!
//! `compare SCRIPTS [SEED]`: the library, listing for listing and line for line, over as many scripts as asked for, and
//! over those scripts with lines exchanged that may come in either order.
//! `compare SCRIPTS SEED PROGRAM`: the program on as many scripts, and on scripts at the edges of what it reads.
//! The seed is printed; a difference prints the script and ends the run.

mod listings;
mod program;

use std::process::ExitCode;

const SEED: u64 = 20_261_115;

fn report(what: &str, script: &[u8]) -> ExitCode {
    println!("compare: {what}");
    println!("--- script\n{}", String::from_utf8_lossy(script));
    ExitCode::FAILURE
}

/// The library on the scripts of a seed.
fn library(count: u64, seed: u64) -> ExitCode {
    println!("compare: the library, {count} scripts from seed {seed}");
    let mut out = Vec::new();
    let mut bytes = 0u64;
    let mut exchanges = listings::Exchanges::default();
    for index in 0..count {
        let script = scripts::script(seed, index);
        let expected = reference::list(&script);
        let lines = || reference::script_lines(&script).find_map(listings::line_difference);
        let found = listings::difference(&script, &expected, &mut out)
            .or_else(lines)
            .or_else(|| listings::exchange_difference(&script, index, &expected, &mut out, &mut exchanges));
        if let Some(what) = found {
            return report(&format!("script {index} of seed {seed}: {what}"), &script);
        }
        bytes += script.len() as u64;
    }
    println!("compare: no difference in {count} scripts of {bytes} bytes");
    let listings::Exchanges { single, tidied, many } = exchanges;
    println!("compare: no difference after {single} exchanges of two lines, nor in {tidied} scripts after {many} more");
    ExitCode::SUCCESS
}

/// The program on the edges and on the scripts of a seed.
fn program(count: u64, seed: u64, program: &str) -> ExitCode {
    println!("compare: the program, {count} scripts from seed {seed}");
    let file = std::env::temp_dir().join(format!("compare-{}.script", std::process::id()));
    let generated = (0..count).map(|index| scripts::script(seed, index));
    let found = program::edges().into_iter().chain(generated).find_map(|script| {
        let what = program::difference(program, &script, &file)?;
        Some(report(&what, &script))
    });
    std::fs::remove_file(&file).expect("the script's file can be removed");
    found.unwrap_or_else(|| {
        println!("compare: no difference in {count} scripts and {} edges", program::edges().len());
        ExitCode::SUCCESS
    })
}

fn main() -> ExitCode {
    let mut arguments = std::env::args().skip(1);
    let count: u64 = arguments.next().and_then(|word| word.parse().ok()).unwrap_or(20_000);
    let seed: u64 = arguments.next().and_then(|word| word.parse().ok()).unwrap_or(SEED);
    match arguments.next() {
        Some(name) => program(count, seed, &name),
        None => library(count, seed),
    }
}
