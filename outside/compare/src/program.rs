//! The program against the reference: what it writes for a script on its standard input.

use std::fs::File;
use std::path::Path;
use std::process::{Command, Stdio};

/// Scripts at the edges of what a program reads: none, the longest, one byte more, and one with the longest listing,
/// which takes many parts to write.
pub fn edges() -> Vec<Vec<u8>> {
    const MOST: usize = reference::SCRIPT_LIMIT;
    let board = b"board\t1\t0\n";
    let filled = |length: usize, byte: u8| {
        let mut script = board.to_vec();
        script.resize(length, byte);
        script
    };
    let mut many_steps = board.to_vec();
    many_steps.extend(b"start\t0\nrest\t0\n".repeat((MOST - board.len()) / 15));
    many_steps.pop();
    vec![
        Vec::new(),
        b"\n".to_vec(),
        board.to_vec(),
        board[..board.len() - 1].to_vec(),
        many_steps,
        filled(MOST, b'\n'),
        filled(MOST + 1, b'\n'),
        filled(MOST, b'0'),
        filled(2 * MOST, b'0'),
    ]
}

/// What is wrong with what the program writes for a script, if anything. The script stands in a file meanwhile.
pub fn difference(program: &str, script: &[u8], file: &Path) -> Option<String> {
    std::fs::write(file, script).expect("the script's file can be written");
    let input = File::open(file).expect("the script's file can be read");
    let output = Command::new(program)
        .stdin(input)
        .stderr(Stdio::inherit())
        .output()
        .expect("the program runs");
    if !output.status.success() {
        return Some(format!("the program ends with {}", output.status));
    }
    (output.stdout != reference::list(script)).then(|| "the program writes another listing".into())
}
