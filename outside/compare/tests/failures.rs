//! The program `sheetboard`, which `tools/build sheetboard` builds, where its input or its output fails, and where its
//! input comes in pieces.

use std::fs::{File, OpenOptions};
use std::io::{Read, Write};
use std::os::fd::OwnedFd;
use std::os::unix::net::{UnixDatagram, UnixStream};
use std::process::{ChildStdin, Command, Output, Stdio};
use std::sync::{Mutex, MutexGuard, PoisonError};
use std::time::Duration;

const PROGRAM: &str = concat!(env!("CARGO_MANIFEST_DIR"), "/../../target/bin/sheetboard");
const SCRIPT: &[u8] = b"board\t2\t1\t0\nstart\t0\nrest\t0\n";
/// Within the script's second line.
const CUT: usize = 15;

/// One test at a time: a process that is being started holds for a moment what is open in this one, and with it the ends
/// of pipes that another test has closed.
fn alone() -> MutexGuard<'static, ()> {
    static ALONE: Mutex<()> = Mutex::new(());
    ALONE.lock().unwrap_or_else(PoisonError::into_inner)
}

/// The program on an empty input, with its outputs caught, unless a test says otherwise.
fn program() -> Command {
    caught(Command::new(PROGRAM))
}

/// The program as a shell starts it.
fn by_shell(line: &str) -> Command {
    let mut command = Command::new("sh");
    command.args(["-c", line, PROGRAM]);
    caught(command)
}

fn caught(mut command: Command) -> Command {
    command
        .stdin(Stdio::null())
        .stdout(Stdio::piped())
        .stderr(Stdio::piped());
    command
}

fn output(mut command: Command) -> Output {
    command
        .output()
        .expect("the program is built by `tools/build sheetboard` and runs")
}

/// An input that holds a script.
fn script() -> Stdio {
    let (input, mut ours) = UnixStream::pair().unwrap();
    ours.write_all(SCRIPT).unwrap();
    OwnedFd::from(input).into()
}

/// A pipe that nobody reads any more.
fn closed_pipe() -> ChildStdin {
    let mut reader = Command::new("true").stdin(Stdio::piped()).spawn().unwrap();
    let pipe = reader.stdin.take().unwrap();
    reader.wait().unwrap();
    pipe
}

/// Nothing is listed, one line on standard error says what failed and why, and the process ends by itself.
fn assert_fails(output: Output, line: &str) {
    assert_eq!(
        String::from_utf8_lossy(&output.stderr),
        format!("sheetboard: {line}\n")
    );
    assert_eq!(String::from_utf8_lossy(&output.stdout), "");
    assert_eq!(
        output.status.code(),
        Some(0),
        "a failure is told on standard error alone"
    );
}

fn assert_lists(output: Output, script: &[u8]) {
    assert_eq!(String::from_utf8_lossy(&output.stderr), "");
    assert_eq!(
        String::from_utf8_lossy(&output.stdout),
        String::from_utf8_lossy(&reference::list(script))
    );
}

#[test]
fn a_directory_as_input() {
    let _alone = alone();
    let mut command = program();
    command.stdin(File::open("/").unwrap());
    assert_fails(output(command), "reading standard input: Is a directory");
}

#[test]
fn a_closed_input() {
    let _alone = alone();
    assert_fails(
        output(by_shell("exec \"$0\" <&-")),
        "reading standard input: Bad file descriptor",
    );
}

/// A socket is reset where its other end is closed with bytes that were not read: the lines before that were read.
#[test]
fn an_input_that_breaks_off() {
    let _alone = alone();
    let (mut input, mut ours) = UnixStream::pair().unwrap();
    input.write_all(b"never read").unwrap();
    ours.write_all(SCRIPT).unwrap();
    drop(ours);
    let mut command = program();
    command.stdin(OwnedFd::from(input));
    assert_fails(
        output(command),
        "reading standard input: Connection reset by peer",
    );
}

#[test]
fn an_output_that_is_full() {
    let _alone = alone();
    let mut command = program();
    command
        .stdin(script())
        .stdout(OpenOptions::new().write(true).open("/dev/full").unwrap());
    assert_fails(
        output(command),
        "writing standard output: No space left on device",
    );
}

#[test]
fn a_closed_output() {
    let _alone = alone();
    let mut command = by_shell("exec \"$0\" >&-");
    command.stdin(script());
    assert_fails(
        output(command),
        "writing standard output: Bad file descriptor",
    );
}

#[test]
fn a_closed_pipe_as_output() {
    let _alone = alone();
    let mut command = by_shell("trap '' PIPE; exec \"$0\"");
    command.stdin(script()).stdout(closed_pipe());
    assert_fails(output(command), "writing standard output: Broken pipe");
}

/// By default too: the program's runtime ignores the signal of a closed pipe, so that the write fails.
#[test]
fn a_closed_pipe_as_output_by_default() {
    let _alone = alone();
    let mut command = program();
    command.stdin(script()).stdout(closed_pipe());
    assert_fails(output(command), "writing standard output: Broken pipe");
}

#[test]
fn an_input_that_pauses_within_a_line() {
    let _alone = alone();
    let mut child = program().stdin(Stdio::piped()).spawn().unwrap();
    let mut pipe = child.stdin.take().unwrap();
    pipe.write_all(&SCRIPT[..CUT]).unwrap();
    std::thread::sleep(Duration::from_millis(100));
    pipe.write_all(&SCRIPT[CUT..]).unwrap();
    drop(pipe);
    assert_lists(child.wait_with_output().unwrap(), SCRIPT);
}

/// A read gives one datagram, however large the buffer is, and an empty one is the end: no pause is needed.
#[test]
fn an_input_in_short_reads() {
    let _alone = alone();
    let (input, ours) = UnixDatagram::pair().unwrap();
    for piece in [&SCRIPT[..1], &SCRIPT[1..CUT], &SCRIPT[CUT..], b""] {
        ours.send(piece).unwrap();
    }
    let mut command = program();
    command.stdin(OwnedFd::from(input));
    assert_lists(output(command), SCRIPT);
}

/// One byte more than a script may have is enough to refuse it: its end is not waited for.
#[test]
fn an_input_that_is_too_long() {
    let _alone = alone();
    let long = vec![b'0'; reference::SCRIPT_LIMIT + 1];
    let mut child = program().stdin(Stdio::piped()).spawn().unwrap();
    let mut pipe = child.stdin.take().unwrap();
    pipe.write_all(&long).unwrap();
    let mut listed = Vec::new();
    child
        .stdout
        .take()
        .unwrap()
        .read_to_end(&mut listed)
        .unwrap();
    assert_eq!(
        String::from_utf8_lossy(&listed),
        String::from_utf8_lossy(&reference::list(&long))
    );
    drop(pipe);
    assert!(child.wait().unwrap().success());
}
