//! Running a command.

use std::io::Write;
use std::path::Path;
use std::process::{Command, Output, Stdio};

/// Runs a command on an input.
pub fn run(command: &mut Command, input: &[u8]) -> Output {
    let child = command.stdin(Stdio::piped()).stdout(Stdio::piped()).stderr(Stdio::piped()).spawn();
    let mut child = child.unwrap_or_else(|error| panic!("{command:?} does not start: {error}"));
    // A program that has seen enough may stop reading, so a failed write says nothing.
    let _ = child.stdin.take().expect("the input is a pipe").write_all(input);
    child.wait_with_output().expect("the command ends")
}

/// What a command prints on an input: it must succeed, and say nothing on standard error.
pub fn printed_on(command: &mut Command, input: &[u8]) -> String {
    let output = run(command, input);
    let told = String::from_utf8_lossy(&output.stderr);
    assert!(output.status.success() && told.is_empty(), "{command:?} ended with {}\n{told}", output.status);
    String::from_utf8(output.stdout).expect("what is printed is text")
}

/// The same without an input.
pub fn printed(command: &mut Command) -> String {
    printed_on(command, b"")
}

/// A program, watched: a read or a write outside of what it has, or a use of what was never written, fails it.
pub fn under_valgrind(program: &Path) -> Command {
    let mut command = Command::new("valgrind");
    command.args(["-q", "--error-exitcode=9"]).arg(program);
    command
}
