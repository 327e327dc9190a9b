//! Runs a compiled program on a text.

use std::io::Write;
use std::process::{Command, Stdio};

/// What the program prints for a text; a program that does not end with status 0 has that added.
pub fn answer(program: &str, text: &[u8]) -> String {
    let mut child = Command::new(program)
        .stdin(Stdio::piped())
        .stdout(Stdio::piped())
        .spawn()
        .unwrap_or_else(|e| panic!("cannot run {program}: {e}"));
    let mut input = child.stdin.take().expect("a pipe to the program");
    // A program may stop reading a text that is too long; what it prints still counts.
    let _ = input.write_all(text);
    drop(input);
    let output = child.wait_with_output().expect("the program's output");
    let mut printed = String::from_utf8_lossy(&output.stdout).into_owned();
    if !output.status.success() {
        printed.push_str(&format!("the program ended with {}\n", output.status));
    }
    printed
}
