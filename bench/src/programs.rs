//! Runs another program with a sheet on its standard input.

use std::io::{self, Write};
use std::path::Path;
use std::process::{Command, Output, Stdio};
use std::thread;

/// What the program printed and how it ended.
pub fn answer(program: &Path, sheet: &[u8]) -> io::Result<Output> {
    let mut command = Command::new(program);
    command
        .stdin(Stdio::piped())
        .stdout(Stdio::piped())
        .stderr(Stdio::piped());
    let mut child = command.spawn()?;
    let mut input = child.stdin.take().ok_or(io::ErrorKind::BrokenPipe)?;
    thread::scope(|scope| {
        scope.spawn(move || {
            // A program that ends early has its own answer; that it left bytes unread is none.
            let _ = input.write_all(sheet);
        });
        child.wait_with_output()
    })
}
