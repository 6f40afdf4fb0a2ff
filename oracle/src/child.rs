//! A program run on a sheet, or on files of sheets.

use std::io::{self, Read, Write};
use std::path::Path;
use std::process::{Command, Stdio};

/// What the program writes when the sheet is its standard input. Its exit status has to be 0.
pub fn run(program: &str, sheet: &[u8]) -> io::Result<Vec<u8>> {
    let mut child = Command::new(program)
        .stdin(Stdio::piped())
        .stdout(Stdio::piped())
        .spawn()?;
    let (input, output) = (child.stdin.take(), child.stdout.take());
    if let Some(mut input) = input {
        // A program may answer before it has read the whole sheet.
        match input.write_all(sheet) {
            Err(error) if error.kind() != io::ErrorKind::BrokenPipe => return Err(error),
            _ => {}
        }
    }
    let mut text = Vec::new();
    if let Some(mut output) = output {
        output.read_to_end(&mut text)?;
    }
    let status = child.wait()?;
    if status.success() {
        Ok(text)
    } else {
        Err(io::Error::other(format!("{status}")))
    }
}

/// What the program writes when the files are its arguments. Its exit status has to be 0, and it has to say nothing.
pub fn run_on(program: &str, files: &[&Path]) -> io::Result<Vec<u8>> {
    let output = Command::new(program)
        .args(files)
        .stdin(Stdio::null())
        .output()?;
    if !output.stderr.is_empty() {
        let said = String::from_utf8_lossy(&output.stderr).into_owned();
        return Err(io::Error::other(said));
    }
    if output.status.success() {
        Ok(output.stdout)
    } else {
        Err(io::Error::other(format!("{}", output.status)))
    }
}
