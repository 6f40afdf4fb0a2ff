//! `drawing JOB-SHEET REGISTER-SHEET > PICTURE.svg`

use std::ffi::OsStr;
use std::fs::File;
use std::io::{self, Write};
use std::os::fd::AsFd;
use std::process::ExitCode;

const USAGE: &str = "usage: drawing JOB-SHEET REGISTER-SHEET >PICTURE.svg";

fn main() -> ExitCode {
    let names: Vec<_> = std::env::args_os().skip(1).collect();
    let [job, registers] = names.as_slice() else {
        say(USAGE);
        return ExitCode::from(2);
    };
    match run(job, registers) {
        Ok(()) => ExitCode::SUCCESS,
        Err(words) => {
            say(&words);
            ExitCode::FAILURE
        }
    }
}

fn run(job: &OsStr, registers: &OsStr) -> Result<(), String> {
    let (job, registers) = (read(job)?, read(registers)?);
    let drawing = drawing::draw(&job, &registers);
    for remark in &drawing.remarks {
        say(remark);
    }
    write(drawing.svg.as_bytes()).map_err(|error| format!("the picture could not be written, and is cut: {error}"))
}

fn read(name: &OsStr) -> Result<Vec<u8>, String> {
    std::fs::read(name).map_err(|error| format!("{} could not be read: {error}", name.display()))
}

/// Writes by a descriptor of its own, since the usual one takes a bad descriptor for success.
fn write(bytes: &[u8]) -> io::Result<()> {
    let mut output = File::from(io::stdout().as_fd().try_clone_to_owned()?);
    output.write_all(bytes)
}

/// One line on standard error; where there is none, nothing is left to be done.
fn say(words: &str) {
    let _ = writeln!(io::stderr(), "drawing: {words}");
}
