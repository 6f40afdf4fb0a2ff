//! The program: how it is called, and what it says where a file can't be read or the picture not written.

mod common;

use std::fs::{File, OpenOptions};
use std::process::{Command, Output, Stdio};

use common::docs;

fn program(names: &[&str]) -> Command {
    let mut command = Command::new(env!("CARGO_BIN_EXE_drawing"));
    command.args(names).current_dir(docs().join("samples"));
    command
}

fn said(output: &Output) -> String {
    String::from_utf8(output.stderr.clone()).unwrap()
}

#[test]
fn draws_two_files() {
    let output = program(&["A.job", "A.out"]).output().unwrap();
    let sheet = |name: &str| std::fs::read(docs().join("samples").join(name)).unwrap();
    assert!(output.status.success());
    assert_eq!(said(&output), "");
    assert_eq!(output.stdout, drawing::draw(&sheet("A.job"), &sheet("A.out")).svg.into_bytes());
}

#[test]
fn says_how_it_is_used() {
    for names in [&[][..], &["A.job"], &["A.job", "A.out", "A.out"]] {
        let output = program(names).output().unwrap();
        assert_eq!(output.status.code(), Some(2));
        assert_eq!(said(&output), "drawing: usage: drawing JOB-SHEET REGISTER-SHEET >PICTURE.svg\n");
        assert!(output.stdout.is_empty());
    }
}

#[test]
fn says_what_could_not_be_read() {
    for names in [["none.job", "A.out"], ["A.job", "none.out"], [".", "A.out"], ["A.job", "."]] {
        let output = program(&names).output().unwrap();
        assert_eq!(output.status.code(), Some(1), "{names:?}");
        assert!(said(&output).contains("could not be read: "), "{}", said(&output));
        assert!(output.stdout.is_empty());
    }
}

#[test]
fn says_what_could_not_be_written() {
    let full = OpenOptions::new().write(true).open("/dev/full").unwrap();
    let unwritable = File::open("/dev/null").unwrap();
    for to in [full, unwritable] {
        let mut command = program(&["A.job", "A.out"]);
        let output = command.stdout(to).stderr(Stdio::piped()).spawn().unwrap().wait_with_output().unwrap();
        assert_eq!(output.status.code(), Some(1));
        assert!(said(&output).contains("the picture could not be written, and is cut: "), "{}", said(&output));
    }
}

#[test]
fn says_that_two_sheets_do_not_belong_together() {
    let output = program(&["A.job", "E.out"]).output().unwrap();
    assert!(output.status.success());
    assert!(said(&output).starts_with("drawing: The register sheet is not the answer to this job sheet: "));
}
