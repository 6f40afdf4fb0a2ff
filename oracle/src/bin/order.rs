//! `order FIRST SECOND`: what the program `order` writes for the job sheets in these files.
//! `order --stream`: sheet frames on standard input, two for each pair, and an answer frame for each pair.
//! All by the second reading.

use std::env;
use std::ffi::OsString;
use std::fs;
use std::io::{self, BufWriter, Write};
use std::process::exit;

use oracle::frames;
use oracle::order::order;

fn main() {
    let args: Vec<OsString> = env::args_os().skip(1).collect();
    let done = match &args[..] {
        [word] if word == "--stream" => stream(),
        [first, second] => one(first, second),
        _ => {
            eprintln!("usage: order FIRST SECOND");
            eprintln!("       order --stream");
            exit(2)
        }
    };
    if let Err(error) = done {
        eprintln!("order: {error}");
        exit(2);
    }
}

fn one(first: &OsString, second: &OsString) -> io::Result<()> {
    let (first, second) = (fs::read(first)?, fs::read(second)?);
    io::stdout().write_all(&order(&first, &second))
}

fn stream() -> io::Result<()> {
    let mut input = io::stdin().lock();
    let mut out = BufWriter::new(io::stdout().lock());
    while let Some(first) = frames::read(&mut input)? {
        let Some(second) = frames::read(&mut input)? else {
            return Err(io::Error::other("half a pair"));
        };
        let text = order(&first.bytes, &second.bytes);
        writeln!(out, "answer\t{}\t-", text.len())?;
        out.write_all(&text)?;
    }
    out.flush()
}
