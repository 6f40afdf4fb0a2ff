//! `oracle [--room r,s,u,g]`: one sheet on standard input.
//! `oracle --many [--room r,s,u,g] FILE...`: one answer frame for each file.
//! `oracle --stream [--room r,s,u,g]`: frames on standard input, answer frames out.
//! `oracle --cut AFTER BEFORE early|late`: the cut finder over the sheet's blocks.
//! `oracle --untested`: the pass on a sheet that only test 1 was put to.
//! A sheet may be of either form.

use std::io::{self, BufWriter, Read, Write};
use std::process::exit;
use std::{env, fs};

use oracle::answer::{Answer, Room, answer, answer_job, tested};
use oracle::{cut, form, frames};

fn main() {
    let mut args: Vec<String> = env::args().skip(1).collect();
    let room = take_room(&mut args);
    let words: Vec<&str> = args.iter().map(String::as_str).collect();
    let done = match words[..] {
        [] => one(room),
        ["--many", ref files @ ..] => many(files, room),
        ["--stream"] => stream(room),
        ["--cut", after, before, side] => cut_of(after, before, side),
        ["--untested"] => untested(room),
        _ => usage(),
    };
    if let Err(error) = done {
        eprintln!("oracle: {error}");
        exit(2);
    }
}

fn usage() -> ! {
    eprintln!("usage: oracle [--room r,s,u,g]");
    eprintln!("       oracle [--room r,s,u,g] --many FILE...");
    eprintln!("       oracle [--room r,s,u,g] --stream");
    eprintln!("       oracle --cut AFTER BEFORE early|late");
    eprintln!("       oracle --untested");
    exit(2)
}

/// Takes `--room r,s,u,g` out of the arguments.
fn take_room(args: &mut Vec<String>) -> Room {
    let Some(at) = args.iter().position(|arg| arg == "--room") else {
        return Room::default();
    };
    let given = args.get(at + 1).and_then(|text| Room::parse(text));
    let room = given.unwrap_or_else(|| usage());
    args.drain(at..at + 2);
    room
}

fn whole_input() -> io::Result<Vec<u8>> {
    let mut bytes = Vec::new();
    io::stdin().read_to_end(&mut bytes)?;
    Ok(bytes)
}

fn one(room: Room) -> io::Result<()> {
    show(&answer(&whole_input()?, room))
}

fn untested(room: Room) -> io::Result<()> {
    match form::read(&whole_input()?) {
        Some(sheet) => show(&answer_job(&sheet.job, room)),
        None => show(&Answer::refused(1, None)),
    }
}

fn show(found: &Answer) -> io::Result<()> {
    if let Some(cause) = &found.cause {
        eprintln!("{cause}");
    }
    io::stdout().write_all(found.text.as_bytes())
}

fn many(files: &[&str], room: Room) -> io::Result<()> {
    let mut out = BufWriter::new(io::stdout().lock());
    for file in files {
        write_answer(&mut out, &answer(&fs::read(file)?, room))?;
    }
    out.flush()
}

fn stream(room: Room) -> io::Result<()> {
    let mut input = io::stdin().lock();
    let mut out = BufWriter::new(io::stdout().lock());
    while let Some(frame) = frames::read(&mut input)? {
        write_answer(&mut out, &answer(&frame.bytes, frame.room.unwrap_or(room)))?;
    }
    out.flush()
}

/// A line `answer`, the number of bytes, the cause or `-`, and then the bytes.
fn write_answer(out: &mut impl Write, found: &Answer) -> io::Result<()> {
    let cause = found.cause.as_deref().unwrap_or("-");
    writeln!(out, "answer\t{}\t{cause}", found.text.len())?;
    out.write_all(found.text.as_bytes())
}

fn cut_of(after: &str, before: &str, side: &str) -> io::Result<()> {
    let (Ok(after), Ok(before)) = (after.parse(), before.parse()) else {
        usage()
    };
    let early = match side {
        "early" => true,
        "late" => false,
        _ => usage(),
    };
    match tested(&whole_input()?) {
        Err(number) => println!("refused\t{number}"),
        Ok(job) => match cut::cut(&job, after, before, early) {
            Some(at) => println!("{at}"),
            None => println!("refused\t4"),
        },
    }
    Ok(())
}
