//! `convert 2`: the sheet on standard input moved to the second form, `convert 1`: to the first, or the refusal.
//! `convert --stream`: sheet frames on standard input, two answer frames for each: of `to_form2` and of `to_form1`.
//! All by the second reading.

use std::env;
use std::io::{self, BufWriter, Read, Write};
use std::process::exit;

use oracle::convert::{to_form1, to_form2};
use oracle::frames;

type Conversion = fn(&[u8]) -> Vec<u8>;

fn main() {
    let args: Vec<String> = env::args().skip(1).collect();
    let words: Vec<&str> = args.iter().map(String::as_str).collect();
    let done = match words[..] {
        ["1"] => one(to_form1),
        ["2"] => one(to_form2),
        ["--stream"] => stream(),
        _ => {
            eprintln!("usage: convert 1|2|--stream");
            exit(2)
        }
    };
    if let Err(error) = done {
        eprintln!("convert: {error}");
        exit(2);
    }
}

fn one(convert: Conversion) -> io::Result<()> {
    let mut sheet = Vec::new();
    io::stdin().read_to_end(&mut sheet)?;
    io::stdout().write_all(&convert(&sheet))
}

fn stream() -> io::Result<()> {
    let both: [(&str, Conversion); 2] = [("to_form2", to_form2), ("to_form1", to_form1)];
    let mut input = io::stdin().lock();
    let mut out = BufWriter::new(io::stdout().lock());
    while let Some(frame) = frames::read(&mut input)? {
        for (name, convert) in both {
            let text = convert(&frame.bytes);
            writeln!(out, "answer\t{}\t{name}", text.len())?;
            out.write_all(&text)?;
        }
    }
    out.flush()
}
