//! A driver of the exported function `find_cut_moves`: a line in, a line out, until standard input ends.
//!
//! A line has five fields, parted by tabs: side, after, before (decimal, each below 2^32), the length of the lent list
//! in bytes (decimal), and the bytes handed over as blocks, two lower-case hexadecimal digits each, or `-` for none.
//! The list is filled with bytes a5 and the work space with bytes 5a, the function is called, and number, count and the
//! bytes of the list after the call, in the same form, are printed, parted by tabs. Three blocks of frequencies 4, 2.5
//! and 3, of which the first two are open (the tabs are shown as blanks):
//!
//! ```text
//! 0 1 4 40 030000000000804002000000000020400100000000004040
//! 0 2 00000000010000000000600001000000000000000000600000000000000000000000000000000000
//! ```
//!
//! Decimal fields are digits alone, and may begin with zeros. The last line may lack its line feed. A line of another
//! form, or a list for which there is no memory, ends the driver with status 2 and a word on standard error, a read or
//! write that fails with status 1; the lines before are answered then.

use cundzeli::cut::Work;
use cundzeli::moves::{MovesEnd, end_in_bytes};
use std::ffi::c_int;
use std::fs::File;
use std::io::{self, BufRead, BufReader, BufWriter, Write};
use std::os::fd::AsFd;
use std::process::ExitCode;
use std::sync::atomic::{AtomicBool, Ordering};

/// What a line asks.
struct Query {
    side: u32,
    after: u32,
    before: u32,
    length: usize,
    blocks: Vec<u8>,
}

/// Why the driver ends before its input does.
enum Stop {
    Form(u64, &'static str),
    Read(io::Error),
    Write(io::Error),
}

impl Stop {
    fn say(&self) -> ExitCode {
        // Where standard error fails too there is the status.
        let mut err = io::stderr();
        let (status, _said) = match self {
            Stop::Form(line, why) => (2, writeln!(err, "moves: line {line}: {why}")),
            Stop::Read(error) => (1, writeln!(err, "moves: standard input: {error}")),
            Stop::Write(error) => (1, writeln!(err, "moves: standard output: {error}")),
        };
        ExitCode::from(status)
    }
}

/// A number of decimal digits alone.
fn decimal<T: std::str::FromStr>(field: &[u8]) -> Option<T> {
    let digits = field.iter().all(u8::is_ascii_digit);
    let text = str::from_utf8(field).ok().filter(|_| digits)?;
    text.parse().ok()
}

fn digit(byte: u8) -> Option<u8> {
    match byte {
        b'0'..=b'9' => Some(byte - b'0'),
        b'a'..=b'f' => Some(byte - b'a' + 10),
        _ => None,
    }
}

/// Bytes of two lower-case hexadecimal digits each, or `-` for none.
fn bytes(field: &[u8]) -> Option<Vec<u8>> {
    if field == b"-" {
        return Some(Vec::new());
    }
    let (pairs, rest) = field.as_chunks();
    let byte = |&[high, low]: &[u8; 2]| Some(digit(high)? << 4 | digit(low)?);
    let whole = !pairs.is_empty() && rest.is_empty();
    pairs
        .iter()
        .map(byte)
        .collect::<Option<Vec<u8>>>()
        .filter(|_| whole)
}

/// The query of a line, or why it is none.
fn query(line: &[u8]) -> Result<Query, &'static str> {
    let fields: Vec<&[u8]> = line.split(|&byte| byte == b'\t').collect();
    let [side, after, before, length, blocks] = fields[..] else {
        return Err("not five fields parted by tabs");
    };
    Ok(Query {
        side: decimal(side).ok_or("the side is no decimal number below 2^32")?,
        after: decimal(after).ok_or("`after` is no decimal number below 2^32")?,
        before: decimal(before).ok_or("`before` is no decimal number below 2^32")?,
        length: decimal(length).ok_or("the length is no decimal number, or too large")?,
        blocks: bytes(blocks)
            .ok_or("the blocks are no lower-case hexadecimal digits, two to a byte, and not -")?,
    })
}

/// Prints what a call answered.
fn print(end: MovesEnd, list: &[u8], out: &mut impl Write) -> io::Result<()> {
    write!(out, "{}\t{}\t", end.number, end.count)?;
    if list.is_empty() {
        out.write_all(b"-")?;
    }
    for byte in list {
        let digits = b"0123456789abcdef";
        out.write_all(&[
            digits[usize::from(byte >> 4)],
            digits[usize::from(byte & 15)],
        ])?;
    }
    out.write_all(b"\n")?;
    out.flush()
}

fn answer_all(mut input: impl BufRead, mut out: impl Write) -> Result<(), Stop> {
    let (mut line, mut list, mut work) = (Vec::new(), Vec::new(), Work::new());
    for number in 1.. {
        line.clear();
        if input.read_until(b'\n', &mut line).map_err(Stop::Read)? == 0 {
            break;
        }
        let text = line.strip_suffix(b"\n").unwrap_or(&line);
        let asked = query(text).map_err(|why| Stop::Form(number, why))?;
        list.clear();
        list.try_reserve_exact(asked.length)
            .map_err(|_| Stop::Form(number, "there is no memory for a list of that length"))?;
        list.resize(asked.length, 0xa5);
        work.bytes().fill(0x5a);
        let Query { side, after, before, ref blocks, .. } = asked;
        let end = end_in_bytes(blocks, after, before, side, &mut list, &mut work);
        print(end, &list, &mut out).map_err(Stop::Write)?;
    }
    Ok(())
}

/// Whether standard input and standard output were closed when the program began.
static CLOSED: [AtomicBool; 2] = [const { AtomicBool::new(false) }; 2];

unsafe extern "C" {
    fn fcntl(descriptor: c_int, command: c_int, ...) -> c_int;
}

/// Before `main` the runtime opens /dev/null for a stream that is closed. This comes before that.
#[used]
#[unsafe(link_section = ".init_array")]
static BEFORE_THE_RUNTIME: extern "C" fn() = note_closed;

extern "C" fn note_closed() {
    const F_GETFD: c_int = 1;
    for (descriptor, closed) in (0..).zip(&CLOSED) {
        // SAFETY: with this command the function reads the flags of a descriptor, if it is open, and nothing else.
        let flags = unsafe { fcntl(descriptor, F_GETFD) };
        closed.store(flags == -1, Ordering::Relaxed);
    }
}

/// The standard streams as files: what can't be read or written is an error there, where `Stdin` and `Stdout` take it
/// for empty. For one that was closed there is a file that can't be read, or can't be written.
fn streams() -> Result<(File, File), Stop> {
    let [no_input, no_out] = &CLOSED;
    let input = if no_input.load(Ordering::Relaxed) {
        File::options().write(true).open("/dev/null")
    } else {
        io::stdin().as_fd().try_clone_to_owned().map(File::from)
    };
    let out = if no_out.load(Ordering::Relaxed) {
        File::open("/dev/null")
    } else {
        io::stdout().as_fd().try_clone_to_owned().map(File::from)
    };
    Ok((input.map_err(Stop::Read)?, out.map_err(Stop::Write)?))
}

fn main() -> ExitCode {
    let run = |(input, out)| {
        answer_all(
            BufReader::new(input),
            BufWriter::with_capacity(1 << 16, out),
        )
    };
    match streams().and_then(run) {
        Ok(()) => ExitCode::SUCCESS,
        Err(stop) => stop.say(),
    }
}
