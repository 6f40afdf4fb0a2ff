//! Many sheets in one stream. A frame is a line `sheet`, the number of bytes,
//! the room or `-`, and then the bytes.

use std::io::{self, BufRead, Write};

use crate::answer::Room;

pub struct Frame {
    pub bytes: Vec<u8>,
    pub room: Option<Room>,
}

pub fn write(out: &mut impl Write, frame: &Frame) -> io::Result<()> {
    let room = frame.room.map_or("-".to_string(), Room::text);
    writeln!(out, "sheet\t{}\t{room}", frame.bytes.len())?;
    out.write_all(&frame.bytes)
}

/// The next frame, or none at the end of the stream.
pub fn read(input: &mut impl BufRead) -> io::Result<Option<Frame>> {
    let mut head = String::new();
    if input.read_line(&mut head)? == 0 {
        return Ok(None);
    }
    let bad = || io::Error::new(io::ErrorKind::InvalidData, format!("no frame: {head:?}"));
    let fields: Vec<&str> = head.trim_end().split('\t').collect();
    let &["sheet", length, room] = &fields[..] else {
        return Err(bad());
    };
    let room = match room {
        "-" => None,
        text => Some(Room::parse(text).ok_or_else(bad)?),
    };
    let mut bytes = vec![0; length.parse().map_err(|_| bad())?];
    input.read_exact(&mut bytes)?;
    Ok(Some(Frame { bytes, room }))
}
