// Frames: a two-byte length, most significant byte first, and that many bytes.

use std::io::{BufRead, Error, ErrorKind, Read, Result, Write};

pub fn write_frame(out: &mut impl Write, bytes: &[u8]) -> Result<()> {
    if bytes.len() > usize::from(u16::MAX) {
        return Err(Error::new(ErrorKind::InvalidInput, "too long for a frame"));
    }
    out.write_all(&(bytes.len() as u16).to_be_bytes())?;
    out.write_all(bytes)
}

/// The next frame, or nothing at the end of input. An end inside a frame is an error.
pub fn read_frame(input: &mut impl BufRead) -> Result<Option<Vec<u8>>> {
    let Some(high) = input.by_ref().bytes().next() else {
        return Ok(None);
    };
    let mut low = [0];
    input.read_exact(&mut low)?;
    let mut bytes = vec![0; usize::from(u16::from_be_bytes([high?, low[0]]))];
    input.read_exact(&mut bytes)?;
    Ok(Some(bytes))
}
