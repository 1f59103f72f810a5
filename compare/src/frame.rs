//! Many jobs, or many answers, in one stream: each is preceded by its length
//! as 4 bytes, the lowest first.

use std::io::{self, Read, Write};

/// Reads the next frame; `None` at the end of the stream. A frame that is cut
/// off is an error.
pub fn read(input: &mut impl Read) -> io::Result<Option<Vec<u8>>> {
    let mut length = Vec::with_capacity(4);
    input.by_ref().take(4).read_to_end(&mut length)?;
    let length: [u8; 4] = match length.try_into() {
        Ok(length) => length,
        Err(short) if short.is_empty() => return Ok(None),
        Err(_) => return Err(io::ErrorKind::UnexpectedEof.into()),
    };
    let length = u64::from(u32::from_le_bytes(length));
    let mut frame = Vec::new();
    input.by_ref().take(length).read_to_end(&mut frame)?;
    if (frame.len() as u64) < length {
        return Err(io::ErrorKind::UnexpectedEof.into());
    }
    Ok(Some(frame))
}

/// Writes a frame.
pub fn write(output: &mut impl Write, frame: &[u8]) -> io::Result<()> {
    let length = u32::try_from(frame.len()).map_err(io::Error::other)?;
    output.write_all(&length.to_le_bytes())?;
    output.write_all(frame)
}
