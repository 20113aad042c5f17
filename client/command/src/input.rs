//! Reading files, as they are or as hexadecimal text.

use crate::hexadecimal::{is_text, place_in, Text};
use crate::options::Format;
use crate::work::Progress;
use crate::{Failure, Streams};
use std::ffi::OsStr;
use std::fs::File;
use std::io::{ErrorKind, Read};

/// So many bytes are read at once.
const CHUNK: usize = 1 << 16;

/// Takes in what is read.
enum Decoder {
    Bytes,
    Hexadecimal(Text),
}

impl Decoder {
    /// A decoder for a file of a format that starts so.
    fn new(format: Format, start: &[u8]) -> Decoder {
        match format {
            Format::Hexadecimal => Decoder::Hexadecimal(Text::default()),
            Format::Told if is_text(start) => Decoder::Hexadecimal(Text::default()),
            _ => Decoder::Bytes,
        }
    }

    /// Takes in a chunk and appends the bytes that it stands for.
    fn take(&mut self, chunk: &[u8], bytes: &mut Vec<u8>) -> Result<(), String> {
        bytes.try_reserve(chunk.len()).map_err(|_| "there is no memory for it".to_string())?;
        match self {
            Decoder::Bytes => bytes.extend_from_slice(chunk),
            Decoder::Hexadecimal(text) => {
                chunk.iter().try_for_each(|&character| text.take(character, bytes))?;
            }
        }
        Ok(())
    }

    /// Takes in the end.
    fn end(&mut self, bytes: &mut Vec<u8>) -> Result<(), String> {
        match self {
            Decoder::Bytes => Ok(()),
            Decoder::Hexadecimal(text) => text.end(bytes),
        }
    }
}

/// What was read, and whether it was hexadecimal text.
struct Taken {
    bytes: Vec<u8>,
    text: bool,
}

/// Reads until so much room is filled or the stream ends, and gives how much was read.
fn fill(source: &mut dyn Read, room: &mut [u8]) -> Result<usize, String> {
    let mut filled = 0;
    while filled < room.len() {
        match source.read(&mut room[filled..]) {
            Ok(0) => break,
            Ok(count) => filled += count,
            Err(error) if error.kind() == ErrorKind::Interrupted => (),
            Err(error) => return Err(error.to_string()),
        }
    }
    Ok(filled)
}

/// Reads a stream to its end, or until it has given more than the limit of bytes; what is over
/// the limit by more than one is left off.
fn read_all(
    source: &mut dyn Read,
    format: Format,
    limit: usize,
    mut progress: impl FnMut(usize),
) -> Result<Taken, String> {
    let (mut bytes, mut chunk) = (Vec::new(), vec![0; CHUNK]);
    let mut count = fill(source, &mut chunk)?;
    let mut decoder = Decoder::new(format, &chunk[..count]);
    let text = matches!(decoder, Decoder::Hexadecimal(_));
    while bytes.len() <= limit {
        if count == 0 {
            decoder.end(&mut bytes)?;
            break;
        }
        decoder.take(&chunk[..count], &mut bytes)?;
        progress(bytes.len());
        count = if bytes.len() <= limit { fill(source, &mut chunk)? } else { 0 };
    }
    bytes.truncate(limit.saturating_add(1));
    Ok(Taken { bytes, text })
}

/// What a file is called.
pub fn file_name(name: &OsStr) -> String {
    if name == "-" {
        "standard input".into()
    } else {
        name.display().to_string()
    }
}

/// Reads the file with a name, of which no more than the limit and one byte matter.
pub fn read_file(
    name: &OsStr,
    format: Format,
    limit: usize,
    streams: &mut Streams,
) -> Result<Vec<u8>, Failure> {
    let shown = file_name(name);
    let mut progress = Progress::new(streams.terminal, streams.messages);
    let show = |bytes: usize| progress.show(bytes, || format!("reading {shown}: {bytes} bytes"));
    let read = if name == "-" {
        read_all(streams.input, format, limit, show)
    } else {
        let file = File::open(name).map_err(|error| error.to_string());
        file.and_then(|mut file| read_all(&mut file, format, limit, show))
    };
    progress.end();
    let taken = read.map_err(|error| Failure::of(&shown, error))?;
    if taken.text && format == Format::Told {
        // A note that cannot be written is not missed.
        let _ = writeln!(streams.messages, "note: {shown} is read as hexadecimal text");
    }
    Ok(taken.bytes)
}

/// The line and column at which a byte is written in a file that is hexadecimal text; the standard
/// input cannot be looked at again.
pub fn place_of(name: &OsStr, format: Format, byte: usize) -> Option<(usize, usize)> {
    let text = (name != "-").then(|| std::fs::read(name).ok()).flatten()?;
    let is = format == Format::Hexadecimal || format == Format::Told && is_text(&text);
    is.then(|| place_in(&text, byte)).flatten()
}

#[cfg(test)]
mod tests {
    use super::*;

    #[test]
    fn no_more_than_the_limit_and_one_byte_are_kept() {
        let read = |limit| {
            let mut endless = std::io::repeat(7);
            read_all(&mut endless, Format::Bytes, limit, |_| ()).map(|taken| taken.bytes)
        };
        assert_eq!(read(0), Ok(vec![7]));
        assert_eq!(read(CHUNK).map(|bytes| bytes.len()), Ok(CHUNK + 1));
    }
}
