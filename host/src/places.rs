//! Places in the file and places in the payload stream, counted apart, and a block's payload as bytes of the file itself.
//! It rests on the archive's call for a payload; nothing here turns the one kind of place into the other.
use crate::error::{Refusal, Result};
use crate::{raw, PAYLOAD};

/// A place in the file, in bytes from its start.
#[derive(Debug, Clone, Copy, PartialEq, Eq, PartialOrd, Ord, Hash)]
pub struct FilePlace(pub usize);

/// A place in the payload stream: all payloads joined, without the headers. It is no index of the file.
#[derive(Debug, Clone, Copy, PartialEq, Eq, PartialOrd, Ord, Hash)]
pub struct StreamPlace(pub usize);

/// Where a whole block's payload begins. Blocks are numbered from 0. Refusals 1, 2, 3, 12.
pub fn payload_place(file: &[u8], block: usize) -> Result<FilePlace> {
    raw::payload(file, block).map(FilePlace)
}

/// A whole block's payload: [`PAYLOAD`] bytes of the file itself. Refusals 1, 2, 3, 12.
pub fn payload(file: &[u8], block: usize) -> Result<&[u8]> {
    payload_place(file, block).map(|FilePlace(place)| &file[place..place + PAYLOAD])
}

/// All payloads joined, for those who want a copy: one call a block.
pub(crate) fn payload_stream(file: &[u8]) -> Result<Vec<u8>> {
    let mut stream = Vec::new();
    for block in 0.. {
        match payload(file, block) {
            Ok(bytes) => stream.extend_from_slice(bytes),
            // No such block: the one before was the last.
            Err(refusal) if refusal.number == Refusal::PLACE => break,
            Err(refusal) => return Err(refusal),
        }
    }
    Ok(stream)
}
