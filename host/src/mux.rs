//! The way back: a DS2 SP file of packets. It rests on the archive's one call for that, and on refusal 8, which says how many bytes are
//! needed: nothing of the format is counted here.
//!
//! A file has the header that it is given, [`DS2_START`](crate::DS2_START) bytes that begin `\x01ds2` or `\x03ds2`, and blocks of the packets,
//! which are joined, [`PACKET`](crate::PACKET) bytes each, byte 40 of each 0, as every reading of SP hands them out. Reading it gives the same
//! packets, each with its full count and whole, since it begins unswapped, and it is complete as announced: zeros that stand for bytes that were
//! missing, carried ones too, are then bytes of the file like others.
use crate::error::{Refusal, Result};
use crate::raw;

/// The file. Refusals 15, 16, 17.
pub fn write_ds2_sp(header: &[u8], packets: &[u8]) -> Result<Vec<u8>> {
    let mut file = vec![0; ds2_sp_file_size(header, packets)?];
    write_ds2_sp_into(header, packets, &mut file)?;
    Ok(file)
}

/// The file into lent memory, without an allocation: how many bytes it has. They are the first of `out`, and what lies past them is as it was.
/// Refusals 15, 16, 17, 8.
pub fn write_ds2_sp_into(header: &[u8], packets: &[u8], out: &mut [u8]) -> Result<usize> {
    raw::write_ds2_sp(header, packets, out)
}

/// How many bytes the file has, with nothing written. Refusals 15, 16, 17.
pub fn ds2_sp_file_size(header: &[u8], packets: &[u8]) -> Result<usize> {
    match write_ds2_sp_into(header, packets, &mut []) {
        Err(Refusal { number: Refusal::ROOM, beside, .. }) => Ok(beside as usize),
        answer => answer,
    }
}
