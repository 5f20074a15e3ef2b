//! An index beside a DSS recording: made, read, asked for the entry of a packet, and for the packet itself. It rests on the archive's four calls for
//! that, and on refusal 8, which says how many bytes are needed: nothing of the format is counted here.
//!
//! An index has a length of all that follows it, 4 bytes, a version byte, 1, and [`INDEX_ENTRY`](crate::INDEX_ENTRY) bytes for each block that
//! announces something, in order: the block's number, the number of its first packet, and where its reads start in the payload stream, 4 bytes
//! each. All of them are big-endian, and packets and blocks are numbered from 0. One recording has exactly one index, and every call that is lent one
//! holds all of it to the recording first, block by block: what is not the recording's is refused, and no entry of it is shown.
//!
//! So each call reads the headers of all whole blocks, and what it costs grows with these. What an index spares is the walk over the packets.
use crate::error::{Refusal, Result};
use crate::places::StreamPlace;
use crate::{raw, PACKET};

/// How much an index has, as it was made.
#[derive(Debug, Clone, Copy, PartialEq, Eq)]
pub struct Built {
    /// Its bytes: [`INDEX_FRONT`](crate::INDEX_FRONT), and [`INDEX_ENTRY`](crate::INDEX_ENTRY) for each entry.
    pub bytes: usize,
    /// Its entries: one for each block that announces something.
    pub entries: usize,
}

/// What an index tells in all.
#[derive(Debug, Clone, Copy, PartialEq, Eq)]
pub struct Totals {
    /// Its entries: one for each block that announces something.
    pub entries: usize,
    /// Packets of the recording.
    pub packets: usize,
}

/// An entry of an index: a block that announces something.
#[derive(Debug, Clone, Copy, PartialEq, Eq)]
pub struct Entry {
    /// The block's number.
    pub number: usize,
    /// The number of its first packet.
    pub first: usize,
    /// Where its reads start.
    pub place: StreamPlace,
}

/// The index of a DSS file. Refusals 1, 2, 3.
pub fn build_index(file: &[u8]) -> Result<Vec<u8>> {
    let mut index = vec![0; index_size(file)?];
    build_index_into(file, &mut index)?;
    Ok(index)
}

/// The index into lent memory, without an allocation: how many bytes and entries it has. The bytes are the first of `out`, and what lies past them is
/// as it was. Refusals 1, 2, 3, 8.
pub fn build_index_into(file: &[u8], out: &mut [u8]) -> Result<Built> {
    raw::build_index(file, out).map(|(bytes, entries)| Built { bytes, entries })
}

/// How many bytes the index has, with nothing written. Refusals 1, 2, 3.
pub fn index_size(file: &[u8]) -> Result<usize> {
    match build_index_into(file, &mut []) {
        Err(Refusal { number: Refusal::ROOM, beside, .. }) => Ok(beside as usize),
        answer => answer.map(|built| built.bytes),
    }
}

/// Reads an index with its DSS file: it is the one that [`build_index`] gives, byte for byte, or it is refused. Refusals 1, 2, 3, 19, 20, 21.
pub fn read_index(file: &[u8], index: &[u8]) -> Result<Totals> {
    raw::read_index(file, index).map(|(entries, packets)| Totals { entries, packets })
}

/// The entry for a packet by its number, from 0: that of the block which announces the packet. Refusals 1, 2, 3, 19, 20, 21, 18.
pub fn find_entry(file: &[u8], index: &[u8], packet: usize) -> Result<Entry> {
    let raw::Entry { number, first, place, .. } = raw::find_entry(file, index, packet)?;
    Ok(Entry { number: number as usize, first: first as usize, place: StreamPlace(place as usize) })
}

/// The packet of a DSS file by its index and number, from 0: its bytes, and how many bytes of its read came from the file, as
/// [`demux_dss_counted`](crate::demux::dss::demux_dss_counted) has them under that number, the carried byte and the padding past the stream's end
/// included. What is carried is taken from the last unswapped read before it, in its own block or in an earlier one; no other packet is walked over,
/// and nothing is allocated. A full count of a swapped packet does not say that it is whole: [`Packets`](crate::Packets) has what does. Refusals 1, 2,
/// 3, 19, 20, 21, 18.
pub fn dss_packet(file: &[u8], index: &[u8], packet: usize) -> Result<([u8; PACKET], u8)> {
    let (mut bytes, mut count) = ([0; PACKET], [0]);
    dss_packet_into(file, index, packet, &mut bytes, &mut count)?;
    Ok((bytes, count[0]))
}

/// The same into lent memory: how many packets, which is 1. It has the first [`PACKET`] bytes of `out` and the first of `counts`; what lies past
/// them is as it was. Refusals 1, 2, 3, 19, 20, 21, 18, 8, the last with 1 beside it.
pub fn dss_packet_into(file: &[u8], index: &[u8], packet: usize, out: &mut [u8], counts: &mut [u8]) -> Result<usize> {
    raw::dss_packet(file, index, packet, out, counts)
}
