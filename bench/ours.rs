//! The archive's side of the measuring: a crate over the host crate's boundary, with memory that is lent to every call and made once,
//! before anything is measured. It rests on host/src/raw.rs and host/src/error.rs, reached by their paths; it is a crate of its own since
//! the original has a module `error` too.
#![deny(unsafe_code)]

#[allow(dead_code)] // only its type is used here
#[path = "../host/src/error.rs"]
mod error;
#[allow(dead_code)] // not every call is measured
#[path = "../host/src/raw.rs"]
mod raw;

const PACKET: usize = 42;
/// Bytes of an index before its entries, and of an entry.
const FRONT: usize = 5;
const ENTRY: usize = 12;
/// Words of a segment's entry, in a table of QP and in one of QP7.
pub const QP_WORDS: usize = 4;
pub const QP7_WORDS: usize = 3;
/// A block announces at most 13 packets in the recordings that are measured, and a piece completes at most one block more than it has.
const PACKETS_A_BLOCK: usize = 13;

/// What is lent: packets and their counts, or two tables of words; for writing a file, its packets being in `out`; and an index, whose copy fits in
/// `file`.
#[derive(Default)]
pub struct Room {
    pub out: Vec<u8>,
    pub counts: Vec<u8>,
    pub first: Vec<u32>,
    pub second: Vec<u32>,
    pub file: Vec<u8>,
    pub index: Vec<u8>,
}

impl Room {
    pub fn for_packets(packets: usize) -> Room {
        Room { out: vec![0; PACKET * packets], counts: vec![0; packets], ..Room::default() }
    }

    pub fn for_piece(bytes: usize) -> Room {
        Room::for_packets(PACKETS_A_BLOCK * (bytes / 512 + 2))
    }

    pub fn for_words(first: usize, second: usize) -> Room {
        Room { first: vec![0; first], second: vec![0; second], ..Room::default() }
    }

    /// An index with so many entries, and one packet.
    pub fn for_index(entries: usize) -> Room {
        let bytes = FRONT + ENTRY * entries;
        Room { index: vec![0; bytes], file: vec![0; bytes], ..Room::for_packets(1) }
    }
}

/// How many packets.
pub fn dss(file: &[u8], room: &mut Room) -> usize {
    raw::demux_dss(file, &mut room.out, &mut room.counts).expect("a DSS recording")
}

/// How many packets.
pub fn ds2_sp(file: &[u8], room: &mut Room) -> usize {
    raw::demux_ds2_sp(file, &mut room.out, &mut room.counts).expect("a DS2 SP recording")
}

/// One packet, by its number: how many are handed out.
pub fn ds2_sp_packet(file: &[u8], number: usize, room: &mut Room) -> usize {
    raw::ds2_sp_packet(file, number, &mut room.out, &mut room.counts).expect("a packet of a DS2 SP recording")
}

/// How many segments: their table is `first`.
pub fn ds2_qp(file: &[u8], room: &mut Room) -> usize {
    raw::demux_ds2_qp(file, &mut room.first).expect("a QP recording").0
}

/// How many records and segments: their tables are `first` and `second`.
pub fn ds2_qp7(file: &[u8], room: &mut Room) -> (usize, usize) {
    raw::demux_ds2_qp7(file, &mut room.first, &mut room.second).expect("a QP7 recording")
}

/// How many bytes the file has that is written.
pub fn write_ds2_sp(header: &[u8], room: &mut Room) -> usize {
    raw::write_ds2_sp(header, &room.out, &mut room.file).expect("packets that can be written")
}

/// How many entries the index has.
pub fn build_index(file: &[u8], room: &mut Room) -> usize {
    raw::build_index(file, &mut room.index).expect("a DSS recording").1
}

/// How many entries the index has, and how many packets the recording.
pub fn read_index(file: &[u8], room: &Room) -> (usize, usize) {
    raw::read_index(file, &room.index).expect("a DSS recording's index")
}

/// The entry for a packet: the block that announces it, that one's first packet, and its place.
pub fn find_entry(file: &[u8], packet: usize, room: &Room) -> [usize; 3] {
    let found = raw::find_entry(file, &room.index, packet).expect("a packet of a DSS recording");
    [found.number, found.first, found.place].map(|number| number as usize)
}

/// One packet, by the index and its number: how many are handed out.
pub fn dss_packet(file: &[u8], packet: usize, room: &mut Room) -> usize {
    raw::dss_packet(file, &room.index, packet, &mut room.out, &mut room.counts).expect("a packet of a DSS recording")
}

/// Packets handed out, how many of them are short, and frames announced.
pub fn tally(file: &[u8]) -> (usize, usize, usize) {
    let told = raw::tally(file).expect("a recording");
    (told.handed as usize, told.short_count as usize, told.announced as usize)
}

/// Feeds one reader of this kind, ends it strictly, and answers how many packets came out. What each piece brought is shown.
pub fn pieces(kind: u64, file: &[u8], bytes: usize, room: &mut Room, show: impl FnMut(&[u8])) -> usize {
    let mut reader = raw::open(kind).expect("a kind of reader");
    let sum = fed(&mut reader, file, bytes, usize::MAX, room, show);
    raw::end(&mut reader, raw::STRICT, &mut [], &mut []).0.expect("a complete recording");
    sum
}

/// Feeds one reader of this kind until the packet of this number has come out, and answers how many packets did.
pub fn walk(kind: u64, file: &[u8], bytes: usize, number: usize, room: &mut Room, show: impl FnMut(&[u8])) -> usize {
    let mut reader = raw::open(kind).expect("a kind of reader");
    fed(&mut reader, file, bytes, number, room, show)
}

fn fed(reader: &mut raw::Reader, file: &[u8], bytes: usize, number: usize, room: &mut Room, mut show: impl FnMut(&[u8])) -> usize {
    let mut sum = 0;
    for piece in file.chunks(bytes) {
        let packets = raw::piece(reader, piece, &mut room.out, &mut room.counts).0.expect("a piece");
        show(&room.out[..PACKET * packets]);
        sum += packets;
        if sum > number {
            break;
        }
    }
    sum
}
