//! DS2 recordings: SP, QP and QP7, whole; of SP a packet at once, and pieces. It rests on the archive's whole readings, on its call for a
//! packet and on its reader; the names and signatures without a word on counts, a packet's number, tables or lent memory are dss-codec's.
use crate::error::{Refusal, Result};
use crate::frames;
use crate::packets::{gathered, Packets};
use crate::places::{payload_stream, StreamPlace};
use crate::reader::{Fed, Reader};
use crate::{raw, FRAME, LIMIT, PACKET, QP7_WORDS, QP_WORDS};

/// A QP segment with its bytes.
#[derive(Clone, Debug, PartialEq, Eq)]
pub struct Ds2QpSegment {
    /// Its part of the payload stream.
    pub stream: Vec<u8>,
    /// Frames announced for it.
    pub total_frames: usize,
    /// Whether the decoder starts anew before it: before all but the first.
    pub reset_before: bool,
}

/// A QP7 segment with its records.
#[derive(Clone, Debug, PartialEq, Eq)]
pub struct Ds2Qp7Segment {
    /// Its records, 12 or 56 bytes each.
    pub records: Vec<Vec<u8>>,
    /// How many they are.
    pub total_frames: usize,
    /// Whether the decoder starts anew before it: before all but the first.
    pub reset_before: bool,
}

/// A DS2 file, by its kind.
pub enum DemuxedDs2 {
    /// SP
    Sp {
        /// 42 bytes each.
        packets: Vec<Vec<u8>>,
        /// How many are announced: as many as there are.
        total_frames: usize,
    },
    /// QP
    QpSegments {
        /// In order.
        segments: Vec<Ds2QpSegment>,
        /// How many frames all blocks announce.
        total_frames: usize,
    },
    /// QP7
    Qp7Segments {
        /// In order.
        segments: Vec<Ds2Qp7Segment>,
        /// How many records there are.
        total_frames: usize,
    },
}

/// Whether a block's header is good.
#[must_use]
pub fn is_ds2_audio_block_header(block_header: &[u8]) -> bool {
    raw::is_ds2_audio_block_header(block_header)
}

/// Where a DS2 file's audio starts: a place in the file.
#[must_use]
pub fn detect_ds2_audio_start(data: &[u8]) -> usize {
    raw::detect_ds2_audio_start(data)
}

/// The type of a DS2 file whose audio starts there.
#[must_use]
pub fn detect_ds2_format_type(data: &[u8], header_size: usize) -> u8 {
    raw::detect_ds2_format_type(data, header_size)
}

/// A whole DS2 file, by its kind. Refusals 1, 2, 3; for QP7 4 and 5.
pub fn demux_ds2(data: &[u8]) -> Result<DemuxedDs2> {
    match demux_ds2_sp_counted(data) {
        Ok(packets) => {
            let total_frames = packets.len();
            Ok(DemuxedDs2::Sp { packets: packets.vectors(total_frames), total_frames })
        }
        Err(Refusal { number: Refusal::TYPE, .. }) => match qp_segments(data) {
            Err(Refusal { number: Refusal::TYPE, .. }) => qp7_segments(data),
            answer => answer,
        },
        Err(refusal) => Err(refusal),
    }
}

fn qp_segments(data: &[u8]) -> Result<DemuxedDs2> {
    let QpTable { rows, announced } = demux_ds2_qp(data)?;
    let stream = payload_stream(data)?;
    let segments = rows
        .iter()
        .map(|row| Ds2QpSegment {
            stream: stream[row.start.0..row.start.0 + row.length].to_vec(),
            total_frames: row.frames,
            reset_before: row.reset_before,
        })
        .collect();
    Ok(DemuxedDs2::QpSegments { segments, total_frames: announced })
}

fn qp7_segments(data: &[u8]) -> Result<DemuxedDs2> {
    let Qp7Table { records, rows } = demux_ds2_qp7(data)?;
    let stream = payload_stream(data)?;
    let record = |&StreamPlace(place): &StreamPlace| stream[place..place + frames::record_size(stream[place + 1])].to_vec();
    let segments = rows
        .iter()
        .map(|row| Ds2Qp7Segment {
            records: records[row.first..row.first + row.records].iter().map(record).collect(),
            total_frames: row.records,
            reset_before: row.reset_before,
        })
        .collect();
    Ok(DemuxedDs2::Qp7Segments { segments, total_frames: records.len() })
}

/// All packets of a DS2 SP file with their counts. Refusals 1, 2, 3, 11.
pub fn demux_ds2_sp_counted(data: &[u8]) -> Result<Packets> {
    gathered(|out, counts| demux_ds2_sp_into(data, out, counts))
}

/// All packets of a DS2 SP file and their counts into lent memory, without an allocation: how many. Refusals 1, 2, 3, 11, 8.
pub fn demux_ds2_sp_into(data: &[u8], out: &mut [u8], counts: &mut [u8]) -> Result<usize> {
    raw::demux_ds2_sp(data, out, counts)
}

/// Any packet of a DS2 SP file at once, by its number, from 0: its bytes, and how many bytes of its read came from the file, as
/// [`demux_ds2_sp_counted`] has them under that number. In DS2 a packet of a full count is whole, since its carried byte stands two places before
/// its read; but not packet 0 if it is swapped, to which none was carried. No packet before it is walked over, and nothing is allocated; but each
/// call sums the count bytes of all whole blocks, so that many packets in a row are read sooner all together. Refusals 1, 2, 3, 11, 18.
pub fn ds2_sp_packet(data: &[u8], number: usize) -> Result<([u8; PACKET], u8)> {
    let (mut packet, mut count) = ([0; PACKET], [0]);
    ds2_sp_packet_into(data, number, &mut packet, &mut count)?;
    Ok((packet, count[0]))
}

/// The same into lent memory: how many packets, which is 1. It has the first [`PACKET`] bytes of `out` and the first of `counts`; what lies past
/// them is as it was. Refusals 1, 2, 3, 11, 18, 8, the last with 1 beside it.
pub fn ds2_sp_packet_into(data: &[u8], number: usize, out: &mut [u8], counts: &mut [u8]) -> Result<usize> {
    raw::ds2_sp_packet(data, number, out, counts)
}

/// A QP segment by its places.
#[derive(Debug, Clone, Copy, PartialEq, Eq)]
pub struct QpRow {
    /// Where it starts.
    pub start: StreamPlace,
    /// Its bytes.
    pub length: usize,
    /// Frames announced for it.
    pub frames: usize,
    /// Whether the decoder starts anew before it.
    pub reset_before: bool,
}

impl QpRow {
    /// A segment's words of the table.
    #[must_use]
    pub fn from_words(words: [u32; QP_WORDS]) -> QpRow {
        let [start, length, frames, reset] = words;
        QpRow { start: StreamPlace(start as usize), length: length as usize, frames: frames as usize, reset_before: reset != 0 }
    }
}

/// A QP file by its places: its frames' bytes stay in the file, where [`frames`] finds them.
#[derive(Debug, Clone, PartialEq, Eq)]
pub struct QpTable {
    /// Its segments.
    pub rows: Vec<QpRow>,
    /// How many frames all blocks announce.
    pub announced: usize,
}

/// All segments of a QP file. Refusals 1, 2, 3, 11.
pub fn demux_ds2_qp(data: &[u8]) -> Result<QpTable> {
    let needed = match demux_ds2_qp_into(data, &mut []) {
        Err(Refusal { number: Refusal::TABLE, beside, .. }) => beside as usize,
        answer => answer?.0,
    };
    let mut table = vec![0; QP_WORDS * needed];
    let (_, announced) = demux_ds2_qp_into(data, &mut table)?;
    let rows = table.chunks_exact(QP_WORDS).map(|row| QpRow::from_words([row[0], row[1], row[2], row[3]])).collect();
    Ok(QpTable { rows, announced })
}

/// All segments of a QP file into lent words, [`QP_WORDS`] a segment ([`QpRow::from_words`]): how many, and how many frames all blocks
/// announce. Refusals 1, 2, 3, 11, 9.
pub fn demux_ds2_qp_into(data: &[u8], table: &mut [u32]) -> Result<(usize, usize)> {
    raw::demux_ds2_qp(data, table)
}

/// A QP7 segment by its records' numbers.
#[derive(Debug, Clone, Copy, PartialEq, Eq)]
pub struct Qp7Row {
    /// Its first record.
    pub first: usize,
    /// How many records it has.
    pub records: usize,
    /// Whether the decoder starts anew before it.
    pub reset_before: bool,
}

impl Qp7Row {
    /// A segment's words of the table.
    #[must_use]
    pub fn from_words(words: [u32; QP7_WORDS]) -> Qp7Row {
        let [first, records, reset] = words;
        Qp7Row { first: first as usize, records: records as usize, reset_before: reset != 0 }
    }
}

/// A QP7 file by its places: its records' bytes stay in the file, where [`frames::record`] finds them.
#[derive(Debug, Clone, PartialEq, Eq)]
pub struct Qp7Table {
    /// All records.
    pub records: Vec<StreamPlace>,
    /// The segments that they make.
    pub rows: Vec<Qp7Row>,
}

/// All records and segments of a QP7 file. Refusals 1, 2, 3, 11, 4, 5.
pub fn demux_ds2_qp7(data: &[u8]) -> Result<Qp7Table> {
    let (mut records, mut segments) = (Vec::new(), Vec::new());
    // Records are asked for first, and then, with room for them, segments.
    if let Err(Refusal { number: Refusal::ROOM, beside, .. }) = demux_ds2_qp7_into(data, &mut records, &mut segments) {
        records.resize(beside as usize, 0);
    }
    if let Err(Refusal { number: Refusal::TABLE, beside, .. }) = demux_ds2_qp7_into(data, &mut records, &mut segments) {
        segments.resize(QP7_WORDS * beside as usize, 0);
    }
    demux_ds2_qp7_into(data, &mut records, &mut segments)?;
    Ok(Qp7Table {
        records: records.iter().map(|&place| StreamPlace(place as usize)).collect(),
        rows: segments.chunks_exact(QP7_WORDS).map(|row| Qp7Row::from_words([row[0], row[1], row[2]])).collect(),
    })
}

/// All records of a QP7 file into lent words, a place in the payload stream each, and all segments, [`QP7_WORDS`] each
/// ([`Qp7Row::from_words`]): how many records, and how many segments. Refusals 1, 2, 3, 11, 4, 5, 8, 9.
pub fn demux_ds2_qp7_into(data: &[u8], records: &mut [u32], segments: &mut [u32]) -> Result<(usize, usize)> {
    raw::demux_ds2_qp7(data, records, segments)
}

/// A DS2 SP recording in pieces, in dss-codec's form.
pub struct Ds2SpStreamDemuxer {
    fed: Fed,
}

impl Ds2SpStreamDemuxer {
    /// For recordings with first byte 1 or 3 and a type below 6; it looks at neither.
    #[allow(clippy::new_without_default)] // dss-codec has none
    #[must_use]
    pub fn new() -> Self {
        Self { fed: Fed::open(Reader::DS2).expect("kind 0 opens") }
    }

    /// Takes a piece; the packets that it completes. Refusals 6, 2, 7. After a 7 the recording is to be read whole, which this does not do
    /// by itself.
    pub fn push(&mut self, data: &[u8]) -> Result<Vec<Vec<u8>>> {
        self.fed.push(data)
    }

    /// Ends a recording that ends with a whole block and owes nothing, with no packets: what that says of it is
    /// the rule of [`end`](crate::Reader::end). Refusals 6, 3, 13, 14.
    pub fn finish(&mut self) -> Result<Vec<Vec<u8>>> {
        self.fed.finish()
    }

    /// Ends a recording, with every packet that is owed. Refusal 3.
    pub fn finish_lenient(&mut self) -> Result<Vec<Vec<u8>>> {
        self.fed.finish_lenient()
    }

    /// How many bytes of its read came from the file, for each packet of the last answer: beyond dss-codec.
    #[must_use]
    pub fn counts(&self) -> &[u8] {
        self.fed.counts()
    }

    /// How many frames the whole blocks so far have announced that are not handed out: beyond dss-codec.
    #[must_use]
    pub fn owed(&self) -> usize {
        self.fed.owed()
    }
}

/// A QP or QP7 recording in pieces, in dss-codec's form: it keeps the bytes, and reads them whole at the end.
pub struct Ds2QpStreamDemuxer {
    data: Vec<u8>,
}

impl Ds2QpStreamDemuxer {
    /// With no bytes yet.
    #[allow(clippy::new_without_default)] // dss-codec has none
    #[must_use]
    pub fn new() -> Self {
        Self { data: Vec::new() }
    }

    /// Keeps a piece; no frames come before the end. Refusal 2, and what was there is kept.
    pub fn push(&mut self, data: &[u8]) -> Result<Vec<Vec<u8>>> {
        if data.len() > LIMIT - self.data.len() {
            return Err(Refusal::by(Refusal::LIMIT, LIMIT as u64));
        }
        self.data.extend_from_slice(data);
        Ok(Vec::new())
    }

    /// The same as [`finish_lenient`](Ds2QpStreamDemuxer::finish_lenient).
    pub fn finish(&mut self) -> Result<Vec<Vec<u8>>> {
        self.finish_lenient()
    }

    /// All frames or records; a frame that is missing has no entry. Refusals 1, 3, 11 for an SP file, and for QP7 4 and 5.
    pub fn finish_lenient(&mut self) -> Result<Vec<Vec<u8>>> {
        let (file, mut scratch) = (&self.data[..], [0; FRAME]);
        match demux_ds2_qp(file) {
            Ok(table) => {
                let places = table.rows.iter().flat_map(|&row| frames::frames(row));
                places.map(|(place, size)| frames::fetch(file, place, size, &mut scratch).map(<[u8]>::to_vec)).collect()
            }
            Err(Refusal { number: Refusal::TYPE, .. }) => {
                let records = demux_ds2_qp7(file)?.records;
                records.iter().map(|&place| frames::record(file, place, &mut scratch).map(<[u8]>::to_vec)).collect()
            }
            Err(refusal) => Err(refusal),
        }
    }
}
