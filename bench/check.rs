// Whether both sides do the same job: all that they hand out is compared, byte by byte. Nothing is measured here. It rests on the calls that
// are measured.
use crate::demux::ds2::DemuxedDs2;
use crate::files::{file_place, Kind, Recording, BLOCK, PAYLOAD};
use crate::jobs::{Job, Way, Which, STEP};
use crate::original;
use ours::{Room, QP7_WORDS, QP_WORDS};

/// Whether the two agree on this recording, and each unit is there.
pub fn agree(job: Job, recording: &Recording) -> bool {
    match (job.way, job.kind) {
        (Way::Pieces(bytes), _) => pieces(job, bytes, recording),
        (Way::Tally, _) => tally(job, recording),
        (Way::Write, _) => written(job, recording),
        (Way::At(which), _) => at_once(job, which, recording),
        (Way::To(which), _) => walked(job, which, recording),
        (Way::Build, _) => built(job, recording),
        (Way::Read, _) => ours::read_index(&recording.file, &job.room(recording)) == (entries(job, recording).len(), recording.units),
        (Way::Find(which), _) => found(job, which, recording),
        (Way::By(which), _) => by_index(job, which, recording),
        (Way::Whole, Kind::Qp) => qp(job, recording),
        (Way::Whole, Kind::Qp7) => qp7(job, recording),
        (Way::Whole, _) => packets(job, recording),
    }
}

/// The original's packets, joined.
fn original_packets(kind: Kind, file: &[u8]) -> Vec<u8> {
    if kind.is_dss() {
        return original::dss(file).concat();
    }
    match original::ds2(file) {
        DemuxedDs2::Sp { packets, .. } => packets.concat(),
        _ => Vec::new(),
    }
}

fn packets(job: Job, recording: &Recording) -> bool {
    let mut room = job.room(recording);
    let handed = job.by_ours(recording, &mut room);
    handed == recording.units && room.out == original_packets(job.kind, &recording.file)
}

fn pieces(job: Job, bytes: usize, recording: &Recording) -> bool {
    let (mut one, mut other) = (Vec::new(), Vec::new());
    let mut room = job.room(recording);
    ours::pieces(job.kind.reader(), &recording.file, bytes, &mut room, |packets| one.extend_from_slice(packets));
    original::pieces(job.kind, &recording.file, bytes, |packets| other.extend(packets.concat()));
    one == other && one.len() == 42 * recording.units
}

/// One of packets that are joined; it is to be there.
fn packet(joined: &[u8], number: usize) -> &[u8] {
    &joined[42 * number..][..42]
}

/// The packet is the original's of that number, in its whole reading; its read is of 42 or 40 bytes, in turn.
fn at_once(job: Job, which: Which, recording: &Recording) -> bool {
    let number = which.number(recording);
    let mut room = job.room(recording);
    job.by_ours(recording, &mut room) == 1
        && room.out == packet(&original_packets(job.kind, &recording.file), number)
        && usize::from(room.counts[0]) == 42 - 2 * (number % 2)
}

/// Of each block its number, that of its first packet, and where that is read: every block announces something.
fn entries(job: Job, recording: &Recording) -> Vec<[usize; 3]> {
    let mut packets = 0;
    let blocks = recording.file[job.kind.start()..].chunks_exact(BLOCK).enumerate();
    let entries = blocks.map(|(number, block)| {
        let first = packets;
        packets += usize::from(block[2]);
        [number, first, PAYLOAD * number + 2 * usize::from(block[1]) + 2 * usize::from(block[0] >> 7) - 6]
    });
    entries.collect()
}

/// The index has the blocks' entries, after its length and its version.
fn built(job: Job, recording: &Recording) -> bool {
    let (entries, mut room) = (entries(job, recording), job.room(recording));
    let words = entries.iter().flatten().flat_map(|&number| (number as u32).to_be_bytes());
    let version = ((1 + 12 * entries.len()) as u32).to_be_bytes().into_iter().chain([1]);
    job.by_ours(recording, &mut room) == entries.len() && version.chain(words).eq(room.index)
}

/// The entry is the last whose first packet is not behind the one that is looked for.
fn found(job: Job, which: Which, recording: &Recording) -> bool {
    let number = which.number(recording);
    let entry = entries(job, recording).into_iter().filter(|[_, first, _]| *first <= number).last();
    entry == Some(ours::find_entry(&recording.file, number, &job.room(recording)))
}

/// The packet is the original's of that number, in its whole reading, with all the bytes of its read.
fn by_index(job: Job, which: Which, recording: &Recording) -> bool {
    let (number, mut room) = (which.number(recording), job.room(recording));
    let is_swapped = if job.kind == Kind::DssOne { number > 0 } else { number % 2 == 1 };
    job.by_ours(recording, &mut room) == 1
        && room.out == packet(&original_packets(job.kind, &recording.file), number)
        && room.counts[0] == if is_swapped { 40 } else { 42 }
}

/// Both walks come to the packet that the original's whole reading has.
fn walked(job: Job, which: Which, recording: &Recording) -> bool {
    let number = which.number(recording);
    let (mut one, mut other) = (Vec::new(), Vec::new());
    let mut room = job.room(recording);
    ours::walk(job.kind.reader(), &recording.file, STEP, number, &mut room, |packets| one.extend_from_slice(packets));
    original::walk(&recording.file, STEP, number, |packets| other.extend(packets.concat()));
    let all = original_packets(job.kind, &recording.file);
    [one, other].iter().all(|packets| packet(packets, number) == packet(&all, number))
}

fn tally(job: Job, recording: &Recording) -> bool {
    let packets = original_packets(job.kind, &recording.file).len() / 42;
    packets == recording.units && ours::tally(&recording.file) == (packets, 0, packets)
}

/// The file has as many bytes as the recording whose packets it has, and either side reads them back.
fn written(job: Job, recording: &Recording) -> bool {
    let mut room = job.room(recording);
    let bytes = job.by_ours(recording, &mut room);
    let file = &room.file[..bytes];
    let mut back = Room::for_packets(recording.units);
    bytes == recording.file.len()
        && ours::ds2_sp(file, &mut back) == recording.units
        && back.out == room.out
        && original_packets(job.kind, file) == room.out
}

/// All payloads joined.
fn stream(kind: Kind, file: &[u8]) -> Vec<u8> {
    file[kind.start()..].chunks_exact(BLOCK).flat_map(|block| block[6..].iter().copied()).collect()
}

fn qp(job: Job, recording: &Recording) -> bool {
    let mut room = job.room(recording);
    let segments = job.by_ours(recording, &mut room);
    let stream = stream(job.kind, &recording.file);
    let other = match original::ds2(&recording.file) {
        DemuxedDs2::QpSegments { segments, .. } => segments,
        _ => return false,
    };
    segments == other.len()
        && room.first.chunks(QP_WORDS).zip(&other).all(|(row, other)| {
            let [start, length, frames, reset] = [row[0], row[1], row[2], row[3]].map(|word| word as usize);
            stream[start..start + length] == other.stream && frames == other.total_frames && (reset == 1) == other.reset_before
        })
}

fn qp7(job: Job, recording: &Recording) -> bool {
    let mut room = job.room(recording);
    let (records, segments) = ours::ds2_qp7(&recording.file, &mut room);
    let stream = stream(job.kind, &recording.file);
    let other = match original::ds2(&recording.file) {
        DemuxedDs2::Qp7Segments { segments, .. } => segments,
        _ => return false,
    };
    let size = |place| if recording.file[file_place(job.kind.start(), place + 1)] & 0x80 == 0 { 12 } else { 56 };
    let one = room.first[..records].iter().map(|&place| place as usize).map(|place| &stream[place..place + size(place)]);
    let rows = room.second.chunks(QP7_WORDS).take(segments).map(|row| (row[1] as usize, row[2] == 1));
    records == recording.units
        && rows.eq(other.iter().map(|segment| (segment.total_frames, segment.reset_before)))
        && one.eq(other.iter().flat_map(|segment| segment.records.iter().map(|record| &record[..])))
}
