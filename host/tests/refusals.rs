// Every refusal by all its numbers; that lent memory is as it was, and that a refused reader goes on as if the call had not been
// made. It rests on the table of refusals in docs/FORMAT.md, and on the model for how much of a record is missing.
mod common;

use common::files::{header, recording, Dice};
use common::model::{self, refused, Refused};
use klovdrun::demux::detect_format;
use klovdrun::demux::ds2::{self, Ds2QpStreamDemuxer, Ds2SpStreamDemuxer};
use klovdrun::demux::dss::{self, DssSpStreamDemuxer};
use klovdrun::index::{build_index, build_index_into, dss_packet, dss_packet_into, find_entry, index_size, read_index, Totals};
use klovdrun::{frames, places, tally, Reader, Refusal, StreamPlace, FRAME, LIMIT, QP7_WORDS, QP_WORDS};
use std::collections::BTreeSet;

/// All numbers of a refusal; zeros where there is none.
fn told<T>(answer: Result<T, Refusal>) -> Refused {
    answer.err().map_or([0; 4], |Refusal { number, beside, size, absent }| [number, beside, size, absent])
}

/// Makes a call with lent bytes and words, and answers its refusal. If it is refused, not one of them may have changed.
fn unwritten<T>(call: impl FnOnce(&mut [u8], &mut [u8], &mut [u32], &mut [u32]) -> Result<T, Refusal>) -> Refused {
    let (mut out, mut counts, mut records, mut segments) = ([0xA5; 420], [0xA5; 10], [0xA5A5; 8], [0xA5A5; 3 * QP_WORDS]);
    let refusal = told(call(&mut out, &mut counts, &mut records, &mut segments));
    let bytes = out.iter().chain(&counts).all(|&byte| byte == 0xA5);
    let words = records.iter().chain(&segments).all(|&word| word == 0xA5A5);
    assert!(refusal[0] == 0 || bytes && words);
    refusal
}

/// What the whole calls answer of a file: DSS; SP, QP and QP7 of DS2; fetch and show, a payload, the tally, and a packet that no file has; an index
/// in too little room, reading an index that none is, and by it an entry and a packet that no file has.
fn whole(file: &[u8]) -> [Refused; 13] {
    [
        unwritten(|out, counts, _, _| dss::demux_dss_into(file, out, counts)),
        unwritten(|out, counts, _, _| ds2::demux_ds2_sp_into(file, out, counts)),
        unwritten(|_, _, _, table| ds2::demux_ds2_qp_into(file, table)),
        unwritten(|_, _, records, segments| ds2::demux_ds2_qp7_into(file, records, segments)),
        unwritten(|scratch, _, _, _| frames::fetch(file, StreamPlace(0), 0, scratch).map(|_| ())),
        unwritten(|scratch, _, _, _| frames::show(file, StreamPlace(0), 0, scratch).map(|_| ())),
        told(places::payload(file, 999)),
        told(tally(file)),
        unwritten(|out, counts, _, _| ds2::ds2_sp_packet_into(file, usize::MAX, out, counts)),
        unwritten(|out, _, _, _| build_index_into(file, &mut out[..4])),
        told(read_index(file, b"")),
        told(find_entry(file, b"", usize::MAX)),
        unwritten(|out, counts, _, _| dss_packet_into(file, b"", usize::MAX, out, counts)),
    ]
}

/// Magic and zeros.
fn zeros(magic: &[u8; 4], length: usize) -> Vec<u8> {
    let mut file = vec![0; length];
    file[..4].copy_from_slice(magic);
    file
}

fn blocks(magic: &[u8; 4], start: usize, headers: &[[u8; 6]]) -> Vec<u8> {
    recording(magic, start, headers, &mut Dice::new(1))
}

/// Makes a call that is refused, and answers the refusal. The reader and a copy made before are then fed and ended alike, and must
/// answer the same.
fn unmoved(reader: &mut Reader, call: impl FnOnce(&mut Reader, &mut [u8], &mut [u8]) -> Result<usize, Refusal>) -> Refused {
    let twin = reader.clone();
    let refusal = unwritten(|out, counts, _, _| call(reader, out, counts));
    assert_ne!(refusal[0], 0);
    assert_eq!(reader.owed(), twin.owed());
    assert_eq!(later(reader.clone()), later(twin));
    refusal
}

/// An answer with the frames owed, packets and counts.
type Told = (Result<usize, Refusal>, usize, Vec<u8>, Vec<u8>);

/// All that a reader answers when it is given more bytes and ended, strictly and leniently.
fn later(mut reader: Reader) -> Vec<Told> {
    let more = blocks(b"\x00\x00\x02\x00", 4, &[header(0x8F, 9, 3, 1), header(0x0F, 200, 40, 1)]);
    let mut answers = Vec::new();
    for step in 1..6 {
        let (mut out, mut counts) = (vec![0; 42 * 300], vec![0; 300]);
        let answer = match step {
            1 | 2 => reader.piece(&more[..500 * step], &mut out, &mut counts),
            3 => strictly(&mut reader, &mut out, &mut counts),
            4 => leniently(&mut reader, &mut out[..420], &mut counts),
            _ => leniently(&mut reader, &mut out, &mut counts),
        };
        answers.push((answer, reader.owed(), out, counts));
    }
    answers
}

fn strictly(reader: &mut Reader, out: &mut [u8], counts: &mut [u8]) -> Result<usize, Refusal> {
    reader.end(Reader::STRICT, out, counts)
}

fn leniently(reader: &mut Reader, out: &mut [u8], counts: &mut [u8]) -> Result<usize, Refusal> {
    reader.end(Reader::LENIENT, out, counts)
}

/// A reader of that kind that has had these bytes.
fn fed(kind: u64, bytes: &[u8]) -> Reader {
    let mut reader = Reader::open(kind).unwrap();
    reader.piece(bytes, &mut [0; 42 * 300], &mut [0; 300]).unwrap();
    reader
}

#[test]
fn one_not_a_magic_of_the_call() {
    for file in [&b""[..], b"\x01ds", b"\x02ds", b"\x06dss", b"\x02ds2", b"\x03enc", &zeros(b"RIFF", 5000)] {
        assert_eq!(whole(file), [refused(1, 0); 13]);
        assert_eq!(told(dss::demux_dss(file)), refused(1, 0));
        assert_eq!(told(ds2::demux_ds2(file)), refused(1, 0));
    }
    let dss = whole(&zeros(b"\x02dss", 2048));
    assert_eq!((&dss[1..6], dss[8]), (&[refused(1, 0); 5][..], refused(1, 0)));
    let ds2 = whole(&zeros(b"\x03ds2", 2048));
    assert_eq!((ds2[0], &ds2[9..]), (refused(1, 0), &[refused(1, 0); 4][..]));
    assert_eq!(told(Ds2QpStreamDemuxer::new().finish()), refused(1, 0));
}

/// Of the encrypted recorders: not named, whatever the length and the byte at 0x604, and taken by no call that reads a file whole.
#[test]
fn one_encrypted() {
    for kind in [0, 6, 7, 255] {
        let file = blocks(b"\x03enc", 1536, &[header(0x0F, 3, 2, kind), header(0x0F, 3, 0, kind)]);
        for length in 4..=file.len() {
            assert_eq!(detect_format(&file[..length]), None, "{length} bytes, type {kind}");
            assert_eq!(whole(&file[..length]), [refused(1, 0); 13], "{length} bytes, type {kind}");
        }
    }
    let long = zeros(b"\x03enc", LIMIT + 1);
    assert_eq!((detect_format(&long), whole(&long)), (None, [refused(1, 0); 13]));
}

#[test]
fn two_over_the_limit() {
    const OVER: Refused = refused(2, 268_435_456);
    const OTHER: Refused = refused(1, 0);
    let mut file = zeros(b"\x02dss", LIMIT + 1);
    assert_eq!(whole(&file), [OVER, OTHER, OTHER, OTHER, OTHER, OTHER, OVER, OVER, OTHER, OVER, OVER, OVER, OVER]);
    file[..4].copy_from_slice(b"\x01ds2");
    assert_eq!(whole(&file), [OTHER, OVER, OVER, OVER, OVER, OVER, OVER, OVER, OVER, OTHER, OTHER, OTHER, OTHER]);
    assert_eq!(unmoved(&mut fed(0, &[]), |reader, out, counts| reader.piece(&file, out, counts)), OVER);
    let mut reader = fed(3, &file[..2000]);
    assert_eq!(unmoved(&mut reader, |reader, out, counts| reader.piece(&file[..LIMIT - 1999], out, counts)), OVER);
    let qp = blocks(b"\x01ds2", 1536, &[header(0x0F, 3, 2, 6)]);
    let mut demuxer = Ds2QpStreamDemuxer::new();
    demuxer.push(&qp).unwrap();
    assert_eq!(told(demuxer.push(&file[..LIMIT - qp.len() + 1])), OVER);
    assert_eq!(demuxer.finish(), Ok(vec![qp[1542..1598].to_vec(), qp[1598..1654].to_vec()]));
}

#[test]
fn three_inside_the_header() {
    for (magic, start) in [(b"\x02dss", 1024), (b"\x03dss", 1536), (b"\x01ds2", 1536), (b"\x03ds2", 1536), (b"\x07ds2", 4096)] {
        let answers = whole(&zeros(magic, start - 1));
        let cut = refused(3, start as u64);
        assert!(answers.iter().all(|&answer| answer == cut || answer == refused(1, 0)));
        assert_eq!((answers[6], answers[7], answers[8]), (cut, cut, answers[1]));
        assert_eq!(answers[9..], [answers[0]; 4]);
        assert_eq!(answers[if magic[3] == b's' { 0 } else { 3 }], cut);
        assert_eq!(tally(&zeros(magic, start)).map(|tally| tally.blocks), Ok(0));
    }
    for (kind, start) in [(0, 1536), (2, 1024), (3, 1536)] {
        for length in [1, start - 1] {
            let mut reader = fed(kind, &vec![0; length]);
            assert_eq!(unmoved(&mut reader, strictly), refused(3, start as u64));
            assert_eq!(unmoved(&mut reader, leniently), refused(3, start as u64));
        }
        assert_eq!(strictly(&mut fed(kind, &[]), &mut [], &mut []), Ok(0));
    }
}

#[test]
fn four_and_five_qp7_records() {
    for (first, refusal) in [(3, [5, 504, 56, 54]), (4, [4, 506, 0, 2])] {
        let mut file = blocks(b"\x01ds2", 1536, &[header(0x0F, first, 10, 7)]);
        file[1542..].fill(0xFF);
        assert_eq!(whole(&file)[3], refusal);
        assert_eq!(whole(&file)[7], refusal);
        assert_eq!(told(ds2::demux_ds2(&file)), refusal);
        let mut demuxer = Ds2QpStreamDemuxer::new();
        demuxer.push(&file).unwrap();
        assert_eq!(told(demuxer.finish_lenient()), refusal);
    }
}

/// What a refusal of a record of that size says fits the stream's end; every number in it is even but its own.
fn hold_missing([number, place, size, absent]: Refused, record: u64, end: u64) {
    match number {
        4 => assert_eq!((place, size, absent), (end, 0, 2)),
        5 => assert_eq!((place + size, size), (end + absent, record)),
        _ => panic!("refused by {number}"),
    }
    assert!(absent >= 2 && absent % 2 == 0 && place % 2 == 0, "{absent} at {place}");
}

#[test]
fn four_and_five_how_much_is_missing() {
    let mut seen = BTreeSet::new();
    // one block or two alike, all of whose records are short, or long, with every byte 1 and every count
    for (number, second, record) in [(1, 0x7F, 12), (1, 0xFF, 56), (2, 0x7F, 12), (2, 0xFF, 56)] {
        let mut file = blocks(b"\x01ds2", 1536, &vec![header(0x0F, 0, 0, 7); number]);
        file[1536..].chunks_mut(512).for_each(|block| block[6..].fill(second));
        for (first, count) in (0..=255).flat_map(|first| (1..=255).map(move |count| (first, count))) {
            file[1536..].chunks_mut(512).for_each(|block| block[1..3].copy_from_slice(&[first, count]));
            let expected = model::qp7(&file, 1536).err().unwrap_or([0; 4]);
            assert_eq!(told(tally(&file)), expected, "{number} blocks of {count} records from {first} on");
            if expected != [0; 4] {
                // no room is looked at before
                assert_eq!(told(ds2::demux_ds2_qp7_into(&file, &mut [], &mut [])), expected);
                hold_missing(expected, record, 506 * number as u64);
                seen.insert((expected[0], expected[2], expected[3]));
            }
        }
    }
    // nothing of a record is there; all but 2 to 10 bytes of a short one; all but 2 to 54 of a long one
    assert_eq!(seen.len(), 1 + 5 + 27, "{seen:?}");
}

#[test]
fn six_after_the_end_or_while_draining() {
    let file = blocks(b"\x01ds2", 1536, &[header(0x0F, 3, 20, 0)]);
    let mut draining = fed(0, &file);
    assert_eq!(draining.owed(), 8);
    assert_eq!(leniently(&mut draining, &mut [0; 42], &mut [0]), Ok(1));
    for piece in [&b""[..], b"more", &file] {
        assert_eq!(unmoved(&mut draining, |reader, out, counts| reader.piece(piece, out, counts)), refused(6, 0));
    }
    assert_eq!(unmoved(&mut draining, strictly), refused(6, 0));
    assert_eq!(leniently(&mut draining, &mut [0; 420], &mut [0; 10]), Ok(7));
    let mut ended = fed(2, &[]);
    strictly(&mut ended, &mut [], &mut []).unwrap();
    for mut reader in [draining, ended] {
        assert_eq!(unmoved(&mut reader, |reader, out, counts| reader.piece(b"", out, counts)), refused(6, 0));
        assert_eq!((strictly(&mut reader, &mut [], &mut []), leniently(&mut reader, &mut [], &mut [])), (Ok(0), Ok(0)));
    }
}

#[test]
fn seven_the_hold_is_full() {
    let file = blocks(b"\x01ds2", 1536, &[header(0x0F, 3, 0, 0); 25]);
    let mut reader = fed(0, &file[..file.len() - 1]);
    assert_eq!(unmoved(&mut reader, |reader, out, counts| reader.piece(&file[file.len() - 1..], out, counts)), refused(7, 12288));
    assert_eq!(unmoved(&mut fed(0, &[]), |reader, out, counts| reader.piece(&file, out, counts)), refused(7, 12288));
    let mut demuxer = Ds2SpStreamDemuxer::new();
    assert_eq!(told(demuxer.push(&file)), refused(7, 12288));
    assert_eq!(demuxer.push(&file[..2048]), Ok(Vec::new()));
}

#[test]
fn eight_too_little_room() {
    let heads = [header(0x0F, 3, 11, 0), header(0x8F, 3, 2, 0)];
    let (dss, sp) = (blocks(b"\x02dss", 1024, &heads), blocks(b"\x01ds2", 1536, &heads));
    assert_eq!((whole(&dss)[0], whole(&sp)[1]), (refused(8, 13), refused(8, 13)));
    let (mut out, mut counts) = ([0xA5; 42 * 13], [0xA5; 13]);
    assert_eq!(told(dss::demux_dss_into(&dss, &mut out[1..], &mut counts)), refused(8, 13));
    assert_eq!(told(ds2::demux_ds2_sp_into(&sp, &mut out, &mut counts[1..])), refused(8, 13));
    assert!(out.iter().chain(&counts).all(|&byte| byte == 0xA5));
    assert_eq!(told(ds2::ds2_sp_packet_into(&sp, 12, &mut out[..41], &mut counts)), refused(8, 1));
    assert_eq!(told(ds2::ds2_sp_packet_into(&sp, 12, &mut out, &mut [])), refused(8, 1));
    assert!(out.iter().chain(&counts).all(|&byte| byte == 0xA5));
    assert_eq!(ds2::ds2_sp_packet_into(&sp, 12, &mut out[..42], &mut counts[..1]), Ok(1));
    assert_eq!(ds2::demux_ds2_sp_into(&sp, &mut out, &mut counts), Ok(13));
    let (index, mut lent) = (build_index(&dss).unwrap(), [0xA5; 30]);
    assert_eq!((whole(&dss)[9], told(build_index_into(&dss, &mut lent[..28]))), (refused(8, 29), refused(8, 29)));
    assert_eq!(told(dss_packet_into(&dss, &index, 12, &mut lent, &mut [0])), refused(8, 1));
    assert_eq!(told(dss_packet_into(&dss, &index, 12, &mut out[..42], &mut [])), refused(8, 1));
    assert!(lent.iter().all(|&byte| byte == 0xA5));
    assert_eq!((build_index_into(&dss, &mut lent).map(|built| built.entries), lent[29]), (Ok(2), 0xA5));
    assert_eq!(dss_packet_into(&dss, &index, 12, &mut out[..42], &mut counts[..1]), Ok(1));
    for (kind, file, needed) in [(0, &sp, 13), (2, &dss, 13)] {
        let answer = unmoved(&mut fed(kind, &file[..700]), |reader, out, counts| reader.piece(&file[700..], out, counts));
        assert_eq!(answer, refused(8, needed));
    }
    let qp7 = blocks(b"\x01ds2", 1536, &[header(0x0F, 3, 9, 7)]);
    assert_eq!(whole(&qp7)[3], refused(8, 9));
}

#[test]
fn nine_too_small_a_table() {
    let heads = |kind| [header(0x0F, 3, 1, kind), header(0x0F, 9, 0, kind), header(0x0F, 3, 1, kind), header(0x0F, 3, 0, kind)];
    let qp = blocks(b"\x01ds2", 1536, &heads(6).repeat(2));
    assert_eq!(whole(&qp)[2], refused(9, 4));
    let qp7 = blocks(b"\x01ds2", 1536, &heads(7));
    let mut segments = [0xA5; 2 * QP7_WORDS - 1];
    assert_eq!(told(ds2::demux_ds2_qp7_into(&qp7, &mut [0; 2], &mut segments)), refused(9, 2));
    assert!(segments.iter().all(|&word| word == 0xA5));
    assert_eq!(ds2::demux_ds2_qp7_into(&qp7, &mut [0; 2], &mut [0; 2 * QP7_WORDS]), Ok((2, 2)));
}

#[test]
fn ten_no_such_kind() {
    for kind in [1, 4, 7, 255, 256, 1 << 32, u64::MAX] {
        assert_eq!(told(Reader::open(kind)), refused(10, kind));
    }
    for version in [0, 1, 4, 255] {
        let mut demuxer = DssSpStreamDemuxer::new(version);
        for _ in 0..2 {
            assert_eq!(told(demuxer.push(b"\x02dss")), refused(10, u64::from(version)));
            assert_eq!(told(demuxer.finish()), refused(10, u64::from(version)));
            assert_eq!(told(demuxer.finish_lenient()), refused(10, u64::from(version)));
        }
    }
}

#[test]
fn eleven_another_kind_of_ds2() {
    for (kind, refusing) in [(3, &[2, 3][..]), (6, &[1, 3, 8]), (7, &[1, 2, 8]), (255, &[1, 3, 8])] {
        let file = blocks(b"\x01ds2", 1536, &[header(0x0F, 3, 0, 9), header(0x0F, 3, 1, kind)]);
        for &call in refusing {
            assert_eq!(whole(&file)[call], refused(11, u64::from(kind)));
        }
        let mut demuxer = Ds2QpStreamDemuxer::new();
        demuxer.push(&file).unwrap();
        assert_eq!(told(demuxer.finish()), if kind == 3 { refused(11, 3) } else { [0; 4] });
    }
}

#[test]
fn twelve_no_such_part() {
    let file = blocks(b"\x01ds2", 1536, &[header(0x0F, 3, 9, 6); 2]);
    let past = [(957, 56, 56), (1012, 1, 56), (usize::MAX, 2, 56)];
    for (place, size, room) in [(0, 0, 56), (0, 57, 99), (480, 56, 55), (0, 1, 0)].into_iter().chain(past) {
        let place = StreamPlace(place);
        assert_eq!(unwritten(|scratch, _, _, _| frames::fetch(&file, place, size, &mut scratch[..room]).map(|_| ())), refused(12, 0));
        assert_eq!(told(frames::show(&file, place, size, &[0; 99][..room])), refused(12, 0));
    }
    assert_eq!(frames::fetch(&file, StreamPlace(956), 56, &mut [0; FRAME]).map(<[u8]>::len), Ok(56));
    assert_eq!((told(places::payload(&file, 2)), told(places::payload(&file, usize::MAX))), (refused(12, 0), refused(12, 0)));
    assert_eq!(told(places::payload(&blocks(b"\x03dss", 1536, &[]), 0)), refused(12, 0));
    assert_eq!(places::payload(&file, 1), Ok(&file[2054..]));
}

#[test]
fn thirteen_and_fourteen_the_strict_end() {
    let heads = [header(0x8F, 2, 20, 0), header(0x0F, 3, 4, 0)];
    for (kind, start, magic, owed) in [(0, 1536, b"\x01ds2", 8), (3, 1536, b"\x03dss", 20), (2, 1024, b"\x02dss", 20)] {
        let file = blocks(magic, start, &heads);
        for (after, refusal) in [(513, refused(13, 1)), (1023, refused(13, 511)), (512, refused(14, owed)), (7, refused(13, 7))] {
            let mut reader = fed(kind, &file[..start + after]);
            assert_eq!(unmoved(&mut reader, strictly), refusal);
            assert_eq!(reader.owed(), if after >= 512 { owed as usize } else { 0 });
        }
    }
}

#[test]
fn eighteen_no_packet_of_that_number() {
    let sp = blocks(b"\x01ds2", 1536, &[header(0x0F, 3, 11, 0), header(0x8F, 3, 2, 0)]);
    let silent = blocks(b"\x03ds2", 1536, &[header(0x8F, 3, 0, 0); 3]);
    for (file, total) in [(&sp, 13), (&silent, 0), (&zeros(b"\x07ds2", 4096), 0)] {
        assert_eq!(whole(file)[8], refused(18, total as u64));
        // with no room too
        for number in [total, total + 1, 1 << 32, usize::MAX] {
            assert_eq!(told(ds2::ds2_sp_packet_into(file, number, &mut [], &mut [])), refused(18, total as u64));
        }
    }
    assert_eq!((told(ds2::ds2_sp_packet(&sp, 12)), told(ds2::ds2_sp_packet(&sp, 13))), ([0; 4], refused(18, 13)));
}

#[test]
fn eighteen_by_an_index() {
    let (dss, silent) = indexed();
    for (file, total) in [(&dss, 13), (&silent, 0), (&zeros(b"\x02dss", 1024), 0)] {
        let index = build_index(file).unwrap();
        // a reading has no number to refuse
        assert_eq!(read_index(file, &index).map(|totals| totals.packets), Ok(total));
        for number in [total, total + 1, 1 << 32, usize::MAX] {
            assert_eq!(told(find_entry(file, &index, number)), refused(18, total as u64));
            assert_eq!(told(dss_packet(file, &index, number)), refused(18, total as u64));
            // with no room too
            assert_eq!(told(dss_packet_into(file, &index, number, &mut [], &mut [])), refused(18, total as u64));
        }
    }
    let index = build_index(&dss).unwrap();
    assert_eq!((told(find_entry(&dss, &index, 12)), told(dss_packet(&dss, &index, 12))), ([0; 4], [0; 4]));
}

/// A DSS recording of two announcing blocks around a silent one, with 13 packets, and one of silent blocks alone.
fn indexed() -> (Vec<u8>, Vec<u8>) {
    let silent = header(0x8F, 3, 0, 0);
    (blocks(b"\x02dss", 1024, &[header(0x0F, 3, 11, 0), silent, header(0x8F, 3, 2, 0)]), blocks(b"\x03dss", 1536, &[silent; 3]))
}

/// What the three calls that are lent an index say, asked for a packet that no file has and in no room; all of them the same.
fn lent(file: &[u8], index: &[u8]) -> Refused {
    let refusal = told(read_index(file, index));
    assert_eq!(told(find_entry(file, index, usize::MAX)), refusal);
    assert_eq!(told(dss_packet(file, index, usize::MAX)), refusal);
    assert_eq!(told(dss_packet_into(file, index, usize::MAX, &mut [], &mut [])), refusal);
    assert_eq!(unwritten(|out, counts, _, _| dss_packet_into(file, index, 0, out, counts)), refusal);
    refusal
}

#[test]
fn nineteen_not_an_index() {
    let (dss, silent) = indexed();
    for file in [dss, silent] {
        assert_eq!(whole(&file)[10..], [refused(19, 0); 3]);
        let index = build_index(&file).unwrap();
        let after = index.len() as u32 - 4;
        for length in 0..index.len() {
            assert_eq!(lent(&file, &index[..length]), refused(19, 0));
        }
        for length in [0, after - 1, after + 1, after.swap_bytes(), u32::MAX] {
            assert_eq!(lent(&file, &[&length.to_be_bytes(), &index[4..]].concat()), refused(19, 0));
        }
        // what follows is not looked at, be it of another version too
        for bytes in [&[0; 3][..], &[0; 4], &[0; 5], &[0, 0, 0, 2, 9], &[&index[..], b"\x01"].concat()] {
            assert_eq!(lent(&file, bytes), refused(19, 0));
        }
    }
}

#[test]
fn twenty_another_version() {
    let (dss, silent) = indexed();
    for (file, version) in [dss, silent].iter().flat_map(|file| [0, 2, 3, 128, 255].map(|version| (file, version))) {
        let mut index = build_index(file).unwrap();
        index[4] = version;
        assert_eq!(lent(file, &index), refused(20, u64::from(version)));
        // whatever its entries are
        assert_eq!(lent(file, &[0, 0, 0, 4, version, 9, 9, 9]), refused(20, u64::from(version)));
    }
}

#[test]
fn twenty_one_not_the_entries_of_the_file() {
    let (dss, silent) = indexed();
    let index = build_index(&dss).unwrap();
    assert_eq!((index.len(), read_index(&dss, &index)), (29, Ok(Totals { entries: 2, packets: 13 })));
    // the version and so many bytes of the entries, and others after them
    let made = |kept: usize, others: &[u8]| [&[0, 0, 0, (1 + kept + others.len()) as u8], &index[4..5 + kept], others].concat();
    // absent, cut, one too many, and of that one a part
    for (kept, others, entry) in [(0, 0, 0), (12, 0, 1), (1, 0, 0), (11, 0, 0), (13, 0, 1), (23, 0, 1), (24, 12, 2), (24, 1, 2), (24, 13, 2)] {
        assert_eq!(lent(&dss, &made(kept, &vec![0; others])), refused(21, entry));
    }
    // one that differs in any byte
    for place in 0..24 {
        let mut other = index.clone();
        other[5 + place] ^= 0x10;
        assert_eq!(lent(&dss, &other), refused(21, place as u64 / 12));
    }
    // another recording's
    assert_eq!((lent(&silent, &index), lent(&dss, &build_index(&silent).unwrap())), (refused(21, 0), refused(21, 0)));
    assert_eq!((lent(&dss[..2048], &index), index_size(&dss[..2048])), (refused(21, 1), Ok(17)));
}

#[test]
fn twenty_two_neither_end() {
    let file = blocks(b"\x02dss", 1024, &[header(0x0F, 3, 20, 0)]);
    let mut draining = fed(2, &file);
    assert_eq!(leniently(&mut draining, &mut [0; 42], &mut [0]), Ok(1));
    let mut ended = fed(3, &[]);
    assert_eq!(strictly(&mut ended, &mut [], &mut []), Ok(0));
    // fresh, inside a header, inside a block, with frames owed, draining and ended
    for mut reader in [fed(0, &[]), fed(0, &file[..9]), fed(2, &file[..1500]), fed(2, &file), draining, ended] {
        // small ones, those whose low bytes are an end's, and the largest
        for choice in [2, 3, 255, 256, 257, 1 << 32, (1 << 32) + 1, 1 << 63, u64::MAX] {
            assert_eq!(unmoved(&mut reader, |reader, out, counts| reader.end(choice, out, counts)), refused(22, 0));
        }
    }
}

#[test]
fn a_strict_end_writes_nothing() {
    let file = blocks(b"\x01ds2", 1536, &[header(0x0F, 3, 12, 0)]);
    let (mut out, mut counts) = ([0xA5; 420], [0xA5; 10]);
    let mut reader = fed(0, &file);
    for _ in 0..2 {
        assert_eq!((strictly(&mut reader, &mut out, &mut counts), reader.owed()), (Ok(0), 0));
    }
    assert!(out.iter().chain(&counts).all(|&byte| byte == 0xA5));
}

#[test]
fn every_refusal_has_a_sentence_of_its_own() {
    // those with a number beside them that tells something, those without, and one that there is not
    let (telling, others) = ([2, 3, 4, 5, 7, 8, 9, 10, 11, 13, 14, 16, 17, 18, 20, 21], [1, 6, 12, 15, 19, 22, u64::MAX]);
    let sentence = |number, beside, size, absent| Refusal { number, beside, size, absent }.to_string();
    let sentences: BTreeSet<String> = telling.iter().chain(&others).map(|&number| sentence(number, 0, 0, 0)).collect();
    assert_eq!(sentences.len(), telling.len() + others.len());
    for number in telling {
        let error: Box<dyn std::error::Error> = Box::new(Refusal { number, beside: 98_765, size: 0, absent: 0 });
        assert!(error.to_string().contains("98765"), "{number}");
    }
    // size and absent stand in the sentences of a record, and in no other
    for number in telling.into_iter().chain(others) {
        let told = sentence(number, 0, 43_210, 1_357);
        assert_eq!((told.contains("43210"), told.contains("1357")), (number == 5, number == 4 || number == 5), "{number}");
        assert_eq!(told.contains("not known here"), number == u64::MAX, "{number}");
    }
    assert_eq!(sentence(5, 504, 56, 54), "a record of 56 bytes at place 504 of the payload stream: 54 bytes are missing");
    assert_eq!(sentence(4, 506, 0, 2), "a record should begin at place 506 of the payload stream: 2 of its first 2 bytes are missing");
    assert_eq!(sentence(18, 13, 0, 0), "there is no packet of that number: the recording announces 13");
    assert_eq!(sentence(20, 2, 0, 0), "the index is of version 2, which the call does not read");
    assert_eq!(sentence(21, 7, 0, 0), "the index is not this recording's: its entry 7 differs, is cut, is missing or is one too many");
}
