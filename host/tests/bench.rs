// The worked examples of docs/FORMAT.md, the listing's file, and recordings in which a carried byte is ours, through the safe calls. It rests on
// their numbers alone, written out by hand.
mod common;

use common::files::file;
use klovdrun::demux::ds2::{self, DemuxedDs2};
use klovdrun::demux::{detect_format, dss, AudioFormat};
use klovdrun::{frames, places, tally, FilePlace, Refusal, StreamPlace, Tally, FRAME};

fn refusal<T>(number: u64, beside: u64) -> Result<T, Refusal> {
    Err(Refusal { number, beside, size: 0, absent: 0 })
}

/// The number of packets, or the refusal.
fn sp_packets(file: &[u8]) -> Result<usize, Refusal> {
    ds2::demux_ds2(file).map(|demuxed| match demuxed {
        DemuxedDs2::Sp { packets, total_frames } if packets.len() == total_frames => total_frames,
        _ => panic!("not SP"),
    })
}

#[test]
fn a_header_and_nothing_after_it_is_an_empty_recording() {
    let file = file(b"\x01ds2", 1536, &[], |_| 0);
    assert_eq!(sp_packets(&file), Ok(0));
    assert_eq!(sp_packets(&file[..1535]), refusal(3, 1536));
}

#[test]
fn qp_blocks_that_go_on_are_one_segment() {
    let row = |start, length, frames, reset_before| ds2::QpRow { start: StreamPlace(start), length, frames, reset_before };
    let head = |first, count| [0x0F, first, count, 0xFF, 6, 0xFF];
    let one = ds2::demux_ds2_qp(&file(b"\x01ds2", 1536, &[head(3, 10), head(30, 2)], |_| 0)).unwrap();
    assert_eq!((one.rows, one.announced), (vec![row(0, 672, 12, false)], 12));
    let two = ds2::demux_ds2_qp(&file(b"\x01ds2", 1536, &[head(3, 9), head(3, 4)], |_| 0)).unwrap();
    assert_eq!((two.rows, two.announced), (vec![row(0, 504, 9, false), row(506, 224, 4, true)], 13));
    let silent = ds2::demux_ds2_qp(&file(b"\x01ds2", 1536, &[head(3, 9), head(3, 0)], |_| 0)).unwrap();
    assert_eq!((silent.rows, silent.announced), (vec![row(0, 504, 9, false)], 9));
}

#[test]
fn first_byte_seven_with_no_good_header_starts_at_4096() {
    let file = file(b"\x07ds2", 4096, &[], |_| 0);
    assert_eq!(sp_packets(&file[..4095]), refusal(3, 4096));
    assert_eq!(sp_packets(&file), Ok(0));
}

#[test]
fn a_swapped_read_and_the_carried_byte() {
    // An unswapped read first, whose byte 40 is 99 and is carried; then the swapped read of 0 to 39.
    let file = file(b"\x01ds2", 1536, &[[0x0F, 3, 2, 0xFF, 0, 0xFF]], |place| match place {
        40 => 99,
        42..=81 => (place - 42) as u8,
        _ => 0,
    });
    let packets = ds2::demux_ds2_sp_counted(&file).unwrap();
    assert_eq!((packets.len(), &packets.counts[..]), (2, &[42, 40][..]));
    let (first, second) = packets.bytes.split_at(42);
    assert_eq!(first[40], 0);
    assert_eq!((&second[..6], &second[38..]), (&[1, 99, 3, 0, 5, 2][..], &[39, 36, 0, 38][..]));
}

#[test]
fn a_qp7_record_that_cannot_be_read() {
    let cut = Refusal { number: 5, beside: 504, size: 56, absent: 54 };
    let none = Refusal { number: 4, beside: 506, size: 0, absent: 2 };
    for (first, expected) in [(3, cut), (4, none)] {
        let file = file(b"\x01ds2", 1536, &[[0x0F, first, 10, 0xFF, 7, 0xFF]], |_| 0xFF);
        assert_eq!(ds2::demux_ds2(&file).err(), Some(expected));
        assert_eq!(tally(&file), Err(expected));
    }
}

#[test]
fn the_last_packet_of_a_block_is_short() {
    let file = file(b"\x01ds2", 1536, &[[0x0F, 3, 13, 0xFF, 0, 0xFF]], |_| 7);
    let counts = ds2::demux_ds2_sp_counted(&file).unwrap().counts;
    assert_eq!(counts, [42, 40, 42, 40, 42, 40, 42, 40, 42, 40, 42, 40, 14]);
    assert_eq!(counts.iter().map(|&count| usize::from(count)).sum::<usize>(), 506);
}

#[test]
fn where_a_dss_block_starts() {
    // With the flag set the read is swapped, and packet byte 3 is the first byte of the read: its place, above 0.
    for (first, start) in [(255, 506), (2, 0), (3, 2)] {
        let file = file(b"\x02dss", 1024, &[[0x8F, first, 1, 0, 0, 0]], |place| (place as u8).wrapping_add(1));
        let packets = dss::demux_dss_counted(&file).unwrap();
        let expected = if start == 506 { (0, 0) } else { (start as u8 + 1, 40) };
        assert_eq!((packets.bytes[3], packets.counts[0]), expected);
    }
}

#[test]
fn packets_whose_carried_byte_is_ours_are_short() {
    let tallied = |file: &[u8]| tally(file).map(|told| (told.announced, told.handed, told.short, told.bytes));
    let head = |flags, count| [flags, 3, count, 0xFF, 0, 0xFF];
    // the first packet is swapped, and there was no read before it
    let ds2 = file(b"\x01ds2", 1536, &[head(0x8F, 12)], |_| 7);
    assert_eq!(tallied(&ds2), Ok((12, 12, 1, 492)));
    let dss = file(b"\x02dss", 1024, &[head(0x8F, 1), head(0x0F, 1), head(0x8F, 1)], |_| 7);
    assert_eq!(tallied(&dss), Ok((3, 3, 1, 122)));
    // the last of the first block's packets lies past the stream's end; the second block's has all 40 bytes of its read
    let cut = file(b"\x02dss", 1024, &[head(0x0F, 255), head(0x8F, 1)], |_| 7);
    assert_eq!(tallied(&cut), Ok((256, 256, 232, 1052)));
    let packets = dss::demux_dss_counted(&cut).unwrap();
    assert_eq!((packets.counts[255], &packets.bytes[42 * 255..][..4]), (40, &[7, 0, 7, 7][..]));
}

#[test]
fn the_listings_file() {
    let file = file(b"\x01ds2", 1536, &[[0x0F, 3, 12, 0xFF, 6, 0xFF]], |place| place as u8);
    let (kind, start) = (AudioFormat::Ds2Qp, FilePlace(1536));
    assert_eq!(tally(&file), Ok(Tally { kind, start, blocks: 1, announced: 12, handed: 10, short: 1, bytes: 506 }));
    assert_eq!(detect_format(&file), Some(AudioFormat::Ds2Qp));
    assert_eq!((AudioFormat::Ds2Qp.native_sample_rate(), AudioFormat::Ds2Qp.extension()), (16000, "ds2"));
    assert_eq!(places::payload_place(&file, 0), Ok(FilePlace(1542)));
    assert_eq!(places::payload(&file, 0), Ok(&file[1542..]));
    let row = ds2::demux_ds2_qp(&file).unwrap().rows[0];
    let all: Vec<_> = frames::frames(row).collect();
    assert_eq!((all.len(), all[9]), (10, (StreamPlace(504), 2)));
    assert_eq!(frames::frame(row.start, row.length, 10), None);
    let mut scratch = [9; FRAME];
    assert_eq!(frames::fetch(&file, StreamPlace(504), 2, &mut scratch), Ok(&file[2046..]));
    assert_eq!(scratch, [9; FRAME]);
}
