// A DS2 SP file of packets: its bytes against the model, every refusal by its number and in its order, lent memory that stays as it was, and the
// file read back whole, in pieces and by the tally. It rests on packets made from dice, on the model, and on headers written out by hand.
mod common;

use common::files::{self, Dice};
use common::model::{self, refused};
use klovdrun::demux::{ds2, AudioFormat};
use klovdrun::mux::{ds2_sp_file_size, write_ds2_sp, write_ds2_sp_into};
use klovdrun::{tally, Packets, Reader, Refusal, Tally, BLOCK, DS2_START, LIMIT, PACKET};

const FILES: u64 = 150;
/// The packets of the longest file.
const MOST: usize = 6_470_444;

fn told<T>(answer: Result<T, Refusal>) -> model::Answer<T> {
    answer.map_err(|Refusal { number, beside, size, absent }| [number, beside, size, absent])
}

/// Writes into a room of so many bytes. What is not of the file, all of it after a refusal, has to be as it was.
fn write_in(header: &[u8], packets: &[u8], room: usize) -> model::Answer<Vec<u8>> {
    let mut out = vec![0xA5; room];
    let answer = write_ds2_sp_into(header, packets, &mut out);
    let past = out.split_off(answer.unwrap_or(0));
    assert!(past.iter().all(|&byte| byte == 0xA5));
    told(answer).map(|_| out)
}

/// The bytes of each packet's read: 42 and 40 in turn.
fn read_sizes(packets: usize) -> Vec<u8> {
    (0..packets).map(|number| if number % 2 == 0 { 42 } else { 40 }).collect()
}

/// What all readings have to say of a file of these packets.
fn hold_readings(file: &[u8], packets: &[u8], dice: &mut Dice) {
    let number = packets.len() / PACKET;
    let all = Packets { bytes: packets.to_vec(), counts: read_sizes(number) };
    let bytes = all.counts.iter().map(|&count| usize::from(count)).sum();
    let blocks = (file.len() - DS2_START.0) / BLOCK;
    let expected = Tally { kind: AudioFormat::Ds2Sp, start: DS2_START, blocks, announced: number, handed: number, short: 0, bytes };
    assert_eq!(tally(file), Ok(expected));
    assert!(expected.complete_as_announced(file.len()));
    assert_eq!(ds2::demux_ds2_sp_counted(file), Ok(all.clone()));

    assert_eq!(Reader::kind_of(file), Some(Reader::DS2));
    let (mut reader, mut got) = (Reader::open(Reader::DS2).unwrap(), Packets::default());
    for piece in files::pieces(file, dice) {
        give(&mut reader, piece, &mut got);
    }
    assert_eq!((reader.end(Reader::STRICT, &mut [], &mut []), reader.owed()), (Ok(0), 0));
    assert_eq!(got, all);
}

/// Gives a piece with the room that always suffices, and adds the packets that it brings.
fn give(reader: &mut Reader, piece: &[u8], got: &mut Packets) {
    let room = reader.room(piece.len());
    let (mut out, mut counts) = (vec![0; PACKET * room], vec![0; room]);
    let brought = reader.piece(piece, &mut out, &mut counts).unwrap();
    got.bytes.extend_from_slice(&out[..PACKET * brought]);
    got.counts.extend_from_slice(&counts[..brought]);
}

/// Holds a file of these packets to the model, with rooms that suffice and that do not, and reads it back.
fn hold_file(header: &[u8], packets: &[u8], dice: &mut Dice) {
    let file = model::written(header, packets).unwrap();
    let size = file.len();
    assert_eq!(ds2_sp_file_size(header, packets), Ok(size));
    for more in [0, 1, 511, 512, 5000] {
        assert_eq!(write_in(header, packets, size + more), Ok(file.clone()));
    }
    for room in [0, 1, 1535, size - 512, size - 1] {
        assert_eq!(write_in(header, packets, room), Err(refused(8, size as u64)));
    }
    hold_readings(&file, packets, dice);
    assert_eq!(write_ds2_sp(header, packets), Ok(file));
}

#[test]
fn blocks_and_what_they_announce() {
    let third: &[_] = &[[0x0F, 3, 13], [0x8F, 17, 12], [0x8F, 10, 12]];
    let by_hand: [(usize, &[[u8; 3]]); 8] = [
        (0, &[]),
        (1, &[[0x0F, 3, 1]]),
        (2, &[[0x0F, 3, 2]]),
        (12, &[[0x0F, 3, 12]]),
        // the last one begins in the first block and ends in the second, in which none begins
        (13, &[[0x0F, 3, 13], [0x0F, 0, 0]]),
        (14, &[[0x0F, 3, 13], [0x8F, 17, 1]]),
        // the last one ends with the third block
        (37, third),
        (38, &[third[0], third[1], third[2], [0x8F, 3, 1]]),
    ];
    for (number, heads) in by_hand {
        let dice = &mut Dice::new(number as u64);
        let (header, packets) = (files::ds2_header(1, dice), files::packets(number, dice));
        let file = write_ds2_sp(&header, &packets).unwrap();
        assert_eq!((file.len(), &file[..1536]), (1536 + 512 * heads.len(), &header[..]));
        for (block, &[flags, first, count]) in file[1536..].chunks(512).zip(heads) {
            assert_eq!(block[..6], [flags, first, count, 0xFF, 0, 0xFF], "of {number}");
        }
        hold_file(&header, &packets, dice);
    }
    let dice = &mut Dice::new(506);
    let (header, packets) = (files::ds2_header(3, dice), files::packets(506, dice));
    assert_eq!(ds2_sp_file_size(&header, &packets), Ok(1536 + 512 * 41));
    hold_file(&header, &packets, dice);
}

#[test]
fn the_bytes_of_two_reads() {
    let mut packets: Vec<u8> = (1..=84).collect();
    packets[40] = 0;
    packets[82] = 0;
    let file = write_ds2_sp(&files::ds2_header(1, &mut Dice::new(1)), &packets).unwrap();
    let (first, rest) = file[1542..].split_at(42);
    // the second packet's byte 1 stands in the first one's read
    assert_eq!((&first[..40], &first[40..]), (&packets[..40], &[44, 42][..]));
    assert_eq!((&rest[..6], &rest[36..40]), (&[46, 43, 48, 45, 50, 47][..], &[82, 79, 84, 81][..]));
    assert!(rest[40..].iter().all(|&byte| byte == 0));
}

#[test]
fn packets_from_dice() {
    for seed in 0..FILES {
        let dice = &mut Dice::new(seed);
        let header = files::ds2_header(dice.pick(&[1, 3]), dice);
        let most = dice.pick(&[3, 30, 30, 120, 600]);
        let number = dice.below(most);
        hold_file(&header, &files::packets(number, dice), dice);
    }
}

#[test]
fn packets_of_every_reading() {
    let (mut written, mut short) = (0, 0);
    for seed in 0..FILES {
        let dice = &mut Dice::new(seed);
        let file = if seed % 2 == 0 { files::dss(dice) } else { files::ds2_sp(dice) };
        let read = if seed % 2 == 0 { klovdrun::demux::dss::demux_dss_counted(&file) } else { ds2::demux_ds2_sp_counted(&file) };
        if let Ok(packets) = read {
            let header = files::ds2_header(3, dice);
            let again = write_ds2_sp(&header, &packets.bytes).unwrap();
            // zeros that nobody recorded are bytes of the file now
            hold_readings(&again, &packets.bytes, dice);
            written += 1;
            short += tally(&file).unwrap().short;
        }
    }
    assert!(written > 100 && short > 100, "{written} written, {short} short");
}

#[test]
fn fifteen_the_header() {
    let dice = &mut Dice::new(15);
    let (good, packets) = (files::ds2_header(1, dice), files::packets(13, dice));
    for length in [0, 1, 3, 4, 512, 1024, 1535, 1537, 2048, 4096] {
        let mut header = good.clone();
        header.resize(length, 0);
        for room in [0, 9999] {
            assert_eq!(write_in(&header, &packets, room), Err(refused(15, 0)));
        }
    }
    for first in 0..=255 {
        for rest in [b"ds2", b"dss", b"enc", b"DS2", b"ds3", b"xs2", b"dx2"] {
            let mut header = good.clone();
            header[0] = first;
            header[1..4].copy_from_slice(rest);
            let taken = rest == b"ds2" && (first == 1 || first == 3);
            let answer = write_in(&header, &packets, 2560);
            assert_eq!(answer.map(|file| file[..1536] == header[..]), if taken { Ok(true) } else { Err(refused(15, 0)) });
        }
    }
}

#[test]
fn sixteen_a_packet() {
    let dice = &mut Dice::new(16);
    let (header, packets) = (files::ds2_header(3, dice), files::packets(14, dice));
    for length in 0..=packets.len() {
        let expected = model::written(&header, &packets[..length]);
        assert_eq!(expected.is_err(), length % 42 > 0);
        assert_eq!(write_in(&header, &packets[..length], 9999), expected);
    }
    for place in 0..packets.len() {
        let mut changed = packets.clone();
        changed[place] = dice.pick(&[1, 2, 0x80, 0xFF]);
        let answer = write_in(&header, &changed, 9999);
        assert_eq!(answer.err(), if place % 42 == 40 { Some(refused(16, place as u64 / 42)) } else { None });
    }
    // the first of them is told, and a cut one is the last
    let mut changed = packets;
    changed[42 * 9 + 40] = 7;
    assert_eq!(write_in(&header, &changed[..42 * 13 + 1], 0), Err(refused(16, 9)));
    changed[42 * 4 + 40] = 7;
    assert_eq!(write_in(&header, &changed[..42 * 13 + 41], 9999), Err(refused(16, 4)));
    assert_eq!(write_in(&header, &changed[..42 * 4 + 41], 9999), Err(refused(16, 4)));
    assert_eq!(write_in(&header, &changed[..42 * 3 + 41], 9999), Err(refused(16, 3)));
}

#[test]
fn what_holds_first_is_told() {
    let dice = &mut Dice::new(1);
    let (header, mut packets) = (files::ds2_header(7, dice), files::packets(3, dice));
    packets[82] = 1;
    assert_eq!(write_in(&header, &packets, 0), Err(refused(15, 0)));
    assert_eq!(write_in(&files::ds2_header(1, dice), &packets, 0), Err(refused(16, 1)));
    packets[82] = 0;
    assert_eq!(write_in(&files::ds2_header(1, dice), &packets, 0), Err(refused(8, 2048)));
    assert_eq!(told(write_ds2_sp(&header, &[])), Err(refused(15, 0)));
    assert_eq!(told(ds2_sp_file_size(&header, &[])), Err(refused(15, 0)));
}

/// Sets one of many packets, that were zeros.
fn set(packets: &mut [u8], number: usize, dice: &mut Dice) {
    packets[PACKET * number..PACKET * (number + 1)].copy_from_slice(&files::packets(1, dice));
}

#[test]
fn seventeen_and_the_longest_file() {
    let dice = &mut Dice::new(17);
    let mut header = files::ds2_header(1, dice);
    let mut packets = vec![0; PACKET * (MOST + 1)];
    let limit = LIMIT as u64;
    for room in [0, 4096] {
        assert_eq!(write_in(&header, &packets, room), Err(refused(17, limit)));
    }
    assert_eq!(told(ds2_sp_file_size(&header, &packets)), Err(refused(17, limit)));
    // what comes before it
    assert_eq!(write_in(&header, &packets[..PACKET * (MOST + 1) - 1], 4096), Err(refused(16, MOST as u64)));
    packets[PACKET * MOST + 40] = 1;
    assert_eq!(write_in(&header, &packets, 4096), Err(refused(16, MOST as u64)));
    header[0] = 7;
    assert_eq!(write_in(&header, &packets, 4096), Err(refused(15, 0)));

    header[0] = 3;
    packets.truncate(PACKET * MOST);
    let some = [0, 1, 12, 13, MOST / 2, MOST / 2 + 1, MOST - 2, MOST - 1];
    some.iter().for_each(|&number| set(&mut packets, number, dice));
    assert_eq!(ds2_sp_file_size(&header, &packets), Ok(LIMIT));
    let mut out = vec![0; LIMIT];
    assert_eq!(told(write_ds2_sp_into(&header, &packets, &mut out[..LIMIT - 1])), Err(refused(8, limit)));
    assert!(out[..4096].iter().chain(&out[LIMIT - 4096..]).all(|&byte| byte == 0));
    assert_eq!(write_ds2_sp_into(&header, &packets, &mut out), Ok(LIMIT));
    let told = tally(&out).unwrap();
    assert_eq!((told.announced, told.handed, told.short, told.blocks), (MOST, MOST, 0, 524_285));
    assert!(told.complete_as_announced(LIMIT));
    hold_longest(&out, &packets);
    for number in some {
        let (packet, count) = ds2::ds2_sp_packet(&out, number).unwrap();
        assert_eq!((&packet[..], count), (&packets[PACKET * number..PACKET * (number + 1)], read_sizes(2)[number % 2]));
    }
}

/// Reads a long file in large pieces, and holds what each brings to the packets that it was made of.
fn hold_longest(file: &[u8], mut packets: &[u8]) {
    let mut reader = Reader::open(Reader::DS2).unwrap();
    let (mut out, mut counts) = (vec![0; PACKET << 16], vec![0; 1 << 16]);
    for piece in file.chunks(1 << 20) {
        let brought = reader.piece(piece, &mut out, &mut counts).unwrap();
        let (now, later) = packets.split_at(PACKET * brought);
        assert!(now == &out[..now.len()]);
        packets = later;
    }
    assert_eq!((packets.len(), reader.end(Reader::STRICT, &mut [], &mut [])), (0, Ok(0)));
}
