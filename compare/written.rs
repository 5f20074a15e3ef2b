// DS2 SP files that are written. The original writes none: a file is held to the model's, and then read by the original and by ours, whole and
// in pieces, and both give back the packets that it was written from, each with its full count. The other way round, the packets that the
// original reads of a recording are written, and read by it again. It rests on the model, and on what the original makes of the files.
use crate::at_once;
use crate::both::Both;
use crate::common::files::{self, Dice};
use crate::common::model::{self, Answer, Kind, LIMIT};
use crate::differences::Name;
use crate::lent::Lent;
use crate::ours::{self, Reader};
use crate::pieces::Seen;
use crate::raw;
use crate::score::Score;
use crate::whole_sp::Packets;
use original::{AudioFormat, DemuxedDs2, Stream};

const CALL: &str = "write_ds2_sp";
const HEADER: usize = 1536;
/// The longest list whose file is not over the limit: it has exactly as many bytes.
const MOST: usize = 6_470_444;

/// Bytes of the file.
fn needed(packets: usize) -> usize {
    HEADER + 512 * ((41 * packets + packets % 2 + 505) / 506)
}

/// The model's answer in that room. No list that it is given is over the limit.
fn expected(header: &[u8], packets: &[u8], room: usize) -> Answer<Vec<u8>> {
    match model::written(header, packets)? {
        file if file.len() > room => Err(model::refused(8, file.len() as u64)),
        file => Ok(file),
    }
}

/// A call in that room: its numbers, all that it wrote, and that a refused one wrote nothing, are held to the model. Answers what it wrote.
fn ask(header: &[u8], packets: &[u8], room: usize, score: &mut Score) -> Option<Vec<u8>> {
    let mut out = Lent::new(room);
    let numbers = ours::write_ds2_sp(header, packets, out.part());
    let (told, file) = match expected(header, packets, room) {
        Ok(file) => (ours::answered(file.len() as u64, 0), file),
        Err(refusal) => (ours::refused(refusal), Vec::new()),
    };
    score.model(CALL, (told, true), (numbers, out.holds(&file)));
    let bytes = (numbers[2] as usize).min(room);
    (numbers[0] == 0).then(|| out.part()[..bytes].to_vec())
}

pub fn compare(score: &mut Score) {
    let dice = &mut Dice::new(19);
    for count in (0..=600).chain([4_095, 25_000, 25_001]) {
        for (number, filling) in [None, Some(0), Some(0xFF)].into_iter().enumerate() {
            let first = [1, 3][(count + number) % 2];
            score.file(format_args!("{count} packets written, first byte {first}, filled with {filling:?}"));
            let (header, mut packets) = (files::ds2_header(first, dice), files::packets(count, dice));
            if let Some(byte) = filling {
                for packet in packets.chunks_mut(42) {
                    packet.fill(byte);
                    packet[40] = 0;
                }
            }
            there_and_back(&header, &packets, dice, score);
        }
    }
    refused(dice, score);
    longest(dice, score);
}

/// Writes a list, and reads the file in every way.
fn there_and_back(header: &[u8], packets: &[u8], dice: &mut Dice, score: &mut Score) {
    let count = packets.len() / 42;
    let room = needed(count) + dice.pick(&[0, 0, 1, 511]);
    let counts: Vec<u8> = [42, 40].into_iter().cycle().take(count).collect();
    if let Some(file) = ask(header, packets, room, score) {
        // A bare header has no name.
        let name = if count > 0 { Some(AudioFormat::Ds2Sp) } else { None };
        score.original("written: detect_format", original::detect_format(&file), name);
        whole(&file, packets, &counts, score);
        in_pieces(&file, packets, &counts, dice, score);
    }
}

/// The packets that the original reads, joined, and how many it says there are.
fn theirs(file: &[u8]) -> Option<(Vec<u8>, usize)> {
    match original::demux_ds2(file) {
        Ok(DemuxedDs2::Sp { packets, total_frames }) => Some((packets.concat(), total_frames)),
        _ => None,
    }
}

fn whole(file: &[u8], packets: &[u8], counts: &[u8], score: &mut Score) {
    const READ: &str = "written: demux_ds2_sp";
    let (mut out, mut told) = (Lent::new(packets.len()), Lent::new(counts.len()));
    let numbers = ours::demux_ds2_sp(file, out.part(), told.part());
    let seen = (numbers, out.holds(packets), told.holds(counts));
    let all = (ours::answered(counts.len() as u64, 0), true, true);
    if counts.is_empty() {
        score.named(Name::Ds2CutHeader, READ, all, seen);
    } else {
        score.model(READ, all, seen);
        score.original(READ, theirs(file), Some((packets.to_vec(), counts.len())));
    }
    let (blocks, many, bytes) = ((file.len() - HEADER) / 512, counts.len(), counts.iter().map(|&count| usize::from(count)).sum());
    let tally = [1, HEADER, blocks, many, many, 0, bytes].map(|number| number as u64);
    score.model("written: tally", ours::tallied(tally), ours::tally(file));
}

/// After the strict end of either side, which says that nothing is owed, all packets are there.
fn in_pieces(file: &[u8], packets: &[u8], counts: &[u8], dice: &mut Dice, score: &mut Score) {
    const READ: &str = "written: in pieces";
    let (mut theirs, mut their_packets) = (Stream::ds2(), Vec::new());
    let (mut reader, mut our_packets, mut our_counts) = (Reader::open(0).1, Vec::new(), Vec::new());
    // Of a long piece the original's time grows with the square.
    let pieces = if file.len() < 1 << 15 { files::few_pieces(file, dice) } else { file.chunks(8192).collect() };
    for piece in pieces {
        their_packets.extend(theirs.push(piece).unwrap_or_default().concat());
        let most = piece.len() / 40 + 14;
        let mut seen = Seen::of((42 * most, most), |out, counts| reader.piece(piece, out, counts));
        let many = (seen.numbers[2] as usize).min(most);
        our_packets.extend_from_slice(&seen.out.part()[..42 * many]);
        our_counts.extend_from_slice(&seen.counts.part()[..many]);
    }
    score.original(READ, (&their_packets[..], theirs.finish()), (packets, Ok(Vec::new())));
    score.model(READ, (packets, counts, ours::answered(0, 0)), (&our_packets[..], &our_counts[..], reader.end(raw::STRICT, &mut [], &mut [])));
}

/// Headers, lists and rooms with something wrong in some of them, so that the order of refusals shows too.
fn refused(dice: &mut Dice, score: &mut Score) {
    for number in 0..3000 {
        score.file(format_args!("a writing that may be refused, number {number}"));
        let mut header = files::ds2_header(dice.pick(&[1, 3]), dice);
        let mut packets = files::packets(dice.below(40), dice);
        let needed = needed(packets.len() / 42);
        let room = if dice.percent(50) { needed } else { dice.pick(&[0, 1, HEADER - 1, needed - 1, needed - 512]) };
        match dice.below(12) {
            0 => header.truncate(dice.pick(&[0, 1, 3, 4, HEADER - 1])),
            1 => header.push(0),
            2 => header[dice.below(4)] = dice.pick(&[0, 1, 2, 3, 7, b'd', b's', b'2']),
            _ => {}
        }
        for _ in 0..dice.pick(&[0, 0, 1, 2]) {
            if !packets.is_empty() {
                let at = 42 * dice.below(packets.len() / 42) + 40;
                packets[at] = dice.byte();
            }
        }
        if dice.percent(25) {
            packets.extend(&files::packets(1, dice)[..1 + dice.below(41)]);
        }
        ask(&header, &packets, room, score);
    }
}

/// The longest list, read back by ours, and one packet more. The original is not asked: its vectors would be large.
fn longest(dice: &mut Dice, score: &mut Score) {
    score.file("the longest file that is written");
    let (header, mut packets) = (files::ds2_header(3, dice), files::packets(997, dice).repeat(MOST / 997 + 1));
    packets.truncate(42 * (MOST + 1));
    let refused = |packets: &[u8], refusal, score: &mut Score| {
        let mut out = Lent::new(HEADER);
        let numbers = ours::write_ds2_sp(&header, packets, out.part());
        score.model(CALL, (ours::refused(refusal), true), (numbers, out.untouched()));
    };
    refused(&packets, model::refused(17, LIMIT as u64), score);
    packets[42 * MOST + 40] = 1;
    refused(&packets, model::refused(16, MOST as u64), score);
    packets.truncate(42 * MOST);
    refused(&packets, model::refused(8, LIMIT as u64), score);
    let mut file = vec![0; LIMIT];
    let numbers = ours::write_ds2_sp(&header, &packets, &mut file);
    score.model(CALL, (ours::answered(LIMIT as u64, 0), true), (numbers, file.starts_with(&header)));
    let (mut back, mut counts) = (vec![0; packets.len()], vec![0; MOST]);
    let numbers = ours::demux_ds2_sp(&file, &mut back, &mut counts);
    let full = counts.chunks(2).all(|pair| pair == [42, 40]);
    score.model("written: demux_ds2_sp", (ours::answered(MOST as u64, 0), true, true), (numbers, back == packets, full));
    at_once::compare(&file, None, &Packets { bytes: packets, counts }, dice, score);
}

/// A recording with first byte 1 or 3: its packets, as the original reads them, are written under its own header, and the original reads the same
/// ones again. In all of them byte 40 is 0, as the call asks.
pub fn again(both: &Both, score: &mut Score) {
    const READ: &str = "written again: demux_ds2";
    let packets = match (both.kind, &both.ds2) {
        (Ok((Kind::Ds2Sp, HEADER)), Some(Ok(DemuxedDs2::Sp { packets, .. }))) if both.file[0] != 7 => packets,
        _ => return,
    };
    score.original(READ, packets.iter().position(|packet| packet[40] != 0), None);
    let (count, packets) = (packets.len(), packets.concat());
    match ask(&both.file[..HEADER], &packets, needed(count), score) {
        // At a bare header the original faults.
        Some(file) if count > 0 => score.original(READ, theirs(&file), Some((packets, count))),
        _ => {}
    }
}
