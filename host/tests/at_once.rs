// A packet of a DS2 SP file at once, by its number: its bytes and its count against the whole reading and against the model, whether it is short
// against the tally, refusals by their numbers and in their order, and lent memory that stays as it was. It rests on recordings made from dice, on
// the model, and on packets written out by hand.
mod common;

use common::files::{self, header, Dice};
use common::model::{self, refused, Kind, Refused};
use common::sorts::{met_in, Sort};
use klovdrun::demux::ds2::{demux_ds2_sp_counted, ds2_sp_packet, ds2_sp_packet_into};
use klovdrun::{tally, Packets, Refusal, LIMIT, PACKET};
use std::collections::BTreeSet;

const FILES: u64 = 400;
/// Bytes and counts of rooms that suffice, just so and with more of either; and of rooms that do not.
const ENOUGH: [(usize, usize); 4] = [(42, 1), (43, 1), (42, 9), (210, 3)];
const LACKING: [(usize, usize); 5] = [(41, 1), (42, 0), (0, 0), (41, 9), (500, 0)];

/// A packet and its count.
type One = ([u8; PACKET], u8);

fn told<T>(answer: Result<T, Refusal>) -> model::Answer<T> {
    answer.map_err(|Refusal { number, beside, size, absent }| [number, beside, size, absent])
}

/// Asks in a room of so many bytes and counts. What is not of the packet, all of it after a refusal, has to be as it was.
fn ask_in(file: &[u8], number: usize, (bytes, entries): (usize, usize)) -> model::Answer<One> {
    let (mut out, mut counts) = (vec![0xA5; bytes], vec![0xA5; entries]);
    let answer = told(ds2_sp_packet_into(file, number, &mut out, &mut counts));
    let packets = answer.unwrap_or(0);
    let ((packet, past), (count, others)) = (out.split_at(PACKET * packets), counts.split_at(packets));
    assert!(past.iter().chain(others).all(|&byte| byte == 0xA5));
    answer.map(|packets| {
        assert_eq!(packets, 1);
        (packet.try_into().unwrap(), count[0])
    })
}

/// Every packet with its count, by the model; or the refusal that every number has.
fn by_model(file: &[u8]) -> model::Answer<Vec<One>> {
    let one = |packet: &model::Packet| (packet.bytes, packet.count as u8);
    match model::kind_for(file, false)? {
        (Kind::Ds2Sp, start) => Ok(model::packets(file, Kind::Ds2Sp, start).iter().map(one).collect()),
        (_, start) => Err(refused(11, u64::from(model::ds2_type(file, start)))),
    }
}

/// The same by the whole reading.
fn by_whole(file: &[u8]) -> model::Answer<Vec<One>> {
    let all = |packets: Packets| packets.iter().map(|(bytes, count)| (bytes.try_into().unwrap(), count)).collect();
    told(demux_ds2_sp_counted(file)).map(all)
}

/// The number is refused so, in every room.
fn hold_refused(file: &[u8], number: usize, refusal: Refused) {
    assert_eq!(told(ds2_sp_packet(file, number)), Err(refusal), "number {number}");
    for room in ENOUGH.into_iter().chain(LACKING) {
        assert_eq!(ask_in(file, number, room), Err(refusal), "number {number} in {room:?}");
    }
}

/// The number gives that packet in a room that suffices, and is refused by 8 in one that does not.
fn hold_packet(file: &[u8], number: usize, one: One) {
    assert_eq!(told(ds2_sp_packet(file, number)), Ok(one), "number {number}");
    assert_eq!(ask_in(file, number, ENOUGH[number % ENOUGH.len()]), Ok(one), "number {number}");
    assert_eq!(ask_in(file, number, LACKING[number % LACKING.len()]), Err(refused(8, 1)), "number {number}");
}

/// Numbers that a recording of so many packets has not: the next ones, one that has in its lower 32 bits a number that there is, and ones whose
/// places would not fit 64 bits.
fn past(total: usize) -> [usize; 7] {
    [total, total + 1, (1 << 32) + total / 2, usize::MAX / 41 + 1, usize::MAX / 2, 1 << 63, usize::MAX]
}

/// How many packets are short, by the first flag and each one's number and count: a carried byte stands before the read of its packet, so that
/// in DS2 a full count tells, but for packet 0, to which none is carried.
fn short_by_numbers(file: &[u8], packets: &[One]) -> usize {
    let first_swapped = file.get(model::ds2_start(file)).map_or(false, |flags| flags >> 7 == 1);
    let is_short = |number: usize, count: u8| {
        let swapped = first_swapped != (number % 2 == 1);
        count < if swapped { 40 } else { 42 } || (swapped && number == 0)
    };
    packets.iter().enumerate().filter(|&(number, &(_, count))| is_short(number, count)).count()
}

/// Holds every number of a file, and some past its last, to the model and to the whole reading; answers the packets.
fn hold(file: &[u8]) -> model::Answer<Vec<One>> {
    let all = by_model(file);
    assert_eq!(by_whole(file), all);
    match &all {
        Ok(packets) => {
            packets.iter().enumerate().for_each(|(number, &one)| hold_packet(file, number, one));
            assert_eq!(told(tally(file)).map(|told| told.short), Ok(short_by_numbers(file, packets)));
            let total = packets.len();
            past(total).into_iter().for_each(|number| hold_refused(file, number, refused(18, total as u64)));
        }
        Err(refusal) => [0, 1, 300, usize::MAX].into_iter().for_each(|number| hold_refused(file, number, *refusal)),
    }
    all
}

/// With first byte 7 and no good header, so that the audio starts at 4,096 and the first block may have either flag.
fn without_a_good_header(dice: &mut Dice) -> Vec<u8> {
    let head = |dice: &mut Dice| header(dice.pick(&[0x8F, 0x0E]), dice.byte(), dice.pick(&[0, 3, 12, 13, 99]), 2);
    let heads: Vec<_> = (0..dice.below(9)).map(|_| head(dice)).collect();
    files::recording(b"\x07ds2", 4096, &heads, dice)
}

/// As a recorder makes it.
fn without_a_gap(dice: &mut Dice) -> Vec<u8> {
    let blocks = dice.below(20);
    files::continuous(false, blocks, dice)
}

/// What of a recording that is read was met here.
fn met(file: &[u8], packets: &[One]) -> Vec<String> {
    let start = model::ds2_start(file);
    let blocks = model::blocks(file, start);
    let mut met = Vec::new();
    match blocks.first() {
        None => met.push(format!("first byte {}, no block", file[0])),
        Some(_) if packets.is_empty() => met.push("silent blocks alone".to_string()),
        Some(block) => met.push(format!("first byte {}, flag {}", file[0], block[0] >> 7)),
    }
    let others = [
        ("a silent block before packets", !packets.is_empty() && blocks[0][2] == 0),
        ("a cut block", (file.len() - start) % 512 > 0),
        ("a packet of which a part is there", packets.iter().any(|&(_, count)| (1..40).contains(&count))),
        ("a packet of padding", packets.iter().any(|&(bytes, count)| count == 0 && bytes == [0; PACKET])),
    ];
    met.extend(others.iter().filter(|(_, is_so)| *is_so).map(|(what, _)| what.to_string()));
    met
}

#[test]
fn every_number_gives_the_packet_of_the_whole_reading() {
    let sorts: [Sort; 5] = [files::ds2_sp, files::seventh, without_a_good_header, without_a_gap, files::any];
    let (seen, refusals) = met_in(FILES, &sorts, hold, |file, packets| met(file, packets));
    // of three first bytes either flag and no block, and five more
    assert_eq!(seen.len(), 3 * 3 + 5, "{seen:?}");
    assert_eq!(refusals, BTreeSet::from([1, 3, 11]));
}

/// A recording of three blocks whose bytes are their places in the payload, with that first flag.
fn by_hand(flag: u8, counts: [u8; 3]) -> Vec<u8> {
    let heads = counts.map(|count| header(flag, 3, count, 0));
    files::file(b"\x01ds2", 1536, &heads, |place| place as u8)
}

#[test]
fn carried_bytes_by_hand() {
    // the first flag, the number, how the packet begins and ends, and its count
    let packets = [
        (0x0F, 0, [0, 1, 2, 3, 4, 5], [38, 39, 0, 41], 42),
        (0x0F, 1, [43, 40, 45, 42, 47, 44], [81, 78, 0, 80], 40),
        // from place 492 on, into the next block, where its byte 40 stands at place 26
        (0x0F, 12, [236, 237, 238, 239, 240, 241], [24, 25, 0, 27], 42),
        (0x0F, 13, [29, 26, 31, 28, 33, 30], [67, 64, 0, 66], 40),
        (0x8F, 0, [1, 0, 3, 0, 5, 2], [39, 36, 0, 38], 40),
        (0x8F, 1, [40, 41, 42, 43, 44, 45], [78, 79, 0, 81], 42),
        (0x8F, 2, [83, 80, 85, 82, 87, 84], [121, 118, 0, 120], 40),
    ];
    for (flag, number, begin, end, count) in packets {
        let (packet, told) = ds2_sp_packet(&by_hand(flag, [13, 0, 9]), number).unwrap();
        assert_eq!((&packet[..6], &packet[38..], told), (&begin[..], &end[..], count), "number {number}, flag {flag}");
    }
}

#[test]
fn past_the_stream_by_hand() {
    // packet 36 ends with the third block, and its byte 40 is carried to 37, of which nothing else is there
    let file = by_hand(0x0F, [0, 255, 0]);
    let mut carried = [0; PACKET];
    carried[1] = 248;
    assert_eq!(ds2_sp_packet(&file, 36).map(|(packet, count)| (packet[41], count)), Ok((249, 42)));
    assert_eq!(ds2_sp_packet(&file, 37), Ok((carried, 0)));
    for number in 38..255 {
        assert_eq!(ds2_sp_packet(&file, number), Ok(([0; PACKET], 0)));
    }
    assert_eq!(told(ds2_sp_packet(&file, 255)), Err(refused(18, 255)));
    // from a swapped start packet 36 ends two bytes sooner, and 37 has these
    let file = by_hand(0x8F, [0, 38, 0]);
    let second = |number| ds2_sp_packet(&file, number).map(|(packet, count)| (packet[1], count));
    assert_eq!((second(36), second(37)), (Ok((206, 40)), Ok((249, 2))));
}

/// Packet `number` by where its read is and where the byte is that is carried to it, for files too long to be read whole here.
fn by_place(file: &[u8], start: usize, number: usize) -> One {
    let first_swapped = file[start] >> 7 == 1;
    let place = |number: usize| if first_swapped { 41 * number - number % 2 } else { 41 * number + number % 2 };
    let byte = |place: usize| file.get(start + 512 * (place / 506) + 6 + place % 506).copied();
    let swapped = first_swapped != (number % 2 == 1);
    let carried = if swapped && number > 0 { byte(place(number - 1) + 40) } else { None };
    let found: Vec<u8> = (place(number)..place(number + 1)).map_while(byte).collect();
    let (packet, _) = model::packet(&found, swapped, carried);
    (packet.bytes, packet.count as u8)
}

#[test]
fn the_most_packets() {
    let mut file = vec![0; LIMIT];
    file[..4].copy_from_slice(b"\x03ds2");
    for (number, block) in file[1536..].chunks_mut(512).enumerate() {
        block[2] = 255;
        // most payloads are zeros
        if number % 65_536 < 3 || number > 524_280 {
            block[6..].iter_mut().enumerate().for_each(|(place, byte)| *byte = (7 * place + number) as u8);
        }
    }
    let total = 255 * 524_285;
    // the last packets with bytes, and those around the first place that does not fit 32 bits
    let (last, far) = (6_470_443, (1 << 32) / 41);
    for flag in [0x0F, 0x8F] {
        file[1536] = flag;
        for number in [0, 1, 13, 808_811, last - 1, last, last + 1, last + 2, far - 1, far, far + 1, total - 2, total - 1] {
            hold_packet(&file, number, by_place(&file, 1536, number));
        }
    }
    assert_eq!([last, last + 1, last + 2].map(|number| by_place(&file, 1536, number).1), [42, 6, 0]);
    for number in [total, total + 1, usize::MAX] {
        hold_refused(&file, number, refused(18, total as u64));
    }
}

#[test]
fn over_the_limit() {
    let mut file = vec![0; LIMIT + 1];
    for (magic, refusal) in [(b"\x01ds2", refused(2, LIMIT as u64)), (b"\x02dss", refused(1, 0))] {
        file[..4].copy_from_slice(magic);
        [0, usize::MAX].into_iter().for_each(|number| hold_refused(&file, number, refusal));
    }
    file[0] = 1;
    file[3] = b'2';
    file.pop();
    hold_refused(&file, 0, refused(18, 0));
}
