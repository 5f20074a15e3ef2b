// An index beside a DSS recording: made, read, and asked for entries and packets, against the model and against the whole reading; indexes that are
// damaged or another recording's; refusals by their numbers and in their order, and lent memory that stays as it was. It rests on recordings made
// from dice, on the model, and on indexes and packets written out by hand.
mod common;

use common::files::{self, header, Dice};
use common::model::{self, refused, Kind, Refused};
use common::sorts::{met_in, Sort};
use klovdrun::demux::dss::demux_dss_counted;
use klovdrun::index::{build_index, build_index_into, dss_packet, dss_packet_into, find_entry, index_size, read_index};
use klovdrun::index::{Built, Entry, Totals};
use klovdrun::{Packets, Refusal, StreamPlace, INDEX_ENTRY, INDEX_FRONT, LIMIT, PACKET};
use std::collections::{BTreeMap, BTreeSet};

const FILES: u64 = 400;
const DAMAGED: u64 = 60;
/// Bytes and counts of rooms that suffice for a packet, just so and with more of either; and of rooms that do not.
const ENOUGH: [(usize, usize); 4] = [(42, 1), (43, 1), (42, 9), (210, 3)];
const LACKING: [(usize, usize); 5] = [(41, 1), (42, 0), (0, 0), (41, 9), (500, 0)];
/// The index of a recording in which nothing is announced.
const BARE: [u8; INDEX_FRONT] = [0, 0, 0, 1, 1];

/// A packet and its count.
type One = ([u8; PACKET], u8);

fn told<T>(answer: Result<T, Refusal>) -> model::Answer<T> {
    answer.map_err(|Refusal { number, beside, size, absent }| [number, beside, size, absent])
}

/// Makes the index in a room of so many bytes. What is not of it, all of the room after a refusal, has to be as it was.
fn build_in(file: &[u8], room: usize) -> model::Answer<Vec<u8>> {
    let mut out = vec![0xA5; room];
    let answer = told(build_index_into(file, &mut out));
    let past = out.split_off(answer.map_or(0, |built| built.bytes));
    assert!(past.iter().all(|&byte| byte == 0xA5));
    answer.map(|Built { entries, .. }| {
        assert_eq!(INDEX_FRONT + INDEX_ENTRY * entries, out.len());
        out
    })
}

fn read(file: &[u8], index: &[u8]) -> model::Answer<(usize, usize)> {
    told(read_index(file, index)).map(|Totals { entries, packets }| (entries, packets))
}

fn find(file: &[u8], index: &[u8], number: usize) -> model::Answer<model::Entry> {
    told(find_entry(file, index, number)).map(|Entry { number, first, place: StreamPlace(place) }| model::Entry { number, first, place })
}

/// Asks for a packet in a room of so many bytes and counts. What is not of the packet, all of it after a refusal, has to be as it was.
fn packet_in(file: &[u8], index: &[u8], number: usize, (bytes, entries): (usize, usize)) -> model::Answer<One> {
    let (mut out, mut counts) = (vec![0xA5; bytes], vec![0xA5; entries]);
    let answer = told(dss_packet_into(file, index, number, &mut out, &mut counts));
    let packets = answer.unwrap_or(0);
    let ((packet, past), (count, others)) = (out.split_at(PACKET * packets), counts.split_at(packets));
    assert!(past.iter().chain(others).all(|&byte| byte == 0xA5));
    answer.map(|packets| {
        assert_eq!(packets, 1);
        (packet.try_into().unwrap(), count[0])
    })
}

/// What a recording has by the model.
struct Known {
    start: usize,
    entries: Vec<model::Entry>,
    index: Vec<u8>,
    packets: Vec<One>,
}

impl Known {
    fn of(file: &[u8]) -> model::Answer<Known> {
        let (kind, start) = model::kind_for(file, true)?;
        assert_eq!(kind, Kind::DssSp);
        let entries = model::entries(file, start);
        let packets = model::packets(file, kind, start).iter().map(|packet| (packet.bytes, packet.count as u8)).collect();
        Ok(Known { start, index: model::index_of(&entries), entries, packets })
    }

    /// The entry for each packet, in order.
    fn entry_of_each(&self) -> Vec<model::Entry> {
        let next = self.entries.iter().skip(1).map(|entry| entry.first).chain([self.packets.len()]);
        self.entries.iter().zip(next).flat_map(|(&entry, next)| vec![entry; next - entry.first]).collect()
    }
}

/// All packets by the whole reading.
fn by_whole(file: &[u8]) -> model::Answer<Vec<One>> {
    let all = |packets: Packets| packets.iter().map(|(bytes, count)| (bytes.try_into().unwrap(), count)).collect();
    told(demux_dss_counted(file)).map(all)
}

/// The number is refused so, in every room.
fn hold_number_refused(file: &[u8], index: &[u8], number: usize, refusal: Refused) {
    assert_eq!(find(file, index, number), Err(refusal), "number {number}");
    assert_eq!(told(dss_packet(file, index, number)), Err(refusal), "number {number}");
    for room in ENOUGH.into_iter().chain(LACKING) {
        assert_eq!(packet_in(file, index, number, room), Err(refusal), "number {number} in {room:?}");
    }
}

/// The index is refused so, whatever the number.
fn hold_index_refused(file: &[u8], index: &[u8], refusal: Refused) {
    assert_eq!(read(file, index), Err(refusal));
    [0, 1, 300, usize::MAX].into_iter().for_each(|number| hold_number_refused(file, index, number, refusal));
}

/// The file is refused so, whatever the index.
fn hold_file_refused(file: &[u8], refusal: Refused) {
    assert_eq!((told(build_index(file)), told(index_size(file))), (Err(refusal), Err(refusal)));
    [0, 4, 5, 300].into_iter().for_each(|room| assert_eq!(build_in(file, room), Err(refusal), "in {room} bytes"));
    for index in [&[][..], &[0, 0, 0], &[0; 4], &[0, 0, 0, 1, 9], &BARE, &[0xA5; 77]] {
        hold_index_refused(file, index, refusal);
    }
}

/// The number gives that entry, and that packet in a room that suffices; in one that does not it is refused by 8.
fn hold_packet(file: &[u8], index: &[u8], number: usize, entry: model::Entry, one: One) {
    assert_eq!(find(file, index, number), Ok(entry), "number {number}");
    assert_eq!(told(dss_packet(file, index, number)), Ok(one), "number {number}");
    assert_eq!(packet_in(file, index, number, ENOUGH[number % ENOUGH.len()]), Ok(one), "number {number}");
    assert_eq!(packet_in(file, index, number, LACKING[number % LACKING.len()]), Err(refused(8, 1)), "number {number}");
}

/// Numbers that a recording of so many packets has not: the next ones, one that has in its lower 32 bits a number that there is, and ones whose
/// places would not fit 64 bits.
fn past(total: usize) -> [usize; 7] {
    [total, total + 1, (1 << 32) + total / 2, usize::MAX / 41 + 1, usize::MAX / 2, 1 << 63, usize::MAX]
}

/// The file has that index: it is given in rooms that suffice, and refused by 8 in others.
fn hold_index(file: &[u8], index: &[u8]) {
    let (size, lacking) = (index.len(), Err(refused(8, index.len() as u64)));
    assert_eq!((told(build_index(file)).as_deref(), told(index_size(file))), (Ok(index), Ok(size)));
    [size, size + 1, size + 99].into_iter().for_each(|room| assert_eq!(build_in(file, room).as_deref(), Ok(index), "in {room} bytes"));
    [size - 1, size / 2, 4, 0].into_iter().for_each(|room| assert_eq!(build_in(file, room), lacking, "in {room} bytes"));
}

/// Holds all calls on a file to the model and to the whole reading, for every number, and some past the last.
fn hold(file: &[u8]) -> model::Answer<Known> {
    let known = Known::of(file);
    assert_eq!(by_whole(file).as_ref(), known.as_ref().map(|known| &known.packets));
    match &known {
        Ok(known) => {
            let (index, total) = (&known.index[..], known.packets.len());
            hold_index(file, index);
            assert_eq!(read(file, index), Ok((known.entries.len(), total)));
            let entries = known.entry_of_each();
            assert_eq!(entries.len(), total);
            for (number, (&entry, &one)) in entries.iter().zip(&known.packets).enumerate() {
                hold_packet(file, index, number, entry, one);
            }
            past(total).into_iter().for_each(|number| hold_number_refused(file, index, number, refused(18, total as u64)));
        }
        Err(refusal) => hold_file_refused(file, *refusal),
    }
    known
}

/// Magic and blocks of these headers.
fn dss(first: u8, heads: &[[u8; 6]], dice: &mut Dice) -> Vec<u8> {
    files::recording(&[first, b'd', b's', b's'], 512 * usize::from(first), heads, dice)
}

/// As a recorder makes it.
fn without_a_gap(dice: &mut Dice) -> Vec<u8> {
    let blocks = dice.below(20);
    files::continuous(true, blocks, dice)
}

/// One packet a block, mostly swapped, so that a byte is carried over many blocks; some are silent, and some start at an edge.
fn one_a_block(dice: &mut Dice) -> Vec<u8> {
    let head = |dice: &mut Dice| {
        let first = if dice.percent(70) { dice.byte() } else { dice.pick(&[0, 2, 255]) };
        header(dice.pick(&[0x8F, 0x8F, 0x80, 0x0F]), first, dice.pick(&[0, 1, 1, 1, 2]), 0)
    };
    let heads: Vec<_> = (0..dice.below(16)).map(|_| head(dice)).collect();
    dss(dice.pick(&[2, 3]), &heads, dice)
}

/// Few blocks that announce much more than there is.
fn past_the_end(dice: &mut Dice) -> Vec<u8> {
    let heads: Vec<_> = (0..dice.below(4)).map(|_| header(dice.pick(&[0x0F, 0x8F]), dice.byte(), dice.pick(&[0, 30, 255]), 0)).collect();
    dss(dice.pick(&[2, 3]), &heads, dice)
}

/// What of a recording that is read was met here.
fn met(file: &[u8], known: &Known) -> Vec<String> {
    let blocks = model::blocks(file, known.start);
    let of = |entry: &model::Entry| blocks[entry.number];
    let starts = |inside: usize| known.entries.iter().any(|entry| entry.place == 506 * entry.number + inside);
    // the last packet of a block, and the first of the next that announces something
    let mut pairs = known.entries.windows(2).map(|pair| (of(&pair[0]), of(&pair[1]), known.packets[pair[1].first].0[1]));
    let carried_on = pairs.any(|(one, next, carried)| one[0] >> 7 == 1 && one[2] == 1 && next[0] >> 7 == 1 && carried != 0);
    let mut met = vec![match (blocks.len(), known.entries.first()) {
        (0, _) => format!("first byte {}, no block", file[0]),
        (_, None) => format!("first byte {}, silent blocks alone", file[0]),
        (_, Some(entry)) => format!("first byte {}, flag {}", file[0], of(entry)[0] >> 7),
    }];
    let others = [
        ("a silent block before packets", known.entries.first().map_or(false, |entry| entry.number > 0)),
        ("a silent block between packets", known.entries.windows(2).any(|pair| pair[1].number > pair[0].number + 1)),
        ("a silent block after packets", known.entries.last().map_or(false, |entry| entry.number + 1 < blocks.len())),
        ("a start at the block's", starts(0)),
        ("a start at the next block's", starts(506)),
        ("a cut block", (file.len() - known.start) % 512 > 0),
        ("a byte carried over a block", carried_on),
        ("a packet of which a part is there", known.packets.iter().any(|&(_, count)| (1..40).contains(&count))),
        ("a packet of padding", known.packets.iter().any(|&(bytes, count)| count == 0 && bytes == [0; PACKET])),
    ];
    met.extend(others.iter().filter(|(_, is_so)| *is_so).map(|(what, _)| what.to_string()));
    met
}

#[test]
fn every_number_gives_its_entry_and_the_packet_of_the_whole_reading() {
    let sorts: [Sort; 5] = [files::dss, without_a_gap, one_a_block, past_the_end, files::any];
    let (seen, refusals) = met_in(FILES, &sorts, hold, met);
    // of two first bytes either flag, silent blocks and no block, and nine more
    assert_eq!(seen.len(), 2 * 4 + 9, "{seen:?}");
    assert_eq!(refusals, BTreeSet::from([1, 3]));
}

/// The same bytes with a length field that fits them.
fn fitted(mut index: Vec<u8>) -> Vec<u8> {
    let after = (index.len() - 4) as u32;
    index[..4].copy_from_slice(&after.to_be_bytes());
    index
}

/// Where the n-th entry of an index begins.
fn place_of(entry: usize) -> usize {
    INDEX_FRONT + INDEX_ENTRY * entry
}

/// What is refused of an index that is changed at a byte, its length being as it was.
fn changed_at(place: usize, byte: u8) -> Refused {
    match place {
        0..=3 => refused(19, 0),
        4 => refused(20, u64::from(byte)),
        _ => refused(21, ((place - INDEX_FRONT) / INDEX_ENTRY) as u64),
    }
}

/// A copy with a change.
fn with(index: &[u8], change: impl FnOnce(&mut Vec<u8>)) -> Vec<u8> {
    let mut copy = index.to_vec();
    change(&mut copy);
    copy
}

/// Copies of an index that are cut, at every byte: as they are, and with a length field that fits.
fn cut(index: &[u8]) -> Vec<(Vec<u8>, Refused)> {
    let as_is = (0..index.len()).map(|length| (index[..length].to_vec(), refused(19, 0)));
    let fit = |length| (fitted(index[..length].to_vec()), if length == 4 { refused(19, 0) } else { changed_at(length, 0) });
    as_is.chain((4..index.len()).map(fit)).collect()
}

/// Copies in which a bit is flipped, each bit in turn.
fn flipped(index: &[u8]) -> Vec<(Vec<u8>, Refused)> {
    let flip = |bit: usize| {
        let copy = with(index, |copy| copy[bit / 8] ^= 1 << (bit % 8));
        let refusal = changed_at(bit / 8, copy[bit / 8]);
        (copy, refusal)
    };
    (0..8 * index.len()).map(flip).collect()
}

/// Copies with another length field, and ones with every other version.
fn fronts(index: &[u8]) -> Vec<(Vec<u8>, Refused)> {
    let after = (index.len() - 4) as u32;
    let lengths = [0, after - 1, after + 1, after + 4, after + 12, after.swap_bytes(), after | 1 << 31, u32::MAX].into_iter();
    let others = lengths.map(|length| with(index, |copy| copy[..4].copy_from_slice(&length.to_be_bytes())));
    let versions = (0..=255).filter(|&version| version != 1);
    let versions = versions.map(|version| (with(index, |copy| copy[4] = version), refused(20, u64::from(version))));
    others.map(|copy| (copy, refused(19, 0))).chain(versions).collect()
}

/// Copies with an entry more or less, be it a part of one, or with two in the other order: their length fields fit.
fn recounted(index: &[u8]) -> Vec<(Vec<u8>, Refused)> {
    let entries = (index.len() - INDEX_FRONT) / INDEX_ENTRY;
    let whole = |entry: usize| place_of(entry)..place_of(entry + 1);
    let mut all = Vec::new();
    let mut push = |entry: usize, copy: Vec<u8>| all.push((fitted(copy), refused(21, entry as u64)));
    for byte in [0, 1, 0xFF] {
        (1..=25).for_each(|more| push(entries, with(index, |copy| copy.resize(index.len() + more, byte))));
    }
    for entry in 0..entries {
        push(entry, with(index, |copy| drop(copy.drain(whole(entry)))));
        push(entry + 1, with(index, |copy| drop(copy.splice(whole(entry), [&index[whole(entry)], &index[whole(entry)]].concat()))));
        if entry > 0 {
            push(entry - 1, with(index, |copy| copy[place_of(entry - 1)..place_of(entry + 1)].rotate_left(INDEX_ENTRY)));
        }
    }
    all
}

#[test]
fn a_damaged_index_is_refused_where_it_differs() {
    let mut seen = BTreeMap::new();
    let mut before: Option<Vec<u8>> = None;
    for seed in 0..DAMAGED {
        let sorts: [fn(&mut Dice) -> Vec<u8>; 3] = [files::dss, without_a_gap, one_a_block];
        let file = sorts[seed as usize % sorts.len()](&mut Dice::new(seed));
        let Known { index, packets, .. } = match Known::of(&file) {
            Ok(known) => known,
            Err(_) => continue,
        };
        let mut damaged: Vec<(Vec<u8>, Refused)> = [cut, flipped, fronts, recounted].iter().flat_map(|damage| damage(&index)).collect();
        // that of the recording before this one, unless it is this one's too
        let others = before.replace(index.clone()).filter(|other| *other != index);
        damaged.extend(others.map(|other| (other.clone(), model::read_index(&file, &other).unwrap_err())));
        for (turn, (bad, refusal)) in damaged.iter().enumerate() {
            assert_eq!((model::read_index(&file, bad), read(&file, bad)), (Err(*refusal), Err(*refusal)), "{bad:?} for {index:?}");
            let number = [0, packets.len() / 2, packets.len(), usize::MAX][turn % 4];
            assert_eq!(find(&file, bad, number), Err(*refusal), "{bad:?} for {index:?}");
            for room in [ENOUGH[turn % ENOUGH.len()], LACKING[turn % LACKING.len()]] {
                assert_eq!(packet_in(&file, bad, number, room), Err(*refusal), "{bad:?} for {index:?}");
            }
            *seen.entry(refusal[0]).or_insert(0) += 1;
        }
        assert_eq!(read(&file, &index).map(|(_, total)| total), Ok(packets.len()));
    }
    println!("{seen:?}");
    assert_eq!(seen.into_keys().collect::<Vec<_>>(), [19, 20, 21]);
}

/// Which bytes of a recording its index tells of: each bit of each header is flipped, and a bit of each payload.
#[test]
fn an_index_is_held_to_the_flags_starts_and_counts() {
    let mut seen = BTreeMap::new();
    for seed in 0..FILES / 10 {
        let mut dice = Dice::new(seed);
        let mut file = one_a_block(&mut dice);
        file.resize(file.len() + dice.below(512), 0);
        let Known { start, index, .. } = Known::of(&file).unwrap();
        let bits = |block: usize| (0..48).chain([48 + 8 * 506 - 1]).map(move |bit| (start + 512 * block + bit / 8, bit));
        for (place, bit) in (0..(file.len() - start) / 512).flat_map(bits) {
            file[place] ^= 1 << (bit % 8);
            let answer = model::read_index(&file, &index);
            assert_eq!(read(&file, &index), answer, "bit {bit} at {place}");
            *seen.entry((bit / 8, answer.is_ok())).or_insert(0) += 1;
            file[place] ^= 1 << (bit % 8);
        }
        assert_eq!(read(&file[..file.len() - (file.len() - start) % 512], &index), read(&file, &index));
    }
    println!("{seen:?}");
    // the flag and the start, where the block announces something, and the count: but how much the last such block announces no entry tells
    let kept: Vec<_> = seen.into_keys().collect();
    let expected = [(0, false), (0, true), (1, false), (1, true), (2, false), (2, true), (3, true), (4, true), (5, true), (511, true)];
    assert_eq!(kept, expected);
}

#[test]
fn an_index_by_hand() {
    let heads = [(0x0F, 3, 2), (0x8F, 9, 0), (0x8F, 3, 1), (0x0F, 255, 255), (0x8F, 255, 12), (0x8F, 0, 1)];
    let heads = heads.map(|(flags, first, count)| header(flags, first, count, 0));
    // each block's number, first packet and start, of all but the silent one
    let entries = [(0, 0, 0), (2, 2, 1014), (3, 3, 2022), (4, 258, 2530), (5, 270, 2530)];
    let index = [
        0, 0, 0, 61, 1, // the length of what follows it, and the version
        0, 0, 0, 0, 0, 0, 0, 0, 0, 0, 0, 0, //
        0, 0, 0, 2, 0, 0, 0, 2, 0, 0, 0x03, 0xF6, //
        0, 0, 0, 3, 0, 0, 0, 3, 0, 0, 0x07, 0xE6, //
        0, 0, 0, 4, 0, 0, 0x01, 0x02, 0, 0, 0x09, 0xE2, //
        0, 0, 0, 5, 0, 0, 0x01, 0x0E, 0, 0, 0x09, 0xE2,
    ];
    for first in [2, 3] {
        let file = dss(first, &heads, &mut Dice::new(1));
        hold_index(&file, &index);
        assert_eq!(read_index(&file, &index), Ok(Totals { entries: 5, packets: 271 }));
        for (packet, entry) in [(0, 0), (1, 0), (2, 1), (3, 2), (257, 2), (258, 3), (269, 3), (270, 4)] {
            let (number, first, place) = entries[entry];
            assert_eq!(find_entry(&file, &index, packet), Ok(Entry { number, first, place: StreamPlace(place) }));
        }
        hold_number_refused(&file, &index, 271, refused(18, 271));
    }
}

#[test]
fn nothing_announced() {
    for (first, blocks, more) in [(2, 0, 0), (3, 0, 0), (2, 0, 511), (2, 1, 0), (3, 24, 3)] {
        let mut file = dss(first, &vec![header(0x8F, 9, 0, 0); blocks], &mut Dice::new(1));
        file.resize(file.len() + more, 0xFF);
        hold_index(&file, &BARE);
        assert_eq!(read_index(&file, &BARE), Ok(Totals { entries: 0, packets: 0 }));
        past(0).into_iter().for_each(|number| hold_number_refused(&file, &BARE, number, refused(18, 0)));
        hold_index_refused(&file, &BARE[..4], refused(19, 0));
        hold_index_refused(&file, &[0, 0, 0, 2, 1, 0], refused(21, 0));
    }
}

/// A recording whose bytes are their places in the payload.
fn by_hand(heads: &[(u8, u8, u8)]) -> Vec<u8> {
    let heads: Vec<_> = heads.iter().map(|&(flags, first, count)| header(flags, first, count, 0)).collect();
    files::file(b"\x02dss", 1024, &heads, |place| place as u8)
}

/// How each packet begins, and its count.
fn begins(file: &[u8]) -> Vec<([u8; 4], u8)> {
    let index = build_index(file).unwrap();
    let Totals { packets, .. } = read_index(file, &index).unwrap();
    let one = |number| dss_packet(file, &index, number).map(|(packet, count)| ([packet[0], packet[1], packet[2], packet[3]], count));
    (0..packets).map(|number| one(number).unwrap()).collect()
}

#[test]
fn carried_bytes_by_hand() {
    // swapped ones before any unswapped read; then one of which byte 40 is carried over a silent block to three blocks of one packet
    let file = by_hand(&[(0x8F, 2, 1), (0x8F, 3, 1), (0x0F, 3, 1), (0x0F, 3, 0), (0x8F, 2, 1), (0x8F, 3, 1), (0x8F, 4, 1)]);
    let begin = [([1, 0, 3, 0], 40), ([3, 0, 5, 2], 40), ([0, 1, 2, 3], 42), ([1, 40, 3, 0], 40), ([3, 40, 5, 2], 40), ([5, 40, 7, 4], 40)];
    assert_eq!(begins(&file), begin);
    // in a block of its own the read before it; and to the next block the last unswapped one, which is the last or the one before
    let file = by_hand(&[(0x8F, 2, 2), (0x8F, 12, 1), (0x0F, 3, 2), (0x8F, 3, 3), (0x8F, 2, 1)]);
    let begin = [([1, 0, 3, 0], 40), ([40, 41, 42, 43], 42), ([21, 80, 23, 20], 40)];
    let later = [([0, 1, 2, 3], 42), ([43, 40, 45, 42], 40), ([3, 40, 5, 2], 40), ([42, 43, 44, 45], 42), ([85, 82, 87, 84], 40), ([1, 82, 3, 0], 40)];
    assert_eq!(begins(&file), [&begin[..], &later].concat());
    // an unswapped read of which 2 bytes are there carries the padding's 0
    let file = by_hand(&[(0x0F, 3, 1), (0x0F, 255, 2), (0x8F, 2, 1)]);
    assert_eq!(begins(&file[..file.len() - 1]), [([0, 1, 2, 3], 42), ([248, 249, 0, 0], 2), ([0, 0, 0, 0], 0)]);
    // and of which 42 are there, in the next block, that one's
    assert_eq!(begins(&file), [([0, 1, 2, 3], 42), ([248, 249, 0, 1], 42), ([41, 38, 43, 40], 40), ([1, 38, 3, 0], 40)]);
}

/// A file, an index, a number, a room, and how they are refused.
type Asked<'a> = (&'a [u8], &'a [u8], usize, (usize, usize), Refused);

/// What is asked first is told, though all that is asked after it is wrong too.
#[test]
fn the_order_of_refusals() {
    let file = by_hand(&[(0x0F, 3, 3), (0x0F, 3, 0), (0x8F, 3, 1)]);
    let index = build_index(&file).unwrap();
    let ds2 = with(&file, |file| file[..4].copy_from_slice(b"\x03ds2"));
    let bad_version = with(&index, |index| index[4..].fill(7));
    let long_version = with(&bad_version, |index| index.push(7));
    let bad_entry = with(&index, |index| index[INDEX_FRONT + INDEX_ENTRY] = 7);
    let asked: [Asked; 12] = [
        (b"\x02ds", &index, 0, (42, 1), refused(1, 0)),
        (b"\x06dss", &[], 9, (0, 0), refused(1, 0)),
        (&ds2, &bad_version, 9, (0, 0), refused(1, 0)),
        (&file[..1023], &index, 0, (42, 1), refused(3, 1024)),
        (&file[..4], &[], 9, (0, 0), refused(3, 1024)),
        (&file, &[], 9, (0, 0), refused(19, 0)),
        (&file, &long_version, 9, (0, 0), refused(19, 0)),
        (&file, &bad_version, 9, (0, 0), refused(20, 7)),
        (&file, &bad_entry, 9, (0, 0), refused(21, 1)),
        (&file, &index, 4, (0, 0), refused(18, 4)),
        (&file, &index, 3, (41, 1), refused(8, 1)),
        (&file, &index, 3, (42, 0), refused(8, 1)),
    ];
    for (file, index, number, room, refusal) in asked {
        assert_eq!(packet_in(file, index, number, room), Err(refusal));
        let found = find(file, index, number).map(|entry| entry.number);
        assert_eq!(found, if refusal[0] == 8 { Ok(2) } else { Err(refusal) });
        assert_eq!(read(file, index), if [8, 18].contains(&refusal[0]) { Ok((2, 4)) } else { Err(refusal) });
    }
}

/// Packet `number` by the read of it and the byte that is carried to it, for files too long to be read whole here.
fn by_place(file: &[u8], start: usize, entries: &[model::Entry], number: usize) -> One {
    let read = |number: usize| {
        let entry = entries[entries.partition_point(|entry| entry.first <= number) - 1];
        let (flag, inside) = (file[start + 512 * entry.number] >> 7 == 1, number - entry.first);
        let swapped = flag != (inside % 2 == 1);
        (entry.place + if flag { 41 * inside - inside % 2 } else { 41 * inside + inside % 2 }, swapped)
    };
    let byte = |place: usize| file.get(start + 512 * (place / 506) + 6 + place % 506).copied();
    let (place, swapped) = read(number);
    let unswapped = (0..number).rev().map(read).find(|&(_, swapped)| !swapped);
    let carried = unswapped.and_then(|(place, _)| byte(place + 40));
    let found: Vec<u8> = (place..place + if swapped { 40 } else { 42 }).map_while(byte).collect();
    let (packet, _) = model::packet(&found, swapped, carried);
    (packet.bytes, packet.count as u8)
}

#[test]
fn the_longest_index() {
    let mut file = vec![0; LIMIT];
    file[..4].copy_from_slice(b"\x02dss");
    for (number, block) in file[1024..].chunks_mut(512).enumerate() {
        block[0] = if number % 3 == 0 { 0x0F } else { 0x8F };
        block[1] = number as u8;
        block[2] = if number % 5 < 2 { 1 } else { 255 };
        // most payloads are zeros
        if number % 65_536 < 3 || number > 524_280 {
            block[6..].iter_mut().enumerate().for_each(|(place, byte)| *byte = (7 * place + number) as u8);
        }
    }
    let entries = model::entries(&file, 1024);
    let index = model::index_of(&entries);
    assert_eq!((entries.len(), index.len()), (524_286, 5 + 12 * 524_286));
    assert!(build_index(&file).as_deref() == Ok(&index[..]));
    assert_eq!(told(build_index_into(&file, &mut vec![0; index.len() - 1])), Err(refused(8, index.len() as u64)));
    let total = model::announced(&file, 1024);
    assert_eq!(read_index(&file, &index), Ok(Totals { entries: 524_286, packets: total }));
    // the first packet; the first ones of blocks with bytes among those of zeros, and those before them; the last
    let around = [65_536, 131_073, 524_284].map(|entry: usize| entries[entry].first);
    for number in around.into_iter().flat_map(|first| [first - 1, first]).chain([0, total - 1]) {
        let entry = entries[entries.partition_point(|entry| entry.first <= number) - 1];
        hold_packet(&file, &index, number, entry, by_place(&file, 1024, &entries, number));
    }
    for number in [total, 1 << 32, usize::MAX] {
        assert_eq!(find(&file, &index, number), Err(refused(18, total as u64)));
        assert_eq!(packet_in(&file, &index, number, (0, 0)), Err(refused(18, total as u64)));
    }
    let last = with(&index, |index| *index.last_mut().unwrap() ^= 1);
    assert_eq!((read(&file, &last), read(&file, &index[..index.len() - 1])), (Err(refused(21, 524_285)), Err(refused(19, 0))));
}

#[test]
fn over_the_limit() {
    let mut file = vec![0; LIMIT + 1];
    let over = refused(2, LIMIT as u64);
    for (magic, refusal) in [(b"\x02dss", over), (b"\x03dss", over), (b"\x03ds2", refused(1, 0)), (b"\x06dss", refused(1, 0))] {
        file[..4].copy_from_slice(magic);
        hold_file_refused(&file, refusal);
    }
    file[..4].copy_from_slice(b"\x03dss");
    file.pop();
    hold_index(&file, &BARE);
}
