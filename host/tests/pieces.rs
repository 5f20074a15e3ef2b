// A recording in pieces against the same recording whole: packets, counts, frames owed, and which packets are short.
// It rests on recordings made from dice, on the tally of every prefix, and on the model for when a reader's hold overflows.
mod common;

use common::files::{self, Dice};
use common::model;
use klovdrun::demux::{ds2, dss};
use klovdrun::{tally, FilePlace, Packets, ReadSizes, Reader, Refusal, Wholeness, PACKET};

const FILES: u64 = 1200;

/// A recording, and what of it is the same for DSS and DS2.
struct Recording {
    file: Vec<u8>,
    dss: bool,
    start: usize,
}

impl Recording {
    fn new(dss: bool, dice: &mut Dice) -> Recording {
        let file = if dss { files::dss(dice) } else { files::ds2_sp(dice) };
        let start = if dss { 512 * usize::from(*file.first().unwrap_or(&2)) } else { 1536 };
        Recording { file, dss, start }
    }

    fn open(&self) -> Reader {
        Reader::open(if self.dss { self.start as u64 / 512 } else { 0 }).unwrap()
    }

    fn sizes(&self) -> ReadSizes {
        let start = FilePlace(self.start);
        if self.dss {
            ReadSizes::dss(start)
        } else {
            ReadSizes::ds2(start)
        }
    }

    fn whole(&self) -> Result<Packets, Refusal> {
        if self.dss {
            dss::demux_dss_counted(&self.file)
        } else {
            ds2::demux_ds2_sp_counted(&self.file)
        }
    }
}

/// What a refused call of a reader answers: nothing of a record.
fn refused<T>(number: u64, beside: usize) -> Result<T, Refusal> {
    Err(Refusal { number, beside: beside as u64, size: 0, absent: 0 })
}

/// Makes a reader's call with a room of so many packets, and adds what it hands out. Past that nothing may be written.
fn call<C>(got: &mut Packets, room: usize, call: C) -> Result<usize, Refusal>
where
    C: FnOnce(&mut [u8], &mut [u8]) -> Result<usize, Refusal>,
{
    let (mut out, mut counts) = (vec![0xEE; PACKET * room + 41], vec![0xEE; room]);
    let answer = call(&mut out, &mut counts);
    let packets = *answer.as_ref().unwrap_or(&0);
    got.bytes.extend(out.drain(..PACKET * packets));
    got.counts.extend(counts.drain(..packets));
    assert!(out.iter().chain(&counts).all(|&byte| byte == 0xEE));
    answer
}

/// Gives a piece with no room; if it needs some, with one packet's too little, and then with what it needs.
fn give(reader: &mut Reader, piece: &[u8], got: &mut Packets) -> Result<(), Refusal> {
    let mut answer = call(got, 0, |out, counts| reader.piece(piece, out, counts));
    if let Err(Refusal { number: 8, beside, size: 0, absent: 0 }) = answer {
        let needed = beside as usize;
        let owed = reader.owed();
        assert_eq!(call(got, needed - 1, |out, counts| reader.piece(piece, out, counts)), answer);
        assert_eq!(reader.owed(), owed);
        answer = call(got, needed, |out, counts| reader.piece(piece, out, counts));
        assert_eq!(answer, Ok(needed));
    }
    answer.map(|_| ())
}

/// Frames that the whole blocks of a prefix announce, by its tally; before a full header there are none.
fn announced(prefix: &[u8], start: usize) -> usize {
    if prefix.len() < start {
        0
    } else {
        tally(prefix).unwrap().announced
    }
}

/// Gives all pieces. False: the hold overflowed, where the model says so, and the reader is as it was.
fn give_all(recording: &Recording, reader: &mut Reader, got: &mut Packets, dice: &mut Dice) -> bool {
    let mut given = 0;
    for piece in files::pieces(&recording.file, dice) {
        let before = reader.owed();
        let prefix = &recording.file[..given + piece.len()];
        let answer = give(reader, piece, got);
        // Between two edges of blocks the model and the tally answer what they did.
        let edge = model::whole_blocks(prefix.len(), recording.start) > model::whole_blocks(given, recording.start);
        if edge && !recording.dss && model::overflows(prefix) {
            assert_eq!((answer, reader.owed()), (refused(7, 12288), before));
            return false;
        }
        assert_eq!(answer, Ok(()));
        given = prefix.len();
        if edge || dice.percent(2) {
            assert_eq!(got.len() + reader.owed(), announced(prefix, recording.start));
        }
    }
    true
}

/// The strict end says what is missing; then the lenient end hands out the rest, a few packets at a time.
fn end(recording: &Recording, reader: &mut Reader, got: &mut Packets, dice: &mut Dice) {
    let cut = recording.file.len().wrapping_sub(recording.start) % 512;
    let owed = reader.owed();
    let expected = match (cut, owed) {
        (0, 0) => Ok(0),
        (0, _) => refused(14, owed),
        _ => refused(13, cut),
    };
    assert_eq!(reader.clone().end(Reader::STRICT, &mut [], &mut []), expected);
    assert_eq!(call(got, dice.below(5), |out, counts| reader.end(Reader::STRICT, out, counts)), expected);
    while reader.owed() > 0 {
        let room = 1 + dice.below(9) + reader.owed() / 4;
        let packets = room.min(reader.owed());
        assert_eq!(call(got, room, |out, counts| reader.end(Reader::LENIENT, out, counts)), Ok(packets));
    }
    assert_eq!(reader.end(Reader::LENIENT, &mut [], &mut []), Ok(0));
}

/// How many recordings were complete in pieces, how many had frames owed, and how many overflowed or ended in the header.
fn pieces_against_whole(dss: bool) -> [usize; 3] {
    let mut seen = [0; 3];
    for seed in 0..FILES {
        let mut dice = Dice::new(seed + if dss { 1_000_000 } else { 0 });
        let recording = Recording::new(dss, &mut dice);
        let (mut reader, mut got) = (recording.open(), Packets::default());
        if !give_all(&recording, &mut reader, &mut got, &mut dice) {
            seen[2] += 1;
        } else if recording.file.len() < recording.start {
            let expected = if recording.file.is_empty() { Ok(0) } else { refused(3, recording.start) };
            assert_eq!(reader.end(Reader::STRICT, &mut [], &mut []), expected);
            seen[2] += 1;
        } else {
            seen[usize::from(reader.owed() > 0)] += 1;
            end(&recording, &mut reader, &mut got, &mut dice);
            assert_eq!(Ok(got), recording.whole(), "seed {seed}");
        }
    }
    seen
}

#[test]
fn dss_pieces_give_what_the_whole_gives() {
    let seen = pieces_against_whole(true);
    assert!(seen.iter().all(|&number| number > 40), "{seen:?}");
}

#[test]
fn ds2_pieces_give_what_the_whole_gives() {
    let seen = pieces_against_whole(false);
    assert!(seen.iter().all(|&number| number > 40), "{seen:?}");
}

/// Of each packet, by its count and the size of its read, whether it is whole.
fn told_whole(packets: &[(u8, usize)]) -> Vec<bool> {
    let mut wholeness = Wholeness::new();
    packets.iter().map(|&(count, size)| wholeness.next_is_whole(size, count)).collect()
}

/// Of the packets that are short though their reads are complete, how many come before any unswapped read, and how many after one that was cut.
fn by_carried_byte(packets: &[(u8, usize)], whole: &[bool]) -> [usize; 2] {
    let first_unswapped = packets.iter().position(|&(_, size)| size == 42).unwrap_or(packets.len());
    let mut found = [0; 2];
    for (number, (&(count, size), &whole)) in packets.iter().zip(whole).enumerate() {
        if usize::from(count) == size && !whole {
            found[usize::from(number > first_unswapped)] += 1;
        }
    }
    found
}

#[test]
fn sizes_and_wholeness_tell_as_many_short_packets_as_the_tally() {
    // of DSS and of DS2
    let (mut shorts, mut carried) = ([0; 2], [[0; 2]; 2]);
    for seed in 0..2 * FILES {
        let mut dice = Dice::new(2_000_000 + seed);
        let recording = Recording::new(seed % 2 == 0, &mut dice);
        if recording.file.len() < recording.start {
            continue;
        }
        let mut sizes = recording.sizes();
        for piece in files::pieces(&recording.file, &mut dice) {
            sizes.take_piece(piece);
        }
        let counts = recording.whole().unwrap().counts;
        let sizes: Vec<usize> = sizes.collect();
        assert_eq!(sizes.len(), counts.len());
        let packets: Vec<(u8, usize)> = counts.into_iter().zip(sizes).collect();
        assert!(packets.iter().all(|&(count, size)| usize::from(count) <= size));
        let whole = told_whole(&packets);
        let short = whole.iter().filter(|&&whole| !whole).count();
        assert_eq!(short, tally(&recording.file).unwrap().short, "seed {seed}");
        // A packet whose read has 42 bytes of which 40 are there is one that its count alone does not tell.
        shorts[usize::from(packets.contains(&(40, 42)))] += short;
        for (sum, found) in carried[usize::from(!recording.dss)].iter_mut().zip(by_carried_byte(&packets, &whole)) {
            *sum += found;
        }
    }
    assert!(shorts.iter().all(|&number| number > 100), "{shorts:?}");
    let [dss, ds2] = carried;
    assert!(dss.iter().all(|&number| number > 100) && ds2[0] > 100, "{carried:?}");
    // in DS2 a cut read is followed by none that is complete
    assert_eq!(ds2[1], 0);
}

#[test]
fn wholeness_by_hand() {
    // counts and sizes, and the packets that are short
    let cases: [(&[(u8, usize)], &[usize]); 7] = [
        (&[(42, 42), (40, 40), (42, 42)], &[]),
        (&[(40, 40), (42, 42), (40, 40)], &[0]),
        (&[(40, 40), (40, 40), (40, 40)], &[0, 1, 2]),
        // a swapped read that is cut leaves the carried byte as it is
        (&[(42, 42), (38, 40), (40, 40)], &[1]),
        // of 40 bytes the one at place 40 is not
        (&[(42, 42), (40, 42), (40, 40), (40, 40), (42, 42), (40, 40)], &[1, 2, 3]),
        (&[(0, 42), (0, 40), (40, 40)], &[0, 1, 2]),
        (&[(0, 40), (42, 42), (0, 40)], &[0, 2]),
    ];
    for (packets, short) in cases {
        let told: Vec<usize> = told_whole(packets).iter().enumerate().filter(|(_, &whole)| !whole).map(|(number, _)| number).collect();
        assert_eq!(told, short, "{packets:?}");
    }
}

#[test]
fn a_copied_reader_goes_its_own_way() {
    let mut dice = Dice::new(5);
    let head = files::header(0x8F, 3, 12, 0);
    let file = files::recording(b"\x01ds2", 1536, &[head; 4], &mut dice);
    let (mut reader, mut got) = (Reader::open(0).unwrap(), Packets::default());
    give(&mut reader, &file[..2700], &mut got).unwrap();
    let (mut twin, mut twins) = (reader.clone(), got.clone());
    give(&mut twin, &vec![0xFF; 2000], &mut twins).unwrap();
    assert!(twins.len() > got.len() && twin.owed() > 100);
    give(&mut reader, &file[2700..], &mut got).unwrap();
    assert_eq!((Ok(got), reader.owed()), (ds2::demux_ds2_sp_counted(&file), 0));
}

/// What a stream demuxer's calls leave to be asked: counts and frames owed, over either of the two.
trait Told {
    fn push(&mut self, data: &[u8]) -> Result<Vec<Vec<u8>>, Refusal>;
    fn finish_lenient(&mut self) -> Result<Vec<Vec<u8>>, Refusal>;
    fn counts(&self) -> &[u8];
    fn owed(&self) -> usize;
}

macro_rules! told {
    ($($demuxer:ty),*) => {$(
        impl Told for $demuxer {
            fn push(&mut self, data: &[u8]) -> Result<Vec<Vec<u8>>, Refusal> {
                <$demuxer>::push(self, data)
            }
            fn finish_lenient(&mut self) -> Result<Vec<Vec<u8>>, Refusal> {
                <$demuxer>::finish_lenient(self)
            }
            fn counts(&self) -> &[u8] {
                <$demuxer>::counts(self)
            }
            fn owed(&self) -> usize {
                <$demuxer>::owed(self)
            }
        }
    )*};
}

told!(dss::DssSpStreamDemuxer, ds2::Ds2SpStreamDemuxer);

#[test]
fn demuxers_tell_counts_and_owed() {
    let (mut refused, mut short) = (0, 0);
    for seed in 0..FILES / 2 {
        let dice = &mut Dice::new(seed);
        let recording = Recording::new(seed % 2 == 0, dice);
        let mut demuxer: Box<dyn Told> = match recording.dss {
            true => Box::new(dss::DssSpStreamDemuxer::new((recording.start / 512) as u8)),
            false => Box::new(ds2::Ds2SpStreamDemuxer::new()),
        };
        let (mut counts, mut taken) = (Vec::new(), 0);
        for piece in files::pieces(&recording.file, dice) {
            let answer = demuxer.push(piece);
            assert_eq!(demuxer.counts().len(), answer.as_ref().map_or(0, Vec::len));
            if answer.is_err() {
                refused += 1;
                break;
            }
            taken += piece.len();
            counts.extend_from_slice(demuxer.counts());
            assert_eq!(counts.len() + demuxer.owed(), announced(&recording.file[..taken], recording.start), "seed {seed}");
        }
        if taken == recording.file.len() && demuxer.finish_lenient().is_ok() {
            counts.extend_from_slice(demuxer.counts());
            assert_eq!(demuxer.owed(), 0);
            assert_eq!(counts, recording.whole().map_or(Vec::new(), |packets| packets.counts), "seed {seed}");
            short += counts.iter().filter(|&&count| count < 40).count();
        }
    }
    assert!(refused > 0 && short > 0, "{refused} refused, {short} short");
}
