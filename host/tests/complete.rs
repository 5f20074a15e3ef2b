// The rule for a recording that is complete as announced: what it says of one that is read in pieces against what it says of the same one
// whole; and that what says nothing does answer. It rests on recordings made from dice, and on the tally.
mod common;

use common::files::{self, header, Dice};
use klovdrun::demux::{detect_format, ds2, dss, AudioFormat};
use klovdrun::{tally, FilePlace, Packets, ReadSizes, Reader, Refusal, Tally, DS2_START, PACKET};
use std::collections::BTreeMap;

const FILES: u64 = 2000;

/// What the rule in pieces says.
#[derive(Debug, Clone, Copy, PartialEq, Eq, PartialOrd, Ord)]
enum Told {
    Complete,
    /// The strict end answered, and so many packets come before the first unswapped one.
    BeginsSwapped(usize),
    Cut(u64),
    Owing(u64),
    InsideHeader(u64),
    /// It is read whole: because of its type, or because a piece was refused by 7.
    NotSp,
    Hold,
}

/// A reader, and memory to lend it.
struct Fed {
    reader: Reader,
    lent: Packets,
}

impl Fed {
    fn open(kind: u64) -> Fed {
        Fed { reader: Reader::open(kind).unwrap(), lent: Packets::default() }
    }

    /// Gives a piece with the room that always suffices, and answers how many packets it brought.
    fn give(&mut self, piece: &[u8]) -> Result<usize, Refusal> {
        let room = self.reader.room(piece.len());
        let Packets { bytes, counts } = &mut self.lent;
        if counts.len() < room {
            bytes.resize(PACKET * room, 0);
            counts.resize(room, 0);
        }
        let answer = self.reader.piece(piece, &mut bytes[..PACKET * room], &mut counts[..room]);
        assert!(!matches!(answer, Err(Refusal { number: Refusal::ROOM, .. })), "{answer:?} with room {room}");
        answer
    }
}

/// The type by the rule: asked once, of the bytes up to the first piece that has told of a frame.
fn is_sp(kept: &[u8]) -> bool {
    tally(kept).map_or(false, |told| told.kind == AudioFormat::Ds2Sp)
}

/// What a strict end that answered says, by the first packet's count; every count is then full.
fn ended(counts: &[u8]) -> Told {
    assert!(counts.iter().all(|count| [40, 42].contains(count)));
    match counts.first() {
        None | Some(42) => Told::Complete,
        _ => Told::BeginsSwapped(counts.iter().take_while(|&&count| count == 40).count()),
    }
}

fn in_pieces(kind: u64, pieces: &[&[u8]]) -> Told {
    let mut fed = Fed::open(kind);
    let (mut kept, mut type_known, mut counts) = (Vec::new(), kind != 0, Vec::new());
    for piece in pieces {
        let packets = match fed.give(piece) {
            Err(Refusal { number: Refusal::HOLD, .. }) => return Told::Hold,
            answer => answer.unwrap(),
        };
        kept.extend_from_slice(piece);
        counts.extend_from_slice(&fed.lent.counts[..packets]);
        if !type_known && packets + fed.reader.owed() > 0 {
            if !is_sp(&kept) {
                return Told::NotSp;
            }
            type_known = true;
        }
    }
    match fed.reader.end(Reader::STRICT, &mut [], &mut []) {
        Ok(_) => ended(&counts),
        Err(Refusal { number: Refusal::CUT_BLOCK, beside, size: 0, absent: 0 }) => Told::Cut(beside),
        Err(Refusal { number: Refusal::OWING, beside, size: 0, absent: 0 }) => Told::Owing(beside),
        Err(Refusal { number: Refusal::HEADER, beside, size: 0, absent: 0 }) => Told::InsideHeader(beside),
        Err(refusal) => panic!("{refusal}"),
    }
}

/// A recording of any sort; every third as a recorder makes it, at times damaged.
fn made(seed: u64, dice: &mut Dice) -> Vec<u8> {
    if seed % 3 > 0 {
        return files::small(dice);
    }
    let blocks = dice.below(12);
    let whole = files::continuous(seed % 2 == 0, blocks, dice);
    if dice.percent(50) {
        files::damaged(whole, dice)
    } else {
        whole
    }
}

/// Whether it is one of the two refusals of a record, with so much missing as can be.
fn is_of_a_record(refusal: Refusal) -> bool {
    let Refusal { number, size, absent, .. } = refusal;
    match number {
        Refusal::NO_RECORD => (size, absent) == (0, 2),
        Refusal::CUT_RECORD => matches!(size, 12 | 56) && absent % 2 == 0 && (2..size).contains(&absent),
        _ => false,
    }
}

/// How many packets of an SP recording have reads that are not complete; of any other file none.
fn lacking(file: &[u8], whole: Result<Tally, Refusal>) -> usize {
    let (packets, mut sizes) = match whole {
        Ok(Tally { kind: AudioFormat::DssSp, start, .. }) => (dss::demux_dss_counted(file), ReadSizes::dss(start)),
        Ok(Tally { kind: AudioFormat::Ds2Sp, start, .. }) => (ds2::demux_ds2_sp_counted(file), ReadSizes::ds2(start)),
        _ => return 0,
    };
    sizes.take_piece(file);
    packets.unwrap().counts.iter().zip(sizes).filter(|&(&count, size)| usize::from(count) < size).count()
}

/// Holds what the rule says of a recording in pieces to its tally.
fn hold(file: &[u8], kind: u64, told: Told, whole: Result<Tally, Refusal>) {
    let complete = whole.map_or(false, |whole| whole.complete_as_announced(file.len()));
    let is_sp = |kind| matches!(kind, AudioFormat::DssSp | AudioFormat::Ds2Sp);
    match told {
        // it is read whole, for which the rule has another sentence
        Told::Hold => assert_eq!(kind, 0),
        Told::NotSp => match whole {
            Ok(whole) => assert!(kind == 0 && !is_sp(whole.kind)),
            Err(refusal) => assert!(is_of_a_record(refusal), "{refusal:?}"),
        },
        Told::InsideHeader(start) => assert_eq!(whole, Err(Refusal { number: Refusal::HEADER, beside: start, size: 0, absent: 0 })),
        Told::Complete | Told::BeginsSwapped(_) | Told::Cut(_) | Told::Owing(_) => {
            let (lacking, whole) = (lacking(file, whole), whole.unwrap());
            assert!(is_sp(whole.kind) && (whole.kind == AudioFormat::DssSp) == (kind != 0));
            assert_eq!(told == Told::Complete, complete);
            assert_eq!(whole.cut(file.len()), if let Told::Cut(bytes) = told { bytes as usize } else { 0 });
            assert_eq!(matches!(told, Told::Owing(_)), lacking > 0 && whole.cut(file.len()) == 0);
            // what is short of a recording that lacks nothing are the packets before the first unswapped one
            if let Told::BeginsSwapped(leading) = told {
                assert_eq!((whole.short, whole.handed, lacking), (leading, whole.announced, 0));
            }
            assert!(whole.short >= lacking);
        }
    }
}

/// An outcome's name for the count of them.
fn named(told: Told, kind: u64, whole: Result<Tally, Refusal>, lacking: usize) -> String {
    let what = match (told, whole) {
        (Told::Complete, Ok(whole)) if whole.announced == 0 => "complete, and empty",
        (Told::Complete, _) => "complete",
        (Told::BeginsSwapped(_), _) => "begins swapped",
        (Told::Cut(_), _) if lacking > 0 => "cut, and owing",
        (Told::Cut(_), Ok(whole)) if whole.short > 0 => "cut, and begins swapped",
        (Told::Cut(_), _) => "cut",
        (Told::Owing(_), _) => "owing",
        (Told::InsideHeader(_), _) => "inside the header",
        (Told::NotSp, Err(_)) => "not SP, refused",
        (Told::NotSp, Ok(_)) => "not SP",
        (Told::Hold, _) => "refused by 7",
    };
    format!("{}: {what}", if kind == 0 { "DS2" } else { "DSS" })
}

#[test]
fn in_pieces_as_whole() {
    let mut seen = BTreeMap::new();
    for seed in 0..FILES {
        let dice = &mut Dice::new(seed);
        let file = made(seed, dice);
        let kind = match Reader::kind_of(&file) {
            Some(kind) => kind,
            None => continue,
        };
        let whole = tally(&file);
        let cuts = [vec![&file[..]], files::pieces(&file, dice), files::few_pieces(&file, dice)];
        for pieces in cuts {
            let told = in_pieces(kind, &pieces);
            hold(&file, kind, told, whole);
            *seen.entry(named(told, kind, whole, lacking(&file, whole))).or_insert(0) += 1;
        }
    }
    println!("{seen:?}");
    for kind in ["DSS", "DS2"] {
        let ended = ["complete", "complete, and empty", "begins swapped", "owing", "inside the header"];
        for what in ended.into_iter().chain(["cut", "cut, and owing", "cut, and begins swapped"]) {
            assert!(seen.contains_key(&format!("{kind}: {what}")), "{kind}: {what}");
        }
    }
    for what in ["not SP", "not SP, refused", "refused by 7"] {
        assert!(seen.contains_key(&format!("DS2: {what}")), "{what}");
    }
    assert_eq!(seen.len(), 19);
}

#[test]
fn recordings_that_begin_swapped() {
    let payload: fn(usize) -> u8 = |place| place as u8;
    let [swapped, unswapped] = [0x8F, 0x0F].map(|flags| move |count| header(flags, 3, count, 0));
    // blocks, and how many packets come before the first unswapped one
    let ds2: [(&[[u8; 6]], usize); 5] = [
        (&[swapped(12)], 1),
        (&[swapped(1), unswapped(1)], 1),
        // the first block says it though it is silent
        (&[swapped(0), unswapped(24)], 1),
        // and in a recording without packets nothing is swapped
        (&[swapped(0), swapped(0)], 0),
        (&[unswapped(0), swapped(24)], 0),
    ];
    let dss: [(&[[u8; 6]], usize); 5] = [
        (&[swapped(1), unswapped(1), swapped(1)], 1),
        (&[swapped(0), swapped(1), swapped(1), swapped(2), swapped(1)], 3),
        (&[swapped(1), unswapped(0), swapped(1)], 2),
        // a silent block has no say
        (&[swapped(0), unswapped(12), swapped(12)], 0),
        (&[swapped(0), swapped(0)], 0),
    ];
    for (kind, magic, start, cases) in [(0, b"\x01ds2", 1536, ds2), (2, b"\x02dss", 1024, dss)] {
        for (heads, leading) in cases {
            let file = files::file(magic, start, heads, payload);
            let expected = if leading > 0 { Told::BeginsSwapped(leading) } else { Told::Complete };
            for size in [1, 512, file.len()] {
                let told = in_pieces(kind, &file.chunks(size).collect::<Vec<_>>());
                assert_eq!(told, expected, "{heads:?}");
                hold(&file, kind, told, tally(&file));
            }
            assert!(strict_end_answers(kind, &file));
            assert_eq!((tally(&file).map(|told| told.short), is_complete(&file)), (Ok(leading), leading == 0), "{heads:?}");
        }
    }
}

#[test]
fn kinds_as_the_format_tells() {
    let (mut same, mut other) = (0, 0);
    for seed in 0..FILES {
        let file = made(seed, &mut Dice::new(seed));
        let kind = Reader::kind_of(&file);
        if let (Ok(whole), Some(format)) = (tally(&file), detect_format(&file)) {
            if whole.kind == format {
                same += 1;
            } else {
                // a type of 8 or above
                assert_eq!((whole.kind, format), (AudioFormat::Ds2Qp, AudioFormat::Ds2Sp));
                assert!(ds2::detect_ds2_format_type(&file, whole.start.0) > 7);
                other += 1;
            }
            let by_magic = if file[0] == 7 { None } else { Some(if format == AudioFormat::DssSp { u64::from(file[0]) } else { 0 }) };
            assert_eq!(kind, by_magic);
        }
        if tally(&file).is_err() && kind.is_some() {
            assert_ne!(tally(&file).unwrap_err().number, Refusal::MAGIC);
        }
    }
    assert!(same > 0 && other > 0, "{same} {other}");
}

#[test]
fn kind_of_first_bytes() {
    for first in 0..=255 {
        for rest in [b"dss", b"ds2", b"enc", b"DSS", b"ds3", b"xss", b"dxs"] {
            let file = [first, rest[0], rest[1], rest[2], 0, 1];
            let kind = match (first, rest) {
                (2 | 3, b"dss") => Some(u64::from(first)),
                (1 | 3, b"ds2") => Some(0),
                _ => None,
            };
            assert_eq!((Reader::kind_of(&file), Reader::kind_of(&file[..4])), (kind, kind));
            for length in 0..4 {
                assert_eq!(Reader::kind_of(&file[..length]), None);
            }
            // what a reader takes has a magic
            assert!(kind.is_none() || tally(&file[..4]).map_err(|refusal| refusal.number) == Err(Refusal::HEADER));
        }
    }
    assert_eq!(DS2_START, FilePlace(ds2::detect_ds2_audio_start(&[])));
}

#[test]
fn room_suffices_where_most_is_announced() {
    for (kind, magic, start) in [(0, b"\x01ds2", 1536), (2, b"\x02dss", 1024), (3, b"\x03dss", 1536)] {
        let heads: Vec<_> = (0..20).map(|block| header(0x0F, 3, if block < 9 { 255 } else { 0 }, 0)).collect();
        let file = files::file(magic, start, &heads, |place| place as u8);
        for size in [1, 511, 512, 513, 1024, 5000, file.len()] {
            let mut fed = Fed::open(kind);
            let brought: usize = file.chunks(size).map(|piece| fed.give(piece).unwrap()).sum();
            assert_eq!(brought + fed.reader.owed(), 9 * 255);
        }
    }
    assert_eq!(Reader::open(0).unwrap().room(0), 0);
}

/// Whether the strict end answers of a reader of that kind that has taken all of the file.
fn strict_end_answers(kind: u64, file: &[u8]) -> bool {
    let mut fed = Fed::open(kind);
    fed.give(file).unwrap();
    fed.reader.end(Reader::STRICT, &mut [], &mut []).is_ok()
}

fn is_complete(file: &[u8]) -> bool {
    tally(file).map_or(false, |told| told.complete_as_announced(file.len()))
}

#[test]
fn ends_that_say_nothing() {
    for kind in [0, 2, 3] {
        assert!(strict_end_answers(kind, &[]));
    }
    assert_eq!(tally(&[]).map_err(|refusal| refusal.number), Err(Refusal::MAGIC));

    for (kind, magic) in [(0, b"\x01ds2"), (3, b"\x03dss")] {
        let file = files::file(magic, 1536, &[header(0x0F, 3, 13, 0)], |place| place as u8);
        let mut fed = Fed::open(kind);
        fed.give(&file).unwrap();
        let reader = &mut fed.reader;
        assert_eq!(reader.end(Reader::STRICT, &mut [], &mut []).map_err(|refusal| refusal.number), Err(Refusal::OWING));
        reader.end(Reader::LENIENT, &mut [0; 13 * PACKET], &mut [0; 13]).unwrap();
        assert_eq!((reader.end(Reader::STRICT, &mut [], &mut []), reader.owed(), is_complete(&file)), (Ok(0), 0, false));
    }

    assert_eq!(Reader::open(1).err(), Some(Refusal { number: Refusal::KIND, beside: 1, size: 0, absent: 0 }));
}

#[test]
fn readers_of_another_kind_say_nothing() {
    let zeros: fn(usize) -> u8 = |_| 0;
    // a reader of DS2 looks for the audio a block further on than a DSS recording of first byte 2 has it, and misses the one that owes
    let dss = files::file(b"\x02dss", 1024, &[header(0x0F, 3, 40, 0), header(0x0F, 3, 0, 0)], zeros);
    // in DSS the second block's packets begin anew, where those of DS2 go on, past the end
    let sp = files::file(b"\x01ds2", 1536, &[header(0x0F, 3, 13, 0), header(0x0F, 3, 12, 0)], zeros);
    // ten frames do not fit where ten packets do
    let qp = files::file(b"\x01ds2", 1536, &[header(0x0F, 3, 10, 6)], zeros);
    // first byte 7: the audio starts before a reader looks for it
    let heads = [255, 255, 1, 1].map(|count| header(0x0F, 3, count, 0));
    let seventh = files::file(b"\x07ds2", 512, &heads, zeros);
    assert_eq!(tally(&seventh).map(|told| told.start), Ok(FilePlace(512)));
    for (kind, file, by_rule) in [(0, &dss, Some(2)), (3, &sp, Some(0)), (0, &qp, Some(0)), (0, &seventh, None)] {
        assert_eq!(Reader::kind_of(file), by_rule);
        assert!(strict_end_answers(kind, file) && tally(file).is_ok() && !is_complete(file));
    }
    assert_eq!(in_pieces(0, &[&qp]), Told::NotSp);
}

/// Block headers as a recorder writes them over so many blocks, unswapped first, each announcing the reads that begin in it and end in the
/// recording.
fn without_a_gap(blocks: usize) -> Vec<[u8; 6]> {
    let (mut place, mut swapped) = (0, false);
    let mut heads = Vec::new();
    for block in 0..blocks {
        let (first, flag, mut count) = (place - 506 * block, swapped, 0);
        while place < 506 * (block + 1) && place + if swapped { 40 } else { 42 } <= 506 * blocks {
            place += if swapped { 40 } else { 42 };
            swapped = !swapped;
            count += 1;
        }
        let before = if flag { 4 } else { 6 };
        heads.push(header(if flag { 0x8F } else { 0x0F }, ((first + before) / 2) as u8, count, 0));
    }
    heads
}

/// The figures of docs/FORMAT.md, last section.
#[test]
fn what_nobody_announced_is_not_missed() {
    let packets = |file: &[u8]| tally(file).map(|told| (told.handed, told.complete_as_announced(file.len())));
    for magic in [b"\x01ds2", b"\x03dss"] {
        let file = files::file(magic, 1536, &without_a_gap(20), |place| place as u8);
        let block = 1536 + 512 * 7..1536 + 512 * 8;
        assert_eq!(packets(&file), Ok((246, true)));
        let mut zeroed = file.clone();
        zeroed[block.clone()].fill(0);
        assert_eq!(packets(&zeroed), Ok((234, true)));
        let mut lost = file.clone();
        lost.drain(block.clone());
        assert_eq!(packets(&lost), Ok((234, true)));
        let twice = [&file[..block.end], &file[block.start..]].concat();
        assert_eq!(packets(&twice), Ok((258, true)));
    }
}
