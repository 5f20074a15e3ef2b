// The calls that dss-codec has too, on recordings made from dice. It rests on the model: what every reading answers, written
// from docs/FORMAT.md.
mod common;

use common::files::{self, Dice};
use common::model::{self, refused, Kind};
use klovdrun::demux::ds2::{self, Ds2QpStreamDemuxer, Ds2SpStreamDemuxer};
use klovdrun::demux::dss::{self, DssSpStreamDemuxer};
use klovdrun::demux::{detect_format, AudioFormat};
use klovdrun::{frames, places, tally, FilePlace, Refusal, StreamPlace, FRAME};

const FILES: u64 = 1500;

fn told<T>(result: Result<T, Refusal>) -> model::Answer<T> {
    result.map_err(|Refusal { number, beside, size, absent }| [number, beside, size, absent])
}

fn bytes(packets: &[model::Packet]) -> Vec<Vec<u8>> {
    packets.iter().map(|packet| packet.bytes.to_vec()).collect()
}

/// Runs a check over many recordings.
fn for_each(first: u64, make: fn(&mut Dice) -> Vec<u8>, mut check: impl FnMut(&[u8], &mut Dice)) {
    for seed in first..first + FILES {
        let mut dice = Dice::new(seed);
        let file = make(&mut dice);
        check(&file, &mut dice);
    }
}

#[test]
fn detection() {
    let mut formats = std::collections::BTreeSet::new();
    for_each(0, files::any, |file, dice| {
        let format = detect_format(file).map(|format| format!("{format:?}"));
        assert_eq!(format.as_deref(), model::format(file));
        formats.insert(format);
        assert_eq!(ds2::detect_ds2_audio_start(file), model::ds2_start(file));
        for start in [0, 512, 1536, 4096, file.len(), file.len() + 1, usize::MAX, dice.below(9000)] {
            assert_eq!(ds2::detect_ds2_format_type(file, start), model::ds2_type(file, start));
        }
        let place = dice.below(file.len() + 1) / 512 * 512;
        let part = &file[place..(place + dice.below(9)).min(file.len())];
        assert_eq!(ds2::is_ds2_audio_block_header(part), model::good_header(part));
    });
    assert_eq!(formats.len(), 6, "{formats:?}");
}

#[test]
fn rates_and_extensions() {
    let rates = [
        (AudioFormat::DssSp, 11000, "dss"),
        (AudioFormat::Ds2Sp, 12000, "ds2"),
        (AudioFormat::Ds2Qp, 16000, "ds2"),
        (AudioFormat::Ds2Qp7, 16000, "ds2"),
        (AudioFormat::GrundigSp, 16000, "dss"),
    ];
    for (format, rate, extension) in rates {
        assert_eq!((format.native_sample_rate(), format.extension()), (rate, extension));
    }
}

#[test]
fn whole_dss() {
    for_each(10_000, files::any, |file, _| {
        let expected = match model::kind(file) {
            Ok((Kind::DssSp, start)) => Ok(bytes(&model::packets(file, Kind::DssSp, start))),
            Err(refusal) if refusal[0] == 1 || file[1..4] == *b"dss" => Err(refusal),
            _ => Err(refused(1, 0)),
        };
        assert_eq!(told(dss::demux_dss(file)), expected.map(|packets| (packets.clone(), packets.len())));
    });
}

/// What `demux_ds2` answers, in a form that can be compared.
#[derive(Debug, PartialEq)]
enum Ds2 {
    Sp(Vec<Vec<u8>>, usize),
    Qp(Vec<ds2::Ds2QpSegment>, usize),
    Qp7(Vec<ds2::Ds2Qp7Segment>, usize),
}

impl From<ds2::DemuxedDs2> for Ds2 {
    fn from(demuxed: ds2::DemuxedDs2) -> Ds2 {
        match demuxed {
            ds2::DemuxedDs2::Sp { packets, total_frames } => Ds2::Sp(packets, total_frames),
            ds2::DemuxedDs2::QpSegments { segments, total_frames } => Ds2::Qp(segments, total_frames),
            ds2::DemuxedDs2::Qp7Segments { segments, total_frames } => Ds2::Qp7(segments, total_frames),
        }
    }
}

fn model_ds2(file: &[u8]) -> model::Answer<Ds2> {
    let (kind, start) = model::kind(file)?;
    let announced = model::announced(file, start);
    let stream = model::stream(file, start);
    let part = |place: usize, size: usize| stream[place..place + size].to_vec();
    Ok(match kind {
        Kind::DssSp => return Err(refused(1, 0)),
        Kind::Ds2Sp => Ds2::Sp(bytes(&model::packets(file, kind, start)), announced),
        Kind::Qp => {
            let segment = |segment: model::Segment| ds2::Ds2QpSegment {
                stream: part(segment.start, segment.length),
                total_frames: segment.frames,
                reset_before: segment.reset,
            };
            Ds2::Qp(model::qp(file, start).into_iter().map(segment).collect(), announced)
        }
        Kind::Qp7 => {
            let segment = |segment: model::Records| ds2::Ds2Qp7Segment {
                records: segment.records.iter().map(|&(place, size)| part(place, size)).collect(),
                total_frames: segment.records.len(),
                reset_before: segment.reset,
            };
            Ds2::Qp7(model::qp7(file, start)?.into_iter().map(segment).collect(), announced)
        }
    })
}

#[test]
fn whole_ds2() {
    let mut seen = std::collections::BTreeMap::new();
    for_each(20_000, files::any, |file, _| {
        if file.get(1..4) == Some(b"dss") {
            assert_eq!(told(ds2::demux_ds2(file)).err(), Some(refused(1, 0)));
            return;
        }
        let answer = told(ds2::demux_ds2(file)).map(Ds2::from);
        let sort = match &answer {
            Ok(Ds2::Sp(..)) => 100,
            Ok(Ds2::Qp(..)) => 101,
            Ok(Ds2::Qp7(..)) => 102,
            Err(refusal) => refusal[0],
        };
        *seen.entry(sort).or_insert(0) += 1;
        assert_eq!(answer, model_ds2(file));
    });
    assert!([1, 3, 4, 5, 100, 101, 102].iter().all(|sort| seen.get(sort) > Some(&3)), "{seen:?}");
}

/// What the frame cutter answers at its end.
fn model_frames(file: &[u8]) -> model::Answer<Vec<Vec<u8>>> {
    match model::kind(file)? {
        (Kind::DssSp, _) => Err(refused(1, 0)),
        (Kind::Ds2Sp, start) => Err(refused(11, u64::from(model::ds2_type(file, start)))),
        (Kind::Qp, start) => Ok(model::qp_frames(file, start)),
        (Kind::Qp7, start) => model::qp7_records(file, start),
    }
}

#[test]
fn frames_of_recordings_in_pieces() {
    for_each(30_000, files::any, |file, dice| {
        if file.get(1..4) == Some(b"dss") {
            return;
        }
        let mut demuxer = Ds2QpStreamDemuxer::new();
        for piece in files::pieces(file, dice) {
            assert_eq!(demuxer.push(piece), Ok(Vec::new()));
        }
        let expected = model_frames(file);
        assert_eq!(told(demuxer.finish_lenient()), expected);
        assert_eq!(told(demuxer.finish()), expected);
    });
}

/// A stream demuxer's two ends and its pieces, for DSS and DS2 alike.
trait Demuxer {
    fn push(&mut self, data: &[u8]) -> Result<Vec<Vec<u8>>, Refusal>;
    fn finish(&mut self) -> Result<Vec<Vec<u8>>, Refusal>;
    fn finish_lenient(&mut self) -> Result<Vec<Vec<u8>>, Refusal>;
}

macro_rules! demuxer {
    ($name:ty) => {
        impl Demuxer for $name {
            fn push(&mut self, data: &[u8]) -> Result<Vec<Vec<u8>>, Refusal> {
                <$name>::push(self, data)
            }
            fn finish(&mut self) -> Result<Vec<Vec<u8>>, Refusal> {
                <$name>::finish(self)
            }
            fn finish_lenient(&mut self) -> Result<Vec<Vec<u8>>, Refusal> {
                <$name>::finish_lenient(self)
            }
        }
    };
}
demuxer!(DssSpStreamDemuxer);
demuxer!(Ds2SpStreamDemuxer);

/// Feeds a recording, and compares after each piece what is out and at the end what was owed.
fn fed(file: &[u8], kind: Kind, start: usize, demuxer: &mut dyn Demuxer, dice: &mut Dice) {
    let mut got = Vec::new();
    let (mut given, mut ready) = (0, 0);
    for piece in files::pieces(file, dice) {
        let prefix = &file[..given + piece.len()];
        if model::whole_blocks(prefix.len(), start) > model::whole_blocks(given, start) {
            if kind == Kind::Ds2Sp && model::overflows(prefix) {
                assert_eq!(told(demuxer.push(piece)), Err(refused(7, 12288)));
                return;
            }
            ready = model::ready(prefix, kind, start);
        }
        got.extend(demuxer.push(piece).unwrap());
        given = prefix.len();
        assert_eq!(got.len(), ready);
    }
    if (1..start).contains(&file.len()) {
        assert_eq!(told(demuxer.finish()), Err(refused(3, start as u64)));
        assert_eq!(told(demuxer.finish_lenient()), Err(refused(3, start as u64)));
        return;
    }
    let all = bytes(&model::packets(file, kind, start));
    let cut = file.len().saturating_sub(start) % 512;
    let strict = match (cut, all.len() - got.len()) {
        (0, 0) => Ok(Vec::new()),
        (0, owed) => Err(refused(14, owed as u64)),
        (cut, _) => Err(refused(13, cut as u64)),
    };
    assert_eq!(told(demuxer.finish()), strict);
    got.extend(demuxer.finish_lenient().unwrap());
    assert_eq!(got, all);
    assert_eq!(told(demuxer.push(b"more")), Err(refused(6, 0)));
    assert_eq!((demuxer.finish(), demuxer.finish_lenient()), (Ok(Vec::new()), Ok(Vec::new())));
}

#[test]
fn dss_in_pieces() {
    for_each(40_000, files::dss, |file, dice| {
        let version = *file.first().unwrap_or(&2);
        fed(file, Kind::DssSp, 512 * usize::from(version), &mut DssSpStreamDemuxer::new(version), dice);
    });
}

#[test]
fn ds2_in_pieces() {
    for_each(50_000, files::ds2_sp, |file, dice| fed(file, Kind::Ds2Sp, 1536, &mut Ds2SpStreamDemuxer::new(), dice));
}

#[test]
fn counts_tallies_and_payloads() {
    for_each(60_000, files::any, |file, _| {
        let (kind, start) = match model::kind(file) {
            Ok(told) => told,
            Err(refusal) => return assert_eq!(told(tally(file)), Err(refusal)),
        };
        let blocks = model::blocks(file, start);
        for (number, block) in blocks.iter().enumerate() {
            assert_eq!(places::payload_place(file, number), Ok(FilePlace(start + 512 * number + 6)));
            assert_eq!(places::payload(file, number), Ok(&block[6..]));
        }
        let numbers = tally(file).map(|told| {
            assert_eq!(format!("{:?}", told.kind).trim_start_matches("Ds2"), format!("{kind:?}").trim_start_matches("Ds2"));
            let numbers = [told.start.0, told.blocks, told.announced, told.handed, told.short, told.bytes];
            numbers.map(|number| number as u64).to_vec()
        });
        let expected = model::tally(file).map(|numbers| numbers[1..].to_vec());
        assert_eq!(told(numbers), expected);
    });
}

/// Fetches and shows some part of the stream, and answers whether it crossed a block, so that the scratch was needed.
fn part(file: &[u8], stream: &[u8], dice: &mut Dice) -> bool {
    let (place, size) = (dice.below(stream.len() + 1), dice.below(60));
    let mut scratch = [0xEE; FRAME + 1];
    let fetched = told(frames::fetch(file, StreamPlace(place), size, &mut scratch)).map(<[u8]>::to_vec);
    let good = (1..=FRAME).contains(&size) && place + size <= stream.len();
    let expected = if good { Ok(stream[place..place + size].to_vec()) } else { Err(refused(12, 0)) };
    assert_eq!(fetched, expected);
    let shown = told(frames::show(file, StreamPlace(place), size, &scratch)).map(<[u8]>::to_vec);
    assert_eq!(shown, expected);
    let crosses = good && place / 506 != (place + size - 1) / 506;
    let used = if crosses { size } else { 0 };
    assert!(scratch[used..].iter().all(|&byte| byte == 0xEE));
    crosses
}

#[test]
fn any_part_of_the_payload_stream() {
    let mut crossed = 0;
    for_each(70_000, files::qp, |file, dice| {
        if let Ok((_, start)) = model::kind(file) {
            let stream = model::stream(file, start);
            crossed += (0..8).filter(|_| part(file, &stream, dice)).count();
        }
    });
    assert!(crossed > 50, "{crossed}");
}
