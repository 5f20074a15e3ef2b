// Asks the original demuxer and prints its answers; `make.py` builds and calls it.
//
// The original's modules are used unchanged: beside this file make.py puts a folder `demux` that
// leads to them, with an empty `grundig.rs`, since that part is not covered. The errors are our
// own, for the original's need crates from a registry.
//
// A request is seven u32 (little-endian): the file's length, which calls are allowed, the output's
// length, the reader's kind, a place in the file and the length of a part there, the number of
// pieces; then a u32 for each piece (where it ends); then the file. The answer is one line of pairs:
// the place of an answer in the list, and its value. Detection is always asked; another call that is
// not allowed, or one that faults, gives no pair.
#![allow(dead_code)]

use demux::ds2::{DemuxedDs2, Ds2Qp7Segment, Ds2QpSegment, Ds2QpStreamDemuxer, Ds2SpStreamDemuxer};
use demux::dss::DssSpStreamDemuxer;
use demux::AudioFormat;
use error::{DecodeError, Result};
use std::io::Read;
use std::panic::{catch_unwind, AssertUnwindSafe};
use std::slice::from_ref;

mod demux;

mod error {
    use std::path::PathBuf;

    #[derive(Debug)]
    pub enum DecodeError {
        NotDss(PathBuf),
        NotDs2(PathBuf),
        Truncated(String),
    }

    pub type Result<T> = std::result::Result<T, DecodeError>;
}

type Packets = Vec<Vec<u8>>;
type Pairs = Vec<(usize, u64)>;

const DEMUX_DSS: usize = 1;
const DEMUX_DS2: usize = 2;
const READ_PIECES: usize = 4;

struct Request<'a> {
    file: &'a [u8],
    allowed: usize,
    out: usize,
    kind: u8,
    probe: usize,
    part: usize,
    ends: Vec<usize>,
}

/// The next u32, or none at the end of the input.
fn number(input: &mut &[u8]) -> Option<usize> {
    let mut bytes = [0; 4];
    input.read_exact(&mut bytes).ok()?;
    Some(u32::from_le_bytes(bytes) as usize)
}

fn request<'a>(input: &mut &'a [u8]) -> Option<Request<'a>> {
    let length = number(input)?;
    let (allowed, out) = (number(input)?, number(input)?);
    let (kind, probe) = (number(input)? as u8, number(input)?);
    let (part, pieces) = (number(input)?, number(input)?);
    let ends = (0..pieces).map(|_| number(input)).collect::<Option<_>>()?;
    let (file, rest) = input.split_at(length);
    *input = rest;
    Some(Request { file, allowed, out, kind, probe, part, ends })
}

fn digest(values: impl Iterator<Item = u64>) -> u64 {
    values.fold(0, |d, v| (d * 1000003 + v + 1) % (1 << 43))
}

fn bytes(parts: &[Vec<u8>]) -> impl Iterator<Item = u64> + '_ {
    parts.iter().flatten().map(|&byte| byte as u64)
}

/// The digest of an output that held 165 in each byte before.
fn output(packets: &[Vec<u8>], length: usize) -> u64 {
    let tail = std::iter::repeat(165).take(64);
    digest(bytes(packets).chain(tail).take(length))
}

/// A segment as the list has it: frames, reset, every byte.
fn segment(frames: usize, reset: bool, parts: &[Vec<u8>]) -> Vec<u64> {
    [frames as u64, reset as u64].into_iter().chain(bytes(parts)).collect()
}

fn detect(request: &Request) -> Pairs {
    let file = request.file;
    let format = match demux::detect_format(file) {
        None => 0,
        Some(AudioFormat::DssSp) => 1,
        Some(AudioFormat::Ds2Sp) => 2,
        Some(AudioFormat::Ds2Qp) => 3,
        Some(AudioFormat::Ds2Qp7) => 4,
        Some(AudioFormat::GrundigSp) => 5,
    };
    let start = demux::ds2::detect_ds2_audio_start(file);
    let kind = demux::ds2::detect_ds2_format_type(file, start);
    let there = demux::ds2::detect_ds2_format_type(file, request.probe);
    let begin = request.probe.min(file.len());
    let part = &file[begin..(begin + request.part).min(file.len())];
    let good = demux::ds2::is_ds2_audio_block_header(part);
    vec![(1, format), (2, start as u64), (3, kind as u64), (72, there as u64), (73, good as u64)]
}

fn dss(request: &Request) -> Pairs {
    match demux::dss::demux_dss(request.file) {
        Ok((packets, _)) => vec![(6, packets.len() as u64), (7, output(&packets, request.out))],
        Err(_) => vec![(4, 1)],
    }
}

fn ds2(request: &Request) -> Pairs {
    match demux::ds2::demux_ds2(request.file) {
        Ok(DemuxedDs2::Sp { packets, .. }) => {
            vec![(11, packets.len() as u64), (12, output(&packets, request.out))]
        }
        Ok(DemuxedDs2::QpSegments { segments, total_frames }) => {
            let one = |s: &Ds2QpSegment| segment(s.total_frames, s.reset_before, from_ref(&s.stream));
            let all = digest(segments.iter().flat_map(one));
            vec![(16, segments.len() as u64), (17, total_frames as u64), (19, all)]
        }
        Ok(DemuxedDs2::Qp7Segments { segments, total_frames }) => {
            let one = |s: &Ds2Qp7Segment| segment(s.total_frames, s.reset_before, &s.records);
            let all = digest(segments.iter().flat_map(one));
            vec![(22, total_frames as u64), (23, segments.len() as u64), (26, all)]
        }
        Err(DecodeError::Truncated(text)) => {
            let place = text.rsplit(' ').next().unwrap().parse().unwrap();
            vec![(20, if text.contains("selector") { 4 } else { 5 }), (21, place)]
        }
        Err(_) => vec![(9, 1), (14, 1), (20, 1)],
    }
}

/// The frames that the QP reader cuts: how many, and all their bytes.
fn qp_frames(request: &Request) -> Pairs {
    let mut demuxer = Ds2QpStreamDemuxer::new();
    match demuxer.push(request.file).and_then(|_| demuxer.finish()) {
        Ok(frames) => vec![(67, frames.len() as u64), (69, bytes(&frames).count() as u64)],
        Err(_) => Vec::new(),
    }
}

fn pieces<D>(
    request: &Request,
    mut demuxer: D,
    push: fn(&mut D, &[u8]) -> Result<Packets>,
    finish: fn(&mut D) -> Result<Packets>,
    finish_lenient: fn(&mut D) -> Result<Packets>,
) -> Pairs {
    let (mut at, mut out, mut numbers) = (0, Packets::new(), Vec::new());
    for &end in &request.ends {
        let packets = push(&mut demuxer, &request.file[at..end]).unwrap();
        numbers.push(packets.len() as u64);
        out.extend(packets);
        at = end;
    }
    let strict = match finish(&mut demuxer) {
        Ok(packets) => packets.len() as u64,
        Err(DecodeError::Truncated(text)) if text.ends_with("header") => 3,
        Err(DecodeError::Truncated(text)) if text.ends_with("block") => 13,
        Err(_) => 14,
    };
    let count = out.len() as u64;
    let handed = digest(numbers.into_iter());
    let mut found = vec![(34, count), (35, handed), (36, digest(bytes(&out))), (39, strict)];
    match finish_lenient(&mut demuxer) {
        Ok(last) => found.extend([(41, 0), (43, last.len() as u64), (44, digest(bytes(&last)))]),
        Err(_) => found.push((41, 3)),
    }
    found
}

fn reader(r: &Request) -> Pairs {
    type Ds2 = Ds2SpStreamDemuxer;
    type Dss = DssSpStreamDemuxer;
    match r.kind {
        0 => pieces(r, Ds2::new(), Ds2::push, Ds2::finish, Ds2::finish_lenient),
        kind => pieces(r, Dss::new(kind), Dss::push, Dss::finish, Dss::finish_lenient),
    }
}

fn main() {
    std::panic::set_hook(Box::new(|_| {}));
    let mut all = Vec::new();
    std::io::stdin().read_to_end(&mut all).unwrap();
    let mut input = &all[..];
    while let Some(request) = request(&mut input) {
        let ask = |call: usize, answer: &dyn Fn() -> Pairs| {
            let allowed = request.allowed & call == call;
            let asked = || if allowed { answer() } else { Vec::new() };
            for (place, value) in catch_unwind(AssertUnwindSafe(asked)).unwrap_or_default() {
                print!("{place} {value} ");
            }
        };
        ask(0, &|| detect(&request));
        ask(DEMUX_DSS, &|| dss(&request));
        ask(DEMUX_DS2, &|| ds2(&request));
        ask(DEMUX_DS2, &|| qp_frames(&request));
        ask(READ_PIECES, &|| reader(&request));
        println!();
    }
}
