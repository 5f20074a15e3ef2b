//! dss-codec's module `demux` as a crate of its own, its calls made public and its errors told in numbers. It rests on that module's
//! own sources, unchanged, which stand beside this file by links that compare/run makes, and on an error.rs of ours.
#[allow(dead_code)]
mod demux;
mod error;

pub use demux::ds2::{DemuxedDs2, Ds2Qp7Segment, Ds2QpSegment};
pub use demux::{detect_format, AudioFormat};
use error::DecodeError;

/// The number of the refusal that an error's text stands for, and the place that the text has; 0 where it has none.
pub type Told<T> = Result<T, (u64, u64)>;

fn told<T>(answer: error::Result<T>) -> Told<T> {
    answer.map_err(|error| match error {
        DecodeError::NotDss(_) | DecodeError::NotDs2(_) => (1, 0),
        DecodeError::Truncated(text) => truncated(&text),
    })
}

fn truncated(text: &str) -> (u64, u64) {
    let place = text.rsplit(' ').next().and_then(|word| word.parse().ok()).unwrap_or(0);
    let words = [("selector", 4), ("record", 5), ("header", 3), ("block", 13), ("frame", 14)];
    let number = words.iter().find(|(word, _)| text.contains(word)).map_or(0, |&(_, number)| number);
    (number, place)
}

pub fn is_ds2_audio_block_header(header: &[u8]) -> bool {
    demux::ds2::is_ds2_audio_block_header(header)
}

pub fn detect_ds2_audio_start(file: &[u8]) -> usize {
    demux::ds2::detect_ds2_audio_start(file)
}

pub fn detect_ds2_format_type(file: &[u8], header_size: usize) -> u8 {
    demux::ds2::detect_ds2_format_type(file, header_size)
}

/// Faults on a file shorter than its header.
pub fn demux_dss(file: &[u8]) -> Told<(Vec<Vec<u8>>, usize)> {
    told(demux::dss::demux_dss(file))
}

/// Faults on a file no longer than its header.
pub fn demux_ds2(file: &[u8]) -> Told<DemuxedDs2> {
    told(demux::ds2::demux_ds2(file))
}

/// One of the three stream demuxers.
pub enum Stream {
    Dss(DssSp),
    Ds2(Ds2Sp),
    Qp(Ds2Qp),
}

// A public enum may not name a type that is only the module's own.
pub struct DssSp(demux::dss::DssSpStreamDemuxer);
pub struct Ds2Sp(demux::ds2::Ds2SpStreamDemuxer);
pub struct Ds2Qp(demux::ds2::Ds2QpStreamDemuxer);

impl Stream {
    /// `DssSpStreamDemuxer`: agrees with `demux_dss` in a part of all recordings only.
    pub fn dss(version: u8) -> Stream {
        Stream::Dss(DssSp(demux::dss::DssSpStreamDemuxer::new(version)))
    }

    /// `Ds2SpStreamDemuxer`.
    pub fn ds2() -> Stream {
        Stream::Ds2(Ds2Sp(demux::ds2::Ds2SpStreamDemuxer::new()))
    }

    /// `Ds2QpStreamDemuxer`.
    pub fn qp() -> Stream {
        Stream::Qp(Ds2Qp(demux::ds2::Ds2QpStreamDemuxer::new()))
    }

    pub fn push(&mut self, piece: &[u8]) -> Told<Vec<Vec<u8>>> {
        told(match self {
            Stream::Dss(stream) => stream.0.push(piece),
            Stream::Ds2(stream) => stream.0.push(piece),
            Stream::Qp(stream) => stream.0.push(piece),
        })
    }

    pub fn finish(&mut self) -> Told<Vec<Vec<u8>>> {
        told(match self {
            Stream::Dss(stream) => stream.0.finish(),
            Stream::Ds2(stream) => stream.0.finish(),
            Stream::Qp(stream) => stream.0.finish(),
        })
    }

    pub fn finish_lenient(&mut self) -> Told<Vec<Vec<u8>>> {
        told(match self {
            Stream::Dss(stream) => stream.0.finish_lenient(),
            Stream::Ds2(stream) => stream.0.finish_lenient(),
            Stream::Qp(stream) => stream.0.finish_lenient(),
        })
    }
}
