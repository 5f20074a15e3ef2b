// The original's side of the measuring. It returns vectors, which are dropped before a call here ends, so that taking and giving back
// memory is part of what is measured. It rests on dss-codec's module `demux`, unchanged.
use crate::demux::ds2::{demux_ds2, Ds2SpStreamDemuxer, DemuxedDs2};
use crate::demux::dss::{demux_dss, DssSpStreamDemuxer};
use crate::files::Kind;

/// How many packets, segments' frames or records the whole reading hands out.
pub fn whole(kind: Kind, file: &[u8]) -> usize {
    if kind.is_dss() {
        return dss(file).len();
    }
    match ds2(file) {
        DemuxedDs2::Sp { packets, .. } => packets.len(),
        DemuxedDs2::QpSegments { segments, .. } => segments.iter().map(|segment| segment.total_frames).sum(),
        DemuxedDs2::Qp7Segments { segments, .. } => segments.iter().map(|segment| segment.records.len()).sum(),
    }
}

pub fn dss(file: &[u8]) -> Vec<Vec<u8>> {
    demux_dss(file).expect("a DSS recording").0
}

pub fn ds2(file: &[u8]) -> DemuxedDs2 {
    demux_ds2(file).expect("a DS2 recording")
}

/// Feeds one stream demuxer, ends it strictly, and answers how many packets came out. What each piece brought is shown.
pub fn pieces(kind: Kind, file: &[u8], bytes: usize, show: impl FnMut(&[Vec<u8>])) -> usize {
    if kind.is_dss() {
        let mut demuxer = DssSpStreamDemuxer::new(file[0]);
        let sum = fed(file, bytes, usize::MAX, |piece| demuxer.push(piece).expect("a piece"), show);
        return sum + demuxer.finish().expect("a complete recording").len();
    }
    let mut demuxer = Ds2SpStreamDemuxer::new();
    let sum = fed(file, bytes, usize::MAX, |piece| demuxer.push(piece).expect("a piece"), show);
    sum + demuxer.finish().expect("a complete recording").len()
}

/// Feeds one stream demuxer of DS2 SP until the packet of this number has come out, and answers how many packets did.
pub fn walk(file: &[u8], bytes: usize, number: usize, show: impl FnMut(&[Vec<u8>])) -> usize {
    let mut demuxer = Ds2SpStreamDemuxer::new();
    fed(file, bytes, number, |piece| demuxer.push(piece).expect("a piece"), show)
}

fn fed(
    file: &[u8],
    bytes: usize,
    number: usize,
    mut push: impl FnMut(&[u8]) -> Vec<Vec<u8>>,
    mut show: impl FnMut(&[Vec<u8>]),
) -> usize {
    let mut sum = 0;
    for piece in file.chunks(bytes) {
        let packets = push(piece);
        show(&packets);
        sum += packets.len();
        if sum > number {
            break;
        }
    }
    sum
}
