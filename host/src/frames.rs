//! QP frames and QP7 records one at a time, as bytes of the file where they stand in one block. It rests on the archive's calls
//! for a frame's place and for its bytes; a frame that crosses a block is put together in a scratch that the caller lends.
use crate::demux::ds2::QpRow;
use crate::error::Result;
use crate::places::StreamPlace;
use crate::{raw, FRAME};

/// Frame `k` of a QP segment that has `length` bytes from `start` on: its place and its size, under [`FRAME`] when it is short.
/// None when it is missing: the segment's bytes end before it.
#[must_use]
pub fn frame(start: StreamPlace, length: usize, k: usize) -> Option<(StreamPlace, usize)> {
    let (place, size) = raw::frame(start.0, length, k);
    (size > 0).then_some((StreamPlace(place), size))
}

/// The places and sizes of the frames that a segment hands out, in order. The missing ones are the last, so it ends before them.
pub fn frames(segment: QpRow) -> impl Iterator<Item = (StreamPlace, usize)> {
    (0..segment.frames).map_while(move |k| frame(segment.start, segment.length, k))
}

/// `size` bytes of a DS2 file's payload stream: a part of the file, or of the scratch if they cross a block; only then is the
/// scratch written. It has [`FRAME`] bytes. Refusals 1, 2, 3, 12.
pub fn fetch<'a>(file: &'a [u8], place: StreamPlace, size: usize, scratch: &'a mut [u8]) -> Result<&'a [u8]> {
    let stand = raw::fetch(file, place.0, size, scratch)?;
    Ok(part(file, size, scratch, stand))
}

/// What [`fetch`] with the same arguments has answered, again: nothing is written. Refusals 1, 2, 3, 12.
pub fn show<'a>(file: &'a [u8], place: StreamPlace, size: usize, scratch: &'a [u8]) -> Result<&'a [u8]> {
    let stand = raw::show(file, place.0, size, scratch)?;
    Ok(part(file, size, scratch, stand))
}

/// A QP7 record: its second byte has its size, so that one is fetched first. Refusals as for [`fetch`].
pub fn record<'a>(file: &'a [u8], place: StreamPlace, scratch: &'a mut [u8]) -> Result<&'a [u8]> {
    let size = record_size(fetch(file, place, 2, scratch)?[1]);
    fetch(file, place, size, scratch)
}

/// A QP7 record's size, by its second byte.
pub(crate) fn record_size(second: u8) -> usize {
    if second & 0x80 == 0 {
        12
    } else {
        FRAME
    }
}

fn part<'a>(file: &'a [u8], size: usize, scratch: &'a [u8], stand: (usize, usize)) -> &'a [u8] {
    match stand {
        (0, place) => &file[place..place + size],
        _ => &scratch[..size],
    }
}
