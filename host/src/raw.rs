//! The boundary: the archive's C declarations, and a thin safe function over slices for each. It rests on `include/klovdrun.h`.
//! All unsafe code of the crate is here. What the header forbids cannot be written outside of it: a slice is never null and has as
//! many elements as it says, two slices of which one is mutable share no byte, and a reader's words are private and from `open`.
#![allow(unsafe_code)]

use crate::error::{Refusal, Result};
use std::mem::{align_of, size_of, MaybeUninit};
use std::sync::atomic::{AtomicBool, Ordering};

/// The version of the archive that these declarations are for.
pub(crate) const VERSION: u64 = 5;
/// Which end `klov_end` is asked for.
pub(crate) const STRICT: u64 = 0;
pub(crate) const LENIENT: u64 = 1;
const READER_SIZE: usize = 12928;

/// `klov_answer`.
#[repr(C)]
#[derive(Clone, Copy)]
pub(crate) struct Answer {
    pub(crate) refusal: u64,
    pub(crate) beside: u64,
    pub(crate) first: u64,
    pub(crate) second: u64,
    pub(crate) size: u64,
    pub(crate) absent: u64,
}

/// `klov_tallied`: a file in numbers.
#[repr(C)]
#[derive(Clone, Copy)]
pub(crate) struct Tallied {
    pub(crate) refusal: u64,
    pub(crate) beside: u64,
    pub(crate) kind: u64,
    pub(crate) start: u64,
    pub(crate) blocks: u64,
    pub(crate) announced: u64,
    pub(crate) handed: u64,
    pub(crate) short_count: u64,
    pub(crate) bytes: u64,
    pub(crate) size: u64,
    pub(crate) absent: u64,
}

/// `klov_entry`: an entry of an index.
#[repr(C)]
#[derive(Clone, Copy)]
pub(crate) struct Entry {
    pub(crate) refusal: u64,
    pub(crate) beside: u64,
    pub(crate) number: u64,
    pub(crate) first: u64,
    pub(crate) place: u64,
    pub(crate) size: u64,
    pub(crate) absent: u64,
}

/// `klov_reader`: what is in it is its own. It may be copied and moved as a whole.
#[repr(C)]
#[derive(Clone)]
pub(crate) struct Reader {
    // Its last bytes may never have been written: they lie past its last field.
    opaque: [MaybeUninit<u64>; READER_SIZE / 8],
}

/// `klov_opened`.
#[repr(C)]
pub(crate) struct Opened {
    pub(crate) answer: Answer,
    pub(crate) reader: Reader,
}

const _: () = assert!(size_of::<Answer>() == 48 && align_of::<Answer>() == 8);
const _: () = assert!(size_of::<Tallied>() == 88 && align_of::<Tallied>() == 8);
const _: () = assert!(size_of::<Entry>() == 56 && align_of::<Entry>() == 8);
const _: () = assert!(size_of::<Reader>() == READER_SIZE && align_of::<Reader>() == 8);
const _: () = assert!(size_of::<Opened>() == 48 + READER_SIZE && align_of::<Opened>() == 8);

extern "C" {
    fn klov_version() -> u64;
    pub(crate) fn klov_detect_format(file: *const u8, file_len: usize) -> u8;
    pub(crate) fn klov_detect_ds2_audio_start(file: *const u8, file_len: usize) -> usize;
    pub(crate) fn klov_detect_ds2_format_type(file: *const u8, file_len: usize, header_size: usize) -> u8;
    pub(crate) fn klov_is_ds2_audio_block_header(header: *const u8, header_len: usize) -> u8;
    pub(crate) fn klov_payload(file: *const u8, file_len: usize, block: usize) -> Answer;
    pub(crate) fn klov_demux_dss(
        file: *const u8,
        file_len: usize,
        out: *mut u8,
        out_len: usize,
        counts: *mut u8,
        counts_len: usize,
    ) -> Answer;
    pub(crate) fn klov_demux_ds2_sp(
        file: *const u8,
        file_len: usize,
        out: *mut u8,
        out_len: usize,
        counts: *mut u8,
        counts_len: usize,
    ) -> Answer;
    pub(crate) fn klov_ds2_sp_packet(
        file: *const u8,
        file_len: usize,
        number: usize,
        out: *mut u8,
        out_len: usize,
        counts: *mut u8,
        counts_len: usize,
    ) -> Answer;
    pub(crate) fn klov_demux_ds2_qp(file: *const u8, file_len: usize, table: *mut u32, table_len: usize) -> Answer;
    pub(crate) fn klov_demux_ds2_qp7(
        file: *const u8,
        file_len: usize,
        records: *mut u32,
        records_len: usize,
        segments: *mut u32,
        segments_len: usize,
    ) -> Answer;
    pub(crate) fn klov_frame(start: u64, length: u64, k: u64) -> Answer;
    pub(crate) fn klov_fetch(
        file: *const u8,
        file_len: usize,
        stream_place: usize,
        size: usize,
        scratch: *mut u8,
        scratch_len: usize,
    ) -> Answer;
    pub(crate) fn klov_show(
        file: *const u8,
        file_len: usize,
        stream_place: usize,
        size: usize,
        scratch: *const u8,
        scratch_len: usize,
    ) -> Answer;
    pub(crate) fn klov_tally(file: *const u8, file_len: usize) -> Tallied;
    pub(crate) fn klov_open(kind: u64) -> Opened;
    pub(crate) fn klov_piece(
        reader: *mut Reader,
        src: *const u8,
        src_len: usize,
        out: *mut u8,
        out_len: usize,
        counts: *mut u8,
        counts_len: usize,
    ) -> Answer;
    pub(crate) fn klov_end(
        reader: *mut Reader,
        choice: u64,
        out: *mut u8,
        out_len: usize,
        counts: *mut u8,
        counts_len: usize,
    ) -> Answer;
    pub(crate) fn klov_write_ds2_sp(
        header: *const u8,
        header_len: usize,
        packets: *const u8,
        packets_len: usize,
        out: *mut u8,
        out_len: usize,
    ) -> Answer;
    pub(crate) fn klov_build_index(file: *const u8, file_len: usize, out: *mut u8, out_len: usize) -> Answer;
    pub(crate) fn klov_read_index(file: *const u8, file_len: usize, index: *const u8, index_len: usize) -> Answer;
    pub(crate) fn klov_find_entry(file: *const u8, file_len: usize, index: *const u8, index_len: usize, packet: usize) -> Entry;
    pub(crate) fn klov_dss_packet(
        file: *const u8,
        file_len: usize,
        index: *const u8,
        index_len: usize,
        packet: usize,
        out: *mut u8,
        out_len: usize,
        counts: *mut u8,
        counts_len: usize,
    ) -> Answer;
}

/// The archive's version.
pub(crate) fn version() -> u64 {
    unsafe { klov_version() }
}

/// Asks the archive for its version before the first call of it: in another one the numbers and the layouts may be others.
fn checked() {
    static IS_OURS: AtomicBool = AtomicBool::new(false);
    if !IS_OURS.load(Ordering::Relaxed) {
        let told = version();
        assert!(told == VERSION, "libklovdrun.a has version {told}, and this crate is for version {VERSION}");
        IS_OURS.store(true, Ordering::Relaxed);
    }
}

fn accepted<T>(refusal: Refusal, answer: T) -> Result<T> {
    match refusal.number {
        0 => Ok(answer),
        _ => Err(refusal),
    }
}

impl Answer {
    /// The refusal, whose number is 0 where there is none.
    fn refusal(self) -> Refusal {
        Refusal { number: self.refusal, beside: self.beside, size: self.size, absent: self.absent }
    }

    /// `first` and `second`, or the refusal. A `usize` has 64 bits here, so nothing is cut.
    fn pair(self) -> Result<(usize, usize)> {
        accepted(self.refusal(), (self.first as usize, self.second as usize))
    }

    fn first(self) -> Result<usize> {
        self.pair().map(|(first, _)| first)
    }

    /// What a reader's call answers: packets or the refusal, and the frames owed afterwards, which are told either way.
    fn step(self) -> (Result<usize>, usize) {
        (self.first(), self.second as usize)
    }
}

pub(crate) fn detect_format(file: &[u8]) -> u8 {
    checked();
    unsafe { klov_detect_format(file.as_ptr(), file.len()) }
}

pub(crate) fn detect_ds2_audio_start(file: &[u8]) -> usize {
    checked();
    unsafe { klov_detect_ds2_audio_start(file.as_ptr(), file.len()) }
}

pub(crate) fn detect_ds2_format_type(file: &[u8], header_size: usize) -> u8 {
    checked();
    unsafe { klov_detect_ds2_format_type(file.as_ptr(), file.len(), header_size) }
}

pub(crate) fn is_ds2_audio_block_header(header: &[u8]) -> bool {
    checked();
    unsafe { klov_is_ds2_audio_block_header(header.as_ptr(), header.len()) != 0 }
}

/// The file place where the block's payload begins.
pub(crate) fn payload(file: &[u8], block: usize) -> Result<usize> {
    checked();
    unsafe { klov_payload(file.as_ptr(), file.len(), block) }.first()
}

/// How many packets.
pub(crate) fn demux_dss(file: &[u8], out: &mut [u8], counts: &mut [u8]) -> Result<usize> {
    checked();
    unsafe { klov_demux_dss(file.as_ptr(), file.len(), out.as_mut_ptr(), out.len(), counts.as_mut_ptr(), counts.len()) }.first()
}

/// How many packets.
pub(crate) fn demux_ds2_sp(file: &[u8], out: &mut [u8], counts: &mut [u8]) -> Result<usize> {
    checked();
    unsafe { klov_demux_ds2_sp(file.as_ptr(), file.len(), out.as_mut_ptr(), out.len(), counts.as_mut_ptr(), counts.len()) }.first()
}

/// How many packets: one.
pub(crate) fn ds2_sp_packet(file: &[u8], number: usize, out: &mut [u8], counts: &mut [u8]) -> Result<usize> {
    checked();
    unsafe { klov_ds2_sp_packet(file.as_ptr(), file.len(), number, out.as_mut_ptr(), out.len(), counts.as_mut_ptr(), counts.len()) }
        .first()
}

/// How many segments, and how many frames are announced.
pub(crate) fn demux_ds2_qp(file: &[u8], table: &mut [u32]) -> Result<(usize, usize)> {
    checked();
    unsafe { klov_demux_ds2_qp(file.as_ptr(), file.len(), table.as_mut_ptr(), table.len()) }.pair()
}

/// How many records, and how many segments.
pub(crate) fn demux_ds2_qp7(file: &[u8], records: &mut [u32], segments: &mut [u32]) -> Result<(usize, usize)> {
    checked();
    unsafe {
        klov_demux_ds2_qp7(file.as_ptr(), file.len(), records.as_mut_ptr(), records.len(), segments.as_mut_ptr(), segments.len())
    }
    .pair()
}

/// The frame's place in the payload stream, and its size: 0 when it is missing.
pub(crate) fn frame(start: usize, length: usize, k: usize) -> (usize, usize) {
    checked();
    let answer = unsafe { klov_frame(start as u64, length as u64, k as u64) };
    (answer.first as usize, answer.second as usize)
}

/// 0 and the file place where the bytes stand, or 1: they are the scratch's first.
pub(crate) fn fetch(file: &[u8], place: usize, size: usize, scratch: &mut [u8]) -> Result<(usize, usize)> {
    checked();
    unsafe { klov_fetch(file.as_ptr(), file.len(), place, size, scratch.as_mut_ptr(), scratch.len()) }.pair()
}

/// What `fetch` answers; nothing is written.
pub(crate) fn show(file: &[u8], place: usize, size: usize, scratch: &[u8]) -> Result<(usize, usize)> {
    checked();
    unsafe { klov_show(file.as_ptr(), file.len(), place, size, scratch.as_ptr(), scratch.len()) }.pair()
}

pub(crate) fn tally(file: &[u8]) -> Result<Tallied> {
    checked();
    let tallied = unsafe { klov_tally(file.as_ptr(), file.len()) };
    let Tallied { refusal: number, beside, size, absent, .. } = tallied;
    accepted(Refusal { number, beside, size, absent }, tallied)
}

/// A fresh reader. The ended one that a refused opening gives is not kept.
pub(crate) fn open(kind: u64) -> Result<Reader> {
    checked();
    let Opened { answer, reader } = unsafe { klov_open(kind) };
    accepted(answer.refusal(), reader)
}

pub(crate) fn piece(reader: &mut Reader, piece: &[u8], out: &mut [u8], counts: &mut [u8]) -> (Result<usize>, usize) {
    checked();
    unsafe { klov_piece(reader, piece.as_ptr(), piece.len(), out.as_mut_ptr(), out.len(), counts.as_mut_ptr(), counts.len()) }
        .step()
}

pub(crate) fn end(reader: &mut Reader, choice: u64, out: &mut [u8], counts: &mut [u8]) -> (Result<usize>, usize) {
    checked();
    unsafe { klov_end(reader, choice, out.as_mut_ptr(), out.len(), counts.as_mut_ptr(), counts.len()) }.step()
}

/// How many bytes the file has.
pub(crate) fn write_ds2_sp(header: &[u8], packets: &[u8], out: &mut [u8]) -> Result<usize> {
    checked();
    unsafe { klov_write_ds2_sp(header.as_ptr(), header.len(), packets.as_ptr(), packets.len(), out.as_mut_ptr(), out.len()) }.first()
}

/// How many bytes the index has, and how many entries.
pub(crate) fn build_index(file: &[u8], out: &mut [u8]) -> Result<(usize, usize)> {
    checked();
    unsafe { klov_build_index(file.as_ptr(), file.len(), out.as_mut_ptr(), out.len()) }.pair()
}

/// How many entries, and how many packets in all.
pub(crate) fn read_index(file: &[u8], index: &[u8]) -> Result<(usize, usize)> {
    checked();
    unsafe { klov_read_index(file.as_ptr(), file.len(), index.as_ptr(), index.len()) }.pair()
}

pub(crate) fn find_entry(file: &[u8], index: &[u8], packet: usize) -> Result<Entry> {
    checked();
    let entry = unsafe { klov_find_entry(file.as_ptr(), file.len(), index.as_ptr(), index.len(), packet) };
    let Entry { refusal: number, beside, size, absent, .. } = entry;
    accepted(Refusal { number, beside, size, absent }, entry)
}

/// How many packets: one.
pub(crate) fn dss_packet(file: &[u8], index: &[u8], packet: usize, out: &mut [u8], counts: &mut [u8]) -> Result<usize> {
    checked();
    let (file_len, index_len, out_len, counts_len) = (file.len(), index.len(), out.len(), counts.len());
    let (out, counts) = (out.as_mut_ptr(), counts.as_mut_ptr());
    unsafe { klov_dss_packet(file.as_ptr(), file_len, index.as_ptr(), index_len, packet, out, out_len, counts, counts_len) }.first()
}
