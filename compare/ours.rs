// The archive's calls over slices, each answer with all its numbers, those of a refused call too. It rests on the declarations in
// host/src/raw.rs; all unsafe code of the program is here. A slice is never null, and two of which one is written share no byte.
use crate::common::model::{Entry, Refused};
use crate::raw;
use std::mem::size_of;

/// Refusal, the number beside it, first, second, the size of a record that cannot be read, how many bytes are absent.
pub type Numbers = [u64; 6];
/// Refusal, the number beside it, kind, start, blocks, announced, handed out, short, bytes, size, absent.
pub type Tally = [u64; 11];
/// Refusal, the number beside it, block, its first packet, its place, size, absent.
pub type Found = [u64; 7];

fn numbers(answer: raw::Answer) -> Numbers {
    let raw::Answer { refusal, beside, first, second, size, absent } = answer;
    [refusal, beside, first, second, size, absent]
}

/// What a call answers that is not refused.
pub fn answered(first: u64, second: u64) -> Numbers {
    [0, 0, first, second, 0, 0]
}

/// What a refused call answers, when nothing else is told with it.
pub fn refused(refusal: Refused) -> Numbers {
    owing(refusal, 0)
}

/// The same of a reader's call, which tells the frames owed too.
pub fn owing([number, beside, size, absent]: Refused, owed: u64) -> Numbers {
    [number, beside, 0, owed, size, absent]
}

/// The tally of a file that is not refused.
pub fn tallied([kind, start, blocks, announced, handed, short, bytes]: [u64; 7]) -> Tally {
    [0, 0, kind, start, blocks, announced, handed, short, bytes, 0, 0]
}

/// The tally of one that is.
pub fn tally_refused([number, beside, size, absent]: Refused) -> Tally {
    [number, beside, 0, 0, 0, 0, 0, 0, 0, size, absent]
}

/// What is answered where this entry is found.
pub fn found(entry: Entry) -> Found {
    [0, 0, entry.number as u64, entry.first as u64, entry.place as u64, 0, 0]
}

/// And where none is.
pub fn not_found([number, beside, size, absent]: Refused) -> Found {
    [number, beside, 0, 0, 0, size, absent]
}

pub fn detect_format(file: &[u8]) -> u8 {
    unsafe { raw::klov_detect_format(file.as_ptr(), file.len()) }
}

pub fn detect_ds2_audio_start(file: &[u8]) -> usize {
    unsafe { raw::klov_detect_ds2_audio_start(file.as_ptr(), file.len()) }
}

pub fn detect_ds2_format_type(file: &[u8], header_size: usize) -> u8 {
    unsafe { raw::klov_detect_ds2_format_type(file.as_ptr(), file.len(), header_size) }
}

pub fn is_ds2_audio_block_header(header: &[u8]) -> u8 {
    unsafe { raw::klov_is_ds2_audio_block_header(header.as_ptr(), header.len()) }
}

pub fn payload(file: &[u8], block: usize) -> Numbers {
    numbers(unsafe { raw::klov_payload(file.as_ptr(), file.len(), block) })
}

pub fn demux_dss(file: &[u8], out: &mut [u8], counts: &mut [u8]) -> Numbers {
    let (out_len, counts_len) = (out.len(), counts.len());
    numbers(unsafe { raw::klov_demux_dss(file.as_ptr(), file.len(), out.as_mut_ptr(), out_len, counts.as_mut_ptr(), counts_len) })
}

pub fn demux_ds2_sp(file: &[u8], out: &mut [u8], counts: &mut [u8]) -> Numbers {
    let (out_len, counts_len) = (out.len(), counts.len());
    numbers(unsafe {
        raw::klov_demux_ds2_sp(file.as_ptr(), file.len(), out.as_mut_ptr(), out_len, counts.as_mut_ptr(), counts_len)
    })
}

pub fn ds2_sp_packet(file: &[u8], number: usize, out: &mut [u8], counts: &mut [u8]) -> Numbers {
    let (out_len, counts_len) = (out.len(), counts.len());
    numbers(unsafe {
        raw::klov_ds2_sp_packet(file.as_ptr(), file.len(), number, out.as_mut_ptr(), out_len, counts.as_mut_ptr(), counts_len)
    })
}

pub fn demux_ds2_qp(file: &[u8], table: &mut [u32]) -> Numbers {
    numbers(unsafe { raw::klov_demux_ds2_qp(file.as_ptr(), file.len(), table.as_mut_ptr(), table.len()) })
}

pub fn demux_ds2_qp7(file: &[u8], records: &mut [u32], segments: &mut [u32]) -> Numbers {
    let (records_len, segments_len) = (records.len(), segments.len());
    numbers(unsafe {
        raw::klov_demux_ds2_qp7(file.as_ptr(), file.len(), records.as_mut_ptr(), records_len, segments.as_mut_ptr(), segments_len)
    })
}

pub fn write_ds2_sp(header: &[u8], packets: &[u8], out: &mut [u8]) -> Numbers {
    let out_len = out.len();
    numbers(unsafe {
        raw::klov_write_ds2_sp(header.as_ptr(), header.len(), packets.as_ptr(), packets.len(), out.as_mut_ptr(), out_len)
    })
}

pub fn build_index(file: &[u8], out: &mut [u8]) -> Numbers {
    numbers(unsafe { raw::klov_build_index(file.as_ptr(), file.len(), out.as_mut_ptr(), out.len()) })
}

pub fn read_index(file: &[u8], index: &[u8]) -> Numbers {
    numbers(unsafe { raw::klov_read_index(file.as_ptr(), file.len(), index.as_ptr(), index.len()) })
}

pub fn find_entry(file: &[u8], index: &[u8], packet: usize) -> Found {
    let found = unsafe { raw::klov_find_entry(file.as_ptr(), file.len(), index.as_ptr(), index.len(), packet) };
    let raw::Entry { refusal, beside, number, first, place, size, absent } = found;
    [refusal, beside, number, first, place, size, absent]
}

pub fn dss_packet(file: &[u8], index: &[u8], packet: usize, out: &mut [u8], counts: &mut [u8]) -> Numbers {
    let (file_len, index_len, out_len, counts_len) = (file.len(), index.len(), out.len(), counts.len());
    let (out, counts) = (out.as_mut_ptr(), counts.as_mut_ptr());
    numbers(unsafe {
        raw::klov_dss_packet(file.as_ptr(), file_len, index.as_ptr(), index_len, packet, out, out_len, counts, counts_len)
    })
}

pub fn frame(start: u64, length: u64, k: u64) -> Numbers {
    numbers(unsafe { raw::klov_frame(start, length, k) })
}

pub fn fetch(file: &[u8], place: usize, size: usize, scratch: &mut [u8]) -> Numbers {
    numbers(unsafe { raw::klov_fetch(file.as_ptr(), file.len(), place, size, scratch.as_mut_ptr(), scratch.len()) })
}

pub fn show(file: &[u8], place: usize, size: usize, scratch: &[u8]) -> Numbers {
    numbers(unsafe { raw::klov_show(file.as_ptr(), file.len(), place, size, scratch.as_ptr(), scratch.len()) })
}

pub fn tally(file: &[u8]) -> Tally {
    let told = unsafe { raw::klov_tally(file.as_ptr(), file.len()) };
    let raw::Tallied { refusal, beside, kind, start, blocks, announced, handed, short_count, bytes, size, absent } = told;
    [refusal, beside, kind, start, blocks, announced, handed, short_count, bytes, size, absent]
}

/// A reader where it stands.
#[derive(Clone)]
pub struct Reader(Box<raw::Reader>);

impl Reader {
    /// The reader that a refused opening gives too.
    pub fn open(kind: u64) -> (Numbers, Reader) {
        let raw::Opened { answer, reader } = unsafe { raw::klov_open(kind) };
        (numbers(answer), Reader(Box::new(reader)))
    }

    /// All its bytes, what they mean being its own. They come from the archive, or from a copy of the whole.
    pub fn bytes(&self) -> &[u8] {
        let start: *const raw::Reader = &*self.0;
        unsafe { std::slice::from_raw_parts(start.cast(), size_of::<raw::Reader>()) }
    }

    pub fn piece(&mut self, piece: &[u8], out: &mut [u8], counts: &mut [u8]) -> Numbers {
        let (out_len, counts_len) = (out.len(), counts.len());
        numbers(unsafe {
            raw::klov_piece(&mut *self.0, piece.as_ptr(), piece.len(), out.as_mut_ptr(), out_len, counts.as_mut_ptr(), counts_len)
        })
    }

    pub fn end(&mut self, choice: u64, out: &mut [u8], counts: &mut [u8]) -> Numbers {
        let (out_len, counts_len) = (out.len(), counts.len());
        numbers(unsafe { raw::klov_end(&mut *self.0, choice, out.as_mut_ptr(), out_len, counts.as_mut_ptr(), counts_len) })
    }
}
