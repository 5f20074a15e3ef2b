// The recordings that are measured, the same at every run: without a gap, but for two of DSS, whose packets stay inside their block. It rests on
// the format's description (docs/FORMAT.md). The last block announces only what is complete.

pub const BLOCK: usize = 512;
pub const PAYLOAD: usize = 506;

#[derive(Clone, Copy, PartialEq)]
pub enum Kind {
    Ds2,
    Dss,
    /// DSS without a gap.
    DssOn,
    /// DSS with one packet a block, swapped but for the first.
    DssOne,
    Qp,
    Qp7,
}

/// A recording, and how many units it has: packets, for QP blocks, for QP7 records.
pub struct Recording {
    pub file: Vec<u8>,
    pub units: usize,
}

impl Kind {
    pub fn is_dss(self) -> bool {
        matches!(self, Kind::Dss | Kind::DssOn | Kind::DssOne)
    }

    /// The kind of reader in pieces; a DSS recording has first byte 2.
    pub fn reader(self) -> u64 {
        if self.is_dss() { 2 } else { 0 }
    }

    pub fn start(self) -> usize {
        if self.is_dss() { 1024 } else { 1536 }
    }

    fn magic(self) -> &'static [u8; 4] {
        if self.is_dss() { b"\x02dss" } else { b"\x03ds2" }
    }
}

impl Recording {
    pub fn blocks(&self, kind: Kind) -> usize {
        (self.file.len() - kind.start()) / BLOCK
    }
}

/// A recording of this kind, of at most so many bytes.
pub fn make(kind: Kind, size: usize) -> Recording {
    let start = kind.start();
    let blocks = (size - start) / BLOCK;
    let mut file = noise(start + BLOCK * blocks);
    file[..start].fill(0);
    file[..4].copy_from_slice(kind.magic());
    let units = match kind {
        Kind::Ds2 | Kind::DssOn => lay(&mut file, start, 0, |_, k| 42 - 2 * (k % 2)),
        Kind::Dss => lay_dss(&mut file, start),
        Kind::DssOne => lay_one(&mut file, start),
        Kind::Qp => {
            lay(&mut file, start, 6, |_, _| 56);
            blocks
        }
        Kind::Qp7 => lay(&mut file, start, 7, |second, _| if second & 0x80 == 0 { 12 } else { 56 }),
    };
    Recording { file, units }
}

/// Bytes that look random, eight at a step.
fn noise(bytes: usize) -> Vec<u8> {
    let mut file = vec![0; bytes];
    let mut state = 0x9E37_79B9_7F4A_7C15_u64;
    for eight in file.chunks_exact_mut(8) {
        state ^= state << 13;
        state ^= state >> 7;
        state ^= state << 17;
        eight.copy_from_slice(&state.to_le_bytes());
    }
    file
}

/// Where a place of the payload stream lies in the file.
pub fn file_place(start: usize, place: usize) -> usize {
    start + BLOCK * (place / PAYLOAD) + 6 + place % PAYLOAD
}

/// Writes the block headers of one continuous walk: each block announces the frames whose first byte it has. A frame's size is told
/// by its second byte and its number. Answers how many frames there are.
fn lay(file: &mut [u8], start: usize, kind: u8, size_of: impl Fn(u8, usize) -> usize) -> usize {
    let blocks = (file.len() - start) / BLOCK;
    let end = PAYLOAD * blocks;
    let (mut frames, mut place) = (0, 0);
    for block in 0..blocks {
        let swap = kind == 0 && frames % 2 == 1;
        let first = (place - PAYLOAD * block + 6) / 2 - usize::from(swap);
        let before = frames;
        while place < PAYLOAD * (block + 1) {
            let size = size_of(file[file_place(start, place + 1)], frames);
            if place + size > end {
                break;
            }
            place += size;
            frames += 1;
        }
        let flags = if swap { 0x8F } else { 0x0F };
        let header = [flags, first as u8, (frames - before) as u8, 0xFF, kind, 0xFF];
        file[start + BLOCK * block..][..6].copy_from_slice(&header);
    }
    frames
}

/// Writes the headers of blocks that each have 12 packets of their own, 492 bytes, and 14 bytes that belong to none. So every block's reads
/// end before the next block starts: there the original's stream demuxer reads what its whole reading does.
fn lay_dss(file: &mut [u8], start: usize) -> usize {
    let blocks = (file.len() - start) / BLOCK;
    for block in 0..blocks {
        file[start + BLOCK * block..][..6].copy_from_slice(&[0x0F, 3, 12, 0xFF, 0, 0xFF]);
    }
    12 * blocks
}

/// Writes the headers of blocks that each have one packet, which is swapped but in the first block: to all of them the same byte is carried.
fn lay_one(file: &mut [u8], start: usize) -> usize {
    let blocks = (file.len() - start) / BLOCK;
    for block in 0..blocks {
        let flags = if block == 0 { 0x0F } else { 0x8F };
        file[start + BLOCK * block..][..6].copy_from_slice(&[flags, 3, 1, 0xFF, 0, 0xFF]);
    }
    blocks
}
