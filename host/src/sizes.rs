//! Which packets are whole, told as a recording goes by: the size of each packet's read, gathered from the block headers, since a count of 40 is
//! all of a swapped read and not all of another; and whether the byte that is carried to a swapped packet came from the file. It rests on the
//! recording's own bytes and on the packets' counts alone.
use crate::places::FilePlace;
use crate::{BLOCK, PACKET};
use std::collections::VecDeque;

/// The place of the byte that an unswapped read leaves to be carried.
const CARRIED: usize = 40;

/// Gathers the sizes of an SP recording's reads from any cut of its bytes, and hands them out in the order of the packets, 42 or 40
/// each. A read is complete when its packet's count is its size. Whether the packet is whole is more than that, and [`Wholeness`] tells it
/// by both. Only whole blocks count; until then there is no next size.
#[must_use]
#[derive(Debug, Clone)]
pub struct ReadSizes {
    /// Bytes before the audio that are still to come.
    before: usize,
    /// How much of the present block is there, and of its header the flag, the start and the count.
    at: usize,
    header: [u8; 3],
    parity: Parity,
    /// For each block whose sizes are not all handed out: whether its next read is swapped, and how many are left.
    runs: VecDeque<(bool, u8)>,
}

/// Where the parity of a block's first read comes from.
#[derive(Debug, Clone, Copy)]
enum Parity {
    /// DSS: from its own flag.
    OfBlock,
    /// DS2: from the first block's flag, and then on through the recording. None before the first block.
    Running(Option<bool>),
}

impl ReadSizes {
    /// For a DSS recording: the audio starts at 512 times its first byte.
    pub fn dss(start: FilePlace) -> ReadSizes {
        ReadSizes::from(start, Parity::OfBlock)
    }

    /// For a DS2 SP recording: the audio starts at 1536, or where the tally says if the first byte is 7.
    pub fn ds2(start: FilePlace) -> ReadSizes {
        ReadSizes::from(start, Parity::Running(None))
    }

    fn from(FilePlace(before): FilePlace, parity: Parity) -> ReadSizes {
        ReadSizes { before, at: 0, header: [0; 3], parity, runs: VecDeque::new() }
    }

    /// Takes the recording's next bytes.
    pub fn take_piece(&mut self, piece: &[u8]) {
        let skipped = self.before.min(piece.len());
        self.before -= skipped;
        let mut rest = &piece[skipped..];
        while !rest.is_empty() {
            let (now, later) = rest.split_at(rest.len().min(BLOCK - self.at));
            for (place, &byte) in (self.at..self.header.len()).zip(now) {
                self.header[place] = byte;
            }
            self.at += now.len();
            if self.at == BLOCK {
                self.at = 0;
                self.add_block();
            }
            rest = later;
        }
    }

    fn add_block(&mut self) {
        let [flags, _, count] = self.header;
        let flag = flags & 0x80 != 0;
        let swapped = match &mut self.parity {
            Parity::OfBlock => flag,
            Parity::Running(next) => {
                let swapped = next.unwrap_or(flag);
                *next = Some(swapped ^ (count % 2 == 1));
                swapped
            }
        };
        if count > 0 {
            self.runs.push_back((swapped, count));
        }
    }
}

impl Iterator for ReadSizes {
    type Item = usize;

    fn next(&mut self) -> Option<usize> {
        let (swapped, left) = self.runs.front_mut()?;
        let size = if *swapped { 40 } else { PACKET };
        *swapped = !*swapped;
        *left -= 1;
        if *left == 0 {
            self.runs.pop_front();
        }
        Some(size)
    }
}

/// Tells whole packets from short ones, if it is asked of every packet of an SP recording, in order and from the first on.
///
/// Byte 1 of a swapped packet is not of its read but carried to it: byte 40 of the last unswapped read before it, in DSS be it an earlier
/// block's. A packet is whole if all bytes of its read came from the file and, where it is swapped, its carried byte too. Before any
/// unswapped read that one is ours, and after one that was cut before its byte 40. A packet that is not whole is short: what is missing in it are
/// zeros that nobody recorded. The tally counts the same ones, and where the file is at hand it is the one to go by. A reading that starts again
/// starts with a fresh one.
#[must_use]
#[derive(Debug, Clone, Default)]
pub struct Wholeness {
    /// Whether the byte that is carried now came from the file.
    sourced: bool,
}

impl Wholeness {
    /// For the first packet of a recording: no byte of the file is carried to it.
    pub fn new() -> Wholeness {
        Wholeness::default()
    }

    /// Whether the next packet is whole, by the size of its read, as [`ReadSizes`] has it, and its count.
    #[must_use]
    pub fn next_is_whole(&mut self, size: usize, count: u8) -> bool {
        let (swapped, count) = (size < PACKET, usize::from(count));
        let whole = count == size && (self.sourced || !swapped);
        if !swapped {
            self.sourced = count > CARRIED;
        }
        whole
    }
}
