//! A file in numbers: what its whole reading would hand out, with nothing stored. It rests on the archive's tally.
use crate::demux::AudioFormat;
use crate::error::Result;
use crate::places::FilePlace;
use crate::{raw, BLOCK};

/// The tally of a file.
#[must_use]
#[derive(Debug, Clone, Copy, PartialEq, Eq)]
pub struct Tally {
    /// How the file is read. A DS2 file of type 8 or above is read as QP, though `detect_format` says `Ds2Sp` of it.
    pub kind: AudioFormat,
    /// Where the audio starts.
    pub start: FilePlace,
    /// Whole blocks.
    pub blocks: usize,
    /// Frames that they announce.
    pub announced: usize,
    /// Packets, frames or records that the whole reading hands out.
    pub handed: usize,
    /// How many of them are short: packets as [`Packets`](crate::Packets) has it, also where the carried byte alone is ours, and QP frames
    /// under [`FRAME`](crate::FRAME) bytes. No QP7 record is.
    pub short: usize,
    /// How many bytes of the file they have.
    pub bytes: usize,
}

impl Tally {
    /// Whether a file of so many bytes with this tally is complete as announced, by the rule for that:
    ///
    #[doc = include_str!("complete.md")]
    #[must_use]
    pub fn complete_as_announced(&self, file_len: usize) -> bool {
        self.handed == self.announced && self.short == 0 && file_len == self.blocks_end()
    }

    /// How many bytes of a file of so many lie past its last whole block: those of a block that is cut.
    #[must_use]
    pub fn cut(&self, file_len: usize) -> usize {
        file_len.saturating_sub(self.blocks_end())
    }

    fn blocks_end(&self) -> usize {
        self.start.0 + BLOCK * self.blocks
    }
}

/// What the whole reading of a file of any kind would hand out. Refusals 1, 2, 3, 4 or 5.
pub fn tally(file: &[u8]) -> Result<Tally> {
    let told = raw::tally(file)?;
    let kind = match told.kind {
        0 => AudioFormat::DssSp,
        1 => AudioFormat::Ds2Sp,
        2 => AudioFormat::Ds2Qp,
        _ => AudioFormat::Ds2Qp7,
    };
    Ok(Tally {
        kind,
        start: FilePlace(told.start as usize),
        blocks: told.blocks as usize,
        announced: told.announced as usize,
        handed: told.handed as usize,
        short: told.short_count as usize,
        bytes: told.bytes as usize,
    })
}
