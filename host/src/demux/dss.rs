//! DSS recordings, whole and in pieces. It rests on the archive's whole reading and on its reader; the names and signatures
//! without a word on counts or lent memory are dss-codec's.
use crate::error::{Refusal, Result};
use crate::packets::{gathered, Packets};
use crate::raw;
use crate::reader::Fed;

/// All packets of a DSS file, and how many there are. Refusals 1, 2, 3.
pub fn demux_dss(data: &[u8]) -> Result<(Vec<Vec<u8>>, usize)> {
    let packets = demux_dss_counted(data)?;
    Ok((packets.vectors(packets.len()), packets.len()))
}

/// All packets of a DSS file with their counts. Refusals 1, 2, 3.
pub fn demux_dss_counted(data: &[u8]) -> Result<Packets> {
    gathered(|out, counts| demux_dss_into(data, out, counts))
}

/// All packets of a DSS file and their counts into lent memory, without an allocation: how many. Refusals 1, 2, 3, 8.
pub fn demux_dss_into(data: &[u8], out: &mut [u8], counts: &mut [u8]) -> Result<usize> {
    raw::demux_dss(data, out, counts)
}

/// A DSS recording in pieces, in dss-codec's form.
pub struct DssSpStreamDemuxer {
    fed: Result<Fed>,
}

impl DssSpStreamDemuxer {
    /// For recordings with that first byte. Any version but 2 and 3 makes every later call answer refusal 10.
    #[must_use]
    pub fn new(version: u8) -> Self {
        let kind = u64::from(version);
        // Kind 0 would open a reader, of DS2.
        let fed = match version {
            0 => Err(Refusal::by(Refusal::KIND, kind)),
            _ => Fed::open(kind),
        };
        Self { fed }
    }

    /// Takes a piece; the packets that it completes. Refusals 10, 6, 2.
    pub fn push(&mut self, data: &[u8]) -> Result<Vec<Vec<u8>>> {
        self.fed()?.push(data)
    }

    /// Ends a recording that ends with a whole block and owes nothing, with no packets: what that says of it is
    /// the rule of [`end`](crate::Reader::end). Refusals 10, 6, 3, 13, 14.
    pub fn finish(&mut self) -> Result<Vec<Vec<u8>>> {
        self.fed()?.finish()
    }

    /// Ends a recording, with every packet that is owed. Refusals 10, 3.
    pub fn finish_lenient(&mut self) -> Result<Vec<Vec<u8>>> {
        self.fed()?.finish_lenient()
    }

    /// How many bytes of its read came from the file, for each packet of the last answer: beyond dss-codec.
    #[must_use]
    pub fn counts(&self) -> &[u8] {
        self.fed.as_ref().map_or(&[], Fed::counts)
    }

    /// How many frames the whole blocks so far have announced that are not handed out: beyond dss-codec.
    #[must_use]
    pub fn owed(&self) -> usize {
        self.fed.as_ref().map_or(0, Fed::owed)
    }

    fn fed(&mut self) -> Result<&mut Fed> {
        self.fed.as_mut().map_err(|refusal| *refusal)
    }
}
