//! Packets in memory of their own, each with how many bytes of its read came from the file. It rests on refusal 8, which says how
//! much room is needed and changes nothing, so that the same call can be made again.
use crate::error::{Refusal, Result};
use crate::PACKET;

/// Packets, joined, and for each how many bytes of its read came from the file. A read has 42 bytes, or 40 if it is swapped; byte 1 of a
/// swapped packet is not of its read but carried to it, byte 40 of the last unswapped read before it. A packet is whole if all bytes of its
/// read came from the file and, where it is swapped, its carried byte too; before any unswapped read that one is ours. Else it is short, and
/// what is missing in it are zeros that nobody recorded. Counts alone do not tell: [`ReadSizes`](crate::ReadSizes) and
/// [`Wholeness`](crate::Wholeness) do.
#[must_use]
#[derive(Clone, Debug, Default, PartialEq, Eq)]
pub struct Packets {
    /// [`PACKET`] bytes a packet.
    pub bytes: Vec<u8>,
    /// A count a packet.
    pub counts: Vec<u8>,
}

impl Packets {
    /// How many packets there are.
    #[must_use]
    pub fn len(&self) -> usize {
        self.counts.len()
    }

    /// Whether there are none.
    #[must_use]
    pub fn is_empty(&self) -> bool {
        self.counts.is_empty()
    }

    /// Each packet's bytes with its count, in order.
    pub fn iter(&self) -> impl Iterator<Item = (&[u8], u8)> {
        self.bytes.chunks_exact(PACKET).zip(self.counts.iter().copied())
    }

    /// Makes the call with the room there is. If it is refused by 8, makes the room that is needed, and makes the call again.
    pub(crate) fn fill(&mut self, mut call: impl FnMut(&mut [u8], &mut [u8]) -> Result<usize>) -> Result<usize> {
        match call(&mut self.bytes, &mut self.counts) {
            Err(refusal) if refusal.number == Refusal::ROOM => {
                self.make_room(refusal.beside as usize);
                call(&mut self.bytes, &mut self.counts)
            }
            answer => answer,
        }
    }

    /// Room for so many packets at least.
    pub(crate) fn make_room(&mut self, packets: usize) {
        if packets > self.len() {
            self.bytes.resize(packets * PACKET, 0);
            self.counts.resize(packets, 0);
        }
    }

    /// The first packets, each in a vector of its own, as dss-codec has them.
    pub(crate) fn vectors(&self, packets: usize) -> Vec<Vec<u8>> {
        self.iter().take(packets).map(|(bytes, _)| bytes.to_vec()).collect()
    }
}

/// All packets of a whole call, in exactly the room that it asks for.
pub(crate) fn gathered(call: impl FnMut(&mut [u8], &mut [u8]) -> Result<usize>) -> Result<Packets> {
    let mut packets = Packets::default();
    packets.fill(call)?;
    Ok(packets)
}
