//! SP recordings in pieces: the archive's reader, and the form that dss-codec's two stream demuxers share over it.
//! It rests on the reader's two calls, a piece and an end, which tell the frames owed in every answer.
use crate::error::Result;
use crate::packets::Packets;
use crate::{raw, BLOCK};
use std::fmt;

/// A reader of SP recordings in pieces. It looks at no magic and no type. It hands packets into lent memory, 42 bytes and a count
/// each, and allocates nothing; room is the smaller of the two, and every call starts again at their front. A copy goes its own way from
/// where it was made.
///
/// It reads from [`open`](Reader::open) on; it drains once a lenient end has answered and frames are still owed; it has ended once an end has
/// answered and none is owed. A refused call changes nothing, and it goes on as it was.
#[must_use]
#[derive(Clone)]
pub struct Reader {
    state: raw::Reader,
    owed: usize,
}

impl Reader {
    /// The kind of a reader of DS2.
    pub const DS2: u64 = 0;
    /// The strict end, as [`end`](Reader::end) takes it.
    pub const STRICT: u64 = raw::STRICT;
    /// The lenient end.
    pub const LENIENT: u64 = raw::LENIENT;

    /// The kind of reader that takes a recording which begins with these bytes, of which four are enough. None: it is read whole.
    #[must_use]
    pub fn kind_of(first: &[u8]) -> Option<u64> {
        match (*first.first()?, first.get(1..4)?) {
            (kind @ (2 | 3), b"dss") => Some(u64::from(kind)),
            (1 | 3, b"ds2") => Some(Reader::DS2),
            _ => None,
        }
    }

    /// A fresh reader: kind 0 ([`Reader::DS2`], first byte 1 or 3), 2 or 3 for DSS with that first byte. Refusal 10.
    pub fn open(kind: u64) -> Result<Reader> {
        raw::open(kind).map(|state| Reader { state, owed: 0 })
    }

    /// Room, in packets, that always suffices for a piece of so many bytes.
    #[must_use]
    pub fn room(&self, piece: usize) -> usize {
        // a block announces 255 frames at most
        self.owed + 255 * (piece / BLOCK + usize::from(piece % BLOCK > 0))
    }

    /// Takes a piece whole, and answers how many packets it brought; or refuses by 6, 2, 7 or 8, and is as it was: after an 8, which has
    /// beside it how many packets the piece brings, it can be given again with so much room; after a 7 the recording is read whole.
    pub fn piece(&mut self, piece: &[u8], out: &mut [u8], counts: &mut [u8]) -> Result<usize> {
        let step = raw::piece(&mut self.state, piece, out, counts);
        self.keep(step)
    }

    /// Ends the reader, strictly or leniently as the choice has it, and answers how many packets it hands out; any other choice is refused by 22,
    /// whatever the reader has taken and however it has ended. A refused end leaves it as it was.
    ///
    /// The strict end ([`Reader::STRICT`]) hands out none and writes nothing. It ends the reader of a recording that ends with a whole block and
    /// owes nothing, or refuses by 6, 3, 13 or 14. Once it has answered, before any lenient end, every packet that was handed out is whole but the
    /// swapped ones before the first unswapped read, and all counts are full: the short ones are the leading counts of 40. What its answer says of
    /// the recording is the rule for "complete as announced", below.
    ///
    /// The lenient end ([`Reader::LENIENT`]) drops a block that is not whole, and hands out packets that are owed, as many as there is room for,
    /// zeros where the file has no bytes. In DSS some of them can have their full count and be short all the same, by a carried byte that is ours.
    /// It is asked again while [`owed`](Reader::owed) is above 0. Refusal 3.
    ///
    #[doc = include_str!("complete.md")]
    pub fn end(&mut self, choice: u64, out: &mut [u8], counts: &mut [u8]) -> Result<usize> {
        let step = raw::end(&mut self.state, choice, out, counts);
        self.keep(step)
    }

    /// How many frames the whole blocks so far have announced that are not handed out.
    #[must_use]
    pub fn owed(&self) -> usize {
        self.owed
    }

    fn keep(&mut self, (answer, owed): (Result<usize>, usize)) -> Result<usize> {
        self.owed = owed;
        answer
    }
}

impl fmt::Debug for Reader {
    fn fmt(&self, to: &mut fmt::Formatter<'_>) -> fmt::Result {
        to.debug_struct("Reader").field("owed", &self.owed).finish_non_exhaustive()
    }
}

/// A reader with room of its own, which grows to the largest that a piece has needed. It knows how many packets the last call brought.
pub(crate) struct Fed {
    reader: Reader,
    room: Packets,
    brought: usize,
}

impl Fed {
    pub(crate) fn open(kind: u64) -> Result<Fed> {
        Reader::open(kind).map(|reader| Fed { reader, room: Packets::default(), brought: 0 })
    }

    pub(crate) fn push(&mut self, data: &[u8]) -> Result<Vec<Vec<u8>>> {
        let Fed { reader, room, .. } = self;
        let answer = room.fill(|out, counts| reader.piece(data, out, counts));
        self.handed(answer)
    }

    pub(crate) fn finish(&mut self) -> Result<Vec<Vec<u8>>> {
        let answer = self.reader.end(Reader::STRICT, &mut [], &mut []);
        self.handed(answer)
    }

    /// With room for all that is owed, one lenient end hands it out.
    pub(crate) fn finish_lenient(&mut self) -> Result<Vec<Vec<u8>>> {
        self.room.make_room(self.reader.owed());
        let answer = self.reader.end(Reader::LENIENT, &mut self.room.bytes, &mut self.room.counts);
        self.handed(answer)
    }

    /// The counts of the packets that the last call brought; none after a refusal.
    pub(crate) fn counts(&self) -> &[u8] {
        &self.room.counts[..self.brought]
    }

    pub(crate) fn owed(&self) -> usize {
        self.reader.owed()
    }

    fn handed(&mut self, answer: Result<usize>) -> Result<Vec<Vec<u8>>> {
        self.brought = answer.unwrap_or(0);
        answer.map(|packets| self.room.vectors(packets))
    }
}
