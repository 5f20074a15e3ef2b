//! Why a call refuses. It rests on the archive's refusals, each with its numbers; which call refuses by which the header lists.
use std::fmt;

/// A refusal: its number, the number beside it, and of a QP7 record how much is missing. What was lent to the refused call, and a reader, are
/// as they were.
#[must_use]
#[derive(Debug, Clone, Copy, PartialEq, Eq)]
pub struct Refusal {
    /// Why, by its number in the header's list.
    pub number: u64,
    /// What goes with it: a place, a size, how many are needed; 0 where nothing does.
    pub beside: u64,
    /// By [`CUT_RECORD`](Refusal::CUT_RECORD) the bytes of the record; 0 by every other.
    pub size: u64,
    /// By [`CUT_RECORD`](Refusal::CUT_RECORD) how many of them lie past the payload stream's end, an even number of at least 2, bytes of a
    /// last block that is cut among them; by [`NO_RECORD`](Refusal::NO_RECORD) how many of the first 2 bytes are not there, which is always
    /// 2; 0 by every other.
    pub absent: u64,
}

/// The numbers by name, as the header has them.
#[allow(missing_docs)] // the sentences below say what they mean
impl Refusal {
    pub const MAGIC: u64 = 1;
    pub const LIMIT: u64 = 2;
    pub const HEADER: u64 = 3;
    pub const NO_RECORD: u64 = 4;
    pub const CUT_RECORD: u64 = 5;
    pub const ENDED: u64 = 6;
    pub const HOLD: u64 = 7;
    pub const ROOM: u64 = 8;
    pub const TABLE: u64 = 9;
    pub const KIND: u64 = 10;
    pub const TYPE: u64 = 11;
    pub const PLACE: u64 = 12;
    pub const CUT_BLOCK: u64 = 13;
    pub const OWING: u64 = 14;
    pub const WRITER_HEADER: u64 = 15;
    pub const PACKET: u64 = 16;
    pub const FILE_LIMIT: u64 = 17;
    pub const BEYOND: u64 = 18;
    pub const INDEX: u64 = 19;
    pub const INDEX_VERSION: u64 = 20;
    pub const INDEX_ENTRY: u64 = 21;
    pub const CHOICE: u64 = 22;
}

impl Refusal {
    /// Of no record, so that nothing is absent.
    pub(crate) const fn by(number: u64, beside: u64) -> Refusal {
        Refusal { number, beside, size: 0, absent: 0 }
    }
}

/// What every call that can refuse answers.
pub type Result<T> = std::result::Result<T, Refusal>;

impl fmt::Display for Refusal {
    fn fmt(&self, to: &mut fmt::Formatter<'_>) -> fmt::Result {
        let Refusal { beside, size, absent, .. } = *self;
        match self.number {
            Refusal::MAGIC => write!(to, "this is not a recording that the call reads: its first four bytes are others, or are not there"),
            Refusal::LIMIT => write!(to, "the input is over the limit of {beside} bytes"),
            Refusal::HEADER => write!(to, "the recording ends inside its header, which has {beside} bytes"),
            Refusal::NO_RECORD => write!(to, "a record should begin at place {beside} of the payload stream: {absent} of its first 2 bytes are missing"),
            Refusal::CUT_RECORD => write!(to, "a record of {size} bytes at place {beside} of the payload stream: {absent} bytes are missing"),
            Refusal::ENDED => write!(to, "the reader has ended, or is being drained"),
            Refusal::HOLD => write!(to, "what is unread would not fit in the reader's hold of {beside} bytes"),
            Refusal::ROOM => write!(to, "the room is too small for {beside} packets, records or bytes"),
            Refusal::TABLE => write!(to, "the table is too small: {beside} segments need it"),
            Refusal::KIND => write!(to, "there is no reader of kind {beside}"),
            Refusal::TYPE => write!(to, "this is a DS2 recording of type {beside}, which another call reads"),
            Refusal::PLACE => write!(to, "the recording has no such frame or block, or the scratch is too small"),
            Refusal::CUT_BLOCK => write!(to, "the recording ends inside a block, of which {beside} bytes are there"),
            Refusal::OWING => write!(to, "the recording has ended, and {beside} of the frames that it announces are owed"),
            Refusal::WRITER_HEADER => write!(to, "the header is not one of 1,536 bytes that begins a DS2 recording with first byte 1 or 3"),
            Refusal::PACKET => write!(to, "packet {beside} is cut short, or its byte 40 is not 0"),
            Refusal::FILE_LIMIT => write!(to, "the file would be over the limit of {beside} bytes"),
            Refusal::BEYOND => write!(to, "there is no packet of that number: the recording announces {beside}"),
            Refusal::INDEX => write!(to, "this is not an index: its first four bytes are 0, or not how many follow them, or are not there"),
            Refusal::INDEX_VERSION => write!(to, "the index is of version {beside}, which the call does not read"),
            Refusal::INDEX_ENTRY => write!(to, "the index is not this recording's: its entry {beside} differs, is cut, is missing or is one too many"),
            Refusal::CHOICE => write!(to, "an end is strict or lenient: there is no other choice"),
            other => write!(to, "refusal {other}, which is not known here, with {beside}"),
        }
    }
}

impl std::error::Error for Refusal {}
