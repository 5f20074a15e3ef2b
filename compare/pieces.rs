// A reader fed in pieces beside the original's stream demuxer, and its packets joined beside the original's whole reading. Counts, frames
// owed, refusals, and that a refused call leaves lent memory and all bytes of the reader as they were, are held to the model.
use crate::both::Both;
use crate::common::files::{self, Dice};
use crate::common::model::{self, refused, Kind, Steps};
use crate::differences::Name;
use crate::ends;
use crate::lent::Lent;
use crate::ours::{self, Numbers, Reader};
use crate::score::Score;
use crate::whole_sp::{self, ample, lacking, Packets};
use original::Stream;

/// A reading in course.
pub struct Run {
    pub start: usize,
    pub expected: Packets,
    steps: Steps,
    /// Whole blocks that the reader's hold lets it take.
    taken: usize,
    pub reader: Reader,
    /// None where the original is outside its domain.
    pub theirs: Option<Stream>,
    pub given: usize,
    /// Our packets, joined.
    pub joined: Vec<u8>,
}

/// What a call of a reader wrote, and its numbers.
pub struct Seen {
    pub numbers: Numbers,
    pub out: Lent<u8>,
    pub counts: Lent<u8>,
}

impl Seen {
    pub fn of(room: (usize, usize), call: impl FnOnce(&mut [u8], &mut [u8]) -> Numbers) -> Seen {
        let (mut out, mut counts) = (Lent::new(room.0), Lent::new(room.1));
        let numbers = call(out.part(), counts.part());
        Seen { numbers, out, counts }
    }

    pub fn untouched(&self) -> bool {
        self.out.untouched() && self.counts.untouched()
    }
}

impl Run {
    /// A fresh reader of that kind, for these bytes.
    pub fn new(file: &[u8], number: u64, score: &mut Score) -> Run {
        let (kind, start) = if number == 0 { (Kind::Ds2Sp, 0x600) } else { (Kind::DssSp, 512 * number as usize) };
        let (answer, reader) = Reader::open(number);
        score.model("open", ours::answered(0, 0), answer);
        let (taken, theirs) = match kind {
            Kind::Ds2Sp => (model::taken_blocks(file), Some(Stream::ds2())),
            _ if model::dss_pieces_agree_from(file, start) => (usize::MAX, Some(Stream::dss(number as u8))),
            _ => (usize::MAX, None),
        };
        let steps = model::steps(file, kind, start);
        let expected = Packets::of(&model::packets(file, kind, start));
        Run { start, expected, steps, taken, reader, theirs, given: 0, joined: Vec::new() }
    }

    fn blocks(&self) -> usize {
        model::whole_blocks(self.given, self.start)
    }

    /// Packets handed out so far by pieces.
    pub fn handed(&self) -> usize {
        self.steps.ready[self.blocks()]
    }

    pub fn owed(&self) -> usize {
        self.steps.announced[self.blocks()] - self.handed()
    }

    /// Gives the next bytes. False: the hold does not take them, and nothing has changed.
    pub fn give(&mut self, piece: &[u8], dice: &mut Dice, score: &mut Score) -> bool {
        let blocks = model::whole_blocks(self.given + piece.len(), self.start);
        let owed = self.owed() as u64;
        if blocks > self.taken {
            let room = ample(dice.below(9), dice);
            self.refuse(Name::Hold, ours::owing(refused(7, 12288), owed), piece, room, score);
            return false;
        }
        let (from, to) = (self.handed(), self.steps.ready[blocks]);
        if to > from && dice.percent(10) {
            let room = lacking(to - from, dice);
            self.refuse(Name::PacketRoom, ours::owing(refused(8, (to - from) as u64), owed), piece, room, score);
        }
        let seen = Seen::of(ample(to - from, dice), |out, counts| self.reader.piece(piece, out, counts));
        self.given += piece.len();
        let numbers = ours::answered((to - from) as u64, self.owed() as u64);
        self.hold("piece", numbers, from..to, &seen, score);
        if let Some(theirs) = &mut self.theirs {
            match theirs.push(piece) {
                Ok(packets) => {
                    let ours = (seen.numbers[2], seen.out.holds(&packets.concat()));
                    score.original("piece", (packets.len() as u64, true), ours);
                }
                Err(_) => score.wrong("piece", "the original refuses a piece"),
            }
        }
        self.gather(seen);
        true
    }

    /// Numbers, and those packets with their counts, are what a call brought, and all that it wrote.
    pub fn hold(&self, call: &'static str, numbers: Numbers, packets: std::ops::Range<usize>, seen: &Seen, score: &mut Score) {
        let bytes = seen.out.holds(&self.expected.bytes[42 * packets.start..42 * packets.end]);
        let counts = seen.counts.holds(&self.expected.counts[packets]);
        score.model(call, (numbers, true, true), (seen.numbers, bytes, counts));
    }

    pub fn gather(&mut self, mut seen: Seen) {
        let bytes = (42 * seen.numbers[2] as usize).min(seen.out.part().len());
        self.joined.extend_from_slice(&seen.out.part()[..bytes]);
    }

    /// A piece that is refused: by these numbers, with nothing written and the reader as it was.
    pub fn refuse(&mut self, name: Name, numbers: Numbers, piece: &[u8], room: (usize, usize), score: &mut Score) {
        let before = self.reader.clone();
        let seen = Seen::of(room, |out, counts| self.reader.piece(piece, out, counts));
        let same = self.reader.bytes() == before.bytes();
        score.named(name, "piece", (numbers, true, true), (seen.numbers, seen.untouched(), same));
    }
}

/// The kind of reader that the file's magic asks for, and at times another: a reader looks at no magic.
fn number(file: &[u8], dice: &mut Dice) -> u64 {
    match file.get(..4) {
        _ if dice.percent(8) => dice.pick(&[0, 2, 3]),
        Some([first @ (2 | 3), b'd', b's', b's']) => u64::from(*first),
        _ => 0,
    }
}

pub fn compare(both: &Both, dice: &mut Dice, score: &mut Score) {
    let number = number(both.file, dice);
    if dice.percent(5) {
        ends::no_such_kind(dice, score);
    }
    // One byte at a time takes long, so it is for few.
    let pieces = if both.file.len() < 2700 && dice.below(4000) < 1 {
        both.file.chunks(1).collect()
    } else {
        files::few_pieces(both.file, dice)
    };
    fed(both, number, &pieces, dice, score);
}

/// Gives the pieces, ends the reader in every way, and looks at all packets together.
pub fn fed(both: &Both, number: u64, pieces: &[&[u8]], dice: &mut Dice, score: &mut Score) {
    let mut run = Run::new(both.file, number, score);
    let mut all = true;
    for piece in pieces {
        all = run.give(piece, dice, score);
        if !all {
            break;
        }
        if dice.percent(5) {
            ends::strict(&mut run, dice, score);
        }
    }
    if !all {
        // The original goes on where the hold is full: from here on the reading is that of the bytes taken.
        let (given, reader, joined) = (run.given, run.reader.clone(), std::mem::take(&mut run.joined));
        run = Run::new(&both.file[..given], number, score);
        (run.given, run.reader, run.joined, run.theirs) = (given, reader, joined, None);
    }
    let agreed = run.theirs.is_some();
    ends::all(&mut run, dice, score);
    if all {
        joined(both, number, agreed, &run.joined, score);
    }
}

/// All packets of a reading in pieces are those of the original's whole reading, where the file is one of the reader's kind.
fn joined(both: &Both, number: u64, agreed: bool, ours: &[u8], score: &mut Score) {
    const CALL: &str = "pieces joined";
    let first = both.file.first().map_or(0, |&first| u64::from(first));
    let fits = if number == 0 { first == 1 || first == 3 } else { first == number };
    let theirs = if fits { whole_sp::joined(both, number != 0) } else { None };
    match theirs {
        Some(theirs) if agreed || number == 0 => score.original(CALL, &theirs[..], ours),
        Some(theirs) => score.named(Name::DssPieces, CALL, &theirs[..], ours),
        None => {}
    }
}

/// What an empty piece answers in any state: the frames owed, after 6 in an ended or draining reader.
pub fn asked(reader: &mut Reader, expected: Numbers, name: Name, score: &mut Score) {
    let before = reader.clone();
    let numbers = reader.piece(&[], &mut [], &mut []);
    score.named(name, "piece", (expected, true), (numbers, reader.bytes() == before.bytes()));
}

/// The refusal of an end inside the header.
pub fn in_header(start: usize) -> Numbers {
    ours::refused(refused(3, start as u64))
}
