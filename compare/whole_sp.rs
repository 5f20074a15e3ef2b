// The whole SP readings of both kinds: numbers, packets, counts, and what was written and what was not, in rooms that are exact, ample or
// short; and the same packets by their numbers, of DS2 at once, of DSS by an index. Packets are the original's; counts, which it has not, are
// the model's.
use crate::both::Both;
use crate::common::files::Dice;
use crate::common::model::{self, refused, Kind, Packet};
use crate::differences::Name;
use crate::lent::Lent;
use crate::ours::{self, Numbers};
use crate::score::Score;
use crate::{at_once, indexed};
use original::DemuxedDs2;

/// What is expected of a call: packets joined, and their counts.
pub struct Packets {
    pub bytes: Vec<u8>,
    pub counts: Vec<u8>,
}

impl Packets {
    pub fn of(packets: &[Packet]) -> Packets {
        let mut bytes = Vec::with_capacity(42 * packets.len());
        packets.iter().for_each(|packet| bytes.extend_from_slice(&packet.bytes));
        Packets { bytes, counts: packets.iter().map(|packet| packet.count as u8).collect() }
    }
}

/// One of the two calls.
#[derive(Clone, Copy)]
pub struct Call {
    pub dss: bool,
    pub name: &'static str,
    cut: Name,
}

pub const CALLS: [Call; 2] = [
    Call { dss: true, name: "demux_dss", cut: Name::DssCutHeader },
    Call { dss: false, name: "demux_ds2_sp", cut: Name::Ds2CutHeader },
];

/// What came of a call: its numbers, and the memory that it was lent.
struct Seen {
    numbers: Numbers,
    out: Lent<u8>,
    counts: Lent<u8>,
}

impl Call {
    fn ask(self, file: &[u8], room: (usize, usize)) -> Seen {
        let (mut out, mut counts) = (Lent::new(room.0), Lent::new(room.1));
        let call = if self.dss { ours::demux_dss } else { ours::demux_ds2_sp };
        let numbers = call(file, out.part(), counts.part());
        Seen { numbers, out, counts }
    }

    /// The numbers, and whether nothing was written.
    fn refused(self, file: &[u8], room: (usize, usize)) -> (Numbers, bool) {
        let seen = self.ask(file, room);
        (seen.numbers, seen.out.untouched() && seen.counts.untouched())
    }

    fn expected(self, both: &Both) -> model::Answer<(Kind, usize)> {
        match both.kind_for(self.dss)? {
            (Kind::Qp | Kind::Qp7, start) => Err(both.wrong_kind(start)),
            told => Ok(told),
        }
    }
}

/// A room for so many packets and perhaps more: lengths of the output and of the count table.
pub fn ample(packets: usize, dice: &mut Dice) -> (usize, usize) {
    let more = |dice: &mut Dice| dice.pick(&[0, 0, 1, 3]);
    (42 * (packets + more(dice)) + dice.pick(&[0, 0, 1, 41]), packets + more(dice))
}

/// A room that lacks at least one of so many packets.
pub fn lacking(packets: usize, dice: &mut Dice) -> (usize, usize) {
    let (out, counts) = ample(packets, dice);
    match dice.below(4) {
        0 => (42 * packets - 1 - dice.below(42), counts),
        1 => (out, packets - 1),
        2 => (42 * dice.below(packets), counts),
        _ => (0, 0),
    }
}

pub fn compare(both: &Both, dice: &mut Dice, score: &mut Score) {
    for call in CALLS {
        let expected = call.expected(both);
        let any = (dice.below(300), dice.below(9));
        match expected {
            Ok((kind, start)) => packets(call, both, (kind, start), dice, score),
            Err([1, 0, 0, 0]) => {
                let theirs = if call.dss { told(&both.dss) } else { told(&both.ds2) };
                score.original(call.name, (theirs, true), call.refused(both.file, any));
            }
            Err(refusal) => {
                let name = match refusal[0] {
                    2 => Name::Limit,
                    3 => call.cut,
                    _ => Name::KindOfCall,
                };
                score.named(name, call.name, (ours::refused(refusal), true), call.refused(both.file, any));
            }
        }
        if let Err(refusal) = expected {
            let refused = if call.dss { indexed::refused } else { at_once::refused };
            refused(both.file, refusal, dice, score);
        }
    }
}

/// The refusal of the original in our numbers; it can be asked where this is.
fn told<T>(theirs: &Option<original::Told<T>>) -> Numbers {
    match theirs {
        Some(Err((number, beside))) => ours::refused(refused(*number, *beside)),
        _ => ours::answered(0, 0),
    }
}

/// An SP file that is read: against the original, unless it faults, and against the model.
fn packets(call: Call, both: &Both, (kind, start): (Kind, usize), dice: &mut Dice, score: &mut Score) {
    let expected = Packets::of(&model::packets(both.file, kind, start));
    let packets = expected.counts.len();
    let numbers = ours::answered(packets as u64, 0);
    let seen = call.ask(both.file, ample(packets, dice));
    let held = (seen.numbers, seen.out.holds(&expected.bytes), seen.counts.holds(&expected.counts));
    let theirs = if call.dss { both.dss.as_ref().map(dss_packets) } else { both.ds2.as_ref().map(sp_packets) };
    match &theirs {
        Some((theirs, announced)) => {
            score.original(call.name, (ours::answered(*announced as u64, 0), true), (seen.numbers, seen.out.holds(theirs)));
            score.model(call.name, (numbers, true, true), held);
        }
        None => score.named(call.cut, call.name, (numbers, true, true), held),
    }
    let by_number = if call.dss { indexed::compare } else { at_once::compare };
    by_number(both.file, theirs.as_ref().map(|(theirs, _)| &theirs[..]), &expected, dice, score);
    if packets > 0 {
        let room = lacking(packets, dice);
        score.named(Name::PacketRoom, call.name, (ours::refused(refused(8, packets as u64)), true), call.refused(both.file, room));
    }
}

fn dss_packets(theirs: &original::Told<(Vec<Vec<u8>>, usize)>) -> (Vec<u8>, usize) {
    theirs.as_ref().map_or((Vec::new(), usize::MAX), |(packets, announced)| (packets.concat(), *announced))
}

fn sp_packets(theirs: &original::Told<DemuxedDs2>) -> (Vec<u8>, usize) {
    match theirs {
        Ok(DemuxedDs2::Sp { packets, total_frames }) => (packets.concat(), *total_frames),
        _ => (Vec::new(), usize::MAX),
    }
}

/// The original's packets, joined, of a whole SP file of that sort; None where it faults or the file is another.
pub fn joined(both: &Both, dss: bool) -> Option<Vec<u8>> {
    let told = if dss { both.dss.as_ref().map(dss_packets) } else { both.ds2.as_ref().map(sp_packets) };
    told.filter(|&(_, announced)| announced != usize::MAX).map(|(bytes, _)| bytes)
}

/// Every room around the one that is needed, by the byte of the output and by the entry of the table.
pub fn rooms(both: &Both, score: &mut Score) {
    for call in CALLS {
        let (kind, start) = match call.expected(both) {
            Ok(told) => told,
            Err(_) => continue,
        };
        let expected = Packets::of(&model::packets(both.file, kind, start));
        let packets = expected.counts.len();
        for out in [0, 1, 41, 42, 43, 84].map(|more| (42 * packets + more).saturating_sub(42)) {
            for counts in [0, 1, 2].map(|more| (packets + more).saturating_sub(1)) {
                let seen = call.ask(both.file, (out, counts));
                if packets > counts.min(out / 42) {
                    let untouched = seen.out.untouched() && seen.counts.untouched();
                    score.named(Name::PacketRoom, call.name, (ours::refused(refused(8, packets as u64)), true), (seen.numbers, untouched));
                } else {
                    let written = seen.out.holds(&expected.bytes) && seen.counts.holds(&expected.counts);
                    score.model(call.name, (ours::answered(packets as u64, 0), true), (seen.numbers, written));
                }
            }
        }
    }
}
