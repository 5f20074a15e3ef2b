// An index beside DSS files, and packets through it. The original has none: a packet is held to the one that its whole reading has under that
// number, its count, which the original has not, to the model's, and the index, the entry that is found and a refusal to the description. It rests
// on both whole readings of the file, and on the model's entries of its blocks.
use crate::at_once::numbers;
use crate::common::files::Dice;
use crate::common::model::{self, Entry, Refused};
use crate::lent::Lent;
use crate::ours;
use crate::pieces::Seen;
use crate::score::Score;
use crate::whole_sp::{ample, lacking, Packets};

const BUILD: &str = "build_index";
const READ: &str = "read_index";
const FIND: &str = "find_entry";
const PACKET: &str = "dss_packet";
/// Of each recording so many indexes are tried that are not its own.
const WRONG: usize = 3;

/// A file and its index.
struct Indexed<'a> {
    file: &'a [u8],
    index: &'a [u8],
}

impl Indexed<'_> {
    fn packet(&self, number: usize, room: (usize, usize)) -> Seen {
        Seen::of(room, |out, counts| ours::dss_packet(self.file, self.index, number, out, counts))
    }

    /// A number that is refused so, by both calls that take one, with nothing written.
    fn refuse(&self, number: usize, refusal: Refused, room: (usize, usize), score: &mut Score) {
        score.model(FIND, ours::not_found(refusal), ours::find_entry(self.file, self.index, number));
        self.refuse_packet(number, refusal, room, score);
    }

    fn refuse_packet(&self, number: usize, refusal: Refused, room: (usize, usize), score: &mut Score) {
        let seen = self.packet(number, room);
        score.model(PACKET, (ours::refused(refusal), true), (seen.numbers, seen.untouched()));
    }
}

/// A file that is read: its index, entries and packets through it, and what is refused. `theirs` are the original's packets, joined, where it can be
/// asked. The dice that others throw fall as if there were none here.
pub fn compare(file: &[u8], theirs: Option<&[u8]>, expected: &Packets, dice: &Dice, score: &mut Score) {
    let (dice, packets, entries) = (&mut dice.clone(), expected.counts.len(), model::entries(file, 512 * usize::from(file[0])));
    let its = &Indexed { file, index: &model::index_of(&entries) };
    build(its, entries.len(), dice, score);
    score.model(READ, ours::answered(entries.len() as u64, packets as u64), ours::read_index(file, its.index));
    for number in numbers(packets, dice) {
        score.model(FIND, ours::found(announcing(&entries, number)), ours::find_entry(file, its.index, number));
        let (seen, one, bytes) = (its.packet(number, ample(1, dice)), ours::answered(1, 0), 42 * number..42 * number + 42);
        if let Some(theirs) = theirs {
            let is_theirs = theirs.get(bytes.clone()).map_or(false, |packet| seen.out.holds(packet));
            score.original(PACKET, (one, true), (seen.numbers, is_theirs));
        }
        let held = (seen.out.holds(&expected.bytes[bytes]), seen.counts.holds(&expected.counts[number..number + 1]));
        score.model(PACKET, (one, (true, true)), (seen.numbers, held));
        if dice.percent(20) {
            its.refuse_packet(number, model::refused(8, 1), lacking(1, dice), score);
        }
    }
    for number in [packets, packets + 1 + dice.below(300), (1 << 32) + dice.below(packets + 1), usize::MAX - dice.below(9)] {
        let room = if dice.percent(50) { ample(1, dice) } else { lacking(1, dice) };
        its.refuse(number, model::refused(18, packets as u64), room, score);
    }
    (0..WRONG).for_each(|_| wrong(its, packets, dice, score));
}

/// The last entry whose first packet is not behind this one.
fn announcing(entries: &[Entry], packet: usize) -> Entry {
    entries[entries.partition_point(|entry| entry.first <= packet) - 1]
}

/// In a room that is enough, and in one that is not.
fn build(its: &Indexed, entries: usize, dice: &mut Dice, score: &mut Score) {
    let needed = its.index.len();
    let mut out = Lent::new(needed + dice.pick(&[0, 0, 1, 12, 300]));
    let numbers = ours::build_index(its.file, out.part());
    score.model(BUILD, (ours::answered(needed as u64, entries as u64), true), (numbers, out.holds(its.index)));
    let some = dice.below(needed);
    let mut out = Lent::new(dice.pick(&[0, 4, needed - 1, some]));
    let numbers = ours::build_index(its.file, out.part());
    score.model(BUILD, (ours::refused(model::refused(8, needed as u64)), true), (numbers, out.untouched()));
}

/// An index that is not the recording's own: with another bit, cut or lengthened, with the length that it had or the one that it has.
fn wrong(its: &Indexed, packets: usize, dice: &mut Dice, score: &mut Score) {
    let mut index = its.index.to_vec();
    match dice.below(3) {
        0 => index[dice.below(its.index.len())] ^= 1 << dice.below(8),
        1 => index.truncate(dice.below(its.index.len())),
        _ => index.extend(its.index.iter().skip(dice.below(5)).take(1 + dice.below(24))),
    }
    if index.len() != its.index.len() && index.len() > 4 && dice.percent(70) {
        let length = (index.len() - 4) as u32;
        index[..4].copy_from_slice(&length.to_be_bytes());
    }
    let (its, number) = (Indexed { file: its.file, index: &index }, dice.below(packets + 2));
    let refusal = model::read_index(its.file, its.index).expect_err("it is another");
    score.model(READ, ours::refused(refusal), ours::read_index(its.file, its.index));
    its.refuse(number, refusal, (dice.below(90), dice.below(3)), score);
}

/// A file that the whole call refuses: every call of an index refuses the same, whatever it is given for one.
pub fn refused(file: &[u8], refusal: Refused, dice: &Dice, score: &mut Score) {
    let dice = &mut dice.clone();
    let given: [&[u8]; 4] = [&[], &[0, 0, 0, 1, 1], &[0, 0, 0, 2, 1], &[0, 0, 0, 1, 2]];
    let its = Indexed { file, index: dice.pick(&given) };
    let mut out = Lent::new(dice.below(9));
    let numbers = ours::build_index(file, out.part());
    score.model(BUILD, (ours::refused(refusal), true), (numbers, out.untouched()));
    score.model(READ, ours::refused(refusal), ours::read_index(file, its.index));
    let number = dice.pick(&[0, 1, usize::MAX]);
    its.refuse(number, refusal, (dice.below(90), dice.below(3)), score);
}
