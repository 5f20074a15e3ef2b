// Packets of DS2 SP files at once, by their numbers. The original has no such call: a packet is held to the one that its whole reading has under that
// number, its count, which the original has not, to the model's, and a refusal to the description. It rests on both whole readings of the file.
use crate::common::files::Dice;
use crate::common::model::{self, Refused};
use crate::ours;
use crate::pieces::Seen;
use crate::score::Score;
use crate::whole_sp::{ample, lacking, Packets};

const CALL: &str = "ds2_sp_packet";
/// Up to so many packets every number is asked, and of more some.
const FEW: usize = 40;

fn ask(file: &[u8], number: usize, room: (usize, usize)) -> Seen {
    Seen::of(room, |out, counts| ours::ds2_sp_packet(file, number, out, counts))
}

/// The numbers of packets that are asked for.
pub fn numbers(packets: usize, dice: &mut Dice) -> Vec<usize> {
    if packets <= FEW {
        return (0..packets).collect();
    }
    let mut numbers = vec![0, 1, 2, packets / 2, packets - 2, packets - 1];
    numbers.extend((0..6).map(|_| dice.below(packets)));
    numbers
}

/// Packets of a file that is read, and numbers that it has not. `theirs` are the original's packets, joined, where it can be asked. The dice that
/// others throw fall as if there were none here.
pub fn compare(file: &[u8], theirs: Option<&[u8]>, expected: &Packets, dice: &Dice, score: &mut Score) {
    let (dice, packets) = (&mut dice.clone(), expected.counts.len());
    for number in numbers(packets, dice) {
        let (seen, bytes) = (ask(file, number, ample(1, dice)), 42 * number..42 * number + 42);
        let one = ours::answered(1, 0);
        if let Some(theirs) = theirs {
            let is_theirs = theirs.get(bytes.clone()).map_or(false, |packet| seen.out.holds(packet));
            score.original(CALL, (one, true), (seen.numbers, is_theirs));
        }
        let held = (seen.out.holds(&expected.bytes[bytes]), seen.counts.holds(&expected.counts[number..number + 1]));
        score.model(CALL, (one, (true, true)), (seen.numbers, held));
        if dice.percent(20) {
            refuse(file, number, model::refused(8, 1), lacking(1, dice), score);
        }
    }
    for number in [packets, packets + 1 + dice.below(300), (1 << 32) + dice.below(packets + 1), usize::MAX - dice.below(9)] {
        let room = if dice.percent(50) { ample(1, dice) } else { lacking(1, dice) };
        refuse(file, number, model::refused(18, packets as u64), room, score);
    }
}

/// A file that the whole call refuses: every number is refused the same.
pub fn refused(file: &[u8], refusal: Refused, dice: &Dice, score: &mut Score) {
    let dice = &mut dice.clone();
    let number = dice.pick(&[0, 1, usize::MAX]);
    refuse(file, number, refusal, (dice.below(90), dice.below(3)), score);
}

/// A number that is refused so, with nothing written.
fn refuse(file: &[u8], number: usize, refusal: Refused, room: (usize, usize), score: &mut Score) {
    let seen = ask(file, number, room);
    score.model(CALL, (ours::refused(refusal), true), (seen.numbers, seen.untouched()));
}
