// The ends of a reading in pieces: strict and lenient, beside the original's, the lenient one also in parts; a reader that drains, one that
// has ended, and one that was never opened; and in every state an end by a choice that is neither. Where the original has no such state or
// choice, the answers are those of docs/FORMAT.md.
use crate::common::files::Dice;
use crate::common::model::refused;
use crate::differences::Name;
use crate::ours::{answered, owing, Numbers, Reader};
use crate::pieces::{asked, in_header, Run, Seen};
use crate::raw::{LENIENT, STRICT};
use crate::score::Score;
use crate::whole_sp::ample;

/// How the ends are scored.
const BY_STRICT: &str = "end, strict";
const BY_LENIENT: &str = "end, lenient";
const BY_NEITHER: &str = "end, neither";

/// An end by a choice that is neither, the strict end of a copy, and then the lenient end, at once or in parts.
pub fn all(run: &mut Run, dice: &mut Dice, score: &mut Score) {
    let owed = run.owed() as u64;
    neither(&mut run.reader, owed, dice, score);
    strict(run, dice, score);
    if inside_header(run) || dice.percent(50) {
        lenient(run, dice, score);
    } else {
        drain(run, dice, score);
    }
    if !inside_header(run) && dice.percent(25) {
        ended(&mut run.reader, dice, score);
    }
}

fn inside_header(run: &Run) -> bool {
    (1..run.start).contains(&run.given)
}

/// What the strict end answers now, by the description.
fn strict_numbers(run: &Run) -> Numbers {
    let (cut, owed) = (run.given.saturating_sub(run.start) % 512, run.owed() as u64);
    match cut as u64 {
        _ if inside_header(run) => in_header(run.start),
        0 if owed == 0 => answered(0, 0),
        0 => owing(refused(14, owed), owed),
        cut => owing(refused(13, cut), owed),
    }
}

/// The strict end of a copy: an error of the original's and a refusal with the same number, or an end.
pub fn strict(run: &mut Run, dice: &mut Dice, score: &mut Score) {
    let mut copy = run.reader.clone();
    let expected = strict_numbers(run);
    let seen = Seen::of(ample(2, dice), |out, counts| copy.end(STRICT, out, counts));
    let (numbers, untouched) = (seen.numbers, seen.untouched());
    if let Some(theirs) = &mut run.theirs {
        let theirs = theirs.finish().map_or_else(|(number, _)| (number, 0), |packets| (0, packets.len() as u64));
        score.original(BY_STRICT, theirs, (numbers[0], numbers[2]));
    }
    if expected == answered(0, 0) {
        score.model(BY_STRICT, (expected, true), (numbers, untouched));
        if dice.percent(5) {
            ended(&mut copy, dice, score);
        }
    } else {
        let name = if expected[0] == 3 { Name::EndInHeader } else { Name::StrictEnd };
        score.named(name, BY_STRICT, (expected, true, true), (numbers, untouched, copy.bytes() == run.reader.bytes()));
    }
}

/// The original's packets at its lenient end, joined, or the number of its error; None where it is not asked.
fn theirs(run: &mut Run) -> Option<Result<Vec<u8>, u64>> {
    let mut theirs = run.theirs.take()?;
    Some(theirs.finish_lenient().map(|packets| packets.concat()).map_err(|(number, _)| number))
}

/// The lenient end with ample room, beside the original's.
fn lenient(run: &mut Run, dice: &mut Dice, score: &mut Score) {
    let before = inside_header(run).then(|| run.reader.clone());
    let (from, owed) = (run.handed(), run.owed());
    let seen = Seen::of(ample(owed, dice), |out, counts| run.reader.end(LENIENT, out, counts));
    match theirs(run) {
        Some(Ok(bytes)) => {
            let ours = (seen.numbers[0], 42 * seen.numbers[2], seen.out.holds(&bytes));
            score.original(BY_LENIENT, (0, bytes.len() as u64, true), ours);
        }
        Some(Err(number)) => score.original(BY_LENIENT, (number, 0, true), (seen.numbers[0], seen.numbers[2], seen.untouched())),
        None => {}
    }
    if let Some(before) = before {
        let same = run.reader.bytes() == before.bytes();
        score.named(Name::EndInHeader, BY_LENIENT, (in_header(run.start), true, true), (seen.numbers, seen.untouched(), same));
    } else {
        run.hold(BY_LENIENT, answered(owed as u64, 0), from..from + owed, &seen, score);
        run.gather(seen);
    }
}

/// The lenient end in small rooms, asked again until nothing is owed; the parts together are the original's.
fn drain(run: &mut Run, dice: &mut Dice, score: &mut Score) {
    let (before, mut at) = (run.joined.len(), run.handed());
    let end = at + run.owed();
    while at < end {
        let left = end - at;
        let most = dice.pick(&[0, 1, 1 + left / 2, 1 + left / 2, left - 1, left, left + 2]);
        let (out, counts) = dice.pick(&[(most, most), (most, most + 3), (most + 2, most)]);
        let to = end.min(at + most);
        let seen = Seen::of((42 * out + dice.pick(&[0, 41]), counts), |out, counts| run.reader.end(LENIENT, out, counts));
        let numbers = answered((to - at) as u64, (end - to) as u64);
        if to < end {
            let bytes = seen.out.holds(&run.expected.bytes[42 * at..42 * to]);
            let counts = seen.counts.holds(&run.expected.counts[at..to]);
            score.named(Name::DrainInParts, BY_LENIENT, (numbers, true, true), (seen.numbers, bytes, counts));
            if dice.percent(30) {
                draining(&mut run.reader, numbers[3], dice, score);
            }
        } else {
            run.hold(BY_LENIENT, numbers, at..to, &seen, score);
        }
        run.gather(seen);
        at = to;
    }
    if let Some(theirs) = theirs(run) {
        score.original(BY_LENIENT, theirs, Ok(run.joined[before..].to_vec()));
    }
    // The first lenient end where nothing was owed, and one more where something was.
    let numbers = run.reader.end(LENIENT, &mut [], &mut []);
    score.model(BY_LENIENT, answered(0, 0), numbers);
}

/// A reader that drains takes no piece, no strict end and none by another choice, and says what it owes.
fn draining(reader: &mut Reader, owed: u64, dice: &mut Dice, score: &mut Score) {
    let refusal = owing(refused(6, 0), owed);
    asked(reader, refusal, Name::DrainInParts, score);
    let before = reader.clone();
    let seen = Seen::of(ample(2, dice), |out, counts| reader.end(STRICT, out, counts));
    let same = reader.bytes() == before.bytes();
    score.named(Name::DrainInParts, BY_STRICT, (refusal, true, true), (seen.numbers, seen.untouched(), same));
    neither(reader, owed, dice, score);
}

/// A choice that is neither end's is refused by 22 in every state, and nothing changes.
fn neither(reader: &mut Reader, owed: u64, dice: &mut Dice, score: &mut Score) {
    let choice = match dice.below(3) {
        0 => dice.pick(&[2, 3, 255, 256, 257, 1 << 32, u64::MAX]),
        1 => 2 + dice.below(254) as u64,
        _ => dice.roll() | 2,
    };
    let before = reader.clone();
    let seen = Seen::of(ample(2, dice), |out, counts| reader.end(choice, out, counts));
    let same = reader.bytes() == before.bytes();
    score.named(Name::NoSuchEnd, BY_NEITHER, (owing(refused(22, 0), owed), true, true), (seen.numbers, seen.untouched(), same));
}

/// A reader that has ended takes no piece, and either end answers 0 packets; another choice is refused.
fn ended(reader: &mut Reader, dice: &mut Dice, score: &mut Score) {
    let refusal = owing(refused(6, 0), 0);
    asked(reader, refusal, Name::AfterTheEnd, score);
    let (piece, before) = (vec![0x0F; dice.below(600)], reader.clone());
    let seen = Seen::of(ample(2, dice), |out, counts| reader.piece(&piece, out, counts));
    let same = reader.bytes() == before.bytes();
    score.named(Name::AfterTheEnd, "piece", (refusal, true, true), (seen.numbers, seen.untouched(), same));
    neither(reader, 0, dice, score);
    for (choice, call) in [(STRICT, BY_STRICT), (LENIENT, BY_LENIENT)] {
        let seen = Seen::of(ample(2, dice), |out, counts| reader.end(choice, out, counts));
        score.named(Name::AfterTheEnd, call, (answered(0, 0), true), (seen.numbers, seen.untouched()));
    }
}

/// A kind that there is not: refused by 10, and the reader given is an ended one.
pub fn no_such_kind(dice: &mut Dice, score: &mut Score) {
    let kind = match dice.below(3) {
        0 => dice.pick(&[1, 4, 5, 255, 256, 258, u64::MAX]),
        1 => 4 + dice.below(252) as u64,
        _ => dice.roll() | 4,
    };
    let (numbers, mut reader) = Reader::open(kind);
    score.named(Name::NoSuchKind, "open", owing(refused(10, kind), 0), numbers);
    ended(&mut reader, dice, score);
}
