// A block's payload on request, and the tally. The original has neither: they are held to the model, and the tally also to what the
// original's own readings imply.
use crate::both::Both;
use crate::common::files::Dice;
use crate::common::model::{self, refused, Refused};
use crate::differences::Name;
use crate::ours;
use crate::score::Score;
use original::DemuxedDs2;

pub fn compare(both: &Both, dice: &mut Dice, score: &mut Score) {
    payload(both, dice, score);
    tally(both, score);
}

/// Which difference a refusal of a call for both sorts of files is a case of.
fn name(both: &Both, refusal: Refused) -> Option<Name> {
    match refusal[0] {
        2 => Some(Name::Limit),
        3 if both.file.get(3) == Some(&b's') => Some(Name::DssCutHeader),
        3 => Some(Name::Ds2CutHeader),
        _ => None,
    }
}

fn payload(both: &Both, dice: &mut Dice, score: &mut Score) {
    let blocks = both.kind.map_or(0, |(_, start)| model::whole_blocks(both.file.len(), start));
    for block in [0, dice.below(blocks + 1), blocks.saturating_sub(1), blocks, usize::MAX - dice.below(9), 1 << 55] {
        let seen = ours::payload(both.file, block);
        match both.kind {
            Ok((_, start)) if block < blocks => score.model("payload", ours::answered((start + 512 * block + 6) as u64, 0), seen),
            Ok(_) => score.model("payload", ours::refused(refused(12, 0)), seen),
            Err(refusal) => match name(both, refusal) {
                Some(name) => score.named(name, "payload", ours::refused(refusal), seen),
                None => score.model("payload", ours::refused(refusal), seen),
            },
        }
    }
}

fn tally(both: &Both, score: &mut Score) {
    let seen = ours::tally(both.file);
    let expected = model::tally(both.file);
    let numbers = expected.map_or_else(ours::tally_refused, ours::tallied);
    match expected.err().and_then(|refusal| name(both, refusal)) {
        Some(name) => score.named(name, "tally", numbers, seen),
        None => score.model("tally", numbers, seen),
    }
    if let Some(theirs) = implied(both) {
        // Of SP packets the original does not say which are short.
        let known = if theirs[0] < 2 { 3 } else { 5 };
        let ours = [seen[2], seen[5], seen[6], seen[7], seen[8]];
        score.original("tally", &theirs[..known], &ours[..known]);
    }
}

/// Kind, announced, handed out, short and bytes, from the original's readings; None where it refuses or cannot be asked.
fn implied(both: &Both) -> Option<[u64; 5]> {
    let numbers = |kind, announced: usize, list: &[Vec<u8>], whole: usize| {
        let short = list.iter().filter(|one| one.len() < whole).count();
        let bytes: usize = list.iter().map(Vec::len).sum();
        [kind, announced, list.len(), short, bytes].map(|number| number as u64)
    };
    if let Some(Ok((packets, announced))) = &both.dss {
        return Some(numbers(0, *announced, packets, 42));
    }
    match (&both.ds2, &both.frames) {
        (Some(Ok(DemuxedDs2::Sp { packets, total_frames })), _) => Some(numbers(1, *total_frames, packets, 42)),
        (Some(Ok(DemuxedDs2::QpSegments { total_frames, .. })), Some(Ok(frames))) => Some(numbers(2, *total_frames, frames, 56)),
        (Some(Ok(DemuxedDs2::Qp7Segments { total_frames, .. })), Some(Ok(records))) => Some(numbers(3, *total_frames, records, 12)),
        _ => None,
    }
}
