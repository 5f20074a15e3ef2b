// The cutting of frames, and bytes of the payload stream on request: `frame`, `fetch` and `show` beside the list of `Ds2QpStreamDemuxer`.
// Places, what is written of a scratch, and refusals are held to the model.
use crate::both::Both;
use crate::common::files::Dice;
use crate::common::model::{self, Kind};
use crate::differences::Name;
use crate::lent::Lent;
use crate::ours::{self, Numbers};
use crate::score::Score;

/// Of longer lists some frames only.
const MOST: usize = 24;

pub fn compare(both: &Both, dice: &mut Dice, score: &mut Score) {
    match (both.kind, &both.frames) {
        (Ok((Kind::Qp, start)), Some(Ok(theirs))) => qp(both.file, &model::qp(both.file, start), theirs, dice, score),
        (Ok((Kind::Qp7, start)), Some(Ok(theirs))) => {
            if let Ok(rows) = model::qp7(both.file, start) {
                let records: Vec<_> = rows.into_iter().flat_map(|row| row.records).collect();
                qp7(both.file, &records, theirs, dice, score);
            }
        }
        _ => {}
    }
    for _ in 0..2 {
        any_part(both, dice, score);
    }
    any_frame(dice, score);
}

/// Every frame of every segment by place and size, some by their bytes, and those that are missing.
fn qp(file: &[u8], rows: &[model::Segment], theirs: &[Vec<u8>], dice: &mut Dice, score: &mut Score) {
    let mut list = theirs.iter();
    for row in rows {
        let (start, length) = (row.start as u64, row.length as u64);
        for k in 0..row.frames as u64 {
            let seen = ours::frame(start, length, k);
            let (place, size) = model::frame(start, length, k);
            if size == 0 {
                score.named(Name::MissingFrames, "frame", ours::answered(0, 0), seen);
                continue;
            }
            score.model("frame", ours::answered(place, size), seen);
            let frame = list.next();
            score.original("frame", frame.map(Vec::len), Some(seen[3] as usize));
            if theirs.len() <= MOST || dice.below(theirs.len()) < MOST {
                part(file, seen[2] as usize, seen[3] as usize, frame, dice, score);
            }
        }
    }
    score.original("frame", list.count(), 0);
}

/// Every record by its place: two bytes first, and then as many as they say.
fn qp7(file: &[u8], records: &[(usize, usize)], theirs: &[Vec<u8>], dice: &mut Dice, score: &mut Score) {
    if theirs.len() != records.len() {
        score.wrong("fetch", "the model and the original differ in the records");
    }
    for (&(place, size), record) in records.iter().zip(theirs) {
        if records.len() <= MOST || dice.below(records.len()) < MOST {
            part(file, place, 2, Some(&record[..2].to_vec()), dice, score);
            part(file, place, size, Some(record), dice, score);
        }
    }
}

/// Bytes of the stream that the original has too: fetched, and then shown.
fn part(file: &[u8], place: usize, size: usize, theirs: Option<&Vec<u8>>, dice: &mut Dice, score: &mut Score) {
    let mut scratch = Lent::new(56 + dice.pick(&[0, 0, 7]));
    let fetched = ours::fetch(file, place, size, scratch.part());
    let shown = ours::show(file, place, size, scratch.part());
    let bytes = bytes(file, size, fetched, scratch.part()).map(<[u8]>::to_vec);
    score.original("fetch", theirs, bytes.as_ref());
    let expected = model::fetch(file, place, size, 56);
    let used = if expected == Ok(None) { bytes.unwrap_or_default() } else { Vec::new() };
    score.model("fetch", (stand(expected), true), (fetched, scratch.holds(&used)));
    score.model("show", stand(expected), shown);
}

/// The bytes that an answer points at.
fn bytes<'a>(file: &'a [u8], size: usize, answer: Numbers, scratch: &'a [u8]) -> Option<&'a [u8]> {
    match answer {
        [0, 0, 0, place, 0, 0] => file.get(place as usize..(place as usize).saturating_add(size)),
        [0, 0, 1, 0, 0, 0] => scratch.get(..size),
        _ => None,
    }
}

fn stand(expected: model::Answer<Option<usize>>) -> Numbers {
    match expected {
        Ok(Some(place)) => ours::answered(0, place as u64),
        Ok(None) => ours::answered(1, 0),
        Err(refusal) => ours::refused(refusal),
    }
}

/// Any place and any size of any file, with any scratch.
fn any_part(both: &Both, dice: &mut Dice, score: &mut Score) {
    let start = both.kind.map_or(0, |(_, start)| start);
    let end = 506 * model::whole_blocks(both.file.len(), start);
    let place = match dice.below(8) {
        0 => end.saturating_sub(dice.below(60)),
        1 => usize::MAX - dice.below(60),
        2 => (506 * dice.below(1 + end / 506)).saturating_sub(dice.below(57)),
        _ => dice.below(end + 2),
    };
    let some = dice.below(58);
    let size = dice.pick(&[0, 1, 2, 12, 56, 56, 57, usize::MAX, some, some]);
    let mut scratch = Lent::new(dice.pick(&[0, 55, 56, 56, 57, 100]));
    let expected = model::fetch(both.file, place, size, scratch.part().len());
    let fetched = ours::fetch(both.file, place, size, scratch.part());
    let shown = ours::show(both.file, place, size, scratch.part());
    let used = match expected {
        Ok(None) => model::stream(both.file, start)[place..place + size].to_vec(),
        _ => Vec::new(),
    };
    let seen = (fetched, scratch.holds(&used));
    match expected {
        Err([2, ..]) => score.named(Name::Limit, "fetch", (stand(expected), true), seen),
        _ => score.model("fetch", (stand(expected), true), seen),
    }
    score.model("show", stand(expected), shown);
}

/// `frame` at any numbers, large ones too.
fn any_frame(dice: &mut Dice, score: &mut Score) {
    let number = |dice: &mut Dice| match dice.below(4) {
        0 => dice.roll(),
        1 => u64::MAX - dice.below(600) as u64,
        2 => dice.below(3000) as u64,
        _ => dice.roll() >> dice.below(64),
    };
    let (start, length, k) = (number(dice), number(dice), number(dice) / 56);
    let (place, size) = model::frame(start, length, k);
    score.model("frame", ours::answered(place, size), ours::frame(start, length, k));
}
