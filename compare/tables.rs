// The whole readings of QP and QP7 files: rows and records beside the original's segments, whose copied bytes are found in the file through
// our own payload calls. Words past those used, short rooms, how much of a record is missing and other refusals are held to the model.
use crate::both::Both;
use crate::common::files::Dice;
use crate::common::model::{self, Kind};
use crate::differences::Name;
use crate::lent::Lent;
use crate::ours::{self, Numbers};
use crate::score::Score;
use klovdrun::{QP7_WORDS, QP_WORDS};
use original::DemuxedDs2;

/// A segment by its bytes, or its records' bytes; frames; reset.
type Segment = (Vec<Vec<u8>>, usize, bool);

pub fn compare(both: &Both, dice: &mut Dice, score: &mut Score) {
    qp(both, dice, score);
    qp7(both, dice, score);
}

/// What is refused before a table is looked at, by a name where the original answers otherwise. False: the file is read.
fn refused(call: &'static str, kind: Kind, both: &Both, seen: impl Fn() -> (Numbers, bool), score: &mut Score) -> bool {
    let refusal = match both.kind_for(false) {
        Ok((read, _)) if read == kind => return false,
        Ok((_, start)) => both.wrong_kind(start),
        Err(refusal) => refusal,
    };
    let expected = (ours::refused(refusal), true);
    match (refusal[0], &both.ds2, &both.frames) {
        (1, Some(Err((1, 0))), _) => score.original(call, expected, seen()),
        (2, _, _) => score.named(Name::Limit, call, expected, seen()),
        (3, _, _) => score.named(Name::Ds2CutHeader, call, expected, seen()),
        // At A exactly the original cannot be asked.
        (11, Some(Ok(DemuxedDs2::Sp { .. })), Some(Ok(frames))) if frames.is_empty() => {
            score.named(Name::SpFrames, call, expected, seen());
        }
        (11, None, _) => score.named(Name::Ds2CutHeader, call, expected, seen()),
        (11, Some(Ok(DemuxedDs2::Sp { .. })), _) => score.wrong(call, "the original cuts frames from an SP file"),
        (11, _, _) => score.named(Name::KindOfCall, call, expected, seen()),
        _ => score.wrong(call, "the original takes a file without a magic"),
    }
    true
}

/// The refusal of a room that is too small for so many, by 8 or by 9.
fn short_of(number: u64, needed: usize) -> Numbers {
    ours::refused(model::refused(number, needed as u64))
}

/// A length of a table for so many rows of that many words: exact or a little longer.
fn ample(rows: usize, words: usize, dice: &mut Dice) -> usize {
    rows * words + dice.pick(&[0, 0, 1, words - 1, words, 3 * words + 1])
}

/// One that lacks at least a row.
fn lacking(rows: usize, words: usize, dice: &mut Dice) -> usize {
    let some = dice.below(rows * words);
    dice.pick(&[rows * words - 1, words * (rows - 1), 0, some])
}

fn qp_words(rows: &[model::Segment]) -> Vec<u32> {
    rows.iter().flat_map(|row| [row.start as u32, row.length as u32, row.frames as u32, u32::from(row.reset)]).collect()
}

fn ask_qp(file: &[u8], words: usize) -> (Numbers, Lent<u32>) {
    let mut table = Lent::new(words);
    let numbers = ours::demux_ds2_qp(file, table.part());
    (numbers, table)
}

fn qp(both: &Both, dice: &mut Dice, score: &mut Score) {
    const CALL: &str = "demux_ds2_qp";
    let room = dice.below(12);
    let nothing = |words| {
        let (numbers, table) = ask_qp(both.file, words);
        (numbers, table.untouched())
    };
    if refused(CALL, Kind::Qp, both, || nothing(room), score) {
        return;
    }
    let start = both.kind.map_or(0, |(_, start)| start);
    let rows = model::qp(both.file, start);
    let words = qp_words(&rows);
    let announced = model::announced(both.file, start);
    let (numbers, mut table) = ask_qp(both.file, ample(rows.len(), QP_WORDS, dice));
    score.model(CALL, (ours::answered(rows.len() as u64, announced as u64), true), (numbers, table.holds(&words)));
    let theirs = both.ds2.as_ref().map(segments);
    score.original(CALL, theirs, Some(qp_segments(both.file, numbers, table.part())));
    if !rows.is_empty() {
        let room = lacking(rows.len(), QP_WORDS, dice);
        score.named(Name::TableRoom, CALL, (short_of(9, rows.len()), true), nothing(room));
    }
}

/// The payload stream, through our payload calls.
pub fn stream(file: &[u8]) -> Vec<u8> {
    let mut stream = Vec::new();
    for block in 0.. {
        match ours::payload(file, block) {
            [0, 0, place, 0, 0, 0] => stream.extend_from_slice(&file[place as usize..place as usize + 506]),
            _ => break,
        }
    }
    stream
}

/// Our rows in the original's form. A row that does not fit the stream has no bytes, which the original never says.
fn qp_segments(file: &[u8], numbers: Numbers, table: &[u32]) -> (Vec<Segment>, usize) {
    let stream = stream(file);
    let segments = table.chunks_exact(QP_WORDS).take(numbers[2] as usize).map(|row| {
        let (start, length) = (row[0] as usize, row[1] as usize);
        let bytes = stream.get(start..start.saturating_add(length)).unwrap_or(&[]).to_vec();
        (vec![bytes], row[2] as usize, row[3] != 0)
    });
    (segments.collect(), numbers[3] as usize)
}

/// The original's segments of either kind, and its total. None are there where it answered something else.
fn segments(theirs: &original::Told<DemuxedDs2>) -> (Vec<Segment>, usize) {
    match theirs {
        Ok(DemuxedDs2::QpSegments { segments, total_frames }) => {
            let one = |one: &original::Ds2QpSegment| (vec![one.stream.clone()], one.total_frames, one.reset_before);
            (segments.iter().map(one).collect(), *total_frames)
        }
        Ok(DemuxedDs2::Qp7Segments { segments, total_frames }) => {
            let one = |one: &original::Ds2Qp7Segment| (one.records.clone(), one.total_frames, one.reset_before);
            (segments.iter().map(one).collect(), *total_frames)
        }
        _ => (Vec::new(), usize::MAX),
    }
}

fn ask_qp7(file: &[u8], room: (usize, usize)) -> (Numbers, Lent<u32>, Lent<u32>) {
    let (mut records, mut segments) = (Lent::new(room.0), Lent::new(room.1));
    let numbers = ours::demux_ds2_qp7(file, records.part(), segments.part());
    (numbers, records, segments)
}

fn qp7(both: &Both, dice: &mut Dice, score: &mut Score) {
    const CALL: &str = "demux_ds2_qp7";
    let room = (dice.below(12), dice.below(12));
    let nothing = |room| {
        let (numbers, records, segments) = ask_qp7(both.file, room);
        (numbers, records.untouched() && segments.untouched())
    };
    if refused(CALL, Kind::Qp7, both, || nothing(room), score) {
        return;
    }
    let start = both.kind.map_or(0, |(_, start)| start);
    match (model::qp7(both.file, start), &both.ds2) {
        (Ok(rows), Some(theirs @ Ok(_))) => {
            let sizes = (rows.iter().map(|row| row.records.len()).sum(), rows.len());
            let room = (ample(sizes.0, 1, dice), ample(sizes.1, QP7_WORDS, dice));
            read_qp7(both.file, &rows, theirs, room, score);
            short_qp7(CALL, sizes, nothing, dice, score);
        }
        (Err(refusal), Some(Err(theirs))) => {
            // The original tells which refusal and the place; how much is missing it does not tell.
            let (numbers, untouched) = nothing(room);
            score.original(CALL, (*theirs, true), ((numbers[0], numbers[1]), untouched));
            score.model(CALL, (ours::refused(refusal), true), (numbers, untouched));
        }
        _ => score.wrong(CALL, "the original and the description differ in whether the records can be read"),
    }
}

/// The records' places, and the words of the segments.
fn qp7_words(rows: &[model::Records]) -> (Vec<u32>, Vec<u32>) {
    let mut words = Vec::new();
    for row in rows {
        let first = words.chunks_exact(QP7_WORDS).map(|row: &[u32]| row[1]).sum();
        words.extend([first, row.records.len() as u32, u32::from(row.reset)]);
    }
    (rows.iter().flat_map(|row| row.records.iter().map(|&(place, _)| place as u32)).collect(), words)
}

fn read_qp7(file: &[u8], rows: &[model::Records], theirs: &original::Told<DemuxedDs2>, room: (usize, usize), score: &mut Score) {
    let (places, words) = qp7_words(rows);
    let (numbers, mut records, mut segments_table) = ask_qp7(file, room);
    let expected = (ours::answered(places.len() as u64, rows.len() as u64), true, true);
    score.model("demux_ds2_qp7", expected, (numbers, records.holds(&places), segments_table.holds(&words)));
    let seen = qp7_segments(file, numbers, records.part(), segments_table.part());
    score.original("demux_ds2_qp7", segments(theirs), seen);
}

fn qp7_segments(file: &[u8], numbers: Numbers, records: &[u32], table: &[u32]) -> (Vec<Segment>, usize) {
    let stream = stream(file);
    let record = |&place: &u32| {
        let long = stream.get(place as usize + 1).map_or(false, |second| second & 0x80 != 0);
        let end = place as usize + if long { 56 } else { 12 };
        stream.get(place as usize..end).unwrap_or(&[]).to_vec()
    };
    let segments = table.chunks_exact(QP7_WORDS).take(numbers[3] as usize).map(|row| {
        let (first, many) = (row[0] as usize, row[1] as usize);
        let of_row = records.get(first..first.saturating_add(many)).unwrap_or(&[]);
        (of_row.iter().map(record).collect(), many, row[2] != 0)
    });
    (segments.collect(), numbers[2] as usize)
}

/// Records come first, and where there is room for them, segments.
fn short_qp7<S>(call: &'static str, (records, rows): (usize, usize), nothing: S, dice: &mut Dice, score: &mut Score)
where
    S: Fn((usize, usize)) -> (Numbers, bool),
{
    if records == 0 {
        return;
    }
    let (few, enough) = (lacking(records, 1, dice), ample(records, 1, dice));
    let segments = dice.pick(&[0, QP7_WORDS * rows, QP7_WORDS * rows + 2]);
    score.named(Name::PacketRoom, call, (short_of(8, records), true), nothing((few, segments)));
    let segments = lacking(rows, QP7_WORDS, dice);
    score.named(Name::TableRoom, call, (short_of(9, rows), true), nothing((enough, segments)));
}

/// Every length of the tables around the one that is needed.
pub fn rooms(both: &Both, score: &mut Score) {
    if let Ok((Kind::Qp, start)) = both.kind {
        let expected = qp_words(&model::qp(both.file, start));
        let rows = expected.len() / QP_WORDS;
        for words in expected.len().saturating_sub(5)..expected.len() + 5 {
            let (numbers, table) = ask_qp(both.file, words);
            if words / QP_WORDS < rows {
                let expected = (short_of(9, rows), true);
                score.named(Name::TableRoom, "demux_ds2_qp", expected, (numbers, table.untouched()));
            } else {
                let announced = model::announced(both.file, start) as u64;
                score.model("demux_ds2_qp", (ours::answered(rows as u64, announced), true), (numbers, table.holds(&expected)));
            }
        }
    }
    if let Ok((Kind::Qp7, start)) = both.kind {
        if let Ok(rows) = model::qp7(both.file, start) {
            qp7_rooms(both.file, qp7_words(&rows), score);
        }
    }
}

fn qp7_rooms(file: &[u8], (expected_places, expected_words): (Vec<u32>, Vec<u32>), score: &mut Score) {
    const CALL: &str = "demux_ds2_qp7";
    let (records, rows) = (expected_places.len(), expected_words.len() / QP7_WORDS);
    for room in [0, 1, 2].map(|more| (records + more).saturating_sub(1)) {
        for words in (QP7_WORDS * rows).saturating_sub(4)..QP7_WORDS * rows + 4 {
            let (numbers, places, table) = ask_qp7(file, (room, words));
            let seen = (numbers, places.untouched() && table.untouched());
            if room < records {
                score.named(Name::PacketRoom, CALL, (short_of(8, records), true), seen);
            } else if words / QP7_WORDS < rows {
                score.named(Name::TableRoom, CALL, (short_of(9, rows), true), seen);
            } else {
                let seen = (numbers, places.holds(&expected_places), table.holds(&expected_words));
                score.model(CALL, (ours::answered(records as u64, rows as u64), true, true), seen);
            }
        }
    }
}
