// The Rust crate in host/ beside the original: every result of the calls that both have, through the crate's own names and signatures. It
// rests on the crate as a host links it; where the two differ by design at most that is asked here, since the archive's calls are held there. How
// much of a record is missing, which the original does not tell, is held to the model.
use crate::common::files::{self, Dice};
use crate::common::model::{self, Kind};
use crate::detection::encrypted;
use crate::differences::Name;
use crate::score::Score;
use klovdrun::demux as port;
use klovdrun::Refusal;
use original::{Stream, Told};

/// In the original's numbers: it tells the place of a record that cannot be read. Of any other refusal it tells no more than which it is, and
/// then nothing is said to be missing.
fn told<T>(answer: Result<T, Refusal>) -> Told<T> {
    answer.map_err(|Refusal { number, beside, size, absent }| match number {
        4 | 5 => (number, beside),
        _ => (number, size | absent),
    })
}

/// A refusal of a record, where there is one: all its numbers beside the model's.
fn missing<T>(call: &'static str, file: &[u8], answer: &Result<T, Refusal>, score: &mut Score) {
    if let Err(Refusal { number: number @ (4 | 5), beside, size, absent }) = *answer {
        score.model(call, model::tally(file).err(), Some([number, beside, size, absent]));
    }
}

/// A DS2 file in a form that both have: packets, or segments' bytes and records, with frames, resets and the total.
type Ds2 = (&'static str, Vec<(Vec<Vec<u8>>, usize, bool)>, usize);

macro_rules! plain {
    ($from:path, $demuxed:expr) => {{
        use $from as Of;
        match $demuxed {
            Of::Sp { packets, total_frames } => ("SP", vec![(packets, 0, false)], total_frames),
            Of::QpSegments { segments, total_frames } => {
                let segments = segments.into_iter().map(|one| (vec![one.stream], one.total_frames, one.reset_before));
                ("QP", segments.collect(), total_frames)
            }
            Of::Qp7Segments { segments, total_frames } => {
                let segments = segments.into_iter().map(|one| (one.records, one.total_frames, one.reset_before));
                ("QP7", segments.collect(), total_frames)
            }
        }
    }};
}

pub fn compare(file: &[u8], dice: &mut Dice, score: &mut Score) {
    detection(file, dice, score);
    whole(file, score);
    in_pieces(file, dice, score);
}

fn detection(file: &[u8], dice: &mut Dice, score: &mut Score) {
    let one = original::detect_format(file).map(|format| (format!("{format:?}"), format.native_sample_rate(), format.extension()));
    let other = port::detect_format(file).map(|format| (format!("{format:?}"), format.native_sample_rate(), format.extension()));
    match encrypted(file) {
        Some(name) => {
            let theirs = one.map(|(name, ..)| name);
            score.named(Name::EncryptedNames, "crate: detect_format", (Some(name.to_string()), None), (theirs, other));
        }
        None => score.original("crate: detect_format", one, other),
    }
    let start = original::detect_ds2_audio_start(file);
    score.original("crate: detect_ds2_audio_start", start, port::ds2::detect_ds2_audio_start(file));
    for place in [0, start, file.len(), dice.below(9000)] {
        let kind = original::detect_ds2_format_type(file, place);
        score.original("crate: detect_ds2_format_type", kind, port::ds2::detect_ds2_format_type(file, place));
    }
    let place = dice.below(file.len() + 1) / 512 * 512;
    let part = &file[place..(place + dice.below(9)).min(file.len())];
    let good = original::is_ds2_audio_block_header(part);
    score.original("crate: is_ds2_audio_block_header", good, port::ds2::is_ds2_audio_block_header(part));
}

/// The whole readings: not below the audio start for DSS, and not at or below it for DS2, where the original faults.
fn whole(file: &[u8], score: &mut Score) {
    let magic = file.get(..4);
    if !matches!(magic, Some(b"\x02dss" | b"\x03dss")) || file.len() >= 512 * usize::from(file[0]) {
        score.original("crate: demux_dss", original::demux_dss(file), told(port::dss::demux_dss(file)));
    }
    let start = original::detect_ds2_audio_start(file);
    if !matches!(magic, Some(b"\x01ds2" | b"\x03ds2" | b"\x07ds2")) || file.len() > start {
        let one: Told<Ds2> = original::demux_ds2(file).map(|demuxed| plain!(original::DemuxedDs2, demuxed));
        let other = port::ds2::demux_ds2(file);
        missing("crate: demux_ds2", file, &other, score);
        let other: Told<Ds2> = told(other).map(|demuxed| plain!(port::ds2::DemuxedDs2, demuxed));
        score.original("crate: demux_ds2", one, other);
    }
}

/// What either demuxer answers at its end.
fn ended(call: &'static str, file: &[u8], theirs: Told<Vec<Vec<u8>>>, ours: Result<Vec<Vec<u8>>, Refusal>, score: &mut Score) {
    missing(call, file, &ours, score);
    score.original(call, theirs, told(ours));
}

/// Gives both demuxers the same pieces, and then the strict or the lenient end.
macro_rules! fed {
    ($name:literal, $file:expr, $dice:expr, $score:expr, $one:expr, $other:expr) => {{
        let (mut one, mut other, mut full, lenient) = ($one, $other, false, $dice.percent(60));
        for piece in files::pieces($file, $dice) {
            let answer = told(other.push(piece));
            full = answer == Err((7, 0));
            if full {
                // The original goes on, and nothing is left to compare.
                $score.named(Name::Hold, concat!("crate: ", $name, "::push"), true, model::overflows($file));
                break;
            }
            $score.original(concat!("crate: ", $name, "::push"), one.push(piece), answer);
        }
        if !full && lenient {
            ended(concat!("crate: ", $name, "::finish_lenient"), $file, one.finish_lenient(), other.finish_lenient(), $score);
        } else if !full {
            ended(concat!("crate: ", $name, "::finish"), $file, one.finish(), other.finish(), $score);
        }
    }};
}

/// DSS only where the original's pieces agree with its own whole reading; a DS2 recording of another kind is an SP reader's too.
fn in_pieces(file: &[u8], dice: &mut Dice, score: &mut Score) {
    let first = *file.first().unwrap_or(&0);
    match file.get(..4) {
        Some(b"\x02dss" | b"\x03dss") if model::dss_pieces_agree(file) || file.len() < 512 * usize::from(first) => {
            fed!("DssSpStreamDemuxer", file, dice, score, Stream::dss(first), port::dss::DssSpStreamDemuxer::new(first));
        }
        Some(b"\x01ds2" | b"\x03ds2") => {
            fed!("Ds2SpStreamDemuxer", file, dice, score, Stream::ds2(), port::ds2::Ds2SpStreamDemuxer::new());
        }
        _ => {}
    }
    // For an SP file the original answers no frames and the crate refuses; at or below the audio start the original faults.
    if let Ok((Kind::Qp | Kind::Qp7, _)) | Err([1, ..]) = model::kind(file) {
        fed!("Ds2QpStreamDemuxer", file, dice, score, Stream::qp(), port::ds2::Ds2QpStreamDemuxer::new());
    }
}
