// The four detection calls, which take anything and refuse nothing. It rests on the original, and on the model for
// what a format is.
use crate::common::files::Dice;
use crate::common::model;
use crate::differences::Name;
use crate::ours;
use crate::score::Score;

/// The number of a format in the C calls.
fn number(format: Option<original::AudioFormat>) -> u8 {
    use original::AudioFormat::*;
    match format {
        None => 0,
        Some(DssSp) => 1,
        Some(Ds2Sp) => 2,
        Some(Ds2Qp) => 3,
        Some(Ds2Qp7) => 4,
        Some(GrundigSp) => 5,
    }
}

fn by_name(format: Option<&str>) -> u8 {
    let names = ["DssSp", "Ds2Sp", "Ds2Qp", "Ds2Qp7", "GrundigSp"];
    format.and_then(|format| names.iter().position(|&name| name == format)).map_or(0, |at| at as u8 + 1)
}

/// The original's name for a file of the encrypted recorders, if it is long enough to have one.
pub fn encrypted(file: &[u8]) -> Option<&'static str> {
    let byte = file.get(0x604).filter(|_| file.starts_with(b"\x03enc"))?;
    Some(match byte {
        6 => "Ds2Qp",
        7 => "Ds2Qp7",
        _ => "Ds2Sp",
    })
}

pub fn compare(file: &[u8], dice: &mut Dice, score: &mut Score) {
    let format = ours::detect_format(file);
    let theirs = number(original::detect_format(file));
    match encrypted(file) {
        Some(name) => score.named(Name::EncryptedNames, "detect_format", (by_name(Some(name)), 0), (theirs, format)),
        None => score.original("detect_format", theirs, format),
    }
    score.model("detect_format", by_name(model::format(file)), format);
    let start = original::detect_ds2_audio_start(file);
    score.original("detect_ds2_audio_start", start, ours::detect_ds2_audio_start(file));
    // Of sizes beyond the file's length there are many, and one answer.
    for size in [0, start, file.len(), dice.below(9000), 512 * dice.below(9), usize::MAX - dice.below(2000)] {
        let kind = original::detect_ds2_format_type(file, size);
        score.original("detect_ds2_format_type", kind, ours::detect_ds2_format_type(file, size));
    }
    let place = dice.below(file.len() + 1) / 512 * 512;
    for part in [&file[place..(place + dice.below(9)).min(file.len())], &file[file.len().min(start)..file.len().min(start + 6)]] {
        let good = original::is_ds2_audio_block_header(part);
        score.original("is_ds2_audio_block_header", u8::from(good), ours::is_ds2_audio_block_header(part));
    }
}
