// Short inputs, all of them: every input of up to 2 bytes, every one of 3 and 4 bytes over those that magics and `\x03enc` are made of, each
// magic and `\x03enc` with every length up to a block past its header, and every first byte with every type. It rests on the comparisons of a
// file and its pieces.
use crate::both::Both;
use crate::common::files::{self, Dice};
use crate::score::Score;
use crate::{pieces, whole};

pub fn compare(score: &mut Score) {
    let dice = &mut Dice::new(77);
    every_byte(dice, score);
    of_magics(dice, score);
    for magic in [b"\x02dss", b"\x03dss", b"\x01ds2", b"\x03ds2", b"\x07ds2", b"\x06dss", b"\x03enc"] {
        every_length(magic, dice, score);
    }
    every_first_byte(dice, score);
    one_block(dice, score);
}

fn ask(file: &[u8], dice: &mut Dice, score: &mut Score) {
    score.file(format_args!("a short input of {} bytes, {:?}", file.len(), &file[..file.len().min(4)]));
    whole(&Both::new(file), dice, score);
}

fn every_byte(dice: &mut Dice, score: &mut Score) {
    ask(&[], dice, score);
    for one in 0..=255 {
        ask(&[one], dice, score);
        for other in 0..=255 {
            ask(&[one, other], dice, score);
        }
    }
}

fn of_magics(dice: &mut Dice, score: &mut Score) {
    const BYTES: [u8; 12] = [0, 1, 2, 3, 6, 7, b'd', b's', b'2', b'e', b'n', b'c'];
    for four in 0..12 * 12 * 12 * 12 {
        let file = [four / 1728, four / 144 % 12, four / 12 % 12, four % 12].map(|at: usize| BYTES[at]);
        ask(&file, dice, score);
        if file[3] == 0 {
            ask(&file[..3], dice, score);
        }
    }
}

/// Zeros after the magic, and, with the same lengths, a block that announces, in its place.
fn every_length(magic: &[u8; 4], dice: &mut Dice, score: &mut Score) {
    let start = match magic {
        [7, ..] => 4096,
        [2, ..] => 1024,
        _ => 1536,
    };
    let mut file = vec![0; start + 513];
    file[..4].copy_from_slice(magic);
    for block in [false, true] {
        if block {
            file[start..start + 6].copy_from_slice(&[0x8F, 4, 13, 0, dice.pick(&[0, 6, 7]), 0]);
            file[start + 6..].iter_mut().for_each(|byte| *byte = dice.byte());
        }
        // The shorter ones of the second round are those of the first.
        for length in if block { start + 1 } else { 0 }..=file.len() {
            score.file(format_args!("{magic:?}, {length} bytes, announcing: {block}"));
            let both = Both::new(&file[..length]);
            whole(&both, dice, score);
            if length % 64 < 2 || length + 3 > start {
                pieces::compare(&both, dice, score);
            }
        }
    }
}

/// One block after 1536 bytes, whose type and whose file's first byte are any.
fn every_first_byte(dice: &mut Dice, score: &mut Score) {
    let mut file = vec![0; 2048];
    for (place, byte) in file.iter_mut().enumerate().skip(1542) {
        *byte = (place * 7 % 253) as u8;
    }
    file[1..4].copy_from_slice(b"ds2");
    for first in 0..=255 {
        for kind in 0..=255 {
            file[0] = first;
            file[1536..1542].copy_from_slice(&[0x0F, 3, 2, 0xFF, kind, 0xFF]);
            score.file(format_args!("first byte {first}, type {kind}"));
            whole(&Both::new(&file), dice, score);
        }
    }
    for (text, any) in [(b"enc", false), (b"enc", true), (b"dss", true)] {
        file[1..4].copy_from_slice(text);
        for one in 0..=255 {
            (file[0], file[1540]) = if any { (one, 6) } else { (3, one) };
            score.file(format_args!("{text:?}, first byte {}, type {}", file[0], file[1540]));
            whole(&Both::new(&file), dice, score);
        }
    }
}

/// DSS recordings of one block, in pieces too: none of them is outside the original's domain, so its faults need two.
fn one_block(dice: &mut Dice, score: &mut Score) {
    for (first, count) in (0..=255).flat_map(|first| [(first, 1), (first, 13)]) {
        for flags in [0x0F, 0x8F] {
            let file = files::recording(b"\x02dss", 1024, &[[flags, first, count, 0, 0, 0]], dice);
            score.file(format_args!("a block with {flags}, {first}, {count}"));
            pieces::fed(&Both::new(&file), 2, &[&file], dice, score);
        }
    }
}
