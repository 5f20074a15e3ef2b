// The limit of 268,435,456 bytes: files of exactly so many and of one more, of each kind, whole and in pieces. Most blocks announce
// nothing, so that the original's vectors stay small; but a DS2 reader's hold needs a recording without a gap. It rests on the comparisons
// of a whole file, of pieces and of ends.
use crate::both::Both;
use crate::common::files::{self, Dice};
use crate::common::model::{refused, LIMIT};
use crate::differences::Name;
use crate::ours;
use crate::pieces::Run;
use crate::score::Score;
use crate::{ends, whole};
use std::time::Instant;

const PIECE: usize = 8192;

/// Blocks that announce, counted from the front, or back from the end: block, byte 0, byte 1, count.
const PLACED: [(isize, u8, u8, u8); 6] =
    [(0, 0x8F, 3, 9), (1, 0x0F, 5, 3), (3, 0x8F, 200, 4), (262_144, 0x0F, 3, 5), (-2, 0x0F, 100, 2), (-1, 0x0F, 60, 4)];

fn sparse(magic: &[u8; 4], kind: u8) -> Vec<u8> {
    let start = if magic[0] == 2 { 1024 } else { 1536 };
    let blocks = (LIMIT - start) / 512;
    let mut file = vec![0; LIMIT + 1];
    file[..4].copy_from_slice(magic);
    for (block, flags, first, count) in PLACED {
        let block = if block < 0 { blocks - block.unsigned_abs() } else { block.unsigned_abs() };
        let at = start + 512 * block;
        for (place, byte) in file[at..at + 512].iter_mut().enumerate() {
            *byte = (place * 13 % 251) as u8;
        }
        file[at..at + 6].copy_from_slice(&[flags, first, count, 0xFF, kind, 0xFF]);
    }
    file
}

pub fn compare(score: &mut Score) {
    let dice = &mut Dice::new(2);
    let kinds = [(b"\x02dss", 0), (b"\x01ds2", 0), (b"\x03ds2", 6), (b"\x01ds2", 7)];
    for (magic, kind) in kinds {
        let (file, begun) = (sparse(magic, kind), Instant::now());
        for length in [LIMIT, LIMIT + 1] {
            score.file(format_args!("{length} bytes, {magic:?}, type {kind}"));
            whole(&Both::new(&file[..length]), dice, score);
        }
        eprintln!("  whole, {magic:?}, type {kind}, at the limit and one byte over it: {:.1} s", begun.elapsed().as_secs_f64());
        if kind == 0 && magic[0] == 2 {
            one_piece(&file, dice, score);
            in_pieces(2, &file[..LIMIT], dice, score);
        }
    }
    in_pieces(0, &files::continuous(false, (LIMIT - 1536) / 512, dice), dice, score);
}

/// A DSS file in one piece, one byte too long and then not. The original is not asked: its time grows with the square of a piece.
fn one_piece(file: &[u8], dice: &mut Dice, score: &mut Score) {
    let begun = Instant::now();
    score.file(format_args!("a piece of {} bytes", file.len()));
    let mut run = Run::new(&file[..LIMIT], 2, score);
    run.theirs = None;
    run.refuse(Name::Limit, ours::owing(refused(2, LIMIT as u64), 0), file, (0, 0), score);
    run.give(&file[..LIMIT], dice, score);
    ends::all(&mut run, dice, score);
    eprintln!("  DSS in one piece, without the original: {:.1} s", begun.elapsed().as_secs_f64());
}

/// Pieces up to the limit beside the original, short ones for its sake, and then one byte more.
fn in_pieces(number: u64, file: &[u8], dice: &mut Dice, score: &mut Score) {
    let begun = Instant::now();
    score.file(format_args!("{} bytes in pieces, kind {number}", file.len()));
    let mut run = Run::new(file, number, score);
    for piece in file.chunks(PIECE) {
        run.give(piece, dice, score);
    }
    let owed = run.owed() as u64;
    run.refuse(Name::Limit, ours::owing(refused(2, LIMIT as u64), owed), &[0], (84, 2), score);
    let (packets, theirs) = (run.handed(), run.theirs.is_some());
    ends::all(&mut run, dice, score);
    let (with, seconds) = (if theirs { "beside" } else { "without" }, begun.elapsed().as_secs_f64());
    eprintln!("  kind {number} in pieces of {PIECE} bytes, {packets} packets, {with} the original: {seconds:.1} s");
}
