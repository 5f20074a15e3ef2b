// The worked examples of docs/FORMAT.md and the listing's file, with the numbers written out by hand, and recordings at an edge: counts of 255,
// rooms by the byte, sizes one short, pieces of one byte, blocks that wait, a full hold. It rests on the comparisons of a whole file and of its pieces.
use crate::both::Both;
use crate::common::files::{self, file, Dice};
use crate::common::model::refused;
use crate::lent::Lent;
use crate::ours::{self, answered, Numbers};
use crate::score::Score;
use crate::{ends, pieces, tables, whole, whole_sp, written};
use klovdrun::{QP7_WORDS, QP_WORDS};

/// Every comparison, some times over, since rooms and cuts are the dice's, and rooms by the byte.
fn every(name: &str, file: &[u8], score: &mut Score) {
    let dice = &mut Dice::new(file.len() as u64);
    score.file(name);
    let both = Both::new(file);
    for _ in 0..4 {
        whole(&both, dice, score);
        pieces::compare(&both, dice, score);
    }
    for number in [0, 2, 3] {
        pieces::fed(&both, number, &[file], dice, score);
    }
    whole_sp::rooms(&both, score);
    tables::rooms(&both, score);
    written::again(&both, score);
}

/// The numbers of a whole SP call, and the packets and counts that it wrote.
fn sp(file: &[u8], dss: bool) -> (Numbers, Vec<u8>, Vec<u8>) {
    let (mut out, mut counts) = (Lent::<u8>::new(42 * 300), Lent::<u8>::new(300));
    let call = if dss { ours::demux_dss } else { ours::demux_ds2_sp };
    let numbers = call(file, out.part(), counts.part());
    let packets = numbers[2] as usize;
    (numbers, out.part()[..42 * packets].to_vec(), counts.part()[..packets].to_vec())
}

/// The numbers of a QP or QP7 call, and the words of segments that it wrote.
fn segments(file: &[u8], qp7: bool) -> (Numbers, Vec<u32>) {
    let (mut table, mut records) = (Lent::<u32>::new(99), Lent::<u32>::new(999));
    if qp7 {
        let numbers = ours::demux_ds2_qp7(file, records.part(), table.part());
        (numbers, table.part()[..QP7_WORDS * numbers[3] as usize].to_vec())
    } else {
        let numbers = ours::demux_ds2_qp(file, table.part());
        (numbers, table.part()[..QP_WORDS * numbers[2] as usize].to_vec())
    }
}

const CALL: &str = "worked examples";

pub fn compare(score: &mut Score) {
    headers(score);
    qp_examples(score);
    sp_examples(score);
    listing(score);
    edges(score);
    byte_by_byte(score);
    waiting(score);
    held(score);
    let dice = &mut Dice::new(5);
    score.file("kinds that there are not");
    (0..200).for_each(|_| ends::no_such_kind(dice, score));
}

/// Examples 1 and 3.
fn headers(score: &mut Score) {
    for (name, magic, start) in [("example 1", b"\x01ds2", 1536), ("example 3", b"\x07ds2", 4096)] {
        let file = file(magic, start, &[], |_| 0);
        every(name, &file, score);
        score.model(CALL, answered(0, 0), sp(&file, false).0);
        every(name, &file[..start - 1], score);
        score.model(CALL, ours::refused(refused(3, start as u64)), sp(&file[..start - 1], false).0);
    }
}

/// Examples 2 and 5.
fn qp_examples(score: &mut Score) {
    let head = |first, count| [0x0F, first, count, 0xFF, 6, 0xFF];
    let one = file(b"\x01ds2", 1536, &[head(3, 10), head(30, 2)], |place| place as u8);
    every("example 2, one segment", &one, score);
    score.model(CALL, (answered(1, 12), vec![0, 672, 12, 0]), segments(&one, false));
    let two = file(b"\x01ds2", 1536, &[head(3, 9), head(3, 4)], |place| place as u8);
    every("example 2, two segments", &two, score);
    score.model(CALL, (answered(2, 13), vec![0, 504, 9, 0, 506, 224, 4, 1]), segments(&two, false));
    let silent = file(b"\x01ds2", 1536, &[head(3, 9), head(3, 0)], |place| place as u8);
    every("example 2, a silent block", &silent, score);
    score.model(CALL, (answered(1, 9), vec![0, 504, 9, 0]), segments(&silent, false));
    for (first, refusal) in [(3, [5, 504, 56, 54]), (4, [4, 506, 0, 2])] {
        let file = file(b"\x01ds2", 1536, &[[0x0F, first, 10, 0xFF, 7, 0xFF]], |_| 0xFF);
        every("example 5", &file, score);
        score.model(CALL, (ours::refused(refusal), Vec::new()), segments(&file, true));
        score.model(CALL, ours::tally_refused(refusal), ours::tally(&file));
    }
}

/// Examples 4, 6 and 7.
fn sp_examples(score: &mut Score) {
    let carried = file(b"\x01ds2", 1536, &[[0x0F, 3, 2, 0xFF, 0, 0xFF]], |place| match place {
        40 => 99,
        42..=81 => (place - 42) as u8,
        _ => 0,
    });
    every("example 4", &carried, score);
    let (_, packets, _) = sp(&carried, false);
    score.model(CALL, ([1, 99, 3, 0, 5, 2], [39, 36, 0, 38]), {
        let mut ends = ([0; 6], [0; 4]);
        ends.0.copy_from_slice(&packets[42..48]);
        ends.1.copy_from_slice(&packets[80..84]);
        ends
    });
    let last = file(b"\x01ds2", 1536, &[[0x0F, 3, 13, 0xFF, 0, 0xFF]], |_| 7);
    every("example 6", &last, score);
    let (_, _, counts) = sp(&last, false);
    score.model(CALL, (14, 506), (counts[12], counts.iter().map(|&count| u32::from(count)).sum()));
    for (first, start) in [(255, 506), (2, 0), (3, 2)] {
        let file = file(b"\x02dss", 1024, &[[0x8F, first, 1, 0, 0, 0]], |place| place as u8 + 1);
        every("example 7", &file, score);
        // Packet byte 3 is the first byte of a swapped read, here one more than its place.
        let (_, packets, counts) = sp(&file, true);
        score.model(CALL, if start == 506 { (0, 0) } else { (start as u8 + 1, 40) }, (packets[3], counts[0]));
    }
}

fn listing(score: &mut Score) {
    let file = file(b"\x01ds2", 1536, &[[0x0F, 3, 12, 0xFF, 6, 0xFF]], |_| 0);
    every("the listing's file", &file, score);
    score.model(CALL, ours::tallied([2, 1536, 1, 12, 10, 1, 506]), ours::tally(&file));
}

/// Counts of 255, in blocks of each kind and both parities; files that end one byte before a size, at it, and one byte after it.
fn edges(score: &mut Score) {
    let dice = &mut Dice::new(9);
    for (magic, start, kinds) in [(b"\x02dss", 1024, &[0][..]), (b"\x03dss", 1536, &[0]), (b"\x01ds2", 1536, &[0, 6, 7, 255])] {
        for &kind in kinds {
            for blocks in 1..=3 {
                let flags = dice.pick(&[0x0F, 0x8F]);
                let full = files::recording(magic, start, &vec![[flags, 3, 255, 0xFF, kind, 0xFF]; blocks], dice);
                every("counts of 255", &full, score);
            }
            let heads: Vec<_> = [9, 0, 3].iter().map(|&count| [0x8F, 9, count, 0xFF, kind, 0xFF]).collect();
            let some = files::recording(magic, start, &heads, dice);
            for size in [1, 4, start, start + 6, start + 512, start + 1024, start + 1536] {
                for length in [size - 1, size, size + 1] {
                    every("around a size", &some[..length.min(some.len())], score);
                }
            }
        }
    }
}

/// Recordings of both sorts, with an empty piece before each byte of some.
fn byte_by_byte(score: &mut Score) {
    let dice = &mut Dice::new(11);
    for (number, blocks) in [(0, 2), (0, 3), (2, 2), (3, 1)] {
        let mut file = files::continuous(number != 0, blocks, dice);
        if number != 0 {
            // The header is as long as the kind says, and no longer.
            file[0] = number as u8;
        }
        let both = Both::new(&file);
        let with_empty: Vec<&[u8]> = file.chunks(1).flat_map(|one| [&one[..0], one]).collect();
        let bytes: Vec<&[u8]> = if blocks == 1 { with_empty } else { file.chunks(1).collect() };
        score.file(format_args!("byte by byte, kind {number}"));
        pieces::fed(&both, number, &bytes, dice, score);
    }
}

/// Given block by block, and in the dice's cuts.
fn by_blocks(name: &str, file: &[u8], start: usize, number: u64, dice: &mut Dice, score: &mut Score) {
    let both = Both::new(file);
    let blocks: Vec<&[u8]> = std::iter::once(&file[..start]).chain(file[start..].chunks(512)).collect();
    score.file(name);
    pieces::fed(&both, number, &blocks, dice, score);
    pieces::fed(&both, number, &files::few_pieces(file, dice), dice, score);
}

/// DSS blocks behind one that announces 255: as many wait as ever do, and then leave together.
fn waiting(score: &mut Score) {
    let dice = &mut Dice::new(13);
    for (flag, first) in [(0x0F, 3), (0x8F, 3), (0x0F, 255), (0x8F, 255)] {
        for behind in 19..=25 {
            let mut heads = vec![[flag, first, 255, 0xFF, 0, 0xFF]];
            heads.extend((0..behind).map(|_| [dice.pick(&[0x0F, 0x8F]), dice.byte(), dice.pick(&[0, 5, 12]), 0xFF, 0, 0xFF]));
            let file = files::recording(b"\x02dss", 1024, &heads, dice);
            by_blocks("blocks that wait", &file, 1024, 2, dice, score);
        }
    }
}

/// DS2 blocks that announce nothing behind one that does, up to where the hold is full: with 231 packets from a swapped read on, to its last byte.
fn held(score: &mut Score) {
    let dice = &mut Dice::new(17);
    for flag in [0x0F, 0x8F] {
        for count in [0, 1, 12, 230, 231, 232, 255] {
            let mut heads = vec![[flag, 3, count, 0xFF, 0, 0xFF]];
            heads.resize(50, [0x0F, 3, 0, 0xFF, 0, 0xFF]);
            let file = files::recording(b"\x01ds2", 1536, &heads, dice);
            by_blocks("a full hold", &file, 1536, 0, dice, score);
        }
    }
}
