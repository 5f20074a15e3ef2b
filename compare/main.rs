// The original beside the archive: both are given the same files, and every result of every call is compared; what the archive writes, both read.
// It rests on the original as compare/run builds it, on the archive through host/src/raw.rs, and on the recordings and the model of the host's
// tests.
//
// compare [FILES [SEED]]: so many generated files from that seed on; without arguments 100,000 of them, and the fixed parts too. What was
// compared is printed at the end, and depends on no machine; what it took, and what is unexplained, goes to the other output.
// compare fault NAME: one call of the original at which it faults, alone in its process.
mod at_once;
mod both;
#[path = "../host/tests/common/mod.rs"]
mod common;
mod cutting;
mod detection;
mod differences;
mod drop_in;
mod ends;
#[allow(dead_code)] // raw.rs rests on it, for safe calls that are not asked here
#[path = "../host/src/error.rs"]
mod error;
mod faults;
mod fixed;
mod indexed;
mod lent;
mod limits;
mod numbers;
mod ours;
mod pieces;
#[allow(dead_code)] // of it the declarations are used
#[path = "../host/src/raw.rs"]
mod raw;
mod score;
mod short;
mod tables;
mod whole_sp;
mod written;

use both::Both;
use common::files::{self, Dice};
use score::Score;
use std::panic::{catch_unwind, AssertUnwindSafe};
use std::time::Instant;

const FILES: u64 = 100_000;

/// All calls that take a whole file.
fn whole(both: &Both, dice: &mut Dice, score: &mut Score) {
    detection::compare(both.file, dice, score);
    whole_sp::compare(both, dice, score);
    tables::compare(both, dice, score);
    cutting::compare(both, dice, score);
    numbers::compare(both, dice, score);
}

/// The file of that seed, in every way; some through the Rust crate, too, and some written again.
fn generated(seed: u64, score: &mut Score) {
    let mut dice = Dice::new(seed);
    let mut file = files::small(&mut dice);
    if dice.percent(15) {
        file = files::damaged(file, &mut dice);
    }
    score.file(format_args!("seed {seed}"));
    let both = Both::new(&file);
    whole(&both, &mut dice, score);
    pieces::compare(&both, &mut dice, score);
    if dice.percent(3) {
        drop_in::compare(&file, &mut dice, score);
    }
    if dice.percent(15) {
        written::again(&both, score);
    }
}

/// A panic of the original's, where it is taken to have none, is told with the file, and ends the part.
fn guarded(score: &mut Score, part: impl FnOnce(&mut Score)) {
    if catch_unwind(AssertUnwindSafe(|| part(score))).is_err() {
        score.wrong("any call", "a panic");
    }
}

fn timed(what: &'static str, score: &mut Score, part: impl FnOnce(&mut Score)) {
    let start = Instant::now();
    guarded(score, part);
    let files = score.part(what);
    eprintln!("{what}: {files} files, {:.1} s", start.elapsed().as_secs_f64());
}

fn main() {
    let arguments: Vec<String> = std::env::args().skip(1).collect();
    if let [word, name] = &arguments[..] {
        if word == "fault" {
            return faults::child(name);
        }
    }
    let number = |at: usize, other| arguments.get(at).map_or(other, |text| text.parse().expect("a number"));
    let (files, seed) = (number(0, FILES), number(1, 1));
    let mut score = Score::default();
    let all_parts = arguments.is_empty();
    if all_parts {
        timed("the original's faults", &mut score, faults::compare);
        timed("worked examples and edges", &mut score, fixed::compare);
        timed("short inputs", &mut score, short::compare);
        timed("the limit", &mut score, limits::compare);
        timed("written", &mut score, written::compare);
    }
    timed("generated", &mut score, |score| {
        (seed..seed + files).for_each(|seed| guarded(score, |score| generated(seed, score)));
    });
    std::process::exit(i32::from(!score.close(all_parts)));
}
