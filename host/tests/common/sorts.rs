// Files of several sorts, held one after another, and what they had: so that a test can say that it met every case. It rests on the dice.
use super::files::Dice;
use super::model::Answer;
use std::collections::{BTreeMap, BTreeSet};

pub type Sort = fn(&mut Dice) -> Vec<u8>;

/// Of so many files, their sorts in turn: of what `met` names, how many of the files that `hold` takes have it; and the numbers by which it refuses.
pub fn met_in<T>(
    files: u64,
    sorts: &[Sort],
    hold: impl Fn(&[u8]) -> Answer<T>,
    met: impl Fn(&[u8], &T) -> Vec<String>,
) -> (BTreeMap<String, u64>, BTreeSet<u64>) {
    let (mut seen, mut refusals) = (BTreeMap::new(), BTreeSet::new());
    for seed in 0..files {
        let file = sorts[seed as usize % sorts.len()](&mut Dice::new(seed));
        match hold(&file) {
            Ok(known) => met(&file, &known).into_iter().for_each(|what| *seen.entry(what).or_insert(0) += 1),
            Err(refusal) => drop(refusals.insert(refusal[0])),
        }
    }
    println!("{seen:?}, {refusals:?}");
    (seen, refusals)
}
