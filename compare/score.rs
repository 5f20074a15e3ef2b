// What was compared: how many files each part had, how often each call, with the original and with the model, how many cases each named
// difference had, and what is unexplained. It rests on the list of names in differences.rs.
use crate::differences::{Name, NAMES};
use std::collections::BTreeMap;
use std::fmt::{Debug, Display};

/// Unexplained differences are told so often; further ones are counted.
const TOLD: u64 = 20;

/// Of long values the beginning.
fn beginning(value: &impl Debug) -> String {
    format!("{value:?}").chars().take(200).collect()
}

#[derive(Default)]
pub struct Score {
    /// By call: comparisons with the original, and with the model. A name may stand here twice, at two addresses.
    calls: Vec<(&'static str, [u64; 2])>,
    named: [u64; NAMES.len()],
    unexplained: u64,
    files: u64,
    parts: Vec<(&'static str, u64)>,
    file: String,
}

impl Score {
    /// The next file, by its seed or its name: what is printed where it differs.
    pub fn file(&mut self, name: impl Display) {
        use std::fmt::Write;
        self.files += 1;
        self.file.clear();
        let _ = write!(self.file, "{name}");
    }

    /// The end of a part: how many files it had.
    pub fn part(&mut self, what: &'static str) -> u64 {
        let files = self.files - self.parts.iter().map(|(_, files)| files).sum::<u64>();
        self.parts.push((what, files));
        files
    }

    /// Our answer beside the original's.
    pub fn original<T: PartialEq + Debug>(&mut self, call: &'static str, theirs: T, ours: T) {
        self.compare(call, 0, "the original", theirs, ours);
    }

    /// Our answer beside the model's, where the original has none.
    pub fn model<T: PartialEq + Debug>(&mut self, call: &'static str, expected: T, ours: T) {
        self.compare(call, 1, "the description", expected, ours);
    }

    /// A case of a named difference: our answer must be the one that docs/FORMAT.md gives there.
    pub fn named<T: PartialEq + Debug>(&mut self, name: Name, call: &'static str, expected: T, ours: T) {
        self.named[name as usize] += 1;
        self.compare(call, 1, "the description", expected, ours);
    }

    /// What can only be if the original is another one than it is taken for.
    pub fn wrong(&mut self, call: &'static str, what: &str) {
        self.compare(call, 0, "the original", what, "");
    }

    fn compare<T: PartialEq + Debug>(&mut self, call: &'static str, column: usize, by: &str, expected: T, ours: T) {
        // By address, since it is done for every comparison.
        match self.calls.iter_mut().find(|(name, _)| std::ptr::eq(*name, call)) {
            Some((_, numbers)) => numbers[column] += 1,
            None => {
                let mut numbers = [0; 2];
                numbers[column] = 1;
                self.calls.push((call, numbers));
            }
        }
        if expected != ours {
            self.unexplained += 1;
            if self.unexplained <= TOLD {
                let (expected, ours) = (beginning(&expected), beginning(&ours));
                eprintln!("UNEXPLAINED in {}: {call}: by {by} {expected}, here {ours}", self.file);
            }
        }
    }

    /// Prints the tables, which compare/totals.txt keeps, and answers whether all is well. Where all parts were run, every name must have had a
    /// case.
    pub fn close(&self, all_parts: bool) -> bool {
        println!("{:>12}  files of each part", "");
        for (what, files) in &self.parts {
            println!("{files:12}  {what}");
        }
        println!("{:>12} {:>12}  comparisons of each call: with the original, with the description", "original", "description");
        let mut calls: BTreeMap<_, [u64; 2]> = BTreeMap::new();
        for &(call, [original, model]) in &self.calls {
            let numbers = calls.entry(call).or_default();
            *numbers = [numbers[0] + original, numbers[1] + model];
        }
        for (call, [original, model]) in &calls {
            println!("{original:12} {model:12}  {call}");
        }
        println!("{:>12}  cases of each named difference", "");
        let mut absent = 0;
        for &(name, sentence) in NAMES {
            let cases = self.named[name as usize];
            println!("{cases:12}  {name:?}: {sentence}");
            absent += u64::from(cases == 0);
        }
        if all_parts && absent > 0 {
            eprintln!("{absent} names had no case");
        }
        let comparisons: u64 = calls.values().flatten().sum();
        let named: u64 = self.named.iter().sum();
        let (files, unexplained) = (self.files, self.unexplained);
        println!("{files} files, {comparisons} comparisons, {named} under named differences, {unexplained} unexplained");
        unexplained == 0 && !(all_parts && absent > 0)
    }
}
