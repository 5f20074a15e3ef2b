// How long either side takes, and a copy of the same bytes, for scale: the best of some repetitions, in nanoseconds. It rests on the clock
// of the machine, so it says something only where the program runs without an emulator.
use crate::files::Recording;
use crate::jobs::{copied, Job};
use std::time::Instant;

/// The archive's time, the original's, and that of a copy.
pub fn times(job: Job, recording: &Recording, repetitions: usize) -> [u128; 3] {
    let mut room = job.room(recording);
    let mut copy = vec![1; recording.file.len()];
    [
        best(repetitions, || job.by_ours(recording, &mut room)),
        best(repetitions, || job.by_original(recording, &mut room)),
        best(repetitions, || copied(&recording.file, &mut copy)),
    ]
}

fn best(repetitions: usize, mut work: impl FnMut() -> usize) -> u128 {
    let mut best = u128::MAX;
    for _ in 0..repetitions {
        let begin = Instant::now();
        let handed = work();
        best = best.min(begin.elapsed().as_nanos());
        assert!(handed > 0, "nothing was handed out");
    }
    best
}
