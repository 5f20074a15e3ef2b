// The driver: dss-codec's demux module and the archive in one program, called the same way on the same recording in memory.
// bench JOB SIZE check | count SIDE REPETITIONS | time REPETITIONS. It rests on the module's own sources, reached by links that bench/build
// makes, and on the crate `ours`.
mod check;
#[allow(dead_code)]
#[path = "dss-codec/demux/mod.rs"]
mod demux;
#[path = "dss-codec/error.rs"]
mod error;
mod files;
mod jobs;
mod original;
mod timing;

use jobs::Job;
use std::process::ExitCode;

/// Repeats the job by one side. With 0 repetitions all that is not measured is left: the recording and the lent memory are made.
fn count(job: Job, recording: &files::Recording, side: &str, repetitions: usize) -> Option<usize> {
    let mut room = job.room(recording);
    match side {
        "ours" => Some((0..repetitions).map(|_| job.by_ours(recording, &mut room)).sum()),
        "rust" => Some((0..repetitions).map(|_| job.by_original(recording, &mut room)).sum()),
        _ => None,
    }
}

/// What the arguments ask for, as a line; nothing if they ask for nothing that is known.
fn asked(arguments: &[&str]) -> Option<String> {
    let (name, size, what, rest) = match arguments {
        [name, size, what, rest @ ..] => (name, size, what, rest),
        _ => return None,
    };
    let job = Job::named(name)?;
    let recording = files::make(job.kind, size.parse().ok()?);
    match (*what, rest) {
        ("check", []) if check::agree(job, &recording) => Some(format!("{} {}", recording.units, recording.file.len())),
        ("check", []) => panic!("{name}: the two sides hand out different bytes, or not all"),
        ("count", [side, repetitions]) => count(job, &recording, side, repetitions.parse().ok()?).map(|sum| sum.to_string()),
        ("time", [repetitions]) => {
            let [ours, original, copy] = timing::times(job, &recording, repetitions.parse().ok()?);
            Some(format!("{ours} {original} {copy}"))
        }
        _ => None,
    }
}

fn main() -> ExitCode {
    let arguments: Vec<String> = std::env::args().skip(1).collect();
    let arguments: Vec<&str> = arguments.iter().map(|argument| &argument[..]).collect();
    match asked(&arguments) {
        Some(line) => {
            println!("{line}");
            ExitCode::SUCCESS
        }
        None => {
            eprintln!("bench JOB SIZE check | count ours|rust REPETITIONS | time REPETITIONS");
            ExitCode::from(2)
        }
    }
}
