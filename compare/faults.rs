// The faults of the original that docs/DIFFERENCES.md lists, each on the smallest input that has it: the program starts itself anew for the
// one call, since a fault ends the process. It rests on KLOVDRUN_EMULATOR, the program that runs this one, if there is one.
use crate::score::Score;
use original::Stream;
use std::process::{Command, Output};

/// How the child is to end.
#[derive(Debug)]
enum End {
    /// By itself, having said this.
    Said(&'static str),
    /// By a panic with this text. Where it stands in the source, older compilers do not say.
    Panic(&'static str),
    /// By a signal, or however an allocation that fails ends a process.
    Abort,
}

struct Case {
    name: &'static str,
    call: fn() -> String,
    end: End,
}

/// Each fault, beside the input that is one step smaller or larger and has none.
const CASES: &[Case] = &[
    Case { name: "dss-3-bytes", call: || dss(2, 3), end: End::Said("refused 1") },
    Case { name: "dss-4-bytes", call: || dss(2, 4), end: End::Abort },
    Case { name: "dss-1023-bytes", call: || dss(2, 1023), end: End::Abort },
    Case { name: "dss-1024-bytes", call: || dss(2, 1024), end: End::Said("0 packets") },
    Case { name: "dss3-4-bytes", call: || dss(3, 4), end: End::Abort },
    Case { name: "dss3-1535-bytes", call: || dss(3, 1535), end: End::Abort },
    Case { name: "dss3-1536-bytes", call: || dss(3, 1536), end: End::Said("0 packets") },
    Case { name: "ds2-3-bytes", call: || ds2(1, 3), end: End::Said("refused 1") },
    Case { name: "ds2-4-bytes", call: || ds2(1, 4), end: End::Panic("the len is 4 but the index is 1536") },
    Case { name: "ds2-1536-bytes", call: || ds2(1, 1536), end: End::Panic("the len is 1536 but the index is 1536") },
    Case { name: "ds2-1537-bytes", call: || ds2(1, 1537), end: End::Said("0 packets") },
    Case { name: "ds2-seven-4-bytes", call: || ds2(7, 4), end: End::Panic("the len is 4 but the index is 4096") },
    Case { name: "ds2-seven-4096-bytes", call: || ds2(7, 4096), end: End::Panic("the len is 4096 but the index is 4096") },
    Case { name: "ds2-seven-4097-bytes", call: || ds2(7, 4097), end: End::Said("0 packets") },
    Case {
        name: "pieces-one-block",
        call: || pieces(&[(235, 1)], 0),
        end: End::Said("1 whole; 1, 0 at the end; 0 wrong, 0 zeros"),
    },
    Case {
        name: "pieces-2047-bytes",
        call: || pieces(&[(235, 1), (3, 1)], 1),
        end: End::Said("1 whole; 1, 0 at the end; 0 wrong, 0 zeros"),
    },
    Case {
        name: "pieces-2048-bytes",
        call: || pieces(&[(235, 1), (3, 1)], 0),
        end: End::Panic("range end index 548 out of range for slice of length 506"),
    },
    Case {
        name: "pieces-before-506",
        call: || pieces(&[(234, 1), (3, 1)], 0),
        end: End::Said("2 whole; 2, 0 at the end; 0 wrong, 0 zeros"),
    },
    Case {
        name: "pieces-of-zeros",
        call: || pieces(&[(235, 1), (3, 13)], 0),
        end: End::Said("14 whole; 1, 13 at the end; 13 wrong, 13 zeros"),
    },
    Case {
        name: "pieces-from-elsewhere",
        call: || pieces(&[(255, 1), (3, 1)], 0),
        end: End::Said("2 whole; 2, 0 at the end; 1 wrong, 0 zeros"),
    },
    Case { name: "continuous-3", call: || continuous(3), end: End::Said("37 whole; 37, 0 at the end; 0 wrong, 0 zeros") },
    Case { name: "continuous-4", call: || continuous(4), end: End::Said("50 whole; 37, 13 at the end; 13 wrong, 12 zeros") },
    Case {
        name: "continuous-5",
        call: || continuous(5),
        end: End::Panic("range end index 1024 out of range for slice of length 1012"),
    },
    Case {
        name: "continuous-31",
        call: || continuous(31),
        end: End::Panic("range end index 1024 out of range for slice of length 1012"),
    },
];

fn zeros(magic: [u8; 4], length: usize) -> Vec<u8> {
    let mut file = magic.to_vec();
    file.resize(length.max(4), 0);
    file.truncate(length);
    file
}

fn dss(version: u8, length: usize) -> String {
    match original::demux_dss(&zeros([version, b'd', b's', b's'], length)) {
        Ok((packets, _)) => format!("{} packets", packets.len()),
        Err((number, _)) => format!("refused {number}"),
    }
}

fn ds2(first: u8, length: usize) -> String {
    match original::demux_ds2(&zeros([first, b'd', b's', b'2'], length)) {
        Ok(original::DemuxedDs2::Sp { packets, .. }) => format!("{} packets", packets.len()),
        Ok(_) => "not SP".to_string(),
        Err((number, _)) => format!("refused {number}"),
    }
}

/// Blocks by byte 1 and count, unswapped, so many bytes of the end left away.
fn pieces(blocks: &[(u8, u8)], lost: usize) -> String {
    let headers: Vec<_> = blocks.iter().map(|&(first, count)| [0x0F, first, count, 0xFF, 0, 0xFF]).collect();
    streamed(&headers, lost)
}

/// As a recorder makes it, from place 0 on: every block announces the packets that begin in it.
fn continuous(blocks: usize) -> String {
    let (mut place, mut swapped) = (0, false);
    let headers: Vec<_> = (0..blocks)
        .map(|block| {
            let (first, flag, mut count) = (place - 506 * block, swapped, 0);
            while place < 506 * (block + 1) {
                place += if swapped { 40 } else { 42 };
                swapped = !swapped;
                count += 1;
            }
            let (flags, before) = if flag { (0x8F, 4) } else { (0x0F, 6) };
            [flags, ((first + before) / 2) as u8, count, 0xFF, 0, 0xFF]
        })
        .collect();
    streamed(&headers, 0)
}

/// `DssSpStreamDemuxer` beside `demux_dss`, on payloads without a zero.
fn streamed(headers: &[[u8; 6]], lost: usize) -> String {
    let mut file = zeros(*b"\x02dss", 1024);
    for header in headers {
        file.extend_from_slice(header);
        let from = file.len();
        file.extend((0..506).map(|place| 1 + ((from + 7 * place) % 251) as u8));
    }
    file.truncate(file.len() - lost);
    let whole = original::demux_dss(&file).map_or(Vec::new(), |(packets, _)| packets);
    let mut stream = Stream::dss(2);
    let mut packets = stream.push(&file).unwrap_or_default();
    let pushed = packets.len();
    packets.extend(stream.finish_lenient().unwrap_or_default());
    let wrong = packets.iter().zip(&whole).filter(|(one, other)| one != other).count();
    let zeros = packets.iter().filter(|packet| packet.iter().all(|&byte| byte == 0)).count();
    let owed = packets.len() - pushed;
    format!("{} whole; {pushed}, {owed} at the end; {wrong} wrong, {zeros} zeros", whole.len())
}

/// The one call, in the process that was started for it.
pub fn child(name: &str) {
    let case = CASES.iter().find(|case| case.name == name).expect("a fault's name");
    println!("{}", (case.call)());
}

fn started(name: &str) -> Output {
    let program = std::env::args().next().expect("the program's own name");
    let emulator = std::env::var("KLOVDRUN_EMULATOR").unwrap_or_default();
    let mut command = if emulator.is_empty() { Command::new(&program) } else { Command::new(&emulator) };
    if !emulator.is_empty() {
        command.arg(&program);
    }
    command.args(["fault", name]).env("RUST_BACKTRACE", "0").output().expect("the program starts itself")
}

/// Whether the child ended so.
fn ended(end: &End, output: &Output, said: &str, error: &str) -> bool {
    match *end {
        End::Said(line) => output.status.success() && said == line,
        End::Panic(text) => output.status.code() == Some(101) && error.contains("panicked") && error.contains(text),
        End::Abort => output.status.code().is_none() && error.contains("memory allocation of"),
    }
}

pub fn compare(score: &mut Score) {
    for case in CASES {
        score.file(case.name);
        let output = started(case.name);
        let (said, error) = (String::from_utf8_lossy(&output.stdout), String::from_utf8_lossy(&output.stderr));
        let lines = if output.status.success() { said.lines() } else { error.lines() };
        let told: Vec<_> = lines.filter(|line| !line.starts_with("note:")).take(2).collect();
        eprintln!("  {}: {}", case.name, told.join(" "));
        let listed = format!("{:?}", case.end);
        let seen = if ended(&case.end, &output, said.trim(), &error) { listed.clone() } else { told.join(" ") };
        score.original("the original's faults", listed, seen);
    }
}
