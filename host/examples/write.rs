// The writing program: it makes a DS2 SP recording of a header and of packets, as an intake program writes them, and says in one line what
// it has written. It rests on the crate's safe calls: the archive makes the file, and its tally says how many packets it has. What it
// prints and its exit statuses are in `HELP`.
mod common;

use common::command::{check_version, misused, of_system, open, reserve, status, Outcome, Program, Stop};
use common::new_file::{NewFile, Source};
use klovdrun::mux::{ds2_sp_file_size, write_ds2_sp_into};
use klovdrun::{tally, DS2_START, LIMIT, PACKET};
use std::ffi::{OsStr, OsString};
use std::fs::File;
use std::io::Read;
use std::path::Path;
use std::process::ExitCode;

/// One byte over a header is enough to be refused, so that no more are read.
const MOST_OF_HEADER: usize = DS2_START.0 + 1;
/// A packet has at least 40 bytes of the recording: with the header's, so many are over the limit and refused, so that no more are read. They
/// are whole ones: what is left out is not taken for cut.
const MOST_OF_PACKETS: usize = PACKET * (LIMIT / 40);
/// How much is read at a time.
const PART: usize = 1 << 20;

const HELP: &str = "\
usage: write [--force] [--] HEADER PACKETS OUT

Writes the DS2 SP recording OUT. Its header is the file HEADER, the 1536 bytes that a DS2 recording with first byte 1 or 3 begins
with. Its blocks have the packets of the file PACKETS, 42 bytes each, as an intake program writes them of an SP recording. Either
HEADER or PACKETS may be -, which is standard input.

The line, and the exit status:
  written: 1234 packets, 52736 bytes                                                   0
  refused 16 7: packet 7 is cut short, or its byte 40 is not 0                         3
What is written is complete as announced, and reading it gives the same packets. Zeros that stand for bytes that were missing are
then bytes of the recording like others. If it is refused nothing is written.

No packets give a bare header. A list that ends between packets cannot be told from a whole one: what came of an input that failed
before its end, be it an empty pipe, is written as it came. Of a list longer than any that can be written only so much is read as
shows that: it is refused by 17, and a bad packet behind, which the archive would name by 16 if it were given all, is not found.

The other exit statuses, with a line on standard error:
  4   input or output failed; but for a line that could not be printed, OUT is as it was
  64  wrong use
Statuses 1 and 2 are not given.

--force replaces a file OUT that is there already, which is else left as it is; of a link the link itself, and not what it leads
to. Neither HEADER nor PACKETS, nor a DSS or DS2 recording, nor what is not a file is ever replaced, nor a link to one. What an
earlier run has written is a recording too, so that a second run needs another OUT. A run that is killed may leave its temporary
file .write-PID beside OUT.
";

const WRITE: Program = Program { name: "write", help: HELP };

/// What is read, from its beginning to its end.
struct Input {
    name: String,
    file: File,
    itself: &'static str,
}

impl Input {
    fn open(name: &OsStr, itself: &'static str) -> Outcome<Input> {
        let (name, file) = open(name)?;
        Ok(Input { name, file, itself })
    }

    fn source(&self) -> Source<'_> {
        Source { name: &self.name, file: &self.file, itself: self.itself }
    }

    /// All bytes, up to so many.
    fn read(&self, most: usize) -> Outcome<Vec<u8>> {
        let mut bytes = Vec::new();
        loop {
            let part = PART.min(most - bytes.len());
            reserve(&mut bytes, part)?;
            let got = (&self.file).take(part as u64).read_to_end(&mut bytes);
            if of_system(&self.name, got)? == 0 {
                return Ok(bytes);
            }
        }
    }
}

/// The recording, and how many packets it has by its tally.
fn recording(header: &[u8], packets: &[u8]) -> Outcome<(Vec<u8>, usize)> {
    let size = ds2_sp_file_size(header, packets)?;
    let mut file = Vec::new();
    reserve(&mut file, size)?;
    file.resize(size, 0);
    write_ds2_sp_into(header, packets, &mut file)?;
    match tally(&file) {
        Ok(told) if told.complete_as_announced(size) && PACKET * told.handed == packets.len() => Ok((file, told.handed)),
        _ => Err(Stop::Failed("the tally does not say of what was made that it is complete as announced, with all packets".into())),
    }
}

fn run(names: Vec<OsString>, force: bool) -> Outcome<(String, u8)> {
    let names: Result<[OsString; 3], _> = names.try_into();
    let [header, packets, out] = match names {
        Ok(names) => names,
        Err(_) => return misused("it takes HEADER PACKETS OUT"),
    };
    if header == "-" && packets == "-" {
        return misused("standard input is either HEADER or PACKETS");
    }
    check_version()?;
    let header = Input::open(&header, "it is the header itself")?;
    let packets = Input::open(&packets, "it is the packets themselves")?;
    let sources = [header.source(), packets.source()];
    let mut output = NewFile::create(WRITE.name, Path::new(&out), force, &sources)?;
    let head = header.read(MOST_OF_HEADER)?;
    // a header that is refused is told before packets are waited for
    ds2_sp_file_size(&head, &[])?;
    let (file, number) = recording(&head, &packets.read(MOST_OF_PACKETS)?)?;
    output.put(&file)?;
    output.put_in_place(&sources)?;
    Ok((format!("written: {number} packets, {} bytes", file.len()), status::COMPLETE))
}

fn main() -> ExitCode {
    WRITE.run(run)
}
