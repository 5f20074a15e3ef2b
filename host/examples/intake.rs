// The intake program: it reads a recording, writes its packets, frames or records, and says in one line whether it is complete as
// announced. It rests on the crate's safe calls, whose rule for that word it follows. SP recordings are read in pieces by a reader; what
// a reader does not take is read whole. What it prints and its exit statuses are in `HELP`.
mod common;

use common::command::{check_version, failed, misused, of_system, open, reserve, shown, status, Outcome, Program, Stop};
use common::new_file::{NewFile, Source};
use klovdrun::demux::{ds2, AudioFormat};
use klovdrun::{dss_start, frames, tally, Packets, ReadSizes, Reader, Refusal, Tally, Wholeness, DS2_START, FRAME, LIMIT, PACKET};
use std::ffi::{OsStr, OsString};
use std::fmt;
use std::fs::File;
use std::io::{BufReader, Read, Seek, SeekFrom};
use std::path::{Path, PathBuf};
use std::process::ExitCode;

const DEFAULT_PIECE: usize = 4096;
/// How much is read at a time where the recording is read whole.
const PART: usize = 1 << 20;
/// Room for packets to begin with, and for each asking of the lenient end.
const SOME_ROOM: usize = 64;

const HELP: &str = "\
usage: intake [--force] [--] RECORDING PACKETS [PIECE]

Reads a dictation recording (DSS, DS2), writes its packets, frames or records to the file PACKETS, one after the other, and
prints one line. RECORDING - is standard input. PIECE is how many bytes are read at a time, 4096 if it is not given.

The line, and the exit status:
  complete as announced: 1234 packets                                                  0
  incomplete: 13 packets, 0 bytes of a cut block, 1 frames owed, 1 short: 12           1
  refused 3 1536: the recording ends inside its header, which has 1536 bytes           3
Of a QP7 record that cannot be read, refusals 4 and 5, two more numbers stand before the colon, its size and its absent bytes:
  refused 5 504 56 54: a record of 56 bytes at place 504 of the payload stream: 54 bytes are missing
Complete as announced: all that the recording's blocks announce is there. A block that was lost or zeroed announces nothing, and
nobody can tell. Owed are frames that are announced and had not come when the recording ended. Short are packets and frames of
which bytes are missing, in a packet with zeros in their place; their numbers follow, counted from 0. To a swapped packet one byte
is carried, from the last unswapped read before it: a packet for which that byte is missing is short, be all its own bytes there.
A recording with packets that begins swapped (DS2: by block 0's flag; DSS: by the first announcing block's) has one or more whose
carried byte is ours, a zero that nobody recorded: the tally counts them short, and no host calls it complete. Of a refused
recording no packets are written.

The other exit statuses, with a line on standard error:
  4   input or output failed; but for a line that could not be printed, PACKETS is as it was
  64  wrong use
Status 2 is not given.

--force replaces a file PACKETS that is there already, which is else left as it is; of a link the link itself, and not what it
leads to. Neither a DSS or DS2 recording, this one or another, nor what is not a file is ever replaced, nor a link to one. A run
that is killed may leave its temporary file .intake-PID beside PACKETS.
";

const INTAKE: Program = Program { name: "intake", help: HELP };

fn room_for(packets: usize) -> Outcome<Packets> {
    let mut room = Packets::default();
    reserve(&mut room.bytes, PACKET.saturating_mul(packets))?;
    reserve(&mut room.counts, packets)?;
    room.bytes.resize(PACKET * packets, 0);
    room.counts.resize(packets, 0);
    Ok(room)
}

/// The recording's bytes.
struct Input {
    name: String,
    file: BufReader<File>,
    /// Where the recording begins in it. None: it cannot be gone back in.
    origin: Option<u64>,
    /// All bytes so far, or the last piece alone, and where the last piece begins.
    held: Vec<u8>,
    keeps_all: bool,
    piece: usize,
    taken: usize,
}

impl Input {
    fn open(name: &OsStr) -> Outcome<Input> {
        let (name, file) = open(name)?;
        let mut file = BufReader::new(file);
        let origin = file.stream_position().ok();
        Ok(Input { name, file, origin, held: Vec::new(), keeps_all: true, piece: 0, taken: 0 })
    }

    fn source(&self) -> Source<'_> {
        Source { name: &self.name, file: self.file.get_ref(), itself: "it is the recording itself" }
    }

    /// Reads the next piece, which is shorter than asked for only at the recording's end, and says whether there was one. One byte over
    /// the limit is enough to be refused, so that no more are read.
    fn next_piece(&mut self, size: usize) -> Outcome<bool> {
        let size = size.min(LIMIT + 1 - self.taken);
        if !self.keeps_all {
            self.held.clear();
        }
        self.piece = self.held.len();
        reserve(&mut self.held, size)?;
        let got = of_system(&self.name, self.file.by_ref().take(size as u64).read_to_end(&mut self.held))?;
        self.taken += got;
        Ok(got > 0)
    }

    fn last_piece(&self) -> &[u8] {
        &self.held[self.piece..]
    }

    /// Whether the whole recording can be held.
    fn is_at_hand(&self) -> bool {
        self.keeps_all || self.origin.is_some()
    }

    /// The whole recording: goes on where all bytes so far are held, else goes back.
    fn all(&mut self) -> Outcome<&[u8]> {
        if !self.keeps_all {
            // where that is not possible the seek says so
            let back = self.origin.map_or(SeekFrom::Current(0), SeekFrom::Start);
            of_system(&self.name, self.file.seek(back))?;
            self.keeps_all = true;
            self.held.clear();
            self.taken = 0;
        }
        while self.next_piece(PART)? {}
        Ok(&self.held)
    }
}

/// What was handed out, counted here: packets, frames or records, how many of them are short, which, and the bytes of the file in all.
#[derive(Default)]
struct Counted {
    handed: usize,
    short: usize,
    ranges: Vec<(usize, usize)>,
    bytes: usize,
    /// Packets whose reads are not complete.
    lacking: usize,
    /// Packets before the first that has 42 bytes of the file.
    leading: usize,
    wholeness: Wholeness,
}

impl Counted {
    /// One more, with so many bytes of the file.
    fn add(&mut self, of_file: usize, whole: bool) {
        let number = self.handed;
        self.handed += 1;
        self.bytes += of_file;
        if !whole {
            self.short += 1;
            match self.ranges.last_mut() {
                Some((_, last)) if *last + 1 == number => *last = number,
                _ => self.ranges.push((number, number)),
            }
        }
    }

    /// One more packet, by the size of its read and its count.
    fn add_packet(&mut self, size: usize, count: u8) {
        let of_file = usize::from(count);
        if of_file < size {
            self.lacking += 1;
        }
        if self.leading == self.handed && of_file < PACKET {
            self.leading += 1;
        }
        let whole = self.wholeness.next_is_whole(size, count);
        self.add(of_file, whole);
    }

    /// Holds what was counted to the archive's tally of the whole file.
    fn hold_to(&self, told: &Tally, unit: &str) -> Outcome<()> {
        hold(unit, self.handed, told.handed)?;
        hold("short ones", self.short, told.short)?;
        hold("bytes of the file", self.bytes, told.bytes)
    }
}

fn hold(what: &str, counted: usize, told: usize) -> Outcome<()> {
    if counted == told {
        return Ok(());
    }
    failed(what, &format!("{counted} were counted here, and the archive tells {told}"))
}

/// The packets file, and what was written to it.
struct Output<'a> {
    file: NewFile<'a>,
    counted: Counted,
}

impl<'a> Output<'a> {
    fn create(packets: &'a Path, force: bool, input: &Input) -> Outcome<Output<'a>> {
        let file = NewFile::create(INTAKE.name, packets, force, &[input.source()])?;
        Ok(Output { file, counted: Counted::default() })
    }

    /// A frame or a record, all of whose bytes are the file's.
    fn put(&mut self, bytes: &[u8], whole: bool) -> Outcome<()> {
        self.file.put(bytes)?;
        self.counted.add(bytes.len(), whole);
        Ok(())
    }

    fn put_packets<'p>(&mut self, packets: impl Iterator<Item = (&'p [u8], u8)>, sizes: &mut ReadSizes) -> Outcome<()> {
        for (bytes, count) in packets {
            let more = || Stop::Failed("more packets were handed out than are announced".into());
            let size = sizes.next().ok_or_else(more)?;
            self.file.put(bytes)?;
            self.counted.add_packet(size, count);
        }
        Ok(())
    }

    /// Throws away what was written and counted, with what was known of the carried byte.
    fn start_anew(&mut self) -> Outcome<()> {
        self.counted = Counted::default();
        self.file.start_anew()
    }

    fn put_in_place(self, input: &Input) -> Outcome<Counted> {
        self.file.put_in_place(&[input.source()])?;
        Ok(self.counted)
    }
}

/// How a reading has ended.
struct Ended {
    unit: &'static str,
    complete: bool,
    cut: usize,
    owed: usize,
}

/// What the line says.
struct Report {
    ended: Ended,
    counted: Counted,
}

impl fmt::Display for Report {
    fn fmt(&self, to: &mut fmt::Formatter<'_>) -> fmt::Result {
        let Ended { unit, complete, cut, owed } = self.ended;
        let Counted { handed, short, ranges, .. } = &self.counted;
        if complete {
            return write!(to, "complete as announced: {handed} {unit}");
        }
        write!(to, "incomplete: {handed} {unit}, {cut} bytes of a cut block, {owed} frames owed, {short} short")?;
        for (number, (first, last)) in ranges.iter().enumerate() {
            write!(to, "{} {first}", if number == 0 { ":" } else { "" })?;
            if first < last {
                write!(to, "-{last}")?;
            }
        }
        Ok(())
    }
}

/// A recording that is read in pieces.
struct Pieces {
    reader: Reader,
    sizes: ReadSizes,
    room: Packets,
    type_known: bool,
}

impl Pieces {
    fn open(kind: u64) -> Outcome<Pieces> {
        let (sizes, type_known) = match kind {
            Reader::DS2 => (ReadSizes::ds2(DS2_START), false),
            _ => (ReadSizes::dss(dss_start(kind as u8)), true),
        };
        Ok(Pieces { reader: Reader::open(kind)?, sizes, room: room_for(SOME_ROOM)?, type_known })
    }

    /// Takes the input's last piece and writes what it brings. False: the recording is to be read whole.
    fn take(&mut self, input: &mut Input, output: &mut Output) -> Outcome<bool> {
        let piece = input.last_piece();
        let packets = loop {
            match self.reader.piece(piece, &mut self.room.bytes, &mut self.room.counts) {
                Err(Refusal { number: Refusal::ROOM, beside, .. }) => self.room = room_for(beside as usize)?,
                Err(Refusal { number: Refusal::HOLD, .. }) => return Ok(false),
                answer => break answer?,
            }
        };
        self.sizes.take_piece(piece);
        if !self.type_known && packets + self.reader.owed() > 0 {
            if !turns_out_sp(input) {
                return Ok(false);
            }
            self.type_known = true;
        }
        self.write(packets, output)?;
        Ok(true)
    }

    fn write(&mut self, packets: usize, output: &mut Output) -> Outcome<()> {
        output.put_packets(self.room.iter().take(packets), &mut self.sizes)
    }

    /// The strict end says whether all that is announced is there, or what is missing; then the lenient end is asked until nothing is owed.
    fn end(mut self, input: &mut Input, output: &mut Output) -> Outcome<Ended> {
        let cut = match self.reader.end(Reader::STRICT, &mut self.room.bytes, &mut self.room.counts) {
            Ok(_) => return end_strictly(input, output),
            Err(Refusal { number: Refusal::CUT_BLOCK, beside, .. }) => beside as usize,
            Err(Refusal { number: Refusal::OWING, .. }) => 0,
            Err(refusal) => return Err(refusal.into()),
        };
        let owed = self.reader.owed();
        self.drain(output)?;
        tally_again(input, output)?;
        Ok(Ended { unit: "packets", complete: false, cut, owed })
    }

    fn drain(&mut self, output: &mut Output) -> Outcome<()> {
        loop {
            let packets = self.reader.end(Reader::LENIENT, &mut self.room.bytes, &mut self.room.counts)?;
            self.write(packets, output)?;
            if self.reader.owed() == 0 {
                return Ok(());
            }
        }
    }
}

/// A reader of DS2 looks at no type. Once a frame is announced the tally of the bytes so far tells it.
fn turns_out_sp(input: &mut Input) -> bool {
    let sp = tally(&input.held).map_or(false, |told| told.kind == AudioFormat::Ds2Sp);
    if sp {
        // a piece may still be refused by 7, and then all bytes are asked for again
        input.keeps_all = input.origin.is_none();
    }
    sp
}

/// The strict end has answered: every read is complete, and the recording is complete if it does not begin swapped. Short are then the packets
/// before the first unswapped one, which have counts of 40.
fn end_strictly(input: &mut Input, output: &Output) -> Outcome<Ended> {
    let Counted { short, leading, .. } = output.counted;
    hold("short ones", short, leading)?;
    let complete = leading == 0;
    if !complete {
        tally_again(input, output)?;
    }
    Ok(Ended { unit: "packets", complete, cut: 0, owed: 0 })
}

/// An incomplete recording that was read in pieces is tallied whole too, if its bytes are held or can be gone back for.
fn tally_again(input: &mut Input, output: &Output) -> Outcome<()> {
    if !input.is_at_hand() {
        return Ok(());
    }
    match tally(input.all()?) {
        Ok(told) => output.counted.hold_to(&told, "packets"),
        Err(Refusal { number, .. }) => Err(Stop::Failed(format!("the tally refuses by {number} what a reader has taken"))),
    }
}

/// The recording in pieces. None: it is to be read whole.
fn in_pieces(input: &mut Input, output: &mut Output, size: usize) -> Outcome<Option<Ended>> {
    while input.next_piece(size)? && input.held.len() < 4 {}
    let mut pieces = match Reader::kind_of(&input.held) {
        Some(kind) => Pieces::open(kind)?,
        None => return Ok(None),
    };
    // a reader takes every DSS recording to its end, so that none of its bytes are asked for again
    input.keeps_all = !pieces.type_known;
    input.piece = 0;
    while pieces.take(input, output)? {
        if !input.next_piece(size)? {
            return pieces.end(input, output).map(Some);
        }
    }
    Ok(None)
}

/// The recording read whole.
fn whole(input: &mut Input, output: &mut Output) -> Outcome<Ended> {
    output.start_anew()?;
    let file = input.all()?;
    let told = tally(file)?;
    let unit = match told.kind {
        AudioFormat::Ds2Sp => whole_sp(file, &told, output)?,
        AudioFormat::Ds2Qp => whole_qp(file, output)?,
        AudioFormat::Ds2Qp7 => whole_qp7(file, output)?,
        // a reader takes every DSS recording, and gives no 7
        _ => return failed(&input.name, "it should have been read in pieces"),
    };
    output.counted.hold_to(&told, unit)?;
    // SP packets that are owed are handed out all the same; one that is short by its carried byte alone is not owed
    let owed = if told.kind == AudioFormat::Ds2Sp { output.counted.lacking } else { told.announced - told.handed };
    Ok(Ended { unit, complete: told.complete_as_announced(file.len()), cut: told.cut(file.len()), owed })
}

fn whole_sp(file: &[u8], told: &Tally, output: &mut Output) -> Outcome<&'static str> {
    let mut room = room_for(told.handed)?;
    let packets = ds2::demux_ds2_sp_into(file, &mut room.bytes, &mut room.counts)?;
    let mut sizes = ReadSizes::ds2(told.start);
    sizes.take_piece(file);
    output.put_packets(room.iter().take(packets), &mut sizes)?;
    Ok("packets")
}

/// A frame that a table has a place for is there.
fn refused_frame(refusal: Refusal) -> Stop {
    Stop::Failed(format!("a frame was refused by {}", refusal.number))
}

fn whole_qp(file: &[u8], output: &mut Output) -> Outcome<&'static str> {
    let mut scratch = [0; FRAME];
    for (place, size) in ds2::demux_ds2_qp(file)?.rows.iter().flat_map(|&row| frames::frames(row)) {
        let frame = frames::fetch(file, place, size, &mut scratch).map_err(refused_frame)?;
        output.put(frame, size == FRAME)?;
    }
    Ok("frames")
}

fn whole_qp7(file: &[u8], output: &mut Output) -> Outcome<&'static str> {
    let mut scratch = [0; FRAME];
    for place in ds2::demux_ds2_qp7(file)?.records {
        let record = frames::record(file, place, &mut scratch).map_err(refused_frame)?;
        output.put(record, true)?;
    }
    Ok("records")
}

/// The piece's size: digits alone, at least 1. More than the limit and a byte is never of use, so it is not asked for.
fn piece_size(digits: &OsStr) -> Option<usize> {
    let digits = digits.to_str()?;
    let plain = !digits.is_empty() && digits.bytes().all(|byte| byte.is_ascii_digit());
    let size = digits.parse().unwrap_or(usize::MAX);
    (plain && size > 0).then_some(size.min(LIMIT + 1))
}

/// The recording, the packets file, and the piece's size.
fn asked(mut names: Vec<OsString>) -> Outcome<(OsString, PathBuf, usize)> {
    if names.len() < 2 || names.len() > 3 {
        return misused("it takes RECORDING PACKETS [PIECE]");
    }
    let size = match names.get(2) {
        None => DEFAULT_PIECE,
        Some(digits) => match piece_size(digits) {
            Some(size) => size,
            None => return misused(&format!("PIECE is a number of bytes from 1 on, and not {}", shown(Path::new(digits)))),
        },
    };
    let packets = PathBuf::from(names.swap_remove(1));
    Ok((names.swap_remove(0), packets, size))
}

fn run(names: Vec<OsString>, force: bool) -> Outcome<(Report, u8)> {
    let (recording, packets, size) = asked(names)?;
    check_version()?;
    let mut input = Input::open(&recording)?;
    let mut output = Output::create(&packets, force, &input)?;
    let ended = match in_pieces(&mut input, &mut output, size)? {
        Some(ended) => ended,
        None => whole(&mut input, &mut output)?,
    };
    let status = if ended.complete { status::COMPLETE } else { status::INCOMPLETE };
    Ok((Report { ended, counted: output.put_in_place(&input)? }, status))
}

fn main() -> ExitCode {
    INTAKE.run(run)
}
