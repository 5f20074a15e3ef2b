// A small model of the format: what every reading answers, in vectors and without a thought of speed. It rests on the format's
// description (docs/FORMAT.md) alone.

/// A refusal: its number, the number beside it, and of a QP7 record that cannot be read its size and how many bytes are absent.
pub type Refused = [u64; 4];

pub type Answer<T> = Result<T, Refused>;

/// A refusal that is not of a record: it has no size, and nothing is absent.
pub const fn refused(number: u64, beside: u64) -> Refused {
    [number, beside, 0, 0]
}

pub const LIMIT: usize = 268_435_456;

#[derive(Debug, Clone, Copy, PartialEq, Eq)]
pub enum Kind {
    DssSp,
    Ds2Sp,
    Qp,
    Qp7,
}

/// One read and its packet.
#[derive(Debug, Clone, PartialEq, Eq)]
pub struct Packet {
    pub bytes: [u8; 42],
    /// How many bytes of the read came from the stream, and how many it takes.
    pub count: usize,
    pub size: usize,
    /// Whether all of them did, and the byte too that is carried to a swapped one.
    pub whole: bool,
}

#[derive(Debug, Clone, PartialEq, Eq)]
pub struct Segment {
    pub start: usize,
    pub length: usize,
    pub frames: usize,
    pub reset: bool,
}

/// The records of a QP7 segment, by place and size.
#[derive(Debug, Clone, PartialEq, Eq)]
pub struct Records {
    pub records: Vec<(usize, usize)>,
    pub reset: bool,
}

pub fn good_header(header: &[u8]) -> bool {
    header.len() >= 6
        && header[0] == 0x0F
        && header[3] == 0xFF
        && header[5] == 0xFF
        && header[2] > 0
        && [0, 1, 2, 3, 6, 7].contains(&header[4])
}

pub fn ds2_start(file: &[u8]) -> usize {
    if file.first() != Some(&7) {
        return 0x600;
    }
    let last = file.len().saturating_sub(6).min(0x10000);
    let mut best = (0, 0x1000);
    for place in (512..=last).step_by(512) {
        let headers = (0..16).map(|block| file.get(place + 512 * block..place + 512 * block + 6));
        let score = headers.take_while(|header| header.map_or(false, good_header)).count();
        if score >= 4 {
            return place;
        }
        if score > best.0 {
            best = (score, place);
        }
    }
    best.1
}

/// The whole blocks after a place.
pub fn blocks(file: &[u8], start: usize) -> Vec<&[u8]> {
    file.get(start..).unwrap_or(&[]).chunks_exact(512).collect()
}

/// How many whole blocks a file of that length has.
pub fn whole_blocks(length: usize, start: usize) -> usize {
    length.saturating_sub(start) / 512
}

pub fn ds2_type(file: &[u8], start: usize) -> u8 {
    blocks(file, start).iter().find(|block| block[2] > 0).map_or(0, |block| block[4])
}

/// What `detect_format` answers, by name.
pub fn format(file: &[u8]) -> Option<&'static str> {
    match file.get(..4)? {
        b"\x06dss" => Some("GrundigSp"),
        b"\x02dss" | b"\x03dss" => Some("DssSp"),
        b"\x01ds2" | b"\x03ds2" | b"\x07ds2" if file.len() > 0x604 && file.len() > ds2_start(file) + 4 => {
            Some(match ds2_type(file, ds2_start(file)) {
                6 => "Ds2Qp",
                7 => "Ds2Qp7",
                _ => "Ds2Sp",
            })
        }
        _ => None,
    }
}

/// How a file is read and where its audio starts, or why it is not.
pub fn kind(file: &[u8]) -> Answer<(Kind, usize)> {
    let dss = matches!(file.get(..4), Some(b"\x02dss" | b"\x03dss"));
    if !dss && !matches!(file.get(..4), Some(b"\x01ds2" | b"\x03ds2" | b"\x07ds2")) {
        return Err(refused(1, 0));
    }
    if file.len() > LIMIT {
        return Err(refused(2, LIMIT as u64));
    }
    let start = if dss { 512 * usize::from(file[0]) } else { ds2_start(file) };
    if file.len() < start {
        return Err(refused(3, start as u64));
    }
    let kind = match (dss, ds2_type(file, start)) {
        (true, _) => Kind::DssSp,
        (_, 0..=5) => Kind::Ds2Sp,
        (_, 7) => Kind::Qp7,
        _ => Kind::Qp,
    };
    Ok((kind, start))
}

/// The same for a call that reads DSS only, or DS2 only.
pub fn kind_for(file: &[u8], dss: bool) -> Answer<(Kind, usize)> {
    if matches!(file.get(..4), Some(b"\x02dss" | b"\x03dss")) == dss {
        kind(file)
    } else {
        Err(refused(1, 0))
    }
}

pub fn stream(file: &[u8], start: usize) -> Vec<u8> {
    blocks(file, start).iter().map(|block| &block[6..]).collect::<Vec<_>>().concat()
}

pub fn announced(file: &[u8], start: usize) -> usize {
    blocks(file, start).iter().map(|block| usize::from(block[2])).sum()
}

fn size(swapped: bool) -> usize {
    if swapped {
        40
    } else {
        42
    }
}

/// Where a DSS block's reads start in the stream.
fn dss_place(number: usize, block: &[u8]) -> usize {
    let flag = usize::from(block[0] >> 7);
    506 * number + (2 * usize::from(block[1]) + 2 * flag).saturating_sub(6).min(506)
}

/// An SP recording's reads, a list a block: place in the stream, and whether it is swapped.
fn reads(file: &[u8], kind: Kind, start: usize) -> Vec<Vec<(usize, bool)>> {
    let blocks = blocks(file, start);
    let flag = |block: &[u8]| block[0] & 0x80 != 0;
    let mut place = 0;
    let mut swapped = blocks.first().map_or(false, |block| flag(block));
    let mut all = Vec::new();
    for (number, block) in blocks.iter().enumerate() {
        if kind == Kind::DssSp {
            swapped = flag(block);
            place = dss_place(number, block);
        }
        let mut of_block = Vec::new();
        for _ in 0..block[2] {
            of_block.push((place, swapped));
            place += size(swapped);
            swapped = !swapped;
        }
        all.push(of_block);
    }
    all
}

/// One packet from the bytes that its read found, and the carried byte afterwards: None where no read has found one.
pub fn packet(found: &[u8], swapped: bool, carry: Option<u8>) -> (Packet, Option<u8>) {
    let mut read = [0; 42];
    read[..found.len()].copy_from_slice(found);
    let (count, size) = (found.len(), size(swapped));
    if !swapped {
        read[40] = 0;
        return (Packet { bytes: read, count, size, whole: count == size }, found.get(40).copied());
    }
    let mut bytes = [0; 42];
    for (i, byte) in bytes.iter_mut().enumerate() {
        *byte = match i {
            1 => carry.unwrap_or(0),
            40 => 0,
            _ if i % 2 == 0 => read[i + 1],
            _ => read[i - 3],
        };
    }
    (Packet { bytes, count, size, whole: count == size && carry.is_some() }, carry)
}

/// All packets of an SP recording.
pub fn packets(file: &[u8], kind: Kind, start: usize) -> Vec<Packet> {
    let stream = stream(file, start);
    let mut carry = None;
    let mut all = Vec::new();
    for (place, swapped) in reads(file, kind, start).concat() {
        let (from, to) = (place.min(stream.len()), (place + size(swapped)).min(stream.len()));
        let (packet, carried) = packet(&stream[from..to], swapped, carry);
        carry = carried;
        all.push(packet);
    }
    all
}

/// How many packets a reader has handed out once it has these bytes.
pub fn ready(file: &[u8], kind: Kind, start: usize) -> usize {
    let end = 506 * blocks(file, start).len();
    let complete = |&(place, swapped): &(usize, bool)| place + size(swapped) <= end;
    let reads = reads(file, kind, start);
    if kind == Kind::DssSp {
        reads.iter().take_while(|of_block| of_block.iter().all(complete)).map(Vec::len).sum()
    } else {
        reads.concat().iter().take_while(|read| complete(read)).count()
    }
}

/// How many whole blocks of these bytes a DS2 reader takes: up to the one that would leave over 12,288 unread bytes as it is added.
pub fn taken_blocks(file: &[u8]) -> usize {
    let mut owed = 0;
    let mut unread = 0;
    let mut swapped = None;
    for (number, block) in blocks(file, 0x600).iter().enumerate() {
        let mut parity = swapped.unwrap_or(block[0] & 0x80 != 0);
        owed += usize::from(block[2]);
        unread += 506;
        if unread > 12_288 {
            return number;
        }
        while owed > 0 && unread >= size(parity) {
            owed -= 1;
            unread -= size(parity);
            parity = !parity;
        }
        swapped = Some(parity);
    }
    whole_blocks(file.len(), 0x600)
}

/// Whether a DS2 reader's hold overflows at some block of these bytes.
pub fn overflows(file: &[u8]) -> bool {
    taken_blocks(file) < whole_blocks(file.len(), 0x600)
}

/// What a reader has been told and has handed out once it has so many whole blocks, from none to all of them.
pub struct Steps {
    pub announced: Vec<usize>,
    pub ready: Vec<usize>,
}

pub fn steps(file: &[u8], kind: Kind, start: usize) -> Steps {
    let reads = reads(file, kind, start);
    let mut announced = vec![0];
    announced.extend(reads.iter().scan(0, |sum, of_block| {
        *sum += of_block.len();
        Some(*sum)
    }));
    let ends = |of_block: &[(usize, bool)]| of_block.iter().map(|&(place, swapped)| place + size(swapped)).collect::<Vec<_>>();
    // For each packet the number of whole blocks at which it comes out, DSS's all at once for a block.
    let mut out_at = Vec::new();
    let mut last = 0;
    for (number, of_block) in reads.iter().enumerate() {
        let ends = ends(of_block);
        for &end in &ends {
            let end = if kind == Kind::DssSp { ends[ends.len() - 1] } else { end };
            last = last.max(number + 1).max((end + 505) / 506);
            out_at.push(last);
        }
    }
    let mut ready = Vec::new();
    let mut out = 0;
    for whole in 0..announced.len() {
        while out < out_at.len() && out_at[out] <= whole {
            out += 1;
        }
        ready.push(out);
    }
    Steps { announced, ready }
}

/// Where the two readings of a DSS recording, whole and in pieces, agree in the original: every announcing block's reads end at or
/// before the next one's start, and on a multiple of 506 only if no later block announces.
pub fn dss_pieces_agree(file: &[u8]) -> bool {
    matches!(kind(file), Ok((Kind::DssSp, start)) if dss_pieces_agree_from(file, start))
}

/// The same of any bytes that a DSS reader is given, its header ending there.
pub fn dss_pieces_agree_from(file: &[u8], start: usize) -> bool {
    let reads: Vec<_> = reads(file, Kind::DssSp, start).into_iter().filter(|of_block| !of_block.is_empty()).collect();
    reads.windows(2).all(|pair| {
        let &(place, swapped) = pair[0].last().expect("it announces");
        let end = place + size(swapped);
        end <= pair[1][0].0 && end % 506 != 0
    })
}

fn first_frame(number: usize, block: &[u8]) -> usize {
    506 * number + (2 * usize::from(block[1])).saturating_sub(6)
}

pub fn qp(file: &[u8], start: usize) -> Vec<Segment> {
    let end = 506 * blocks(file, start).len();
    let mut segments: Vec<Segment> = Vec::new();
    let mut close = |from: usize, to: usize, frames: usize| {
        if frames > 0 {
            let reset = !segments.is_empty();
            segments.push(Segment { start: from, length: to.min(end) - from, frames, reset });
        }
    };
    let (mut from, mut to, mut frames) = (0, 0, 0);
    for (number, block) in blocks(file, start).iter().enumerate() {
        let first = first_frame(number, block);
        if number == 0 || first != to {
            close(from, to, frames);
            from = first;
            to = first;
            frames = 0;
        }
        frames += usize::from(block[2]);
        to += 56 * usize::from(block[2]);
    }
    close(from, to, frames);
    segments
}

/// The bytes of every frame that is handed out.
pub fn qp_frames(file: &[u8], start: usize) -> Vec<Vec<u8>> {
    let stream = stream(file, start);
    let bytes = |segment: &Segment| stream[segment.start..segment.start + segment.length].chunks(56).map(<[u8]>::to_vec).collect();
    qp(file, start).iter().flat_map(|segment| -> Vec<_> { bytes(segment) }).collect()
}

/// The bytes of the record at a place, by its second byte; or how many of its first two, and then of all of them, are not there.
fn record_size(stream: &[u8], place: usize) -> Answer<usize> {
    let there = stream.len().saturating_sub(place);
    if there < 2 {
        return Err([4, place, 0, 2 - there].map(|number| number as u64));
    }
    let size = if stream[place + 1] & 0x80 == 0 { 12 } else { 56 };
    if there < size {
        return Err([5, place, size, size - there].map(|number| number as u64));
    }
    Ok(size)
}

pub fn qp7(file: &[u8], start: usize) -> Answer<Vec<Records>> {
    let stream = stream(file, start);
    let mut segments: Vec<Records> = Vec::new();
    let mut open: Vec<(usize, usize)> = Vec::new();
    let mut place = 0;
    let close = |open: &mut Vec<(usize, usize)>, segments: &mut Vec<Records>| {
        if !open.is_empty() {
            segments.push(Records { records: std::mem::take(open), reset: !segments.is_empty() });
        }
    };
    for (number, block) in blocks(file, start).iter().enumerate() {
        if block[2] == 0 {
            close(&mut open, &mut segments);
            place = place.max(506 * (number + 1));
            continue;
        }
        place = place.max(first_frame(number, block));
        for _ in 0..block[2] {
            let size = record_size(&stream, place)?;
            open.push((place, size));
            place += size;
        }
    }
    close(&mut open, &mut segments);
    Ok(segments)
}

/// The bytes of every record.
pub fn qp7_records(file: &[u8], start: usize) -> Answer<Vec<Vec<u8>>> {
    let stream = stream(file, start);
    let records = qp7(file, start)?.into_iter().flat_map(|segment| segment.records);
    Ok(records.map(|(place, size)| stream[place..place + size].to_vec()).collect())
}

/// `size` bytes of a DS2 file's payload stream: None if they cross a block, else the file place where they stand.
pub fn fetch(file: &[u8], place: usize, size: usize, scratch: usize) -> Answer<Option<usize>> {
    let (_, start) = kind_for(file, false)?;
    let end = 506 * whole_blocks(file.len(), start);
    if size == 0 || size > 56 || scratch < 56 || place > end || size > end - place {
        return Err(refused(12, 0));
    }
    Ok((place % 506 + size <= 506).then_some(start + place / 506 * 512 + 6 + place % 506))
}

/// Frame `k` of a segment that has `length` bytes from `start` on: place and size, or 0 and 0.
pub fn frame(start: u64, length: u64, k: u64) -> (u64, u64) {
    let (start, length, before) = (u128::from(start), u128::from(length), 56 * u128::from(k));
    if before >= length || start + before > u128::from(u64::MAX) {
        return (0, 0);
    }
    ((start + before) as u64, (length - before).min(56) as u64)
}

/// A file in numbers: kind, start, blocks, announced, handed out, short, and the file's bytes that those have.
pub fn tally(file: &[u8]) -> Answer<[u64; 7]> {
    let (kind, start) = kind(file)?;
    // of each how many bytes of the file it has, and whether it is whole
    let handed: Vec<(usize, bool)> = match kind {
        Kind::DssSp | Kind::Ds2Sp => packets(file, kind, start).iter().map(|packet| (packet.count, packet.whole)).collect(),
        Kind::Qp => qp_frames(file, start).iter().map(|frame| (frame.len(), frame.len() == 56)).collect(),
        Kind::Qp7 => qp7_records(file, start)?.iter().map(|record| (record.len(), true)).collect(),
    };
    let short = handed.iter().filter(|(_, whole)| !whole).count();
    let bytes = handed.iter().map(|(count, _)| count).sum();
    let blocks = whole_blocks(file.len(), start);
    Ok([kind as usize, start, blocks, announced(file, start), handed.len(), short, bytes].map(|number| number as u64))
}

/// The DS2 SP file that a header and joined packets make, or why they make none. The limit is not asked for: no list here is so long.
pub fn written(header: &[u8], packets: &[u8]) -> Answer<Vec<u8>> {
    if header.len() != 1536 || !matches!(&header[..4], b"\x01ds2" | b"\x03ds2") {
        return Err(refused(15, 0));
    }
    let packets: Vec<&[u8]> = packets.chunks(42).collect();
    if let Some(bad) = packets.iter().position(|packet| packet.len() < 42 || packet[40] != 0) {
        return Err(refused(16, bad as u64));
    }
    let (stream, begins) = written_stream(&packets);
    let mut file = header.to_vec();
    for (number, payload) in stream.chunks(506).enumerate() {
        let inside = |&place: &usize| place / 506 == number;
        let count = begins.iter().filter(|place| inside(place)).count() as u8;
        file.extend_from_slice(&match begins.iter().position(inside) {
            None => [0x0F, 0, 0, 0xFF, 0, 0xFF],
            Some(first) => {
                let flags = if first % 2 == 1 { 0x8F } else { 0x0F };
                [flags, (3 + begins[first] % 506 / 2) as u8, count, 0xFF, 0, 0xFF]
            }
        });
        file.extend_from_slice(payload);
        file.resize(file.len() + 506 - payload.len(), 0);
    }
    Ok(file)
}

/// The reads of packets joined, every other one swapped, and where each begins.
fn written_stream(packets: &[&[u8]]) -> (Vec<u8>, Vec<usize>) {
    let (mut stream, mut begins) = (Vec::new(), Vec::new());
    for (number, packet) in packets.iter().enumerate() {
        begins.push(stream.len());
        if number % 2 == 0 {
            stream.extend_from_slice(&packet[..40]);
            stream.push(packets.get(number + 1).map_or(0, |next| next[1]));
            stream.push(packet[41]);
        } else {
            for pair in 0..20 {
                stream.extend_from_slice(&[packet[2 * pair + 3], packet[2 * pair]]);
            }
        }
    }
    (stream, begins)
}

/// An entry of a DSS recording's index: a block that announces something, by its number, the number of its first packet, and where its reads start.
#[derive(Debug, Clone, Copy, PartialEq, Eq)]
pub struct Entry {
    pub number: usize,
    pub first: usize,
    pub place: usize,
}

/// The entries of a DSS recording, in order.
pub fn entries(file: &[u8], start: usize) -> Vec<Entry> {
    let mut first = 0;
    let mut all = Vec::new();
    for (number, block) in blocks(file, start).into_iter().enumerate() {
        if block[2] > 0 {
            all.push(Entry { number, first, place: dss_place(number, block) });
        }
        first += usize::from(block[2]);
    }
    all
}

/// The index that has these entries.
pub fn index_of(entries: &[Entry]) -> Vec<u8> {
    let mut index = (1 + 12 * entries.len() as u32).to_be_bytes().to_vec();
    index.push(1);
    for entry in entries {
        [entry.number, entry.first, entry.place].iter().for_each(|&word| index.extend_from_slice(&(word as u32).to_be_bytes()));
    }
    index
}

/// How many entries an index has, and how many packets its DSS file; or why it is not the file's.
pub fn read_index(file: &[u8], index: &[u8]) -> Answer<(usize, usize)> {
    let (_, start) = kind_for(file, true)?;
    if index.len() < 4 {
        return Err(refused(19, 0));
    }
    let (length, after) = index.split_at(4);
    if after.is_empty() || length.iter().fold(0, |sum, &byte| 256 * sum + usize::from(byte)) != after.len() {
        return Err(refused(19, 0));
    }
    if after[0] != 1 {
        return Err(refused(20, u64::from(after[0])));
    }
    let own = index_of(&entries(file, start));
    let (own, told): (Vec<&[u8]>, Vec<&[u8]>) = (own[5..].chunks(12).collect(), after[1..].chunks(12).collect());
    match (0..own.len().max(told.len())).find(|&entry| own.get(entry) != told.get(entry)) {
        Some(entry) => Err(refused(21, entry as u64)),
        None => Ok((own.len(), announced(file, start))),
    }
}
