// Recordings made from dice, the same on every run. It rests on docs/FORMAT.md: magics, block headers, starts.

/// Dice that fall the same way for the same seed.
#[derive(Clone)]
pub struct Dice(u64);

impl Dice {
    pub fn new(seed: u64) -> Dice {
        Dice(seed.wrapping_mul(0x9E37_79B9_7F4A_7C15) ^ 0x5DEE_CE66_D1CE_4E5B)
    }

    pub fn roll(&mut self) -> u64 {
        self.0 = self.0.wrapping_add(0x9E37_79B9_7F4A_7C15);
        let mixed = (self.0 ^ (self.0 >> 30)).wrapping_mul(0xBF58_476D_1CE4_E5B9);
        let mixed = (mixed ^ (mixed >> 27)).wrapping_mul(0x94D0_49BB_1331_11EB);
        mixed ^ (mixed >> 31)
    }

    pub fn below(&mut self, bound: usize) -> usize {
        (self.roll() % bound as u64) as usize
    }

    pub fn byte(&mut self) -> u8 {
        self.roll() as u8
    }

    pub fn percent(&mut self, chance: usize) -> bool {
        self.below(100) < chance
    }

    pub fn pick<T: Copy>(&mut self, from: &[T]) -> T {
        from[self.below(from.len())]
    }
}

/// Magic, zeros up to the start, and for each header a block whose payload is from the dice.
pub fn recording(magic: &[u8; 4], start: usize, headers: &[[u8; 6]], dice: &mut Dice) -> Vec<u8> {
    let mut file = magic.to_vec();
    file.resize(start, 0);
    for header in headers {
        file.extend_from_slice(header);
        for _ in 0..63 {
            file.extend_from_slice(&dice.roll().to_le_bytes());
        }
        file.extend_from_slice(&dice.roll().to_le_bytes()[..2]);
    }
    file
}

/// A header with a good one's fixed bytes.
pub fn header(flags: u8, first: u8, count: u8, kind: u8) -> [u8; 6] {
    [flags, first, count, 0xFF, kind, 0xFF]
}

/// Byte 0, with the swap flag half the time.
fn flags(dice: &mut Dice) -> u8 {
    dice.pick(&[0x0F, 0x8F])
}

/// A count by the recording's manner: as a recorder has them, scarce, plenty, or anything.
fn count(manner: usize, dice: &mut Dice) -> u8 {
    match manner {
        0 => 12 + dice.below(2) as u8,
        1 => dice.pick(&[0, 0, 0, 1, 2, 3, 7]),
        2 => dice.below(30) as u8,
        _ => dice.byte(),
    }
}

/// At times a part of the last block is missing, at times all sorts of it, and the header too.
fn cut(mut file: Vec<u8>, dice: &mut Dice) -> Vec<u8> {
    let lost = match dice.below(10) {
        0 | 1 => 1 + dice.below(511),
        2 => dice.below(file.len() + 1),
        _ => 0,
    };
    file.truncate(file.len().saturating_sub(lost));
    file
}

pub fn dss(dice: &mut Dice) -> Vec<u8> {
    let (blocks, manner) = (dice.below(14), dice.below(4));
    dss_of(blocks, manner, dice)
}

fn dss_of(blocks: usize, manner: usize, dice: &mut Dice) -> Vec<u8> {
    let version = dice.pick(&[2, 3]);
    let headers: Vec<_> = (0..blocks)
        .map(|_| {
            let first = if manner == 1 { 3 + dice.below(100) as u8 } else { dice.byte() };
            header(flags(dice), first, count(manner, dice), dice.byte())
        })
        .collect();
    let file = recording(&[version, b'd', b's', b's'], 512 * usize::from(version), &headers, dice);
    cut(file, dice)
}

/// With first byte 1 or 3, as a reader takes them.
pub fn ds2_sp(dice: &mut Dice) -> Vec<u8> {
    let (blocks, manner) = (dice.below(40), dice.below(4));
    ds2_sp_of(blocks, manner, dice)
}

fn ds2_sp_of(blocks: usize, manner: usize, dice: &mut Dice) -> Vec<u8> {
    let kind = dice.below(6) as u8;
    let headers: Vec<_> = (0..blocks).map(|_| header(flags(dice), dice.byte(), count(manner, dice), kind)).collect();
    let file = recording(&[dice.pick(&[1, 3]), b'd', b's', b'2'], 1536, &headers, dice);
    cut(file, dice)
}

/// QP or QP7 by the type, with first byte 1 or 3. Most blocks go on where the one before ended, be it some blocks further on.
fn ds2_frames(kind: u8, blocks: usize, dice: &mut Dice) -> Vec<u8> {
    let mut end = 0;
    let headers: Vec<_> = (0..blocks)
        .map(|block| {
            let on = (end + 6usize).checked_sub(506 * block).filter(|twice| twice % 2 == 0 && *twice <= 510);
            let first = match on {
                Some(twice) if dice.percent(80) => (twice / 2) as u8,
                _ => dice.byte(),
            };
            let last = block + 1 == blocks && dice.percent(60);
            let count = if last { dice.below(4) } else { dice.pick(&[0, 0, 1, 8, 9, 9, 9, 10, 12, 19]) };
            // The blocks after a silent one at times go on where the one before it ended.
            if count > 0 || dice.percent(60) {
                end = 506 * block + (2 * usize::from(first)).saturating_sub(6) + 56 * count;
            }
            header(flags(dice), first, count as u8, if dice.percent(95) { kind } else { dice.byte() })
        })
        .collect();
    let file = recording(&[dice.pick(&[1, 3]), b'd', b's', b'2'], 1536, &headers, dice);
    cut(file, dice)
}

pub fn qp(dice: &mut Dice) -> Vec<u8> {
    let (kind, blocks) = (dice.pick(&[6, 6, 6, 8, 200, 255]), dice.below(14));
    ds2_frames(kind, blocks, dice)
}

pub fn qp7(dice: &mut Dice) -> Vec<u8> {
    let blocks = dice.below(14);
    ds2_frames(7, blocks, dice)
}

/// A DS2 recording with first byte 7: its audio starts where its headers say, and some of them are damaged.
pub fn seventh(dice: &mut Dice) -> Vec<u8> {
    let kind = dice.pick(&[0, 1, 3, 5, 6, 6, 7]);
    let headers: Vec<_> = (0..dice.below(10))
        .map(|_| {
            let mut header = header(0x0F, 3 + dice.below(20) as u8, 1 + dice.below(9) as u8, kind);
            if dice.percent(15) {
                header[dice.below(6)] = dice.byte();
            }
            header
        })
        .collect();
    let start = 512 * (1 + dice.below(9));
    let file = recording(b"\x07ds2", start, &headers, dice);
    cut(file, dice)
}

/// Other first bytes, at all lengths around the places where an answer changes.
pub fn other(dice: &mut Dice) -> Vec<u8> {
    let magics: [&[u8; 4]; 9] =
        [b"\x06dss", b"\x03enc", b"\x01dss", b"\x02ds2", b"RIFF", b"\x07ds2", b"\x01ds2", b"\x02dss", b"\x03dss"];
    let mut file = dice.pick(&magics).to_vec();
    let around = dice.pick(&[0, 4, 512, 1024, 1536, 1540, 2048, 4096]);
    let length = (around + dice.below(12)).saturating_sub(6);
    file.resize(file.len().max(length), 0);
    if length > 1540 {
        file[1540] = dice.pick(&[0, 6, 7, 9]);
    }
    file.truncate(length);
    file
}

/// A recording of any sort.
pub fn any(dice: &mut Dice) -> Vec<u8> {
    let sorts: [fn(&mut Dice) -> Vec<u8>; 6] = [dss, ds2_sp, qp, qp7, seventh, other];
    dice.pick(&sorts)(dice)
}

/// As a recorder makes it: packets without a gap, each block announcing those that begin in it, with where and how the first begins.
/// At times the last packets are announced though the recording ends inside them, as when a card was pulled.
pub fn continuous(dss: bool, blocks: usize, dice: &mut Dice) -> Vec<u8> {
    let whole = dice.percent(50);
    let (version, kind) = (dice.pick(&[2, 3]), dice.below(6) as u8);
    let mut swapped = dice.percent(50);
    let mut place: usize = if dss { 2 * dice.pick(&[0, 0, 1, 20]) } else { 0 };
    let headers: Vec<_> = (0..blocks)
        .map(|block| {
            let (first, flag, mut count) = (place.saturating_sub(506 * block), swapped, 0);
            let size = |swapped| if swapped { 40 } else { 42 };
            while place < 506 * (block + 1) && !(whole && place + size(swapped) > 506 * blocks) {
                count += 1;
                place += size(swapped);
                swapped = !swapped;
            }
            let before = if dss && flag { 4 } else { 6 };
            header(if flag { 0x8F } else { 0x0F }, ((first + before) / 2) as u8, count, kind)
        })
        .collect();
    if dss {
        recording(&[version, b'd', b's', b's'], 512 * usize::from(version), &headers, dice)
    } else {
        recording(&[dice.pick(&[1, 3]), b'd', b's', b'2'], 1536, &headers, dice)
    }
}

/// DSS blocks whose reads mostly end before the next announcing block begins, so that the original's two readings agree.
fn dss_apart(blocks: usize, dice: &mut Dice) -> Vec<u8> {
    let version = dice.pick(&[2, 3]);
    let headers: Vec<_> = (0..blocks)
        .map(|_| {
            let first = 2 + dice.below(150) as u8;
            let most = (506 - 2 * usize::from(first)) / 42 + usize::from(dice.percent(5));
            header(flags(dice), first, dice.below(most + 1) as u8, dice.byte())
        })
        .collect();
    let file = recording(&[version, b'd', b's', b's'], 512 * usize::from(version), &headers, dice);
    cut(file, dice)
}

/// DS2 SP with many silent blocks in a row, so that a reader's hold fills.
fn ds2_silent(dice: &mut Dice) -> Vec<u8> {
    let headers: Vec<_> = (0..22 + dice.below(12))
        .map(|block| header(flags(dice), 3, if block < 2 || dice.percent(4) { dice.below(20) as u8 } else { 0 }, 1))
        .collect();
    let file = recording(b"\x03ds2", 1536, &headers, dice);
    cut(file, dice)
}

/// `\x07ds2` with good headers in runs here and there: ties, runs that the file's end cuts, places that are no multiple of 512, and, now
/// and then, places around 0x10000, where the scan ends.
pub fn scanned(dice: &mut Dice) -> Vec<u8> {
    let near = if dice.percent(4) { 0x10000 / 512 - 4 } else { 0 };
    let blocks = near + 1 + dice.below(18);
    let mut file = b"\x07ds2".to_vec();
    file.resize(512 * blocks + dice.pick(&[0, 4, 5, 6, 7, 511, 300]), 0);
    for _ in 0..dice.pick(&[0, 1, 2, 2, 3, 4]) {
        let from = 512 * (near + dice.below(blocks - near)) + if dice.percent(15) { dice.below(512) } else { 0 };
        for block in 0..dice.pick(&[1, 2, 2, 3, 3, 3, 4, 4, 5, 16]) {
            let kind = dice.pick(&[0, 1, 2, 3, 6, 7, 6, 7, 4, 5, 8]);
            let good = header(0x0F, 3 + dice.below(9) as u8, 1 + dice.below(9) as u8, kind);
            if let Some(part) = file.get_mut(from + 512 * block..from + 512 * block + 6) {
                part.copy_from_slice(&good);
            }
        }
    }
    file
}

/// A copy with some damage: bytes changed, a part lost, blocks exchanged, dropped, doubled, a byte too many or too few.
pub fn damaged(mut file: Vec<u8>, dice: &mut Dice) -> Vec<u8> {
    for _ in 0..1 + dice.below(3) {
        let (length, blocks) = (file.len(), file.len() / 512);
        let (one, other) = (512 * dice.below(blocks + 1), 512 * dice.below(blocks + 1));
        match dice.below(7) {
            0 if length > 0 => file[dice.below(length)] = dice.byte(),
            1 | 2 if one + 6 <= length => file[one + dice.below(6)] = dice.pick(&[0, 1, 3, 7, 0x0F, 0x8F, 0xFF]),
            3 => file.truncate(dice.below(length + 1)),
            4 if one + 512 <= length => drop(file.drain(one..one + 512)),
            5 if one + 512 <= length && other + 512 <= length => {
                let moved = file[one..one + 512].to_vec();
                if dice.percent(50) {
                    file.copy_within(other..other + 512, one);
                    file[other..other + 512].copy_from_slice(&moved);
                } else {
                    drop(file.splice(other..other, moved));
                }
            }
            6 if dice.percent(50) => file.insert(dice.below(length + 1), 0x0F),
            6 if length > 0 => {
                file.remove(dice.below(length));
            }
            _ => {}
        }
    }
    file
}

/// A recording of any sort, mostly of a few blocks.
pub fn small(dice: &mut Dice) -> Vec<u8> {
    let blocks = dice.pick(&[0, 1, 1, 2, 2, 3, 3, 4, 4, 5, 6, 9]);
    let manner = dice.pick(&[0, 1, 1, 2, 2, 3]);
    match dice.below(100) {
        0..=19 => continuous(false, blocks, dice),
        20..=34 => continuous(true, blocks, dice),
        35..=44 => dss_of(blocks, manner, dice),
        45..=54 => dss_apart(blocks, dice),
        55..=62 => ds2_sp_of(blocks, manner, dice),
        63..=74 => ds2_frames(dice.pick(&[6, 6, 6, 8, 200, 255]), blocks, dice),
        75..=84 => ds2_frames(7, blocks, dice),
        85..=88 => seventh(dice),
        89..=93 => scanned(dice),
        94..=96 => other(dice),
        97 => ds2_silent(dice),
        _ => any(dice),
    }
}

/// The bytes cut into pieces of 1 to 2000 bytes, an empty one now and then.
pub fn pieces<'a>(mut file: &'a [u8], dice: &mut Dice) -> Vec<&'a [u8]> {
    // Short recordings in small pieces, too; a long one would take long.
    let most = if file.len() < 3000 && dice.percent(30) { 40 } else { dice.pick(&[700, 2000, 2000]) };
    let mut pieces = Vec::new();
    while !file.is_empty() {
        let size = if dice.percent(3) { 0 } else { 1 + dice.below(most) };
        let (piece, rest) = file.split_at(size.min(file.len()));
        pieces.push(piece);
        file = rest;
    }
    pieces
}

/// The bytes cut at four places at most, many of them around edges of blocks and payloads; at times one byte at a time around a place.
pub fn few_pieces<'a>(file: &'a [u8], dice: &mut Dice) -> Vec<&'a [u8]> {
    let mut cuts: Vec<usize> = (0..dice.below(5))
        .map(|_| {
            let edge = 512 * dice.below(file.len() / 512 + 2) + dice.pick(&[0, 0, 6, 506]);
            if dice.percent(50) {
                edge + dice.below(3)
            } else {
                dice.below(file.len() + 1)
            }
        })
        .map(|cut| cut.min(file.len()))
        .collect();
    if dice.percent(1) {
        let around = dice.below(file.len() + 1);
        cuts.extend((around..around + 40).map(|cut| cut.min(file.len())));
    }
    cuts.push(0);
    cuts.push(file.len());
    cuts.sort_unstable();
    cuts.windows(2).map(|pair| &file[pair[0]..pair[1]]).collect()
}

/// Magic, zeros to the start, and blocks: a header and the 506 bytes that a function of the place in the payload gives.
pub fn file(magic: &[u8; 4], start: usize, headers: &[[u8; 6]], payload: fn(usize) -> u8) -> Vec<u8> {
    let mut file = magic.to_vec();
    file.resize(start, 0);
    for header in headers {
        file.extend_from_slice(header);
        file.extend((0..506).map(payload));
    }
    file
}

/// So many packets, joined: any bytes, but that byte 40 of each is 0.
pub fn packets(number: usize, dice: &mut Dice) -> Vec<u8> {
    let mut packets: Vec<u8> = (0..42 * number).map(|_| dice.byte()).collect();
    packets.iter_mut().skip(40).step_by(42).for_each(|byte| *byte = 0);
    packets
}

/// A DS2 header with that first byte: any bytes after its magic.
pub fn ds2_header(first: u8, dice: &mut Dice) -> Vec<u8> {
    let mut header: Vec<u8> = (0..1536).map(|_| dice.byte()).collect();
    header[..4].copy_from_slice(&[first, b'd', b's', b'2']);
    header
}
