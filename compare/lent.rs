// Memory that is lent to a call: a part of a longer stretch, filled beforehand with a pattern, so that every element that a call
// wrote, inside or outside of what it was lent, shows. It rests on nothing of the archive.

/// Elements before and after the lent part.
const EDGE: usize = 48;
/// Prime, so that the pattern does not repeat with packets, frames or rows.
const PERIOD: usize = 1021;

/// What lent memory is made of.
pub trait Element: Copy + PartialEq + 'static {
    fn pattern() -> &'static [Self; PERIOD];
}

const fn words() -> [u32; PERIOD] {
    let (mut all, mut at, mut seed) = ([0; PERIOD], 0, 0x9E37_79B9_u32);
    while at < PERIOD {
        seed ^= seed << 13;
        seed ^= seed >> 17;
        seed ^= seed << 5;
        all[at] = seed;
        at += 1;
    }
    all
}

const fn bytes() -> [u8; PERIOD] {
    let (words, mut all, mut at) = (words(), [0; PERIOD], 0);
    while at < PERIOD {
        all[at] = (words[at] >> 11) as u8;
        at += 1;
    }
    all
}

static BYTES: [u8; PERIOD] = bytes();
static WORDS: [u32; PERIOD] = words();

impl Element for u8 {
    fn pattern() -> &'static [u8; PERIOD] {
        &BYTES
    }
}

impl Element for u32 {
    fn pattern() -> &'static [u32; PERIOD] {
        &WORDS
    }
}

/// So many lent elements, with edges around them.
pub struct Lent<T> {
    all: Vec<T>,
}

impl<T: Element> Lent<T> {
    pub fn new(length: usize) -> Lent<T> {
        let whole = length + 2 * EDGE;
        let mut all = Vec::with_capacity(whole);
        while all.len() < whole {
            let some = PERIOD.min(whole - all.len());
            all.extend_from_slice(&T::pattern()[..some]);
        }
        Lent { all }
    }

    /// What is lent.
    pub fn part(&mut self) -> &mut [T] {
        let end = self.all.len() - EDGE;
        &mut self.all[EDGE..end]
    }

    /// Whether the first lent elements are these, and every other one is as it was.
    pub fn holds(&self, used: &[T]) -> bool {
        let end = EDGE + used.len();
        end + EDGE <= self.all.len() && self.all[EDGE..end] == *used && self.kept(0, EDGE) && self.kept(end, self.all.len())
    }

    /// Whether nothing was written.
    pub fn untouched(&self) -> bool {
        self.holds(&[])
    }

    fn kept(&self, mut from: usize, to: usize) -> bool {
        while from < to {
            let at = from % PERIOD;
            let some = (PERIOD - at).min(to - from);
            if self.all[from..from + some] != T::pattern()[at..at + some] {
                return false;
            }
            from += some;
        }
        true
    }
}
