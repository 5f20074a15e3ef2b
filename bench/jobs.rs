// What is measured: a recording of some kind, read whole, in pieces, or tallied, by either side, or written anew from its packets; one packet of it,
// at once or by a walk to it; and its index, with what is found by it. It rests on the crate `ours` and on the module `original`.
use crate::files::{Kind, Recording};
use crate::original;
use ours::{Room, QP7_WORDS, QP_WORDS};

/// What a walk feeds at a time.
pub const STEP: usize = 4096;

#[derive(Clone, Copy)]
pub enum Way {
    Whole,
    Pieces(usize),
    Tally,
    Write,
    At(Which),
    To(Which),
    Build,
    Read,
    Find(Which),
    By(Which),
}

/// Which packet of a recording.
#[derive(Clone, Copy)]
pub enum Which {
    First,
    Middle,
    Last,
}

impl Which {
    fn named(name: &str) -> Option<Which> {
        match name {
            "0" => Some(Which::First),
            "middle" => Some(Which::Middle),
            "last" => Some(Which::Last),
            _ => None,
        }
    }

    pub fn number(self, recording: &Recording) -> usize {
        match self {
            Which::First => 0,
            Which::Middle => recording.units / 2,
            Which::Last => recording.units - 1,
        }
    }
}

#[derive(Clone, Copy)]
pub struct Job {
    pub kind: Kind,
    pub way: Way,
}

impl Job {
    /// `ds2`, `dss`, `qp`, `qp7`; with `-512` or another number behind it in pieces of so many bytes, with `-tally` tallied. `ds2-write` is
    /// written. `ds2-at-0`, `ds2-at-middle` and `ds2-at-last` are one packet at once, and with `to` in place of `at` the walk to it. `dss`, `dsson`
    /// or `dss1` with `-build` is its index, with `-read` that read; with `-find-last` the entry of the last packet, with `-by-last` that packet.
    pub fn named(name: &str) -> Option<Job> {
        let (kind, way) = name.split_once('-').unwrap_or((name, ""));
        let kind = match kind {
            "ds2" => Kind::Ds2,
            "dss" => Kind::Dss,
            "dsson" => Kind::DssOn,
            "dss1" => Kind::DssOne,
            "qp" => Kind::Qp,
            "qp7" => Kind::Qp7,
            _ => return None,
        };
        let way = match way.split_once('-').unwrap_or((way, "")) {
            ("", "") => Way::Whole,
            ("tally", "") => Way::Tally,
            ("write", "") if kind == Kind::Ds2 => Way::Write,
            ("at", which) if kind == Kind::Ds2 => Way::At(Which::named(which)?),
            ("to", which) if kind == Kind::Ds2 => Way::To(Which::named(which)?),
            ("build", "") if kind.is_dss() => Way::Build,
            ("read", "") if kind.is_dss() => Way::Read,
            ("find", which) if kind.is_dss() => Way::Find(Which::named(which)?),
            ("by", which) if kind.is_dss() => Way::By(Which::named(which)?),
            _ => Way::Pieces(way.parse().ok()?),
        };
        Some(Job { kind, way })
    }

    /// The memory that this side is lent for a recording; for writing, with the packets to be written, and for what takes an index with that.
    pub fn room(self, recording: &Recording) -> Room {
        match (self.way, self.kind) {
            (Way::Tally, _) => Room::for_packets(0),
            (Way::Write, _) => {
                let mut room = Room::for_packets(recording.units);
                ours::ds2_sp(&recording.file, &mut room);
                // A copy of the packets is to fit too, and they have more bytes than their file.
                room.file = vec![0; room.out.len().max(recording.file.len())];
                room
            }
            (Way::Pieces(bytes), _) => Room::for_piece(bytes),
            (Way::At(_), _) => Room::for_packets(1),
            (Way::To(_), _) => Room::for_piece(STEP),
            (Way::Build, kind) => Room::for_index(recording.blocks(kind)),
            (Way::Read | Way::Find(_) | Way::By(_), kind) => {
                let mut room = Room::for_index(recording.blocks(kind));
                ours::build_index(&recording.file, &mut room);
                room
            }
            (Way::Whole, Kind::Qp) => Room::for_words(QP_WORDS * recording.units, 0),
            (Way::Whole, Kind::Qp7) => Room::for_words(recording.units, QP7_WORDS * recording.units),
            (Way::Whole, _) => Room::for_packets(recording.units),
        }
    }

    /// Does the job by the archive, and answers what was handed out.
    pub fn by_ours(self, recording: &Recording, room: &mut Room) -> usize {
        let file = &recording.file[..];
        match (self.way, self.kind) {
            (Way::Tally, _) => ours::tally(file).0,
            (Way::Write, kind) => ours::write_ds2_sp(&file[..kind.start()], room),
            (Way::Pieces(bytes), kind) => ours::pieces(kind.reader(), file, bytes, room, |_| ()),
            (Way::At(which), _) => ours::ds2_sp_packet(file, which.number(recording), room),
            (Way::To(which), kind) => ours::walk(kind.reader(), file, STEP, which.number(recording), room, |_| ()),
            (Way::Build, _) => ours::build_index(file, room),
            (Way::Read, _) => ours::read_index(file, room).0,
            (Way::Find(which), _) => [ours::find_entry(file, which.number(recording), room)].len(),
            (Way::By(which), _) => ours::dss_packet(file, which.number(recording), room),
            (Way::Whole, Kind::Ds2) => ours::ds2_sp(file, room),
            (Way::Whole, Kind::Dss | Kind::DssOn | Kind::DssOne) => ours::dss(file, room),
            (Way::Whole, Kind::Qp) => ours::ds2_qp(file, room),
            (Way::Whole, Kind::Qp7) => ours::ds2_qp7(file, room).0,
        }
    }

    /// Does the job by the original. It has no tally: who wants the numbers reads the whole. It hands out no packet by its number: who wants it
    /// walks there. It writes nothing and has no index: there a copy of the packets, or of the index, stands in its place.
    pub fn by_original(self, recording: &Recording, room: &mut Room) -> usize {
        let file = &recording.file[..];
        match self.way {
            Way::Write => copied(&room.out, &mut room.file),
            Way::Pieces(bytes) => original::pieces(self.kind, file, bytes, |_| ()),
            Way::At(which) | Way::To(which) => original::walk(file, STEP, which.number(recording), |_| ()),
            Way::Build | Way::Read | Way::Find(_) | Way::By(_) => copied(&room.index, &mut room.file),
            Way::Whole | Way::Tally => original::whole(self.kind, file),
        }
    }
}

/// A copy into the beginning of other bytes, for scale.
#[inline(never)]
pub fn copied(from: &[u8], to: &mut [u8]) -> usize {
    to[..from.len()].copy_from_slice(from);
    from.len()
}
