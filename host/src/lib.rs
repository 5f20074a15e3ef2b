//! Klovdrun for Rust hosts: a demuxer for dictation recordings, DSS and DS2, and a writer of DS2 SP files, over the archive `libklovdrun.a`.
//! It rests on `include/klovdrun.h`; all that crosses the boundary is in the private module `raw`.
//!
//! The calls of [`demux`] have the names and signatures of those in dss-codec's module of that name, so that a host can change the one
//! for the other. What is added stands beside it: [`Packets`] with the count of file bytes of each packet,
//! [`ds2_sp_packet`](demux::ds2::ds2_sp_packet) for any one of them at once, [`Reader`] for pieces without an allocation,
//! [`places`] and [`frames`] for bytes that stay in the file, [`tally`](tally()) for a file in numbers, [`ReadSizes`] and [`Wholeness`],
//! which tell whole packets from short ones, [`mux`], which makes a DS2 SP file of packets, and [`index`], which makes and reads an index
//! beside a DSS recording and finds packets by it.
//! Every call answers, or refuses by an [`error::Refusal`]; a refused call changes nothing.
//!
//! # Complete as announced
//!
//! A host that says so of a recording rests on this rule, and on no other answer.
//!
#![doc = include_str!("complete.md")]
//!
//! More than was announced nobody can tell: a block that was zeroed, lost or written twice announces otherwise, and the format has no
//! checksum.
#![deny(unsafe_code)]
#![warn(missing_docs)]

#[cfg(not(all(target_arch = "x86_64", target_pointer_width = "64", unix)))]
compile_error!("libklovdrun.a is for x86-64 with the System V calling convention");

pub mod demux;
pub mod error;
pub mod frames;
pub mod index;
pub mod mux;
mod packets;
pub mod places;
mod raw;
mod reader;
mod sizes;
mod tally;

pub use error::{Refusal, Result};
pub use packets::Packets;
pub use places::{FilePlace, StreamPlace};
pub use reader::Reader;
pub use sizes::{ReadSizes, Wholeness};
pub use tally::{tally, Tally};

/// The version of the archive that this crate is for. The first call asks the archive for its own, and panics if that is another: nothing
/// else can be said with it.
pub const VERSION: u64 = raw::VERSION;
/// The version that the archive tells, for a host that would rather ask than have the first call panic.
#[must_use]
pub fn archive_version() -> u64 {
    raw::version()
}
/// The longest input in bytes, whole or in pieces, and the longest file that is written.
pub const LIMIT: usize = 268_435_456;
/// Bytes of a packet.
pub const PACKET: usize = 42;
/// Bytes of a QP frame, and so of a scratch.
pub const FRAME: usize = 56;
/// Bytes of a block.
pub const BLOCK: usize = 512;
/// Bytes of a block's payload.
pub const PAYLOAD: usize = 506;
/// Where a DS2 recording's audio starts if its first byte is 1 or 3.
pub const DS2_START: FilePlace = FilePlace(1536);
/// Where a DSS recording's audio starts, by its first byte, 2 or 3.
#[must_use]
pub const fn dss_start(first: u8) -> FilePlace {
    FilePlace(BLOCK * first as usize)
}
/// Words of a QP segment's entry in a table.
pub const QP_WORDS: usize = 4;
/// Words of a QP7 segment's entry in a table.
pub const QP7_WORDS: usize = 3;
/// Bytes of an index of version 1 before its entries.
pub const INDEX_FRONT: usize = 5;
/// Bytes of an entry of an index of version 1.
pub const INDEX_ENTRY: usize = 12;
