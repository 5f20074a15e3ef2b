//! dss-codec's streaming.rs over the Rust crate in host/, to see that a decoder can change its demuxer for ours. It rests on that file itself,
//! unchanged, which stands beside this one by a link that compare/run makes, and on stubs of ours for all that is no demuxer: it is compiled, never run.
pub mod error;
#[allow(dead_code)] // some calls are for the rest of dss-codec, which is not here
pub mod streaming;
mod stubs;

pub use stubs::{codec, crypto};

/// All that the decoder asks of its demuxer: ours, and for Grundig, which it does not read, a stub.
pub mod demux {
    pub use crate::stubs::grundig;
    pub use klovdrun::demux::*;
}
