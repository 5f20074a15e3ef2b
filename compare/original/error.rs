// The error type that dss-codec's demux module is compiled with here: of its cases those that the module makes, without the
// crates that its own error.rs rests on.
use std::path::PathBuf;

#[derive(Debug)]
#[allow(dead_code)] // the original makes them with a path, which nobody reads here
pub enum DecodeError {
    NotDss(PathBuf),
    NotDs2(PathBuf),
    Truncated(String),
}

pub type Result<T> = std::result::Result<T, DecodeError>;
