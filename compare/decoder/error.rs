// The decoder's errors, with the cases of dss-codec's error.rs and without the crates that it rests on; and the one thing that a decoder has to add
// to build over our crate: how a refusal becomes one of them. host/README.md quotes it.
use std::path::PathBuf;

#[derive(Debug)]
pub enum DecodeError {
    Io(std::io::Error),
    NotDss(PathBuf),
    NotDs2(PathBuf),
    UnsupportedFormat(u8),
    EncryptedDs2(String),
    BitstreamExhausted { needed: usize, available: usize },
    InvalidFrame { frame: usize, detail: String },
    Truncated(String),
    AlreadyFinished,
    Wav(crate::stubs::hound::Error),
    Resample(String),
}

pub type Result<T> = std::result::Result<T, DecodeError>;

impl From<klovdrun::Refusal> for DecodeError {
    fn from(why: klovdrun::Refusal) -> Self {
        match why.number {
            6 => Self::AlreadyFinished,
            3 | 4 | 5 | 13 | 14 => Self::Truncated(why.to_string()),
            _ => Self::Io(std::io::Error::new(std::io::ErrorKind::InvalidData, why)),
        }
    }
}
