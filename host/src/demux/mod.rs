//! The calls of dss-codec's demux module, over the archive: the same names and signatures, refusals instead of its errors, and no panics.
//! It rests on the archive's detection; Grundig recordings are told, and not demuxed.
pub mod ds2;
pub mod dss;

use crate::raw;

/// Detected audio format
#[derive(Debug, Clone, Copy, PartialEq, Eq)]
pub enum AudioFormat {
    /// DSS, SP: 11000 Hz
    DssSp,
    /// DS2, SP: 12000 Hz
    Ds2Sp,
    /// DS2, QP: 16000 Hz
    Ds2Qp,
    /// DS2, QP7: 16000 Hz
    Ds2Qp7,
    /// Grundig's DSS, SP: 16000 Hz
    GrundigSp,
}

impl AudioFormat {
    /// The sample rate of the decoded sound, in Hz.
    #[must_use]
    pub fn native_sample_rate(&self) -> u32 {
        match self {
            AudioFormat::DssSp => 11000,
            AudioFormat::Ds2Sp => 12000,
            AudioFormat::Ds2Qp | AudioFormat::Ds2Qp7 | AudioFormat::GrundigSp => 16000,
        }
    }

    /// The usual end of such a file's name.
    #[must_use]
    pub fn extension(&self) -> &'static str {
        match self {
            AudioFormat::DssSp | AudioFormat::GrundigSp => "dss",
            AudioFormat::Ds2Sp | AudioFormat::Ds2Qp | AudioFormat::Ds2Qp7 => "ds2",
        }
    }
}

/// What a file is, by its first bytes and its type. Types 8 to 255 are told as `Ds2Sp`, and read as QP.
#[must_use]
pub fn detect_format(data: &[u8]) -> Option<AudioFormat> {
    match raw::detect_format(data) {
        1 => Some(AudioFormat::DssSp),
        2 => Some(AudioFormat::Ds2Sp),
        3 => Some(AudioFormat::Ds2Qp),
        4 => Some(AudioFormat::Ds2Qp7),
        5 => Some(AudioFormat::GrundigSp),
        _ => None,
    }
}
