// What streaming.rs uses besides a demuxer, with nothing in it: decoders that give no sound, a decryptor that gives no bytes, Grundig's demuxer,
// hound's error. It rests on the calls that streaming.rs makes, and on the segments of our crate.

pub mod codec {
    pub mod dss_sp {
        pub struct DssSpDecoder;
        impl DssSpDecoder {
            #[allow(clippy::new_without_default)]
            pub fn new() -> Self {
                Self
            }
            pub fn decode_frame(&mut self, _frame: &[u8]) -> Vec<i16> {
                Vec::new()
            }
        }
    }

    pub mod ds2_sp {
        pub struct Ds2SpDecoder;
        impl Ds2SpDecoder {
            #[allow(clippy::new_without_default)]
            pub fn new() -> Self {
                Self
            }
            pub fn decode_frame(&mut self, _frame: &[u8]) -> Vec<f64> {
                Vec::new()
            }
        }
    }

    pub mod ds2_qp {
        use klovdrun::demux::ds2::{Ds2Qp7Segment, Ds2QpSegment};

        pub struct Ds2QpDecoder;
        impl Ds2QpDecoder {
            #[allow(clippy::new_without_default)]
            pub fn new() -> Self {
                Self
            }
            pub fn decode_frame(&mut self, _frame: &[u8]) -> Vec<f64> {
                Vec::new()
            }
            pub fn decode_qp_segments(&mut self, _segments: &[Ds2QpSegment]) -> Vec<f64> {
                Vec::new()
            }
            pub fn decode_qp7_segments(&mut self, _segments: &[Ds2Qp7Segment]) -> Vec<f64> {
                Vec::new()
            }
        }
    }

    pub mod grundig_sp {
        pub struct GrundigSpDecoder;
        impl GrundigSpDecoder {
            #[allow(clippy::new_without_default)]
            pub fn new() -> Self {
                Self
            }
            pub fn decode_frame(&mut self, _frame: &[u8]) -> Vec<i16> {
                Vec::new()
            }
            pub fn finish(&mut self) -> Vec<i16> {
                Vec::new()
            }
        }
    }
}

pub mod crypto {
    pub mod ds2_encrypted {
        use crate::error::Result;

        pub const ENCRYPTED_MAGIC: [u8; 4] = *b"\x03enc";

        pub struct EncryptedDs2BlockDecryptor;
        impl EncryptedDs2BlockDecryptor {
            pub fn new(_password: &[u8]) -> Self {
                Self
            }
            pub fn push(&mut self, _bytes: &[u8]) -> Result<Vec<u8>> {
                Ok(Vec::new())
            }
            pub fn finish(&mut self) -> Result<Vec<u8>> {
                Ok(Vec::new())
            }
        }
    }
}

pub mod grundig {
    use crate::error::Result;

    pub struct GrundigSpStreamDemuxer;
    impl GrundigSpStreamDemuxer {
        pub fn new(_header_blocks: u8) -> Self {
            Self
        }
        pub fn push(&mut self, _data: &[u8]) -> Result<Vec<Vec<u8>>> {
            Ok(Vec::new())
        }
        pub fn finish(&mut self) -> Result<Vec<Vec<u8>>> {
            Ok(Vec::new())
        }
        pub fn finish_lenient(&mut self) -> Result<Vec<Vec<u8>>> {
            Ok(Vec::new())
        }
    }
}

pub mod hound {
    #[derive(Debug)]
    pub struct Error;
}
