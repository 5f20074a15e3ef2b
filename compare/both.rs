// A file as the original reads it, where it can be asked, and as the model does: asked once, for all comparisons of that file. It rests on
// the original, and on the model for the lengths at which the original faults.
use crate::common::model::{self, refused, Answer, Kind, Refused};
use original::{DemuxedDs2, Told};

pub struct Both<'a> {
    pub file: &'a [u8],
    /// By the model: how the file is read and where its audio starts.
    pub kind: Answer<(Kind, usize)>,
    /// What the original answers; None where it faults, or where the file is over the limit.
    pub dss: Option<Told<(Vec<Vec<u8>>, usize)>>,
    pub ds2: Option<Told<DemuxedDs2>>,
    /// `Ds2QpStreamDemuxer`'s frames.
    pub frames: Option<Told<Vec<Vec<u8>>>>,
}

impl<'a> Both<'a> {
    pub fn new(file: &'a [u8]) -> Both<'a> {
        let kind = model::kind(file);
        let dss = matches!(file.get(..4), Some(b"\x02dss" | b"\x03dss"));
        // DSS faults below A, DS2 at A too.
        let faults = match kind {
            Ok((_, start)) => !dss && file.len() == start,
            Err(refusal) => refusal[0] != 1,
        };
        let (ask_dss, ask_ds2) = (!(faults && dss), !(faults && !dss));
        Both {
            file,
            kind,
            dss: ask_dss.then(|| original::demux_dss(file)),
            ds2: ask_ds2.then(|| original::demux_ds2(file)),
            frames: ask_ds2.then(|| frames(file)),
        }
    }

    /// How a call for DSS, or one for DS2, sees the file.
    pub fn kind_for(&self, dss: bool) -> Answer<(Kind, usize)> {
        match self.kind {
            Ok((Kind::DssSp, _)) if !dss => Err(refused(1, 0)),
            Ok((Kind::Ds2Sp | Kind::Qp | Kind::Qp7, _)) if dss => Err(refused(1, 0)),
            Err(_) => model::kind_for(self.file, dss),
            kind => kind,
        }
    }

    /// The type of a DS2 file, as refusal 11 has it beside it.
    pub fn wrong_kind(&self, start: usize) -> Refused {
        refused(11, u64::from(model::ds2_type(self.file, start)))
    }
}

fn frames(file: &[u8]) -> Told<Vec<Vec<u8>>> {
    let mut stream = original::Stream::qp();
    let none = stream.push(file)?;
    assert!(none.is_empty(), "frames before the end");
    stream.finish()
}
