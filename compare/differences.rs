// The differences that docs/DIFFERENCES.md lists, as far as a caller can see them, each with one sentence. At each case the answer is held
// to what the format's description (docs/FORMAT.md) says of it, and the case is counted. It rests on these two documents.

/// In the order of the list below.
#[derive(Debug, Clone, Copy)]
pub enum Name {
    DssCutHeader,
    Ds2CutHeader,
    Limit,
    PacketRoom,
    TableRoom,
    DssPieces,
    Hold,
    AfterTheEnd,
    SpFrames,
    KindOfCall,
    DrainInParts,
    NoSuchKind,
    EndInHeader,
    StrictEnd,
    NoSuchEnd,
    MissingFrames,
    EncryptedNames,
}

pub const NAMES: &[(Name, &str)] = &[
    (Name::DssCutHeader, "demux_dss faults on a length below A; here refusal 3 with A"),
    (Name::Ds2CutHeader, "demux_ds2 faults on a length at or below A; here refusal 3 with A below, and at A an empty SP recording"),
    (Name::Limit, "the original has no limit; here refusal 2 above 268435456 bytes, whole or in pieces"),
    (Name::PacketRoom, "the original allocates; here refusal 8 with how many packets or records are needed"),
    (Name::TableRoom, "the original allocates; here refusal 9 with how many segments are needed"),
    (Name::DssPieces, "outside the domain DssSpStreamDemuxer differs from demux_dss; here pieces give what demux_dss gives"),
    (Name::Hold, "Ds2SpStreamDemuxer holds without bound; here refusal 7 with 12288"),
    (Name::AfterTheEnd, "the original goes on after its end; here a piece is refused by 6, and either end answers 0 packets"),
    (Name::SpFrames, "Ds2QpStreamDemuxer answers no frames for an SP file; here refusal 11 with its type"),
    (Name::KindOfCall, "demux_ds2 answers by the file's kind; here each call answers one kind and refuses the others by 11"),
    (
        Name::DrainInParts,
        "finish_lenient gives all at once; here as many as there is room for, and 6 for a piece or a strict end meanwhile",
    ),
    (Name::NoSuchKind, "DssSpStreamDemuxer::new takes any byte; here refusal 10 with the kind, and an ended reader"),
    (Name::EndInHeader, "an end inside the header is an error with a text; here refusal 3 with A"),
    (
        Name::StrictEnd,
        "finish answers an error with a text; here refusal 13 with the bytes of the block, or 14 with the frames owed",
    ),
    (Name::NoSuchEnd, "finish and finish_lenient are two calls; here one takes which is meant, and any other choice is refused by 22"),
    (Name::MissingFrames, "frames past a segment's end are left out of the list; here each is told by size 0"),
    (Name::EncryptedNames, "detect_format names a file with \\x03enc by its byte 0x604; here it has no name"),
];
