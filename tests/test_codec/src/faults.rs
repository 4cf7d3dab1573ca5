//! What each fault prints.

use cp_frame::FrameFault;
use cp_reading::TreeFault;
use cp_rpc::{Field, SchemaFault};
use cp_stream::{DeviceError, Refusal, StreamFault};
use cp_tables::TableFault;
use cp_tree::WriteFault;
use cp_vat_machine::{PeerFault, VatFault};
use cp_words::{BadCapability, Place};
use std::alloc::Global;
use std::fmt::Display;
use std::io::ErrorKind;
use std::process::Abort;

/// Each fault prints its text.
fn expect_texts<F: Display>(rt: &impl Abort, alloc: Global, rows: &[(F, &str)]) {
    for row in rows {
        let fault = &row.0;
        let text = format!(in alloc; "{fault}").expect(rt, "memory");
        check!(rt; text.as_str() == row.1);
        drop(text);
    }
}

/// The longer form of a fault's text.
fn expect_long<F: Display>(rt: &impl Abort, alloc: Global, fault: &F, wanted: &str) {
    let text = format!(in alloc; "{fault:#}").expect(rt, "memory");
    check!(rt; text.as_str() == wanted);
    drop(text);
}

#[test]
fn texts(rt: HostRuntime) {
    expect_texts(&rt, rt.alloc(), OF_FRAMES);
    expect_texts(&rt, rt.alloc(), OF_TREES);
    expect_texts(&rt, rt.alloc(), OF_WRITING);
    expect_texts(&rt, rt.alloc(), OF_STREAMS);
    let word = [(
        BadCapability,
        "a capability word with one of bits 2 to 31 set",
    )];
    expect_texts(&rt, rt.alloc(), &word);
    let wanted =
        "refused at byte 8: G8 NestingLimit segment 2 word 30: structs and lists nest deeper than the limit, 64 levels by the standard limits";
    expect_long(&rt, rt.alloc(), &DEEP, wanted);
}

#[test]
fn texts_of_vats(rt: HostRuntime) {
    expect_texts(&rt, rt.alloc(), OF_TABLES);
    expect_texts(&rt, rt.alloc(), OF_VATS);
    expect_texts(&rt, rt.alloc(), OF_PEERS);
    let wanted = "V6 InUse: the question, import or promise is in use";
    expect_long(&rt, rt.alloc(), &VatFault::InUse, wanted);
}

const AT: Place = Place {
    segment: 2,
    word: 30,
};

const OF_FRAMES: &[(FrameFault, &str)] = &[
    (FrameFault::TooManySegments, "F1 TooManySegments"),
    (FrameFault::FrameTooLarge, "F2 FrameTooLarge"),
    (FrameFault::Truncated, "F3 Truncated"),
    (FrameFault::RunPastFrame, "F4 RunPastFrame"),
    (FrameFault::Failed, "F5 Failed"),
    (FrameFault::OutOfMemory, "F6 OutOfMemory"),
];

const OF_TREES: &[(TreeFault, &str)] = &[
    (TreeFault::NoRoot(AT), "G1 NoRoot segment 2 word 30"),
    (TreeFault::RootKind(AT), "G2 RootKind segment 2 word 30"),
    (
        TreeFault::OutOfBounds(AT),
        "G3 OutOfBounds segment 2 word 30",
    ),
    (TreeFault::NoSegment(AT), "G4 NoSegment segment 2 word 30"),
    (TreeFault::BadPad(AT), "G5 BadPad segment 2 word 30"),
    (TreeFault::BadTag(AT), "G6 BadTag segment 2 word 30"),
    (
        TreeFault::BadCapability(AT),
        "G7 BadCapability segment 2 word 30",
    ),
    (
        TreeFault::NestingLimit(AT),
        "G8 NestingLimit segment 2 word 30",
    ),
    (
        TreeFault::TraversalLimit(AT),
        "G9 TraversalLimit segment 2 word 30",
    ),
    (TreeFault::OutOfMemory, "G10 OutOfMemory"),
];

const OF_WRITING: &[(WriteFault, &str)] = &[
    (WriteFault::TooDeep, "B1 TooDeep"),
    (WriteFault::TooCostly, "B2 TooCostly"),
    (WriteFault::OutOfMemory, "B3 OutOfMemory"),
    (WriteFault::TooManyWords, "B4 TooManyWords"),
];

const DEEP: StreamFault = StreamFault::Refused {
    at: 8,
    refusal: Refusal::Tree(TreeFault::NestingLimit(AT)),
};

const OF_STREAMS: &[(StreamFault, &str)] = &[
    (
        StreamFault::Refused {
            at: 24,
            refusal: Refusal::Schema(SchemaFault::Kind(Field::MessageFinish)),
        },
        "refused at byte 24: S1 Kind Message.finish",
    ),
    (
        StreamFault::Refused {
            at: 0,
            refusal: Refusal::Schema(SchemaFault::Text(Field::ExceptionReason)),
        },
        "refused at byte 0: S2 Text Exception.reason",
    ),
    (
        StreamFault::Refused {
            at: u64::MAX,
            refusal: Refusal::Schema(SchemaFault::OutOfMemory),
        },
        "refused at byte 18446744073709551615: S3 OutOfMemory",
    ),
    (
        StreamFault::Refused {
            at: 8,
            refusal: Refusal::Frame(FrameFault::Truncated),
        },
        "refused at byte 8: F3 Truncated",
    ),
    (
        StreamFault::Refused {
            at: 8,
            refusal: Refusal::Tree(TreeFault::NoSegment(AT)),
        },
        "refused at byte 8: G4 NoSegment segment 2 word 30",
    ),
    (
        StreamFault::Refused {
            at: 0,
            refusal: Refusal::Write(WriteFault::TooDeep),
        },
        "refused at byte 0: B1 TooDeep",
    ),
    (
        StreamFault::Device(DeviceError {
            kind: ErrorKind::ConnectionReset,
            code: Some(104),
        }),
        "device failed: Connection reset by peer (os error 104)",
    ),
    (
        StreamFault::Device(DeviceError {
            kind: ErrorKind::BrokenPipe,
            code: None,
        }),
        "device failed: broken pipe",
    ),
];

const OF_TABLES: &[(TableFault, &str)] = &[
    (TableFault::Taken, "number or note taken"),
    (TableFault::Unknown, "unknown number"),
    (TableFault::TooMany, "lowered past the count"),
    (TableFault::Full, "table or count full"),
    (TableFault::OutOfMemory, "out of memory"),
];

const OF_VATS: &[(VatFault, &str)] = &[
    (VatFault::UnknownQuestion, "V1 UnknownQuestion"),
    (VatFault::UnknownPromise, "V2 UnknownPromise"),
    (VatFault::AlreadyResolved, "V3 AlreadyResolved"),
    (VatFault::PromiseCycle, "V4 PromiseCycle"),
    (VatFault::Unsettled, "V5 Unsettled"),
    (VatFault::InUse, "V6 InUse"),
    (VatFault::TooLarge, "V7 TooLarge"),
    (VatFault::Full, "V8 Full"),
    (VatFault::Closed, "V9 Closed"),
    (VatFault::OutOfMemory, "V10 OutOfMemory"),
    (VatFault::UnknownImport, "V11 UnknownImport"),
];

const OF_PEERS: &[(PeerFault, &str)] = &[
    (PeerFault::QuestionInUse, "P1 question in use"),
    (PeerFault::PeerLacksLevelOne, "P12 peer lacks level 1"),
];
