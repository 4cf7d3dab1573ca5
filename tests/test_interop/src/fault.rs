//! How a frame can fail its trial.

use cp_frame::FrameFault;
use cp_schema::RequestFault;
use cp_stream::{Refusal, StreamFault};
use std::alloc::{AllocError, AllocFailed};
use thiserror::Error;

#[derive(Debug, Drop, Error)]
pub enum Fault {
    #[error("not a row")]
    Row,
    #[error("refused")]
    Refused,
    #[error("not refused as truncated at byte {0}")]
    NotTruncated(usize),
    #[error("read otherwise when cut at byte {0}")]
    Cut(usize),
    #[error("read as {0}")]
    Line(String),
    #[error("packed or unpacked otherwise")]
    Bytes,
    #[error("out of memory")]
    OutOfMemory,
}

impl From<AllocError> for Fault {
    fn from(_: AllocError) -> Fault {
        Fault::OutOfMemory
    }
}

impl<T: Drop> From<AllocFailed<T>> for Fault {
    fn from(_: AllocFailed<T>) -> Fault {
        Fault::OutOfMemory
    }
}

impl From<FrameFault> for Fault {
    fn from(_: FrameFault) -> Fault {
        Fault::Refused
    }
}

impl From<StreamFault> for Fault {
    fn from(_: StreamFault) -> Fault {
        Fault::Refused
    }
}

impl From<Refusal> for Fault {
    fn from(_: Refusal) -> Fault {
        Fault::Refused
    }
}

impl From<RequestFault> for Fault {
    fn from(_: RequestFault) -> Fault {
        Fault::Refused
    }
}
