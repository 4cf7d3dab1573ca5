//! What waits: calls and promises for their times, and calls for the outcomes of others.

use cp_objects::{Resolver, SessionCap};
use cp_rpc::{Exception, Text};
use cp_vat_machine::Ids;
use std::alloc::{AllocError, Global};

/// What is answered.
#[derive(Drop)]
pub enum Answer {
    /// A Cell that holds this. It is made once it is named, as nothing keeps it before.
    Gives(u64),
    Says(u64),
    Fails(Exception),
}

/// A call that is answered at its time.
#[derive(Drop)]
pub struct Wait {
    pub at: u64,
    pub ticket: u64,
    pub answer: Answer,
    pub gives_up: Ids,
}

/// A promise that comes to this at its time.
#[derive(Drop)]
pub struct Vow {
    pub at: u64,
    pub resolver: Resolver,
    pub value: SessionCap,
}

/// A call whose answer waits for that of another one, whose mark is its ticket.
#[derive(Drop)]
pub struct Asked {
    pub ticket: u64,
    /// What is called, and kept meanwhile.
    pub cap: SessionCap,
    /// Whether a Cell is given.
    pub gives: bool,
    pub gives_up: Ids,
}

/// An exception as the other libraries name one that they pass on.
pub fn passed_on(alloc: Global, of: &Exception) -> Result<Exception, AllocError> {
    let mut reason = String::from_str(alloc, "remote exception: ")?;
    reason.push_str(of.reason.as_str())?;
    Ok(Exception {
        kind: of.kind,
        reason: Text::new(reason),
        trace: Text::new(String::new(alloc)),
    })
}
