//! Serves the store of `store_server` in memory, to a client whose messages are in a file.

use crate::store_server::Shelf;
use jamdrosek::server::Objects;
use jamdrosek::session::{DrivenSession, Session, SessionLimits, SessionOptions};
use jamdrosek::{Limits, Mode};
use std::alloc::Global;
use std::cell::RefCell;
use std::collections::BTreeMap;
use std::fs;
use std::io::{self, Write};
use std::rc::Rc;
use store::StoreDispatch;

pub fn run(rt: &HostRuntime) -> anyhow::Result<()> {
    let calls = fs::read(rt, "serve.bin")?;
    io::writer(rt).write_all(answers(rt.alloc(), &calls)?.as_slice())?;
    Ok(())
}

/// What a store sends for these bytes.
fn answers(alloc: Global, calls: &[u8]) -> anyhow::Result<Vec<u8>> {
    let options = SessionOptions {
        mode: Mode::Plain,
        messages: Limits::standard(),
        bootstrap: Some(0),
        may_call: true,
        releases_idle: true,
        limits: SessionLimits::standard(),
    };
    let mut objects = Objects::new(alloc);
    let texts = Rc::new(alloc, RefCell::new(BTreeMap::new(alloc)))?;
    objects.add(StoreDispatch::new(Shelf(texts)))?;
    let mut session = Session::new(alloc, &options, objects, 0);
    for byte in calls {
        session.receive(&[*byte], 0)?;
    }
    let sent = Vec::from_slice(alloc, session.outgoing());
    drop(session);
    Ok(sent?)
}
