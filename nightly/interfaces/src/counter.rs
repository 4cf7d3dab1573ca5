//! A watcher that counts of whom it is told.

use crate::Served;
use directory::{WatcherAddedCall, WatcherServer};
use jamdrosek::interfaces::{MethodResult, ServiceObject};
use jamdrosek::server::Context;
use std::cell::RefCell;
use std::rc::Rc;

/// Counts of whom it is told.
#[derive(Drop)]
pub struct Counter {
    pub count: Rc<RefCell<u64>>,
}

impl ServiceObject for Counter {
    type Makes = Served;

    fn has_more(&self) -> bool {
        false
    }
}

impl WatcherServer for Counter {
    fn added(&mut self, call: &mut WatcherAddedCall<'_>, _context: &mut Context<Served>) -> MethodResult {
        let _person = call.params.person()?;
        let mut count = self.count.try_borrow_mut()?;
        *count = count.saturating_add(1);
        Ok(())
    }
}
