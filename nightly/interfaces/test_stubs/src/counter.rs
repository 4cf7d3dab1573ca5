//! A watcher with a relation of its own.

use cp_objects::Context;
use cp_interfaces::{MethodResult, ServiceObject};
use directory::{WatcherAddedCall, WatcherDispatch, WatcherServer};

/// All objects of the test.
pub type Counting = WatcherDispatch<Counter>;

/// Counts of whom it is told.
#[derive(Drop)]
pub struct Counter {
    pub count: u64,
}

impl ServiceObject for Counter {
    type Makes = Counting;

    fn has_more(&self) -> bool {
        false
    }
}

impl WatcherServer for Counter {
    ghost use Rattle.directory.specs.Watcher.{any_watcher};
    ghost use Rattle.test_stubs.specs.Counter.{Counts};

    ghost watcher_kind = { record any_watcher { on_added = λ old call params reply new. Counts old.object.count params new.object.count } };

    fn added(
        &mut self,
        call: &mut WatcherAddedCall<'_>,
        _context: &mut Context<Counting>,
    ) -> MethodResult {
        let _person = call.params.person()?;
        self.count = self.count.saturating_add(1);
        Ok(())
    }
}
