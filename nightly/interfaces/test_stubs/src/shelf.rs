//! A directory for tests: it finds nobody, counts whom it is told of, and keeps the watcher that it is given.

use cp_objects::Context;
use cp_interfaces::{MethodResult, ServiceObject};
use cp_interfaces::MethodFault;
use directory::{
    DirectoryAddCall, DirectoryFindCall, DirectoryFindLater, DirectoryDispatch, DirectoryServer, DirectoryWatchCall,
    NamedNameCall, NamedServer,
};

/// All objects of the test.
pub type Shelved = DirectoryDispatch<Shelf>;

/// The directory.
#[derive(Drop)]
pub struct Shelf {
    pub count: u32,
    /// The call of `find` that is never answered.
    pub sought: Option<DirectoryFindLater>,
}

impl ServiceObject for Shelf {
    type Makes = Shelved;

    fn has_more(&self) -> bool {
        false
    }
}

impl NamedServer for Shelf {
    fn name(&mut self, call: &mut NamedNameCall<'_>, context: &mut Context<Shelved>) -> MethodResult {
        Ok(call.results.set_name("a shelf")?)
    }
}

impl DirectoryServer for Shelf {
    fn find(&mut self, call: &mut DirectoryFindCall<'_>, context: &mut Context<Shelved>) -> MethodResult {
        let _name = call.params.name()?.text(context.alloc())?;
        self.sought = Some(call.later(context)?);
        Ok(())
    }

    fn add(&mut self, call: &mut DirectoryAddCall<'_>, context: &mut Context<Shelved>) -> MethodResult {
        let _friend = call
            .params
            .person()?
            .friend_client(context.alloc(), call.caps())?;
        self.count = self.count.saturating_add(1);
        call.results.set_count(self.count);
        Ok(())
    }

    fn watch(&mut self, call: &mut DirectoryWatchCall<'_>, context: &mut Context<Shelved>) -> MethodResult {
        let watcher = call.params.watcher_client(context.alloc(), call.caps())?;
        call.keep(&watcher.target, context)
            .map_err(|fault| MethodFault::from(fault))
    }
}
