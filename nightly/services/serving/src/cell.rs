//! A number, as an object.

use crate::Served;
use cp_objects::{Context, ServedObject};
use cp_refs::{Outcome, Request};
use cp_servants::{
    OutgoingCall, PayloadBuilder, Reply, RequestView, Settled, named_imports, no_such_method, outcome_of, word_in,
};
use std::alloc::{AllocError, Global};
use std::rc::Rc;

pub const CELL: u64 = 0xe5a1_0000_0000_0002;

#[derive(Drop)]
pub struct Cell {
    pub held: u64,
    /// What counts the Cells of a connection.
    pub alive: Rc<()>,
}

impl Cell {
    fn outcome(&mut self, alloc: Global, request: &Request) -> Result<Outcome, AllocError> {
        match (request.interface, request.method) {
            (CELL, 0) => {
                self.held = self.held.wrapping_add(word_in(&request.content, 0));
                outcome_of(alloc, PayloadBuilder::new(alloc).word(self.held))
            }
            (CELL, 1) => outcome_of(alloc, PayloadBuilder::new(alloc).word(self.held)),
            _ => no_such_method(alloc),
        }
    }
}

impl ServedObject for Cell {
    type Makes = Served;

    fn call(
        &mut self,
        _ticket: u64,
        request: RequestView<'_>,
        context: &mut Context<Served>,
    ) -> Result<Reply, AllocError> {
        let request = request.request(context.alloc())?;
        let outcome = self.outcome(context.alloc(), &request)?;
        let gives_up = named_imports(context.alloc(), &request.caps)?;
        Ok(Reply::Now { outcome, gives_up })
    }

    fn poll(&mut self, _context: &mut Context<Served>) -> Result<Option<Settled>, AllocError> {
        Ok(None)
    }

    fn has_more(&self) -> bool {
        false
    }

    fn next_call(&mut self, _context: &mut Context<Served>) -> Result<Option<OutgoingCall>, AllocError> {
        Ok(None)
    }

    fn on_response(
        &mut self,
        _mark: u64,
        outcome: Outcome,
        _context: &mut Context<Served>,
    ) -> Result<(), AllocError> {
        drop(outcome);
        Ok(())
    }

    fn on_cancel(&mut self, _ticket: u64, _context: &mut Context<Served>) -> Result<(), AllocError> {
        Ok(())
    }
}
