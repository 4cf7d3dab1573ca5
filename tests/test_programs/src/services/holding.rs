//! Who holds an import: each result that named it to the program, and each object that was given it, is a hold of its own.

use crate::services::ends::{Ends, Step, With};
use crate::services::notebook::{NOTES, done};
use cp_objects::{Context, Objects, ServedObject};
use cp_refs::{Cap, Caps, Outcome, Request};
use cp_servants::{
    OutgoingCall, PayloadBuilder, Reply, RequestView, Servant, Settled, named_imports, outcome_of,
    word_in,
};
use cp_vat_machine::Ids;
use std::alloc::{AllocError, Global};
use std::process::Abort;

/// Methods of the server's objects: to give the object of a number, and to say its own number.
const OWN: u16 = 0;

const READ: u16 = 1;

/// Methods of both: to call a method of this number of the client's object that is named, with object 1. The client's object has it while
/// it is called, or keeps it, or gives up what it kept, three times.
const SEE: u16 = 2;

const KEEP: u16 = 3;

const LOSE: u16 = 4;

/// An object of the server.
#[derive(Drop)]
struct Giver {
    alloc: Global,
    number: u64,
    /// The client's object that it is to call, and the method.
    next: Option<(u32, u16)>,
}

impl Giver {
    fn answer(&mut self, request: &Request) -> Result<Outcome, AllocError> {
        let results = PayloadBuilder::new(self.alloc);
        match request.method {
            OWN => {
                let number = word_in(&request.content, 0) as u32;
                outcome_of(self.alloc, results.cap(Cap::Object(number)))
            }
            READ => outcome_of(self.alloc, results.word(self.number)),
            method => {
                self.next = first_import(&request.caps).map(|import| (import, method));
                outcome_of(self.alloc, Ok(results))
            }
        }
    }
}

impl Servant for Giver {
    fn call(&mut self, _ticket: u64, request: Request) -> Result<Reply, AllocError> {
        let gives_up = named_imports(self.alloc, &request.caps)?;
        match self.answer(&request) {
            Ok(outcome) => Ok(Reply::Now { outcome, gives_up }),
            Err(error) => {
                drop(gives_up);
                Err(error)
            }
        }
    }

    fn poll(&mut self) -> Result<Option<Settled>, AllocError> {
        Ok(None)
    }

    fn has_more(&self) -> bool {
        false
    }

    fn next_call(&mut self) -> Result<Option<OutgoingCall>, AllocError> {
        let Some((import, method)) = self.next.take() else {
            return Ok(None);
        };
        let Ok(params) = PayloadBuilder::new(self.alloc).cap(Cap::Object(1)) else {
            return Err(AllocError);
        };
        Ok(Some(OutgoingCall {
            cap: Cap::Import(import),
            request: params.request(NOTES, method),
            call_id: 0,
        }))
    }
}

/// An object of the client.
#[derive(Drop)]
struct Keeper {
    kept: Option<u32>,
}

impl Keeper {
    /// Gives up what it kept twice.
    fn lose(&self, context: &mut Context<Keeper>) -> Result<(), AllocError> {
        if let Some(import) = self.kept {
            let cap = context.own(Cap::Import(import));
            context.give_up(&cap)?;
            context.give_up(&cap)?;
        }
        Ok(())
    }
}

impl ServedObject for Keeper {
    type Makes = Keeper;

    fn call(
        &mut self,
        _ticket: u64,
        request: RequestView<'_>,
        context: &mut Context<Keeper>,
    ) -> Result<Reply, AllocError> {
        let alloc = context.alloc();
        let none = Caps::new(Vec::new(alloc));
        match request.method {
            KEEP => {
                self.kept = first_import(&request.caps);
                done(alloc, &none)
            }
            LOSE => {
                self.lose(context)?;
                done(alloc, &request.caps)
            }
            _ => done(alloc, &request.caps),
        }
    }

    fn poll(&mut self, _context: &mut Context<Keeper>) -> Result<Option<Settled>, AllocError> {
        Ok(None)
    }

    fn has_more(&self) -> bool {
        false
    }

    fn next_call(
        &mut self,
        _context: &mut Context<Keeper>,
    ) -> Result<Option<OutgoingCall>, AllocError> {
        Ok(None)
    }

    fn on_response(
        &mut self,
        _call_id: u64,
        _outcome: Outcome,
        _context: &mut Context<Keeper>,
    ) -> Result<(), AllocError> {
        Ok(())
    }

    fn on_cancel(&mut self, _ticket: u64, _context: &mut Context<Keeper>) -> Result<(), AllocError> {
        Ok(())
    }
}

fn first_import(caps: &Caps) -> Option<u32> {
    match caps.caps().first() {
        Some(Cap::Import(import)) => Some(*import),
        _ => None,
    }
}

/// A client with two objects, and a server with four. The client's import 0 is the server's object 0.
struct Holders {
    ends: Ends<Objects<Keeper>, Vec<Giver>>,
}

// Not derived: who lets one go calls this function, and need not prove the drop of its sessions.
impl Drop for Holders {
    fn drop(self) {
        let Holders { ends: _ } = self;
    }
}

impl Holders {
    fn new(rt: &impl Abort, alloc: Global) -> Holders {
        let mut givers = Vec::new(alloc);
        for number in 0..4 {
            let giver = Giver {
                alloc,
                number,
                next: None,
            };
            givers.push(giver).expect(rt, "memory");
        }
        let mut keepers = Objects::new(alloc);
        for _ in 0..2 {
            drop(keepers.add(Keeper { kept: None }).expect(rt, "a keeper"));
        }
        let mut holders = Holders {
            ends: Ends::new(alloc, keepers, givers, 1),
        };
        holders.ends.act(rt, Step::Bootstrap);
        let got = holders.ends.act(rt, Step::Take).got.expect(rt, "an outcome");
        check!(rt; got.1.import == Some(0));
        holders
    }

    /// Calls a method of an import, and waits. Gives the word, and the import that is named.
    fn call(&mut self, rt: &impl Abort, import: u32, method: u16, with: With) -> (u64, Option<u32>) {
        let asked = self.ends.act(rt, Step::Call(import, method, with)).asked;
        let got = self.ends.act(rt, Step::Take).got.expect(rt, "an outcome");
        check!(rt; asked == Some(got.0) && !got.1.is_failed);
        (got.1.word, got.1.import)
    }

    /// The import that the server's object of this number is now.
    fn own(&mut self, rt: &impl Abort, number: u64) -> u32 {
        self.call(rt, 0, OWN, With::Word(number)).1.expect(rt, "an import")
    }

    /// Asks for the server's object of this number, and finishes the question without taking its outcome.
    fn leave(&mut self, rt: &impl Abort, number: u64) {
        let asked = self.ends.act(rt, Step::Call(0, OWN, With::Word(number))).asked;
        self.ends.act(rt, Step::Carry);
        self.ends.act(rt, Step::Finish(asked.expect(rt, "a question")));
    }

    fn read(&mut self, rt: &impl Abort, import: u32) -> u64 {
        self.call(rt, import, READ, With::Word(0)).0
    }
}

#[test]
fn what_the_program_holds_stays_though_an_object_gives_it_up(rt: HostRuntime) {
    let mut holders = Holders::new(&rt, rt.alloc());
    let first = holders.own(&rt, 1);
    holders.call(&rt, 0, SEE, With::Object(0));
    let second = holders.own(&rt, 2);
    check!(&rt; second != first);
    check!(&rt; holders.read(&rt, first) == 1 && holders.read(&rt, second) == 2);
    // The server gives the number again, so it got its release.
    holders.ends.act(&rt, Step::Release(first));
    check!(&rt; holders.own(&rt, 3) == first);
    check!(&rt; holders.read(&rt, first) == 3);
    drop(holders);
}

#[test]
fn each_result_is_a_hold(rt: HostRuntime) {
    let mut holders = Holders::new(&rt, rt.alloc());
    let first = holders.own(&rt, 1);
    check!(&rt; holders.own(&rt, 1) == first);
    holders.ends.act(&rt, Step::Release(first));
    let second = holders.own(&rt, 2);
    check!(&rt; second != first);
    check!(&rt; holders.read(&rt, first) == 1);
    holders.ends.act(&rt, Step::Release(first));
    check!(&rt; holders.own(&rt, 3) == first);
    drop(holders);
}

#[test]
fn what_an_outcome_names_goes_back_if_it_was_never_taken(rt: HostRuntime) {
    let mut holders = Holders::new(&rt, rt.alloc());
    holders.leave(&rt, 1);
    // The server gives the number again, so it got its release.
    let first = holders.own(&rt, 2);
    check!(&rt; first == 1 && holders.read(&rt, first) == 2);
    // What another result named stays.
    holders.leave(&rt, 2);
    check!(&rt; holders.own(&rt, 3) != first);
    check!(&rt; holders.read(&rt, first) == 2);
    drop(holders);
}

#[test]
fn what_an_object_holds_stays_though_the_program_gives_it_back(rt: HostRuntime) {
    let mut holders = Holders::new(&rt, rt.alloc());
    let first = holders.own(&rt, 1);
    holders.call(&rt, 0, KEEP, With::Object(0));
    holders.ends.act(&rt, Step::Release(first));
    // It isn't the program's any more.
    check!(&rt; !holders.ends.releases(first));
    let second = holders.own(&rt, 2);
    check!(&rt; second != first);
    holders.call(&rt, 0, LOSE, With::Object(0));
    check!(&rt; holders.own(&rt, 3) == first);
    drop(holders);
}

#[test]
fn what_is_given_up_twice_stays_another_objects(rt: HostRuntime) {
    let mut holders = Holders::new(&rt, rt.alloc());
    holders.call(&rt, 0, KEEP, With::Object(0));
    holders.call(&rt, 0, KEEP, With::Object(1));
    holders.call(&rt, 0, LOSE, With::Object(0));
    // The server's object 1 is import 1 yet.
    check!(&rt; holders.own(&rt, 2) == 2);
    holders.call(&rt, 0, LOSE, With::Object(1));
    check!(&rt; holders.own(&rt, 3) == 1);
    drop(holders);
}
