//! Times what an event costs beside things that are open: `crowd KIND COUNT EVENTS` opens COUNT things of a kind between two sessions in
//! memory, and prints the nanoseconds that each of EVENTS calls with its results took after that, both ends together.
#![tactic(auto)]

use anyhow::anyhow;
use cp_dispatch::SessionEvent;
use cp_frame::Mode;
use cp_objects::{Context, LaterCall, Objects, Resolver, ServedObject};
use cp_refs::{Cap, Caps, Outcome, Path, Request};
use cp_servants::{
    OutgoingCall, PayloadBuilder, Reply, RequestView, Settled, named_imports, outcome_of,
};
use cp_session::{CallingSession, DrivenSession, SessionLimits, SessionOptions, SessionOver};
use cp_vat_machine::Ids;
use cp_words::Limits;
use std::alloc::{AllocError, Global};
use std::env;
use std::process::Abort;
use std::time::Instant;

/// Methods of an object: to answer at once, later, with a new object, with a promise, and with nothing after it keeps what it is given or
/// is to be woken in an hour.
const NOW: u16 = 0;
const LATER: u16 = 1;
const MAKE: u16 = 2;
const PROMISE: u16 = 3;
const KEEP: u16 = 4;
const RING: u16 = 5;

const HOUR: u64 = 3_600_000;

/// An object, with what it keeps.
#[derive(Drop)]
struct Thing {
    calls: Vec<LaterCall>,
    promises: Vec<Resolver>,
    kept: u64,
}

impl Thing {
    fn new(alloc: Global) -> Thing {
        Thing {
            calls: Vec::new(alloc),
            promises: Vec::new(alloc),
            kept: 0,
        }
    }

    /// What a method gives that answers at once.
    fn results(
        &mut self,
        method: u16,
        context: &mut Context<Thing>,
    ) -> Result<Outcome, AllocError> {
        let alloc = context.alloc();
        let results = PayloadBuilder::new(alloc);
        match method {
            MAKE => {
                let made = context.make(Thing::new(alloc))?;
                outcome_of(alloc, results.cap(made.into_cap(context.session())?))
            }
            PROMISE => {
                let resolver = context.promise()?;
                let cap = resolver.cap().into_cap(context.session())?;
                self.promises.push(resolver)?;
                outcome_of(alloc, results.cap(cap))
            }
            RING => {
                context.wake_after(HOUR)?;
                outcome_of(alloc, Ok(results))
            }
            _ => outcome_of(alloc, results.word(self.kept)),
        }
    }

    /// What is given up with an answer: all but what is kept.
    fn given_up(
        &mut self,
        alloc: Global,
        method: u16,
        caps: &Caps,
    ) -> Result<Ids, AllocError> {
        if method == KEEP {
            self.kept += 1;
            return Ok(Ids::new(Vec::new(alloc)));
        }
        named_imports(alloc, caps)
    }
}

impl ServedObject for Thing {
    type Makes = Thing;

    fn call(
        &mut self,
        ticket: u64,
        request: RequestView<'_>,
        context: &mut Context<Thing>,
    ) -> Result<Reply, AllocError> {
        let method = request.method;
        let gives_up = self.given_up(context.alloc(), method, &request.caps)?;
        if method == LATER {
            let later = context.later(ticket, gives_up)?;
            self.calls.push(later)?;
            return Ok(Reply::Later);
        }
        let outcome = self.results(method, context)?;
        Ok(Reply::Now { outcome, gives_up })
    }

    fn poll(&mut self, _context: &mut Context<Thing>) -> Result<Option<Settled>, AllocError> {
        Ok(None)
    }

    fn has_more(&self) -> bool {
        false
    }

    fn next_call(
        &mut self,
        _context: &mut Context<Thing>,
    ) -> Result<Option<OutgoingCall>, AllocError> {
        Ok(None)
    }

    fn on_response(
        &mut self,
        _call_id: u64,
        outcome: Outcome,
        _context: &mut Context<Thing>,
    ) -> Result<(), AllocError> {
        drop(outcome);
        Ok(())
    }

    /// The one that came last is given up here.
    fn on_cancel(&mut self, ticket: u64, _context: &mut Context<Thing>) -> Result<(), AllocError> {
        match self.calls.last() {
            Some(call) if call.ticket() == ticket => drop(self.calls.pop()),
            _ => {}
        }
        Ok(())
    }
}

/// Two sessions, each of which gets what the other sends.
#[derive(Drop)]
struct Ends {
    alloc: Global,
    client: SessionOver<Objects<Thing>>,
    server: SessionOver<Objects<Thing>>,
    now: u64,
}

impl Ends {
    fn new(alloc: Global) -> anyhow::Result<Ends> {
        Ok(Ends {
            alloc,
            client: SessionOver::new(alloc, &options(), one(alloc)?, 0),
            server: SessionOver::begin(alloc, &options(), 1, one(alloc)?, 0),
            now: 0,
        })
    }

    /// All bytes go over, both ways, until none is left.
    fn run(&mut self) -> anyhow::Result<()> {
        self.now += 1;
        for _ in 0..u64::MAX {
            let went = carry(&mut self.client, &mut self.server, self.now, self.alloc)?;
            let came = carry(&mut self.server, &mut self.client, self.now, self.alloc)?;
            if !went && !came {
                break;
            }
        }
        Ok(())
    }

    /// Calls a capability of the server.
    fn call(&mut self, cap: Cap, method: u16, gives: Cap) -> anyhow::Result<u32> {
        let params = PayloadBuilder::new(self.alloc).cap(gives)?;
        let question = self.client.call(cap, params.request(1, method))?;
        self.run()?;
        Ok(question)
    }

    /// What the next question comes to, which is finished: the import that it names.
    fn take(&mut self) -> anyhow::Result<u32> {
        self.run()?;
        match self.client.poll_event() {
            Some(SessionEvent::Outcome { question, outcome }) => {
                let import = match &outcome {
                    Outcome::Results { caps, .. } => Some(first_import(caps)),
                    _ => None,
                };
                drop(outcome);
                self.client.finish(question)?;
                self.run()?;
                import.ok_or(anyhow!("a call failed"))
            }
            other => {
                drop(other);
                Err(anyhow!("no outcome came"))
            }
        }
    }

    /// A call and its results.
    fn ask(&mut self, object: u32, method: u16, gives: Cap) -> anyhow::Result<u32> {
        let _ = self.call(Cap::Import(object), method, gives)?;
        self.take()
    }

    /// Opens things of a kind.
    fn open(&mut self, object: u32, kind: &str, count: u64) -> anyhow::Result<()> {
        let mut first = None;
        for _ in 0..count {
            match kind {
                "later" | "cancel" => {
                    let _ = self.call(Cap::Import(object), LATER, Cap::None)?;
                }
                "objects" => {
                    let _ = self.ask(object, MAKE, Cap::None)?;
                }
                "promises" => {
                    let _ = self.ask(object, PROMISE, Cap::None)?;
                }
                "watchers" => {
                    let _ = self.ask(object, KEEP, Cap::Object(0))?;
                }
                "timers" => {
                    let made = self.ask(object, MAKE, Cap::None)?;
                    let _ = self.ask(made, RING, Cap::None)?;
                }
                "results" => {
                    let _ = self.call(Cap::Import(object), NOW, Cap::None)?;
                    drop(self.client.poll_event());
                }
                "pipelined" => match first {
                    None => first = Some(self.call(Cap::Import(object), LATER, Cap::None)?),
                    Some(question) => {
                        let path = Path::new(Vec::from_array(self.alloc, [0])?);
                        let _ = self.call(Cap::Pipelined(question, path), NOW, Cap::None)?;
                    }
                },
                _ => return Err(anyhow!("no such kind")),
            }
        }
        Ok(())
    }

    /// One event: a call with its results, or one that is given up.
    fn event(&mut self, object: u32, kind: &str) -> anyhow::Result<()> {
        if kind == "cancel" {
            let question = self.call(Cap::Import(object), LATER, Cap::None)?;
            self.client.finish(question)?;
            return self.run();
        }
        let _ = self.ask(object, NOW, Cap::None)?;
        Ok(())
    }
}

fn one(alloc: Global) -> anyhow::Result<Objects<Thing>> {
    let mut objects = Objects::new(alloc);
    drop(objects.add(Thing::new(alloc))?);
    Ok(objects)
}

fn options() -> SessionOptions {
    SessionOptions {
        mode: Mode::Plain,
        messages: Limits::standard(),
        bootstrap: Some(0),
        may_call: true,
        releases_idle: false,
        limits: SessionLimits::standard(),
    }
}

/// All bytes that one session sends come to the other. Says whether there were any.
fn carry(
    from: &mut SessionOver<Objects<Thing>>,
    to: &mut SessionOver<Objects<Thing>>,
    now: u64,
    alloc: Global,
) -> anyhow::Result<bool> {
    let bytes = from.outgoing().to_vec(alloc)?;
    from.wrote(bytes.len(), now);
    let mut left = bytes.as_slice();
    for _ in 0..bytes.len() {
        if left.is_empty() {
            break;
        }
        let count = to.receive(left, now)?;
        left = left.get(count..).unwrap_or(&[]);
    }
    for _ in 0..u64::MAX {
        if !to.has_more() {
            break;
        }
        to.poll(now)?;
    }
    Ok(!bytes.is_empty())
}

fn first_import(caps: &Caps) -> u32 {
    match caps.caps().first() {
        Some(Cap::Import(import)) => *import,
        _ => 0,
    }
}

fn main(rt: HostRuntime) -> anyhow::Result<()> {
    let words: Vec<String> = env::args(&rt)?.collect(rt.alloc())?;
    let [_, kind, count, events] = words.as_slice() else {
        return Err(anyhow!("usage: crowd KIND COUNT EVENTS"));
    };
    let count = count.as_str().parse::<u64>()?;
    let events = events.as_str().parse::<u64>()?;
    let mut ends = Ends::new(rt.alloc())?;
    let _ = ends.client.bootstrap()?;
    let object = ends.take()?;
    ends.open(object, kind.as_str(), count)?;
    let start = Instant::now(&rt)?;
    for _ in 0..events {
        ends.event(object, kind.as_str())?;
    }
    let took = start.elapsed(&rt)?;
    drop(ends);
    println!(rt; "{}", took.as_nanos().checked_div(events as u128).unwrap_or(0))?;
    Ok(())
}
