//! Calls a server over the reference library with objects of its own, which the server calls while this waits, and prints what came of each
//! trial: `answering PORT TRIAL..`, with the trials `tells`, `gives`, `asks`, `becomes` and `reflects`.
#![tactic(auto)]

use anyhow::anyhow;
use cp_client::{Client, ClientFault, Question, word_at};
use cp_frame::Mode;
use cp_objects::ServantObject;
use cp_refs::{Cap, Outcome, Request};
use cp_servants::{OutgoingCall, Cell, PayloadBuilder, Reply, Servant, Settled};
use cp_vat_machine::Ids;
use cp_words::Limits;
use std::alloc::{AllocError, Global};
use std::env;
use std::io::{Read, Write};
use std::net::{Ipv4Addr, SocketAddr, TcpStream};

const DESK: u64 = 0xe5a1_0000_0000_0001;

const CELL: u64 = 0xe5a1_0000_0000_0002;

const TRIAL: u64 = 0xe5a1_0000_0000_0003;

/// Answers each call with what a Cell of the peer's answers to it.
#[derive(Drop)]
struct Through {
    alloc: Global,
    /// The peer's Cell.
    import: u32,
    /// The calls that the Cell is to be asked next, by their tickets.
    asks: Vec<(u64, Request)>,
    answers: Vec<Settled>,
}

impl Servant for Through {
    fn call(&mut self, ticket: u64, request: Request) -> Result<Reply, AllocError> {
        self.asks.push((ticket, request))?;
        Ok(Reply::Later)
    }

    fn poll(&mut self) -> Result<Option<Settled>, AllocError> {
        Ok(self.answers.pop())
    }

    fn has_more(&self) -> bool {
        !self.answers.is_empty()
    }

    fn next_call(&mut self) -> Result<Option<OutgoingCall>, AllocError> {
        let Some((call_id, request)) = self.asks.pop() else {
            return Ok(None);
        };
        let cap = Cap::Import(self.import);
        Ok(Some(OutgoingCall { cap, request, call_id }))
    }

    fn on_response(&mut self, call_id: u64, outcome: Outcome) -> Result<(), AllocError> {
        self.answers.push(Settled {
            ticket: call_id,
            outcome,
            gives_up: Ids::new(Vec::new(self.alloc)),
        })?;
        Ok(())
    }
}

/// A server, and the objects that it may call.
#[derive(Drop)]
struct Peer<'a, R, W> {
    alloc: Global,
    client: &'a mut Client<R, W, ServantObject<Box<dyn Servant>>>,
    trial: Question,
}

impl<'a, R: Read + Drop, W: Write + Drop> Peer<'a, R, W> {
    fn content(&self) -> PayloadBuilder {
        PayloadBuilder::new(self.alloc)
    }

    fn export_cell(&mut self) -> anyhow::Result<Cap> {
        let cell: Box<dyn Servant> = Box::new(self.alloc, Cell::new(self.alloc))?;
        Ok(self.client.export(ServantObject::new(cell))?.into_cap(0)?)
    }

    fn call(&mut self, request: Request) -> anyhow::Result<Question> {
        Ok(self.client.call(self.trial.cap(self.alloc), request)?)
    }

    /// What came of a question, while the objects answer.
    fn outcome(&mut self, question: Question) -> Result<Outcome, ClientFault> {
        self.client.wait(question)
    }

    fn word(&mut self, question: Question) -> anyhow::Result<u64> {
        let outcome = self.outcome(question)?;
        match word_at(&outcome, 0) {
            Some(word) => Ok(word),
            None => Err(anyhow!("a call failed")),
        }
    }

    /// The number of what a question will give, before it came.
    fn held(&mut self, question: Question) -> anyhow::Result<u64> {
        let get = self.content().request(CELL, 1);
        let cell = question.at(self.alloc, &[0])?;
        let asked = self.client.call(cell, get)?;
        self.word(asked)
    }

    /// The server asks a Cell of the client's.
    fn tells(&mut self) -> anyhow::Result<u64> {
        let cell = self.export_cell()?;
        let asked = self.call(self.content().cap(cell)?.request(TRIAL, 3))?;
        self.word(asked)
    }

    /// The server adds to a Cell of the client's, twice, and gives Cells that hold what it answered.
    fn gives(&mut self) -> anyhow::Result<u64> {
        let _ = self.export_cell()?;
        let first = self.call(self.content().cap(Cap::Object(0))?.request(DESK, 0))?;
        let second = self.call(self.content().cap(Cap::Object(0))?.request(DESK, 0))?;
        let (last, before) = (self.held(second)?, self.held(first)?);
        Ok(last.saturating_mul(100).saturating_add(before))
    }

    /// The server adds to an object of the client's, which has the server's own Cell do it.
    fn asks(&mut self) -> anyhow::Result<u64> {
        let given = self.call(self.content().request(DESK, 0))?;
        let outcome = self.outcome(given)?;
        let Cap::Import(import) = outcome.at(self.alloc, &[0])? else {
            return Err(anyhow!("no Cell was given"));
        };
        let through = Through {
            alloc: self.alloc,
            import,
            asks: Vec::new(self.alloc),
            answers: Vec::new(self.alloc),
        };
        let through: Box<dyn Servant> = Box::new(self.alloc, through)?;
        let object = self.client.export(ServantObject::new(through))?.into_cap(0)?;
        let asked = self.call(self.content().cap(object)?.request(DESK, 0))?;
        let (last, own) = (self.held(asked)?, self.held(given)?);
        Ok(last.saturating_mul(100).saturating_add(own))
    }

    /// A promise of the server's that comes to a Cell of the client's. A call of it reaches that then, and not the server.
    fn becomes(&mut self) -> anyhow::Result<u64> {
        let cell = self.export_cell()?;
        let asked = self.call(self.content().word(50)?.cap(cell)?.request(TRIAL, 2))?;
        let promise = self.outcome(asked)?.at(self.alloc, &[0])?;
        let later = self.call(self.content().word(200)?.word(7)?.request(TRIAL, 1))?;
        let seven = self.word(later)?;
        let add = self.content().word(seven)?.request(CELL, 0);
        let added = self.client.call(promise, add)?;
        self.word(added)
    }

    /// The same, called before it came to that: the server sends the call back, with results to itself.
    fn reflects(&mut self) -> anyhow::Result<u64> {
        let cell = self.export_cell()?;
        let asked = self.call(self.content().word(50)?.cap(cell)?.request(TRIAL, 2))?;
        self.held(asked)
    }

    fn run(&mut self, trial: &str) -> anyhow::Result<u64> {
        match trial {
            "tells" => self.tells(),
            "gives" => self.gives(),
            "asks" => self.asks(),
            "becomes" => self.becomes(),
            "reflects" => self.reflects(),
            _ => Err(anyhow!("no such trial")),
        }
    }
}

/// What came of a trial, over a connection of its own.
fn came_of(rt: &HostRuntime, port: u16, trial: &str) -> anyhow::Result<u64> {
    let alloc = rt.alloc();
    let address = SocketAddr::from((Ipv4Addr::LOCALHOST, port));
    let stream = TcpStream::connect(rt, address)?;
    stream.set_nodelay(true)?;
    let (mode, limits) = (Mode::Plain, Limits::standard());
    let mut client = Client::exporting(alloc, &stream, &stream, mode, limits);
    let bootstrap = client.bootstrap();
    let mut peer = Peer {
        alloc,
        trial: bootstrap?,
        client: &mut client,
    };
    let came = peer.run(trial);
    drop(peer);
    let _ = client.into_devices();
    came
}

fn main(rt: HostRuntime) -> anyhow::Result<()> {
    let words: Vec<String> = env::args(&rt)?.collect(rt.alloc())?;
    let [_, port, trials @ ..] = words.as_slice() else {
        return Err(anyhow!("usage: answering PORT TRIAL.."));
    };
    let port = port.as_str().parse::<u16>()?;
    for trial in trials {
        match came_of(&rt, port, trial.as_str()) {
            Ok(number) => println!(rt; "{}: {number}", trial.as_str())?,
            Err(fault) => println!(rt; "{}: {fault}", trial.as_str())?,
        }
    }
    Ok(())
}
