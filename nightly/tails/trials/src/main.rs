//! Tail calls and null capabilities with peers of other libraries: `trials call PORT TRIAL..` and `trials serve PORT COUNT`.
#![tactic(auto)]

use anyhow::anyhow;
use cp_builder::BuildError;
use cp_client::{Client, Question, word_at};
use cp_frame::Mode;
use cp_objects::{Objects, ServantObject};
use cp_refs::{Cap, Outcome, Request};
use cp_servants::{OutgoingCall, Cell, PayloadBuilder, Reply, Servant, Settled, no_such_method, outcome_of};
use cp_vat_machine::Ids;
use cp_words::Limits;
use std::alloc::{AllocError, Global};
use std::env;
use std::io::{Read, Write};
use std::net::{Ipv4Addr, SocketAddr, TcpListener, TcpStream};

const CELL: u64 = 0xe5a1_0000_0000_0002;

const MAKER: u64 = 0xe5a1_0000_0000_00c1;

const TAILS: u64 = 0xe5a1_0000_0000_00c2;

/// Makes cells, gives back what it is given, holds, asks and gives it, and has a maker make it a cell.
#[derive(Drop)]
struct Keeper {
    alloc: Global,
    held: Cap,
    asks: Vec<OutgoingCall>,
    answers: Vec<Settled>,
}

impl Keeper {
    fn none(&self) -> Ids {
        Ids::new(Vec::new(self.alloc))
    }

    fn now(&self, results: Result<PayloadBuilder, BuildError>) -> Result<Reply, AllocError> {
        Ok(Reply::Now {
            outcome: outcome_of(self.alloc, results)?,
            gives_up: self.none(),
        })
    }

    fn asked(&mut self, call_id: u64, cap: Cap, request: Request) -> Result<Reply, AllocError> {
        self.asks.push(OutgoingCall { cap, request, call_id })?;
        Ok(Reply::Later)
    }
}

fn first_of(alloc: Global, request: &Request) -> Result<Cap, AllocError> {
    match request.caps.caps().get(0) {
        Some(cap) => cap.copy(alloc),
        None => Ok(Cap::None),
    }
}

impl Servant for Keeper {
    fn call(&mut self, ticket: u64, request: Request) -> Result<Reply, AllocError> {
        let content = PayloadBuilder::new(self.alloc);
        let get = PayloadBuilder::new(self.alloc).request(CELL, 1);
        let first = first_of(self.alloc, &request)?;
        match (request.interface, request.method) {
            (MAKER, 0) => self.now(content.cap(Cap::Object(1))),
            (MAKER, 1) => self.now(content.cap(first)),
            (TAILS, 1) => self.asked(ticket, first, content.request(MAKER, 0)),
            (TAILS, 4) => self.asked(ticket, first, get),
            (TAILS, 5) => {
                self.held = first;
                self.now(Ok(content))
            }
            (TAILS, 6) => {
                let held = self.held.copy(self.alloc)?;
                self.asked(ticket, held, get)
            }
            (TAILS, 7) => {
                let held = self.held.copy(self.alloc)?;
                self.now(content.cap(held))
            }
            _ => Ok(Reply::Now {
                outcome: no_such_method(self.alloc)?,
                gives_up: self.none(),
            }),
        }
    }

    fn poll(&mut self) -> Result<Option<Settled>, AllocError> {
        Ok(self.answers.pop())
    }

    fn has_more(&self) -> bool {
        !self.answers.is_empty()
    }

    fn next_call(&mut self) -> Result<Option<OutgoingCall>, AllocError> {
        Ok(self.asks.pop())
    }

    fn on_response(&mut self, call_id: u64, outcome: Outcome) -> Result<(), AllocError> {
        let gives_up = self.none();
        self.answers.push(Settled {
            ticket: call_id,
            outcome,
            gives_up,
        })?;
        Ok(())
    }
}

fn new_keeper(alloc: Global) -> Keeper {
    Keeper {
        alloc,
        held: Cap::None,
        asks: Vec::new(alloc),
        answers: Vec::new(alloc),
    }
}

fn first_word(outcome: &Outcome) -> Option<u64> {
    word_at(outcome, 0)
}

/// The number that has these decimal digits.
fn number_of(digits: &[u64]) -> u64 {
    let mut number = 0u64;
    for digit in digits {
        number = number.wrapping_mul(10).wrapping_add(*digit);
    }
    number
}

/// Why an outcome has no results.
fn fault_of(outcome: Outcome) -> anyhow::Error {
    match outcome {
        Outcome::Failed(exception) => anyhow!("{exception}"),
        other => {
            drop(other);
            anyhow!("canceled")
        }
    }
}

#[derive(Drop)]
struct Peer<'a, R, W> {
    alloc: Global,
    client: &'a mut Client<R, W, ServantObject<Box<dyn Servant>>>,
    trial: Question,
}

impl<'a, R: Read + Drop, W: Write + Drop> Peer<'a, R, W> {
    fn content(&self) -> PayloadBuilder {
        PayloadBuilder::new(self.alloc)
    }

    fn call(&mut self, request: Request) -> anyhow::Result<Question> {
        Ok(self.client.call(self.trial.cap(self.alloc), request)?)
    }

    fn outcome(&mut self, question: Question) -> anyhow::Result<Outcome> {
        Ok(self.client.wait(question)?)
    }

    fn word(&mut self, question: Question) -> anyhow::Result<u64> {
        let outcome = self.outcome(question)?;
        match first_word(&outcome) {
            Some(word) => {
                drop(outcome);
                Ok(word)
            }
            None => Err(fault_of(outcome)),
        }
    }

    fn get(&mut self, cap: Cap) -> anyhow::Result<u64> {
        let request = self.content().request(CELL, 1);
        let asked = self.client.call(cap, request)?;
        self.word(asked)
    }

    fn add(&mut self, cap: Cap, amount: u64) -> anyhow::Result<Question> {
        let request = self.content().word(amount)?.request(CELL, 0);
        Ok(self.client.call(cap, request)?)
    }

    /// Whether the connection lives: the server asks the client's Cell.
    fn lives(&mut self) -> anyhow::Result<u64> {
        let asked = self.call(self.content().cap(Cap::Object(1))?.request(TAILS, 4))?;
        self.word(asked)
    }

    /// A promise of the server's that comes to the client's Cell and was called before.
    fn reflects(&mut self) -> anyhow::Result<u64> {
        let asked = self.call(
            self.content()
                .word(50)?
                .cap(Cap::Object(1))?
                .request(TAILS, 3),
        )?;
        let cell = asked.at(self.alloc, &[0])?;
        self.get(cell)
    }

    /// The same, called thrice before and thrice after.
    fn order(&mut self) -> anyhow::Result<u64> {
        let asked = self.call(
            self.content()
                .word(50)?
                .cap(Cap::Object(1))?
                .request(TAILS, 3),
        )?;
        let one = self.add(asked.at(self.alloc, &[0])?, 1)?;
        let two = self.add(asked.at(self.alloc, &[0])?, 1)?;
        let promise = self.outcome(asked)?.at(self.alloc, &[0])?;
        let three = self.add(promise.copy(self.alloc)?, 1)?;
        let later = self.call(self.content().word(200)?.request(TAILS, 8))?;
        let _ = self.word(later)?;
        let four = self.add(promise, 1)?;
        let (four, three, two, one) = (
            self.word(four)?,
            self.word(three)?,
            self.word(two)?,
            self.word(one)?,
        );
        Ok(number_of(&[one, two, three, four]))
    }

    /// An author's tail call.
    fn count(&mut self) -> anyhow::Result<u64> {
        let asked = self.call(self.content().cap(Cap::Object(1))?.request(TAILS, 0))?;
        self.word(asked)
    }

    /// An author's tail call that fails.
    fn fails(&mut self) -> anyhow::Result<u64> {
        let asked = self.call(self.content().cap(Cap::Object(0))?.request(TAILS, 0))?;
        self.word(asked)
    }

    /// An author's tail call whose results are the client's Cell, called at once.
    fn made(&mut self) -> anyhow::Result<u64> {
        let asked = self.call(self.content().cap(Cap::Object(0))?.request(TAILS, 1))?;
        let first = self.add(asked.at(self.alloc, &[0])?, 1)?;
        let given = self.outcome(asked)?.at(self.alloc, &[0])?;
        let second = self.add(asked.at(self.alloc, &[0])?, 1)?;
        let (second, first) = (self.word(second)?, self.word(first)?);
        let third = self.get(given)?;
        self.client.finish(asked)?;
        Ok(number_of(&[first, second, third]))
    }

    /// An author's tail call whose results are the server's Cell, which is released.
    fn passed(&mut self) -> anyhow::Result<u64> {
        let asked = self.call(self.content().cap(Cap::Object(0))?.request(TAILS, 2))?;
        let given = self.outcome(asked)?.at(self.alloc, &[0])?;
        let value = self.get(given.copy(self.alloc)?)?;
        self.client.finish(asked)?;
        let _ = self.lives()?;
        let Cap::Import(import) = given else {
            return Err(anyhow!("no import"));
        };
        self.client.release(import)?;
        Ok(value)
    }

    /// The same, where the question is given up at once.
    fn given_up(&mut self) -> anyhow::Result<u64> {
        let asked = self.call(self.content().cap(Cap::Object(0))?.request(TAILS, 2))?;
        self.client.finish(asked)?;
        self.lives()
    }

    /// A result of the server's that turns out to be the client's Cell, and was called before.
    fn given(&mut self) -> anyhow::Result<u64> {
        let held = self.call(self.content().cap(Cap::Object(1))?.request(TAILS, 5))?;
        let asked = self.call(self.content().request(TAILS, 7))?;
        let first = self.add(asked.at(self.alloc, &[0])?, 1)?;
        let _ = self.outcome(held)?;
        let _ = self.outcome(asked)?;
        let second = self.add(asked.at(self.alloc, &[0])?, 1)?;
        let (second, first) = (self.word(second)?, self.word(first)?);
        Ok(number_of(&[first, second]))
    }

    fn fails_at(&mut self, question: Question) -> anyhow::Result<u64> {
        match self.outcome(question)? {
            Outcome::Failed(_) => Ok(0),
            _ => Err(anyhow!("it didn't fail")),
        }
    }

    /// A promise of the server's that comes to nothing and was called before.
    fn nothing(&mut self) -> anyhow::Result<u64> {
        let asked = self.call(self.content().word(50)?.cap(Cap::None)?.request(TAILS, 3))?;
        let cell = asked.at(self.alloc, &[0])?;
        let get = self.content().request(CELL, 1);
        let called = self.client.call(cell, get)?;
        self.fails_at(called)
    }

    /// A null capability in params, and in results.
    fn nulls(&mut self) -> anyhow::Result<u64> {
        let asked = self.call(self.content().cap(Cap::None)?.request(TAILS, 4))?;
        let _ = self.fails_at(asked)?;
        let held = self.call(self.content().cap(Cap::None)?.request(TAILS, 5))?;
        let _ = self.outcome(held)?;
        let given = self.call(self.content().request(TAILS, 7))?;
        match self.outcome(given)?.at(self.alloc, &[0])? {
            Cap::None => Ok(0),
            _ => Err(anyhow!("a capability")),
        }
    }

    fn run(&mut self, trial: &str) -> anyhow::Result<u64> {
        match trial {
            "reflects" => self.reflects(),
            "order" => self.order(),
            "count" => self.count(),
            "fails" => self.fails(),
            "made" => self.made(),
            "passed" => self.passed(),
            "given_up" => self.given_up(),
            "given" => self.given(),
            "nothing" => self.nothing(),
            "nulls" => self.nulls(),
            _ => Err(anyhow!("no such trial")),
        }
    }
}

fn export<R: Read + Drop, W: Write + Drop>(
    alloc: Global,
    client: &mut Client<R, W, ServantObject<Box<dyn Servant>>>,
) -> anyhow::Result<()> {
    let keeper: Box<dyn Servant> = Box::new(alloc, new_keeper(alloc))?;
    client.export(ServantObject::new(keeper))?;
    let cell: Box<dyn Servant> = Box::new(alloc, Cell::new(alloc))?;
    client.export(ServantObject::new(cell))?;
    Ok(())
}

fn came_of(rt: &HostRuntime, port: u16, trial: &str) -> anyhow::Result<()> {
    let alloc = rt.alloc();
    let address = SocketAddr::from((Ipv4Addr::LOCALHOST, port));
    let stream = TcpStream::connect(rt, address)?;
    stream.set_nodelay(true)?;
    let (mode, limits) = (Mode::Plain, Limits::standard());
    let mut client = Client::exporting(alloc, &stream, &stream, mode, limits);
    export(alloc, &mut client)?;
    let bootstrap = client.bootstrap();
    let mut peer = Peer {
        alloc,
        trial: bootstrap?,
        client: &mut client,
    };
    match peer.run(trial) {
        Ok(number) => println!(rt; "{trial}: {number}")?,
        Err(fault) => println!(rt; "{trial}: {fault}")?,
    }
    match peer.lives() {
        Ok(_) => println!(rt; "{trial} lives")?,
        Err(fault) => println!(rt; "{trial} ended: {fault}")?,
    }
    drop(peer);
    let _ = client.into_devices();
    Ok(())
}

fn serve(rt: &HostRuntime, port: u16, count: u64) -> anyhow::Result<()> {
    let alloc = rt.alloc();
    let listener = TcpListener::bind(rt, SocketAddr::from((Ipv4Addr::LOCALHOST, port)))?;
    for _ in 0..count {
        let (stream, _) = listener.accept()?;
        stream.set_nodelay(true)?;
        let (mode, limits) = (Mode::Plain, Limits::standard());
        let none = Objects::new(alloc);
        let mut client = Client::with_objects(alloc, &stream, &stream, mode, limits, none);
        export(alloc, &mut client)?;
        match client.serve() {
            Ok(()) => println!(rt; "served")?,
            Err(fault) => println!(rt; "served: {fault}")?,
        }
        if let Some(reason) = client.closed() {
            println!(rt; "closed: {reason}")?;
        }
        let _ = client.into_devices();
    }
    Ok(())
}

fn main(rt: HostRuntime) -> anyhow::Result<()> {
    let words: Vec<String> = env::args(&rt)?.collect(rt.alloc())?;
    let [_, what, port, trials @ ..] = words.as_slice() else {
        return Err(anyhow!("usage: trials call|serve PORT .."));
    };
    let port = port.as_str().parse::<u16>()?;
    if what.as_str() == "serve" {
        let [count] = trials else {
            return Err(anyhow!("usage: trials serve PORT COUNT"));
        };
        return serve(&rt, port, count.as_str().parse::<u64>()?);
    }
    for trial in trials {
        came_of(&rt, port, trial.as_str())?;
    }
    Ok(())
}
