//! Two ends of a connection, joined in memory by their bytes, one at a time. The client adds to the server's total before it is known.

use jamdrosek::client::{Cap, PayloadBuilder, Path, Request, word_at, word_in};
use jamdrosek::connection::{Connection, ConnectionEvent, Dispatcher};
use jamdrosek::server::{Ids, Reply, Servant, Settled, outcome_of};
use jamdrosek::{Limits, Mode};
use std::alloc::{AllocError, Global};

pub fn run(rt: &HostRuntime) -> anyhow::Result<()> {
    let mut client = Connection::new(rt.alloc(), Mode::Packed, Limits::standard(), None);
    let mut server = Connection::new(rt.alloc(), Mode::Packed, Limits::standard(), Some(0));
    add(rt, &mut client, &mut server)
}

/// Adds 41 to the total, and prints what the client is told.
fn add(rt: &HostRuntime, client: &mut Connection, server: &mut Connection) -> anyhow::Result<()> {
    let alloc = rt.alloc();
    let total = Cap::Pipelined(client.bootstrap()?, Path::new(Vec::new(alloc)));
    let params = PayloadBuilder::new(alloc).word(41)?;
    let asked = client.call(total, params.request(0xe5a1_0000_0000_0003, 0))?;
    carry(client, server)?;
    let mut objects = vec![in alloc; Total { alloc, number: 0 }]?;
    Dispatcher::new(alloc).work_off(server, &mut objects)?;
    carry(server, client)?;
    println!(rt; "the sum is {}", sum_of(client, asked).unwrap_or(0))?;
    Ok(())
}

/// The number that the outcome of a question has, if it came.
fn sum_of(client: &mut Connection, asked: u32) -> Option<u64> {
    let mut sum = None;
    for _ in 0..client.held().events {
        match client.next() {
            Some(ConnectionEvent::Settled { question, outcome }) if question == asked => {
                sum = word_at(&outcome, 0);
            }
            _ => {}
        }
    }
    sum
}

/// Carries what one end sends to the other.
fn carry(from: &mut Connection, to: &mut Connection) -> anyhow::Result<()> {
    for byte in from.outgoing() {
        to.receive(&[*byte])?;
    }
    from.wrote(from.outgoing().len());
    Ok(())
}

/// A total, to which each call adds a number. It answers with the new one.
#[derive(Drop)]
struct Total {
    alloc: Global,
    number: u64,
}

impl Servant for Total {
    fn call(&mut self, _ticket: u64, request: Request) -> Result<Reply, AllocError> {
        self.number = self.number.saturating_add(word_in(&request.content, 0));
        let results = PayloadBuilder::new(self.alloc).word(self.number);
        Ok(Reply::Now {
            outcome: outcome_of(self.alloc, results)?,
            gives_up: Ids::new(Vec::new(self.alloc)),
        })
    }

    fn poll(&mut self) -> Result<Option<Settled>, AllocError> {
        Ok(None)
    }

    fn has_more(&self) -> bool {
        false
    }
}
