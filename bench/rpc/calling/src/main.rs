//! Calls a server of a Desk and its Cell, or of a Blob, and prints the nanoseconds that a call took: `calling PORT MODE CALLS`, with the modes
//! `seq`, `window`, `pipeline` and `echo-N-W` of client.cpp. The status is 1 if what came isn't right. Where the last word is `plain` the client
//! is over a `TcpStream`.
#![tactic(auto)]

use anyhow::anyhow;
use cp_client::{Client, Question, request_of, word_at};
use cp_frame::Mode;
use cp_servants::{PayloadBuilder, data_in, results_of, word_in};
use cp_words::Limits;
use net_client::{ConnectOptions, DuplexStream};
use std::alloc::Global;
use std::collections::VecDeque;
use std::env;
use std::io::{Read, Write};
use std::net::{Ipv4Addr, SocketAddr, TcpStream};
use std::time::Instant;

const DESK: u64 = 0xe5a1_0000_0000_0001;

const CELL: u64 = 0xe5a1_0000_0000_0002;

const BLOB: u64 = 0xe5a1_0000_0000_0004;

const ECHO: u16 = 1;

/// The bytes of a MiB.
const MEBIBYTE: usize = 1_048_576;

/// How many calls are under way at a time in the mode `window`.
const WINDOW: u64 = 64;

/// The objects of a server.
#[derive(Drop)]
struct Peer<'a, R, W> {
    alloc: Global,
    client: &'a mut Client<R, W>,
    desk: Question,
    /// The Desk's first Cell.
    cell: Question,
}

impl<'a, R: Read + Drop, W: Write + Drop> Peer<'a, R, W> {
    /// Adds one to a Cell.
    fn add(&mut self, cell: Question) -> anyhow::Result<Question> {
        let request = request_of(self.alloc, CELL, 0, &[1])?;
        Ok(self.client.call(cell.at(self.alloc, &[0])?, request)?)
    }

    /// Asks the Desk for a Cell.
    fn now(&mut self) -> anyhow::Result<Question> {
        let request = request_of(self.alloc, DESK, 0, &[])?;
        Ok(self.client.call(self.desk.cap(self.alloc), request)?)
    }

    /// The number that a Cell answered.
    fn number(&mut self, question: Question) -> anyhow::Result<u64> {
        let outcome = self.client.wait(question)?;
        let number = word_at(&outcome, 0).unwrap_or(0);
        drop(outcome);
        self.client.finish(question)?;
        Ok(number)
    }

    /// One call after another.
    fn seq(&mut self, calls: u64) -> anyhow::Result<u64> {
        let mut last = 0;
        for _ in 0..calls {
            let asked = self.add(self.cell)?;
            last = self.number(asked)?;
        }
        Ok(last)
    }

    /// A window of calls under way at a time.
    fn window(&mut self, calls: u64) -> anyhow::Result<u64> {
        let mut last = 0;
        for _ in 0..calls.div_ceil(WINDOW) {
            let mut asked = Vec::new(self.alloc);
            for _ in 0..WINDOW {
                asked.push(self.add(self.cell)?)?;
            }
            for question in &asked {
                last = self.number(*question)?;
            }
        }
        Ok(last)
    }

    /// A Cell, and a call of what it will be, in one round trip; each counts as one call.
    fn pipeline(&mut self, calls: u64) -> anyhow::Result<u64> {
        let mut last = 0;
        for _ in 0..calls / 2 {
            let cell = self.now()?;
            let asked = self.add(cell)?;
            last = self.number(asked)?;
            self.let_go(cell)?;
        }
        Ok(last)
    }

    /// Gives a question for a Cell up. The Cell itself is held by the first one, until the end.
    fn let_go(&mut self, cell: Question) -> anyhow::Result<()> {
        drop(self.client.wait(cell)?);
        Ok(self.client.finish(cell)?)
    }

    /// Makes the calls of a mode, and gives the number that the Cell answered last.
    fn run(&mut self, mode: &str, calls: u64) -> anyhow::Result<u64> {
        match mode {
            "seq" => self.seq(calls),
            "window" => self.window(calls),
            "pipeline" => self.pipeline(calls),
            _ => Err(anyhow!("no such mode")),
        }
    }
}

/// Makes the calls of a mode after one that isn't counted, and gives the time that they took.
fn measure<R: Read + Drop, W: Write + Drop>(
    rt: &HostRuntime,
    client: &mut Client<R, W>,
    mode: &str,
    calls: u64,
) -> anyhow::Result<u128> {
    let alloc = rt.alloc();
    let desk = client.bootstrap()?;
    let cell = client.call(desk.cap(alloc), request_of(alloc, DESK, 0, &[])?)?;
    let mut peer = Peer {
        alloc,
        client,
        desk,
        cell,
    };
    let first = peer.add(cell)?;
    let before = peer.number(first)?;
    let start = Instant::now(rt)?;
    let last = peer.run(mode, calls)?;
    let took = start.elapsed(rt)?;
    let adds = if mode == "pipeline" { calls / 2 } else { calls };
    if last < before.saturating_add(adds) {
        return Err(anyhow!("the Cell answered {last}"));
    }
    Ok(took.as_nanos())
}

/// Calls of a Blob, of which so many are under way at a time, and whose params and results hold so many bytes.
#[derive(Drop)]
struct Echoes<'a, R, W> {
    alloc: Global,
    client: &'a mut Client<R, W>,
    blob: Question,
    bytes: Vec<u8>,
    under_way: VecDeque<Question>,
    /// How many were answered.
    answered: u64,
}

impl<'a, R: Read + Drop, W: Write + Drop> Echoes<'a, R, W> {
    fn run(&mut self, window: usize, calls: u64) -> anyhow::Result<()> {
        for number in 0..calls {
            if self.under_way.len() == window {
                self.end_oldest()?;
            }
            let params = PayloadBuilder::new(self.alloc).word(number)?.data(&self.bytes)?;
            let request = params.request(BLOB, ECHO);
            let question = self.client.call(self.blob.cap(self.alloc), request)?;
            self.under_way.push_back(question)?;
        }
        'ending: while !self.under_way.is_empty() {
            self.end_oldest()?;
        }
        Ok(())
    }

    fn end_oldest(&mut self) -> anyhow::Result<()> {
        let Some(question) = self.under_way.pop_front() else {
            return Ok(());
        };
        let outcome = self.client.wait(question)?;
        let is_right = match results_of(&outcome) {
            Some(content) => {
                word_in(content, 0) == self.answered
                    && data_in(content, 0).is_some_and(|bytes| bytes.len() == self.bytes.len())
            }
            None => false,
        };
        drop(outcome);
        self.client.finish(question)?;
        self.answered = self.answered.saturating_add(1);
        if is_right { Ok(()) } else { Err(anyhow!("other results came")) }
    }
}

/// Makes such calls, and gives the time that they took.
fn measure_echoes<R: Read + Drop, W: Write + Drop>(
    rt: &HostRuntime,
    client: &mut Client<R, W>,
    (mebibytes, window): (usize, usize),
    calls: u64,
) -> anyhow::Result<u128> {
    let alloc = rt.alloc();
    let blob = client.bootstrap()?;
    let mut echoes = Echoes {
        alloc,
        client,
        blob,
        bytes: vec![in alloc; 0x5a; mebibytes.saturating_mul(MEBIBYTE)]?,
        under_way: VecDeque::new(alloc),
        answered: 0,
    };
    let start = Instant::now(rt)?;
    echoes.run(window, calls)?;
    Ok(start.elapsed(rt)?.as_nanos())
}

/// How many MiB a call has, and how many calls are under way, in a mode `echo-N-W`.
fn echo_of(mode: &str) -> anyhow::Result<Option<(usize, usize)>> {
    let Some(rest) = mode.strip_prefix("echo-") else {
        return Ok(None);
    };
    let Some((mebibytes, window)) = rest.split_once('-') else {
        return Err(anyhow!("no such mode"));
    };
    Ok(Some((mebibytes.parse::<usize>()?, window.parse::<usize>()?)))
}

/// Makes the calls of a mode over a reader and a writer, and prints the nanoseconds that one took.
fn talk<R: Read + Drop, W: Write + Drop>(
    rt: &HostRuntime,
    (from, to): (R, W),
    mode: &str,
    calls: u64,
) -> anyhow::Result<()> {
    let mut client = Client::new(rt.alloc(), from, to, Mode::Plain, Limits::standard());
    let took = match echo_of(mode)? {
        Some(echo) => measure_echoes(rt, &mut client, echo, calls),
        None => measure(rt, &mut client, mode, calls),
    };
    let _ = client.into_devices();
    println!(rt; "{}", took?.checked_div(calls as u128).unwrap_or(0))?;
    Ok(())
}

fn main(rt: HostRuntime) -> anyhow::Result<()> {
    let words: Vec<String> = env::args(&rt)?.collect(rt.alloc())?;
    let (port, mode, calls, is_plain) = match words.as_slice() {
        [_, port, mode, calls] => (port, mode, calls, false),
        [_, port, mode, calls, last] if last.as_str() == "plain" => (port, mode, calls, true),
        _ => return Err(anyhow!("usage: calling PORT MODE CALLS [plain]")),
    };
    let calls = calls.as_str().parse::<u64>()?;
    let address = SocketAddr::from((Ipv4Addr::LOCALHOST, port.as_str().parse::<u16>()?));
    if is_plain {
        let stream = TcpStream::connect(&rt, address)?;
        stream.set_nodelay(true)?;
        return talk(&rt, (&stream, &stream), mode.as_str(), calls);
    }
    let address = format!(in rt.alloc(); "{address}")?;
    let stream = DuplexStream::connect(&rt, address.as_str(), &ConnectOptions::standard())?;
    talk(&rt, (&stream, &stream), mode.as_str(), calls)
}
