//! Serves the store of tests/store/store.capnp on a path. The texts lie in Redis, so that several processes share them, and none is lost with
//! one. `store-shared PATH REDIS`, each the path of a Unix socket. Connections come by a proxy, which says whose each is.

use anyhow::anyhow;
use jamdrosek::host::{Host, HostConfig, HostEvent, Listener};
use jamdrosek::interfaces::{MethodFault, MethodResult, ServiceObject, failed};
use jamdrosek::server::{Context, Objects};
use std::alloc::Global;
use std::env;
use std::io::{self, ErrorKind, Read, Write};
use std::os::unix::net::UnixStream;
use std::rc::Rc;
use std::time::Duration;
use store::{StoreDispatch, StoreGetCall, StorePutCall, StoreServer};

/// A connection with Redis, by its protocol (RESP2). A call of it waits for the answer, and so do all that this process serves: an answer of a
/// Redis beside it takes some 50 microseconds.
#[derive(Drop)]
pub struct Redis {
    alloc: Global,
    stream: UnixStream,
}

/// What Redis answers with.
#[derive(Drop)]
enum Reply {
    Done,
    Nothing,
    Text(String),
    Refused,
}

impl Redis {
    /// Sends a command of these words, and waits for the answer.
    fn ask(&self, words: &[&str]) -> io::Result<Reply> {
        let mut command = format!(in self.alloc; "*{}\r\n", words.len())?;
        for word in words {
            command.push_str(format!(in self.alloc; "${}\r\n{word}\r\n", word.len())?.as_str())?;
        }
        let mut stream = &self.stream;
        stream.write_all(command.as_bytes())?;
        let mut answer = Vec::new(self.alloc);
        let mut piece = [0u8; 4_096];
        for _ in 0..u64::MAX {
            let count = stream.read(&mut piece)?;
            if count == 0 {
                break;
            }
            answer.extend_from_slice(&piece[..count])?;
            if let Some(reply) = reply_of(self.alloc, answer.as_slice())? {
                return Ok(reply);
            }
        }
        Err(io::Error::from(ErrorKind::UnexpectedEof))
    }
}

/// The answer that these bytes are, once they are whole.
fn reply_of(alloc: Global, bytes: &[u8]) -> io::Result<Option<Reply>> {
    let Ok(text) = std::str::from_utf8(bytes) else {
        // A character may not be whole yet.
        return Ok(None);
    };
    let Some((head, rest)) = text.split_once("\r\n") else {
        return Ok(None);
    };
    if head == "+OK" {
        return Ok(Some(Reply::Done));
    }
    if head == "$-1" {
        return Ok(Some(Reply::Nothing));
    }
    let Some(length) = head.strip_prefix('$') else {
        return Ok(Some(Reply::Refused));
    };
    let Ok(length) = length.parse::<usize>() else {
        return Ok(Some(Reply::Refused));
    };
    match rest.strip_suffix("\r\n") {
        Some(value) if value.len() == length => Ok(Some(Reply::Text(String::from_str(alloc, value)?))),
        _ => Ok(None),
    }
}

/// The texts by their keys, which all processes share.
#[derive(Drop)]
pub struct SharedShelf(Rc<Redis>);

impl SharedShelf {
    /// What Redis answers to a command. Where it doesn't, the call fails.
    fn ask(&self, alloc: Global, words: &[&str]) -> Result<Reply, MethodFault> {
        match self.0.ask(words) {
            Ok(reply) => Ok(reply),
            Err(_) => Err(MethodFault::from(failed(alloc, "the store of texts doesn't answer")?)),
        }
    }
}

impl ServiceObject for SharedShelf {
    type Makes = StoreDispatch<SharedShelf>;

    fn has_more(&self) -> bool {
        false
    }
}

impl StoreServer for SharedShelf {
    fn put(&mut self, call: &mut StorePutCall, context: &mut Context<Self::Makes>) -> MethodResult {
        let key = call.params.key()?.text(context.alloc())?;
        let value = call.params.value()?.text(context.alloc())?;
        match self.ask(context.alloc(), &["SET", key.as_str(), value.as_str()])? {
            Reply::Done => Ok(()),
            _ => Err(MethodFault::from(failed(context.alloc(), "the text wasn't kept")?)),
        }
    }

    fn get(&mut self, call: &mut StoreGetCall, context: &mut Context<Self::Makes>) -> MethodResult {
        let key = call.params.key()?.text(context.alloc())?;
        match self.ask(context.alloc(), &["GET", key.as_str()])? {
            Reply::Text(value) => Ok(call.results.set_value(value.as_str())?),
            Reply::Nothing => Ok(()),
            _ => Err(MethodFault::from(failed(context.alloc(), "the text can't be read")?)),
        }
    }
}

pub fn run(rt: &HostRuntime) -> anyhow::Result<()> {
    let mut words = env::args(rt)?;
    let path = words.nth(2).ok_or_else(|| anyhow!("store-shared PATH REDIS"))?;
    let redis = words.next().ok_or_else(|| anyhow!("store-shared PATH REDIS"))?;
    let stream = UnixStream::connect(rt, redis.as_str())?;
    stream.set_read_timeout(Some(Duration::from_secs(1)))?;
    let alloc = rt.alloc();
    let redis = Rc::new(alloc, Redis { alloc, stream })?;
    let listener = Listener::bind_path(rt, path.as_str())?.behind_proxy();
    let mut host = Host::new(rt, HostConfig::standard(), listener)?;
    for _ in 0..u64::MAX {
        if let Some(HostEvent::Connected { .. }) = host.next(rt)? {
            let mut objects = Objects::new(alloc);
            objects.add(StoreDispatch::new(SharedShelf(redis.clone()?)))?;
            host.admit(objects)?;
        }
    }
    Ok(())
}
