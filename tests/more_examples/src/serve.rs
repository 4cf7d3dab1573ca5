//! Serves the store of the example `store` by a `Servant`, which takes requests as they come, without the types of its schema.

use jamdrosek::client::{Request, text_in};
use jamdrosek::server::{PayloadBuilder, Ids, Reply, Servant, Settled, outcome_of, serve};
use jamdrosek::{Mode, Tap};
use std::alloc::{AllocError, Global};
use std::collections::BTreeMap;
use std::fs::File;
use std::io;

pub fn run(rt: &HostRuntime) -> anyhow::Result<()> {
    let alloc = rt.alloc();
    let texts = BTreeMap::new(alloc);
    let mut objects: Vec<Box<dyn Servant>> = Vec::new(alloc);
    objects.push(Box::new(alloc, Shelf { alloc, texts })?)?;
    let mut from = Tap::new(File::open(rt, "serve.bin")?);
    let mut to = Tap::new(io::writer(rt));
    serve(alloc, &mut from, &mut to, &mut objects, Mode::Plain)?;
    Ok(())
}

/// Texts by their keys.
#[derive(Drop)]
struct Shelf {
    alloc: Global,
    texts: BTreeMap<String, String>,
}

impl Servant for Shelf {
    fn call(&mut self, _ticket: u64, request: Request) -> Result<Reply, AllocError> {
        let key = String::from_str(self.alloc, text_in(&request.content, 0).unwrap_or(""))?;
        let mut results = Ok(PayloadBuilder::new(self.alloc));
        if request.method == 0 {
            let value = text_in(&request.content, 1).unwrap_or("");
            self.texts.insert(key, String::from_str(self.alloc, value)?)?;
        } else if let Some(value) = self.texts.get(&key) {
            results = PayloadBuilder::new(self.alloc).text(value.as_str());
        }
        Ok(Reply::Now {
            outcome: outcome_of(self.alloc, results)?,
            gives_up: Ids::new(Vec::new(self.alloc)),
        })
    }

    fn poll(&mut self) -> Result<Option<Settled>, AllocError> {
        Ok(None)
    }

    fn has_more(&self) -> bool {
        false
    }
}
