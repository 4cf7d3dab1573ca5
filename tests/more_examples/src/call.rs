//! Puts a text into the store of the example `serve` and gets it back, in one round trip. What the server answers is in a file;
//! a socket may take its place.

use jamdrosek::client::Client;
use jamdrosek::{Limits, Mode};
use std::alloc::Global;
use std::fs::File;
use std::io::{self, Read, Write};
use store::StoreClient;

pub fn run(rt: &HostRuntime) -> anyhow::Result<()> {
    let alloc = rt.alloc();
    let answers = File::open(rt, "call.bin")?;
    let (mode, limits) = (Mode::Plain, Limits::standard());
    let mut client = Client::new(alloc, answers, io::sink(), mode, limits);
    let text = kept(alloc, &mut client);
    // This consumes the client, so that the prover needn't check its drop here.
    let _ = client.into_devices();
    println!(rt; "{}", text?.as_str())?;
    Ok(())
}

/// Puts a text and gets it back. Both calls are made before the store is known.
fn kept<R: Read + Drop, W: Write + Drop>(
    alloc: Global,
    client: &mut Client<R, W>,
) -> anyhow::Result<String> {
    let root = client.bootstrap()?.cap(alloc);
    let store = StoreClient::new(alloc, client.own(root));
    store.put(client, "colour", "blue")?;
    let got = store.get(client, "colour")?;
    let came = client.results(got.question())?;
    Ok(got.results(&came)?.value()?.text(alloc)?)
}
