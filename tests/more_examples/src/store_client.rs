//! Puts a text into the store that `store_server` serves, and gets it back, in one round trip.

use jamdrosek::client::{Client, ConnectOptions, DuplexStream};
use jamdrosek::{Limits, Mode};
use store::StoreClient;

pub fn run(rt: &HostRuntime) -> anyhow::Result<()> {
    let alloc = rt.alloc();
    let stream = DuplexStream::connect(rt, "127.0.0.1:7001", &ConnectOptions::standard())?;
    let mut client = Client::new(alloc, &stream, &stream, Mode::Plain, Limits::standard());
    let root = client.bootstrap()?.cap(alloc);
    let store = StoreClient::new(alloc, client.own(root));
    store.put(&mut client, "colour", "blue")?;
    let got = store.get(&mut client, "colour")?;
    let results = client.results(got.question())?;
    println!(rt; "{}", got.results(&results)?.value()?.text(alloc)?.as_str())?;
    Ok(())
}
