//! Serves a Trial of ../../../callees/trial.capnp to each client, or to so many: `serving PORT [COUNT]`. Its Cells are made in calls and dropped, its
//! promises come to something in time, and it calls what it is given. At the end of each connection it says why that ended.
#![tactic(auto)]

mod cell;
mod later;
mod trial;

use crate::cell::Cell;
use crate::trial::Trial;
use anyhow::anyhow;
use cp_objects::{Either, Objects};
use net_host::{Host, HostConfig, HostEvent};
use net_sockets::Listener;
use std::alloc::Global;
use std::env;
use std::net::{Ipv4Addr, SocketAddr};

/// The objects of a connection: its Trial, and the Cells that this made.
type Served = Either<Trial, Cell>;

fn main(rt: HostRuntime) -> anyhow::Result<()> {
    let words: Vec<String> = env::args(&rt)?.collect(rt.alloc())?;
    let mut plan = HostConfig::standard();
    let port = match words.as_slice() {
        [_, port] => port,
        [_, port, count] => {
            plan.count = Some(count.as_str().parse::<u64>()?);
            port
        }
        _ => return Err(anyhow!("usage: serving PORT [COUNT]")),
    };
    serve(&rt, plan, port.as_str().parse::<u16>()?)
}

fn serve(rt: &HostRuntime, plan: HostConfig, port: u16) -> anyhow::Result<()> {
    let listener = Listener::bind(rt, SocketAddr::from((Ipv4Addr::LOCALHOST, port)))?;
    let mut host = Host::new(rt, plan, listener)?;
    for _ in 0..u64::MAX {
        match host.next(rt)? {
            Some(HostEvent::Connected { .. }) => {
                host.admit(new_objects(rt.alloc())?)?;
            }
            Some(HostEvent::Ended { number, end, .. }) => println!(rt; "{number} ended: {end}")?,
            Some(HostEvent::Refused { .. }) => println!(rt; "one more was refused")?,
            Some(HostEvent::Woken) => (),
            None => break,
        }
    }
    Ok(())
}

fn new_objects(alloc: Global) -> anyhow::Result<Objects<Served>> {
    let mut objects = Objects::new(alloc);
    objects.add(Served::Left(Trial::new(alloc)?))?;
    Ok(objects)
}
