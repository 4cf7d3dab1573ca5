//! Passes all calls of its clients on to another server over TCP, such as the directory of `directory_server`: what they name is named there, and
//! what comes back is theirs. `gateway PORT SERVER`, each a port of 127.0.0.1.

use crate::directory_server::Served;
use anyhow::anyhow;
use jamdrosek::host::{Host, HostConfig, HostEvent, Listener};
use jamdrosek::server::{Objects, SharedCap};
use std::alloc::Global;
use std::net::{Ipv4Addr, SocketAddr};
use std::{env, mem};

/// How long it waits until it connects again, in milliseconds.
const PAUSE: u64 = 1_000;

pub fn run(rt: &HostRuntime) -> anyhow::Result<()> {
    let listener = Listener::bind(rt, address(rt, 2)?)?;
    let mut host = Host::new(rt, HostConfig::standard(), listener)?;
    let server = address(rt, 3)?;
    let (mut upstream, mut target) = host.connect(rt, server, Objects::new(rt.alloc()))?;
    for _ in 0..u64::MAX {
        match host.next(rt)? {
            Some(HostEvent::Connected { .. }) => host.admit(passing_to(rt.alloc(), &target)?)?,
            Some(HostEvent::Ended { number, .. }) if number == upstream => host.wake_after(rt, PAUSE)?,
            // Clients that have come keep what the old connection gave them, which fails; those that come get the new one.
            Some(HostEvent::Woken) => {
                let (number, again) = host.connect(rt, server, Objects::new(rt.alloc()))?;
                upstream = number;
                drop(mem::replace(&mut target, again));
            }
            Some(_) => {}
            None => break,
        }
    }
    Ok(())
}

/// The address that the word at this place names.
fn address(rt: &HostRuntime, place: usize) -> anyhow::Result<SocketAddr> {
    let word = env::args(rt)?.nth(place).ok_or_else(|| anyhow!("gateway PORT SERVER"))?;
    let port: u16 = word.as_str().parse()?;
    Ok(SocketAddr::from((Ipv4Addr::LOCALHOST, port)))
}

/// The objects of a connection whose calls all go to another one's.
fn passing_to(alloc: Global, target: &SharedCap) -> anyhow::Result<Objects<Served>> {
    let mut objects = Objects::new(alloc);
    objects.add_shared(target)?;
    Ok(objects)
}
