//! Two vats that talk in memory. The client asks for the server's object and calls what that will be, before it is known.

use jamdrosek::client::{Cap, PayloadBuilder, Path, word_at, word_in};
use jamdrosek::vat::{Effect, Vat};
use std::alloc::Global;

pub fn run(rt: &HostRuntime) -> anyhow::Result<()> {
    let mut client = Vat::new(rt.alloc(), None);
    let mut server = Vat::new(rt.alloc(), Some(0));
    add(rt, &mut client, &mut server)
}

/// Calls the server's object, and prints what the client is told.
fn add(rt: &HostRuntime, client: &mut Vat, server: &mut Vat) -> anyhow::Result<()> {
    let alloc = rt.alloc();
    let asked = client.bootstrap()?;
    let object = Cap::Pipelined(asked.value, Path::new(Vec::new(alloc)));
    let params = PayloadBuilder::new(alloc).word(41)?;
    let called = client.call(object, params.request(0xe5a1_0000_0000_0002, 0))?;
    let mut effects = asked.effects.into_effects();
    effects.extend(called.effects.into_effects())?;
    let mut effects = deliver(alloc, effects, server)?;
    answer(alloc, &mut effects, server)?;
    let sum = sum_of(deliver(alloc, effects, client)?, called.value);
    println!(rt; "41 and one is {}", sum.unwrap_or(0))?;
    Ok(())
}

/// The number that the outcome of a question has, if it is among these effects.
fn sum_of(effects: Vec<Effect>, asked: u32) -> Option<u64> {
    let mut sum = None;
    for effect in effects {
        match effect {
            Effect::Settled { question, outcome } if question == asked => {
                sum = word_at(&outcome, 0);
            }
            _ => {}
        }
    }
    sum
}

/// Takes the messages among these effects to the other end, and gives its effects.
fn deliver(alloc: Global, effects: Vec<Effect>, to: &mut Vat) -> anyhow::Result<Vec<Effect>> {
    let mut came = Vec::new(alloc);
    for effect in effects {
        if let Effect::Send(message) = effect {
            came.extend(to.receive(message)?.effects.into_effects())?;
        }
    }
    Ok(came)
}

/// Answers the calls among these effects: the object adds one. What that leads to comes after them.
fn answer(alloc: Global, effects: &mut Vec<Effect>, vat: &mut Vat) -> anyhow::Result<()> {
    let mut after = Vec::new(alloc);
    for effect in effects.iter() {
        if let Effect::Deliver { origin, call, .. } = effect {
            let sum = word_in(&call.content, 0).saturating_add(1);
            let outcome = PayloadBuilder::new(alloc).word(sum)?.results();
            after.extend(vat.answer(*origin, outcome)?.effects.into_effects())?;
        }
    }
    Ok(effects.extend(after)?)
}
