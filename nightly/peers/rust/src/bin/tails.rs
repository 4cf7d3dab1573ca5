//! A client by the Rust library of ../../../../tails/trials, which does what ../../../../tails/client.cpp does.
//! Usage: tails PORT TRIAL.., each trial over a connection of its own
use async_io::Timer;
use capnp::capability::Promise;
use capnp::{Error, Result};
use futures::channel::oneshot;
use futures::executor::LocalPool;
use peers::*;
use std::time::Duration;

async fn pause() {
    Timer::after(Duration::from_millis(30)).await;
}

async fn cell(host: &Remote) -> Result<Remote> {
    given(host.call(tails::MAKE, &[], None)).await
}

async fn get(cell: &Remote) -> Result<u64> {
    number(cell.call(GET, &[], None)).await
}

fn cell_here() -> Remote {
    Remote::of(Cell { held: 101 })
}

/// A promise of this end's, and what it is to come to.
fn later() -> (oneshot::Sender<Remote>, Remote) {
    let (fulfiller, comes) = oneshot::channel();
    let promise = Remote::promise(async { comes.await.map_err(|_| Error::failed("it came to nothing".into())) });
    (fulfiller, promise)
}

/// A Cell that asks another one by a tail call.
struct Through(Remote);

impl Object for Through {
    fn call(&mut self, method: Method, _params: Params, results: Results) -> Promise<(), Error> {
        self.0.answer(results, method, &[], None)
    }
}

/// Gives the Cell that a promise comes to, once it came.
struct ServedObject(Remote);

impl Object for ServedObject {
    fn call(&mut self, _method: Method, _params: Params, mut results: Results) -> Promise<(), Error> {
        let cell = self.0.clone();
        Promise::from_future(async move {
            cell.resolved().await?;
            results.get().init_as::<Draft<0, 1>>().set_cap(&cell);
            Ok(())
        })
    }
}

async fn promise(host: &Remote) -> Result<Vec<u64>> {
    let (fulfiller, comes) = later();
    let answer = host.call(tails::ASKS, &[], Some(&comes));
    let own = cell(host).await?;
    pause().await;
    let _ = fulfiller.send(own);
    Ok(vec![number(answer).await?])
}

async fn held(host: &Remote) -> Result<Vec<u64>> {
    let (fulfiller, comes) = later();
    host.call(tails::HOLD, &[], Some(&comes)).promise.await?;
    let (first, second) = (host.call(tails::HELD, &[], None), host.call(tails::HELD, &[], None));
    let own = cell(host).await?;
    number(own.call(ADD, &[7], None)).await?;
    pause().await;
    let _ = fulfiller.send(own);
    Ok(vec![number(first).await?, number(second).await?, number(host.call(tails::HELD, &[], None)).await?])
}

async fn null(host: &Remote) -> Result<Vec<u64>> {
    let (fulfiller, comes) = later();
    let answer = host.call(tails::ASKS, &[], Some(&comes));
    host.call(tails::HOLD, &[], Some(&promised(&answer))).promise.await?;
    let promise = given(host.call(tails::GIVE, &[], None)).await?;
    let _ = fulfiller.send(cell_here());
    number(answer).await?;
    Ok(vec![get(&promise).await?])
}

async fn pass(host: &Remote) -> Result<Vec<u64>> {
    let passed = given(host.call(tails::PASS, &[], Some(&cell(host).await?))).await?;
    Ok(vec![get(&passed).await?])
}

async fn own(host: &Remote) -> Result<Vec<u64>> {
    let passed = host.call(tails::PASS, &[], Some(&cell_here()));
    Ok(vec![get(&promised(&passed)).await?])
}

async fn back(host: &Remote) -> Result<Vec<u64>> {
    let (fulfiller, comes) = later();
    let made = host.call(tails::MADE, &[], Some(&Remote::of(ServedObject(comes))));
    host.call(tails::HOLD, &[], Some(&promised(&made))).promise.await?;
    let promise = given(host.call(tails::GIVE, &[], None)).await?;
    let before = promise.call(GET, &[], None);
    pause().await;
    let _ = fulfiller.send(cell_here());
    Ok(vec![number(before).await?, get(&promise).await?])
}

async fn through(host: &Remote) -> Result<Vec<u64>> {
    let own = cell(host).await?;
    number(own.call(ADD, &[7], None)).await?;
    Ok(vec![number(host.call(tails::ASKS, &[], Some(&Remote::of(Through(own))))).await?])
}

async fn nulls(host: &Remote) -> Result<Vec<u64>> {
    let passed = host.call(tails::PASS, &[], None);
    let called = promised(&passed).call(GET, &[], None);
    match given(passed).await {
        Ok(_) => Ok(vec![]),
        Err(_) => Ok(vec![number(called).await?]),
    }
}

async fn trial(host: &Remote, name: &str) -> Result<Vec<u64>> {
    match name {
        "promise" => promise(host).await,
        "held" => held(host).await,
        "null" => null(host).await,
        "pass" => pass(host).await,
        "own" => own(host).await,
        "back" => back(host).await,
        "through" => through(host).await,
        "nulls" => nulls(host).await,
        _ => Err(Error::failed("no such trial".into())),
    }
}

fn say(name: &str, came: Result<Vec<u64>>) {
    let text = match came {
        Ok(numbers) => numbers.iter().map(u64::to_string).collect::<Vec<_>>().join(" "),
        Err(error) => error.description,
    };
    println!("{name}: {text}");
}

async fn lives(host: &Remote) -> Result<Vec<u64>> {
    Ok(vec![get(&cell(host).await?).await?])
}

fn main() -> Result<()> {
    let mut words = std::env::args().skip(1);
    let port = words.next().and_then(|word| word.parse().ok()).expect("usage: tails PORT TRIAL..");
    let mut pool = LocalPool::new();
    let spawner = pool.spawner();
    pool.run_until(async move {
        // (the library panics where the stream ends of a connection that nothing refers to)
        let mut hosts = Vec::new();
        for name in words {
            let (host, disconnector) = connect(port, &spawner).await?;
            say(&name, trial(&host, &name).await);
            say(&format!("{name} lives"), lives(&host).await);
            disconnector.await?;
            hosts.push(host);
        }
        Ok(())
    })
}
