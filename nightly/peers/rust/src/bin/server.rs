//! A server by the Rust library, with an object that has the methods of those of ../../../../callees/server.cpp and
//! ../../../../tails/server.cpp. Usage: server PORT
use async_io::{Async, Timer};
use capnp::capability::Promise;
use capnp::{Error, Result};
use capnp_rpc::pry;
use capnp_rpc::twoparty::VatId;
use futures::executor::LocalPool;
use peers::*;
use std::net::TcpListener;
use std::time::Duration;

async fn pause(milliseconds: u64) {
    Timer::after(Duration::from_millis(milliseconds)).await;
}

fn give(mut results: Results, held: u64) {
    results.get().init_as::<Draft<0, 1>>().set_cap(&Remote::of(Cell { held }));
}

async fn now(params: Params, results: Results) -> Result<()> {
    let held = match params.get()?.get_as::<View>()?.cap()? {
        Some(gift) => number(gift.call(ADD, &[5], None)).await?,
        None => 0,
    };
    give(results, held);
    Ok(())
}

async fn later(results: Results) -> Result<()> {
    pause(100).await;
    give(results, 100);
    Ok(())
}

async fn echo(params: Params, mut results: Results) -> Result<()> {
    let content = params.get()?.get_as::<View>()?.content();
    results.get().init_as::<Draft<0, 1>>().content().copy_from(content, false)
}

async fn after(params: Params, mut results: Results) -> Result<()> {
    let params = params.get()?.get_as::<View>()?;
    pause(params.word(0)).await;
    results.get().init_as::<Draft<1, 0>>().set_word(0, params.word(1));
    Ok(())
}

async fn becoming(params: Params, mut results: Results) -> Result<()> {
    let params = params.get()?.get_as::<View>()?;
    let (milliseconds, cell) = (params.word(0), params.cap()?);
    let promise = Remote::promise(async move {
        pause(milliseconds).await;
        cell.ok_or_else(|| Error::failed("it came to nothing".into()))
    });
    results.get().init_as::<Draft<0, 1>>().set_cap(&promise);
    Ok(())
}

fn given_cap(params: &Params) -> Result<Remote> {
    let cap = params.get()?.get_as::<View>()?.cap()?;
    cap.ok_or_else(|| Error::failed("no capability".into()))
}

async fn tell(params: Params, mut results: Results) -> Result<()> {
    let held = number(given_cap(&params)?.call(GET, &[], None)).await?;
    results.get().init_as::<Draft<1, 0>>().set_word(0, held);
    Ok(())
}

async fn made(params: Params, mut results: Results) -> Result<()> {
    let cell = given(given_cap(&params)?.call(tails::MAKE, &[], None)).await?;
    results.get().init_as::<Draft<0, 1>>().set_cap(&cell);
    Ok(())
}

async fn passed(params: Params, mut results: Results) -> Result<()> {
    let cell = given(given_cap(&params)?.call(tails::PASS, &[], Some(&Remote::of(Cell { held: 5 })))).await?;
    results.get().init_as::<Draft<0, 1>>().set_cap(&cell);
    Ok(())
}

/// Holds what it is given.
struct Trial {
    held: Option<Remote>,
}

impl Trial {
    fn hold(&mut self, params: Params) -> Result<()> {
        self.held = params.get()?.get_as::<View>()?.cap()?;
        Ok(())
    }

    fn give_held(&self, mut results: Results) {
        let results = results.get().init_as::<Draft<0, 1>>();
        if let Some(held) = &self.held {
            results.set_cap(held);
        }
    }
}

impl Object for Trial {
    fn call(&mut self, method: Method, params: Params, results: Results) -> Promise<(), Error> {
        match method {
            NOW => Promise::from_future(now(params, results)),
            LATER => Promise::from_future(later(results)),
            NEVER => Promise::err(Error::failed("no".into())),
            ECHO => Promise::from_future(echo(params, results)),
            AFTER | tails::AFTER => Promise::from_future(after(params, results)),
            BECOME | tails::BECOME => Promise::from_future(becoming(params, results)),
            TELL | tails::ASKS => Promise::from_future(tell(params, results)),
            tails::COUNT => pry!(given_cap(&params)).answer(results, GET, &[], None),
            tails::MADE => Promise::from_future(made(params, results)),
            tails::PASSED => Promise::from_future(passed(params, results)),
            tails::HOLD => {
                pry!(self.hold(params));
                Promise::ok(())
            }
            tails::GIVE => {
                self.give_held(results);
                Promise::ok(())
            }
            _ => Promise::err(Error::unimplemented("no such method".into())),
        }
    }
}

fn main() -> Result<()> {
    let port = std::env::args().nth(1).and_then(|word| word.parse().ok()).expect("usage: server PORT");
    let listener = Async::<TcpListener>::bind(([127, 0, 0, 1], port))?;
    let mut pool = LocalPool::new();
    let spawner = pool.spawner();
    pool.run_until(async move {
        loop {
            let (stream, _) = listener.accept().await?;
            stream.get_ref().set_nodelay(true)?;
            let trial = Remote::of(Trial { held: None });
            run(vat(stream, VatId::Server, Some(trial.into_client())), &spawner);
        }
    })
}
