//! Runs each example on its file of `data/`, under a heading. With the word `chat` it serves a chat room. With `jobs` it serves a queue of jobs,
//! for which it works with `job`, and to which it submits the text after that. With `store` it serves a store,
//! with `store-shared` one whose texts lie in Redis, and calls it with `store-client` and `store-returning`. With `directory` it serves
//! a directory, with `gateway` and two ports it passes calls on to another server, with `clerk` it answers from what a store says, and with
//! `pool` it hands out workers. With `again` it calls the notebook that `server` serves, with `way` and a
//! number it serves so many calls, and with `shapes` it runs that example alone. Those of
//! `crates/examples` are laid out beside them, as the file `also` says.
#![tactic(auto)]

mod again;
mod book;
mod call;
mod chat_server;
mod chat_test;
mod clerk;
mod connection;
mod copies;
mod count;
mod directory_server;
mod directory_test;
mod draft;
mod gateway;
mod jobs_client;
mod jobs_server;
mod jobs_test;
mod notebook_client;
mod notebook_server;
mod notebook_test;
mod pool;
mod serve;
mod shapes;
mod store;
mod store_client;
mod store_returning;
mod store_server;
mod store_shared;
mod vat;
mod view;
mod way;
mod write;

use std::env;

fn main(rt: HostRuntime) -> anyhow::Result<()> {
    match env::args(&rt)?.nth(1) {
        Some(word) if word.as_str() == "chat" => chat_server::run(&rt),
        Some(word) if word.as_str() == "server" => notebook_server::run(&rt),
        Some(word) if word.as_str() == "client" => notebook_client::run(&rt),
        Some(word) if word.as_str() == "jobs" => jobs_server::run(&rt),
        Some(word) if word.as_str() == "job" => jobs_client::run(&rt, env::args(&rt)?.nth(2)),
        Some(word) if word.as_str() == "store" => store_server::run(&rt),
        Some(word) if word.as_str() == "store-client" => store_client::run(&rt),
        Some(word) if word.as_str() == "again" => again::run(&rt),
        Some(word) if word.as_str() == "directory" => directory_server::run(&rt),
        Some(word) if word.as_str() == "gateway" => gateway::run(&rt),
        Some(word) if word.as_str() == "clerk" => clerk::run(&rt),
        Some(word) if word.as_str() == "pool" => pool::run(&rt),
        Some(word) if word.as_str() == "store-returning" => store_returning::run(&rt),
        Some(word) if word.as_str() == "store-shared" => store_shared::run(&rt),
        Some(word) if word.as_str() == "way" => way::run(&rt),
        Some(word) if word.as_str() == "shapes" => shapes::run(&rt),
        _ => run_all(&rt),
    }
}

/// Runs all examples that need no other program.
fn run_all(rt: &HostRuntime) -> anyhow::Result<()> {
    heading(rt, "count")?;
    count::run(rt)?;
    heading(rt, "view")?;
    view::run(rt)?;
    heading(rt, "write")?;
    write::run(rt)?;
    heading(rt, "book")?;
    book::run(rt)?;
    heading(rt, "draft")?;
    draft::run(rt)?;
    heading(rt, "copies")?;
    copies::run(rt)?;
    heading(rt, "shapes")?;
    shapes::run(rt)?;
    heading(rt, "connection")?;
    connection::run(rt)?;
    heading(rt, "vat")?;
    vat::run(rt)?;
    heading(rt, "notebook_test")?;
    notebook_test::run(rt)?;
    heading(rt, "serve")?;
    serve::run(rt)?;
    heading(rt, "store")?;
    store::run(rt)?;
    heading(rt, "call")?;
    call::run(rt)?;
    heading(rt, "chat_test")?;
    chat_test::run(rt)?;
    heading(rt, "jobs_test")?;
    jobs_test::run(rt)?;
    heading(rt, "directory_test")?;
    directory_test::run(rt)
}

/// Prints an example's name on a line of its own.
fn heading(rt: &HostRuntime, name: &str) -> anyhow::Result<()> {
    println!(rt; "\n== {name}")?;
    Ok(())
}
