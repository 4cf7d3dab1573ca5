//! Sessions by the Rust library. Usage: client PORT first|second|trial|drop|exit|left|late
//!   first, second    with `capnp_cli serve`, as those of ../../../client.cpp
//!   trial            with a server of trial.capnp
//!   drop, exit       with either: calls are open as this gives them up and disconnects, or as its process ends
//!   left             with either: prints `open` once calls are open, and sees them fail as the server goes
//!   late             with either: calls again after 4 seconds, when the server has closed
//! The status is 0 if each went as it should; else what didn't is said.
use async_io::Timer;
use capnp::capability::Promise;
use capnp::{Error, ErrorKind, Result};
use futures::executor::LocalPool;
use futures::future::join_all;
use peers::*;
use std::rc::Rc;
use std::time::Duration;

/// An object of the client's that it gives away: a Cell, or one that only fails. The count of `alive` says when the server released it.
struct Gift {
    cell: Option<Cell>,
    #[allow(dead_code)]
    alive: Rc<()>,
}

impl Object for Gift {
    fn call(&mut self, method: Method, params: Params, results: Results) -> Promise<(), Error> {
        match &mut self.cell {
            Some(cell) => cell.call(method, params, results),
            None => Promise::err(Error::overloaded("not today".into())),
        }
    }
}

fn gift(alive: &Rc<()>, held: u64) -> Remote {
    Remote::of(Gift { cell: Some(Cell { held }), alive: alive.clone() })
}

async fn pause(milliseconds: u64) {
    Timer::after(Duration::from_millis(milliseconds)).await;
}

async fn add(cell: &Remote, amount: u64) -> Result<u64> {
    number(cell.call(ADD, &[amount], None)).await
}

async fn get(cell: &Remote) -> Result<u64> {
    number(cell.call(GET, &[], None)).await
}

async fn refused(called: Called, kind: ErrorKind, text: &str) {
    let error = number(called).await.expect_err("no exception");
    assert_eq!((error.kind, error.description.as_str()), (kind, text));
}

/// The server released all gifts.
async fn released(alive: Rc<()>) {
    for _ in 0..100 {
        if Rc::strong_count(&alive) == 1 {
            return;
        }
        pause(20).await;
    }
    panic!("{} gifts weren't released", Rc::strong_count(&alive) - 1);
}

async fn first(desk: &Remote) -> Result<()> {
    // Nothing was answered yet: each call goes to what an open question will give.
    let later = desk.call(LATER, &[], None);
    let (five, twelve) = (promised(&later).call(ADD, &[5], None), promised(&later).call(ADD, &[7], None));
    let now = desk.call(NOW, &[], None);
    let more = promised(&now).call(ADD, &[1], None);
    assert_eq!((number(five).await?, number(twelve).await?, number(more).await?), (5, 12, 13));
    // What was given is called by its own number.
    let (cell, same) = (given(later).await?, given(now).await?);
    assert_eq!((add(&cell, 7).await?, get(&same).await?, add(&cell, u64::MAX).await?), (20, 20, 19));
    Ok(())
}

async fn second(desk: &Remote) -> Result<()> {
    let alive = Rc::new(());
    refused(desk.call(NEVER, &[], None), ErrorKind::Unimplemented, "remote exception: no such method").await;
    refused(desk.call(GET, &[], None), ErrorKind::Unimplemented, "remote exception: no such method").await;
    let later = desk.call(LATER, &[], Some(&gift(&alive, 0)));
    // The Desk answers with the second poll, and each message brings one.
    given(desk.call(NOW, &[], None)).await?;
    let cell = given(later).await?;
    assert_eq!(number(cell.call(ADD, &[3], Some(&gift(&alive, 0)))).await?, 3);
    let often = gift(&alive, 0);
    let of = |turn: u64| if turn % 3 > 0 { cell.clone() } else { promised(&desk.call(LATER, &[], None)) };
    let sums = join_all((1..=1000).map(|turn| number(of(turn).call(ADD, &[1], Some(&often))))).await;
    assert_eq!(sums.into_iter().collect::<Result<Vec<_>>>()?.into_iter().max(), Some(1003));
    drop(often);
    released(alive).await;
    // It is given up before its answer.
    drop(desk.call(LATER, &[], None));
    for _ in 0..5 {
        assert_eq!(get(&cell).await?, 1003);
    }
    Ok(())
}

async fn trial(trial: &Remote) -> Result<()> {
    let alive = Rc::new(());
    let later = trial.call(LATER, &[], None);
    let waits = promised(&later).call(ADD, &[1], None);
    let now = trial.call(NOW, &[], None);
    assert_eq!((add(&promised(&now), 41).await?, number(waits).await?), (41, 101));
    assert_eq!((get(&given(now).await?).await?, get(&given(later).await?).await?), (41, 101));
    // The server calls what it is given.
    let given_cell = gift(&alive, 1000);
    let called = trial.call(NOW, &[], Some(&given_cell));
    assert_eq!(get(&promised(&called)).await?, 1005);
    assert_eq!(number(trial.call(TELL, &[], Some(&given_cell))).await?, 1005);
    let failing = Remote::of(Gift { cell: None, alive: alive.clone() });
    let told = "remote exception: remote exception: not today";
    refused(trial.call(TELL, &[], Some(&failing)), ErrorKind::Overloaded, told).await;
    refused(trial.call(NEVER, &[], None), ErrorKind::Failed, "remote exception: no").await;
    // It gives back what it is given. No call goes before that came: this library never answers one that comes back to it with its
    // results to stay.
    let back = given(trial.call(BECOME, &[50], Some(&given_cell))).await?;
    back.resolved().await?;
    assert_eq!((add(&back, 1).await?, get(&given_cell).await?), (1006, 1006));
    let broken = trial.call(BECOME, &[20], None);
    refused(promised(&broken).call(GET, &[], None), ErrorKind::Failed, "remote exception: it came to nothing").await;
    // They are answered in another order than they were asked in.
    let numbers = join_all((0..1000).map(|turn| number(trial.call(AFTER, &[turn * 7 % 100, turn], None)))).await;
    assert_eq!(numbers.into_iter().collect::<Result<Vec<_>>>()?, (0..1000).collect::<Vec<_>>());
    drop((given_cell, failing, called, back, broken));
    released(alive).await;
    Ok(())
}

/// Calls that stay open: of a Trial many, of `capnp_cli serve` one, which must be the last that is sent.
async fn open(desk: &Remote) -> Vec<Called> {
    let is_trial = number(desk.call(AFTER, &[0, 0], None)).await.is_ok();
    pause(100).await;
    match is_trial {
        true => (0..100).map(|turn| desk.call(AFTER, &[10_000, turn], None)).collect(),
        false => vec![desk.call(LATER, &[], None)],
    }
}

async fn left(desk: &Remote) {
    let mut is_gone = false;
    // (A host answers its one call, and is asked again.)
    while !is_gone {
        let calls = open(desk).await;
        println!("open");
        for error in join_all(calls.into_iter().map(given)).await.into_iter().filter_map(Result::err) {
            assert_eq!(error.kind, ErrorKind::Disconnected, "{error}");
            is_gone = true;
        }
    }
}

async fn late(desk: &Remote) -> Result<()> {
    given(desk.call(NOW, &[], None)).await?;
    pause(4000).await;
    let error = given(desk.call(NOW, &[], None)).await.err().expect("no exception");
    assert_eq!(error.kind, ErrorKind::Disconnected, "{error}");
    Ok(())
}

async fn session(desk: &Remote, kind: &str) -> Result<()> {
    match kind {
        "first" => first(desk).await?,
        "second" => second(desk).await?,
        "trial" => trial(desk).await?,
        "left" => left(desk).await,
        "late" => late(desk).await?,
        "drop" => {
            drop(open(desk).await);
            pause(100).await;
        }
        "exit" => {
            let _calls = open(desk).await;
            pause(100).await;
            std::process::exit(0);
        }
        _ => return Err(Error::failed("no such session".into())),
    }
    Ok(())
}

fn main() -> Result<()> {
    let words: Vec<String> = std::env::args().collect();
    let (Some(Ok(port)), Some(kind)) = (words.get(1).map(|word| word.parse()), words.get(2)) else {
        panic!("usage: client PORT first|second|trial|drop|exit|left|late");
    };
    let mut pool = LocalPool::new();
    let spawner = pool.spawner();
    pool.run_until(async move {
        let (desk, disconnector) = connect(port, &spawner).await?;
        session(&desk, kind).await?;
        disconnector.await
    })
}
