//! Submits a job to the queue that `jobs_server` serves and prints its output, or without a job works for that queue: the output of a job is
//! its text, reversed.

use jamdrosek::client::{Client, ConnectOptions, DuplexStream};
use jamdrosek::{Limits, Mode};
use jobs::QueueClient;
use std::time::Duration;

pub fn run(rt: &HostRuntime, job: Option<String>) -> anyhow::Result<()> {
    let alloc = rt.alloc();
    let stream = DuplexStream::connect(rt, "127.0.0.1:7003", &ConnectOptions::standard())?;
    let mut client = Client::new(alloc, &stream, &stream, Mode::Plain, Limits::standard());
    let root = client.bootstrap()?.cap(alloc);
    let queue = QueueClient::new(alloc, client.own(root));
    if let Some(job) = job {
        let handle = queue.submit(&mut client, job.as_str())?.handle()?;
        let waited = handle.wait(&mut client)?;
        // A job that takes longer is given up, as the connection ends.
        let time = Duration::from_secs(10);
        let came = stream.results_within(&mut client, waited.question(), time)?;
        let output = waited.results(&came)?.output()?.text(alloc)?;
        println!(rt; "{}", output.as_str())?;
        return Ok(());
    }
    loop {
        let taken = queue.take(&mut client)?;
        let came = client.results(taken.question())?;
        let job = taken.results(&came)?.job()?.text(alloc)?;
        let task = taken.results(&came)?.task_client(alloc, came.caps())?;
        let mut output = String::new(alloc);
        for letter in job.as_str().chars().rev() {
            output.push(letter)?;
        }
        let done = task.done(&mut client, output.as_str())?;
        drop(client.results(done.question())?);
        if let Some(import) = task.target.import() {
            client.release(import)?;
        }
    }
}
