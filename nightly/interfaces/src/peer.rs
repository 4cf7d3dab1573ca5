//! A client whose objects answer, and what comes of its calls.

use crate::Served;
use jamdrosek::client::Client;
use jamdrosek::interfaces::ResultPayload;
use std::io::{Read, Write};

/// A client with objects of this program.
pub type Calling<R, W> = Client<R, W, Served>;

/// The results of a question, while the objects answer.
pub fn came<R: Read + Drop, W: Write + Drop>(
    client: &mut Calling<R, W>,
    number: u32,
) -> anyhow::Result<ResultPayload> {
    Ok(client.results(number)?)
}
