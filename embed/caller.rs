//! caller PORT    puts a text into a store (tests/store/store.capnp) of 127.0.0.1, gets it back, and prints it.
#[allow(dead_code)]
mod jamdrosek;

use jamdrosek::Limits;
use jamdrosek::connection::{Cap, Connection, Event, Method, Outcome};
use std::error::Error;
use std::io::{Read, Write};
use std::net::TcpStream;

const STORE: u64 = 0xea2f6e3bf233ec72;

/// The plain frame of a struct of texts of at most seven bytes each, which a library that builds messages would make.
fn texts(values: &[&str]) -> Vec<u8> {
    let count = values.len() as u64;
    let mut words = vec![(1 + 2 * count) << 32, count << 48];
    for value in values {
        words.push((count - 1) << 2 | 1 | 2 << 32 | (value.len() as u64 + 1) << 35);
    }
    for value in values {
        let mut word = [0; 8];
        word[..value.len()].copy_from_slice(value.as_bytes());
        words.push(u64::from_le_bytes(word));
    }
    words.iter().flat_map(|word| word.to_le_bytes()).collect()
}

fn main() -> Result<(), Box<dyn Error>> {
    let port = std::env::args().nth(1).ok_or("a port is missing")?;
    let mut peer = TcpStream::connect(format!("127.0.0.1:{port}"))?;
    let mut connection = Connection::new(false, &Limits::STANDARD, None)?;
    let bootstrap = connection.bootstrap()?;
    // Both calls go out before the store is known.
    let store = Cap::pipelined(bootstrap, &[]);
    let put = connection.call(&store, &Method { interface: STORE, method: 0 }, &texts(&["colour", "blue"]), &[])?;
    let get = connection.call(&store, &Method { interface: STORE, method: 1 }, &texts(&["colour"]), &[])?;
    let mut piece = [0; 4096];
    loop {
        let out = connection.outgoing()?;
        peer.write_all(out)?;
        let written = out.len();
        connection.wrote(written)?;
        let count = peer.read(&mut piece)?;
        let mut left = &piece[..count];
        while !left.is_empty() {
            left = &left[connection.receive(left)?..];
            while let Some(event) = connection.next()? {
                match event {
                    Event::Settled { question, outcome: Outcome::Results { .. } } if question == get => {
                        // The text is the last word of the frame.
                        let frame = connection.content()?;
                        println!("{}", String::from_utf8_lossy(&frame[frame.len() - 8..]).trim_end_matches('\0'));
                        for question in [put, get, bootstrap] {
                            connection.finish(question)?;
                        }
                        return Ok(());
                    }
                    Event::Settled { outcome: Outcome::Results { .. }, .. } => {}
                    other => return Err(format!("{other:?}").into()),
                }
            }
        }
        if count == 0 {
            return Err("the peer ended".into());
        }
    }
}
