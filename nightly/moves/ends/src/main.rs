//! Ends of connections, which do what the lines of standard input tell (docs/TESTING.md has the events): `ends KIND..`, a kind for A, B and so
//! on: `tails` for an end that serves tail calls, or `plain`.
//! `A EVENT` is done, and `A? EVENT` is tried on a copy, which is dropped; `new` begins anew, with object 0 for a Bootstrap. `bytes HEX` come as
//! they are, and `held` says what the end holds. After the lines of what an event gave comes one with a point.
#![tactic(auto)]

mod end;

use crate::end::End;
use anyhow::anyhow;
use cp_scripts::Lines;
use std::alloc::{AllocError, Global};
use std::env;
use std::io::{BufRead, BufReader};

fn main(rt: HostRuntime) -> anyhow::Result<()> {
    let words: Vec<String> = env::args(&rt)?.collect(rt.alloc())?;
    let kinds = words.as_slice().get(1..).unwrap_or(&[]);
    let mut ends = new_ends(rt.alloc(), kinds)?;
    for line in BufReader::new(rt.alloc(), rt.reader())?.lines(rt.alloc()) {
        let line = line?;
        if line.as_str() == "new" {
            ends = new_ends(rt.alloc(), kinds)?;
            print!(&rt; ".\n")?;
        } else {
            let told = told(&mut ends, line.as_str());
            print!(&rt; "{}.\n", text_of(&told)?)?;
        }
    }
    Ok(())
}

fn text_of(told: &Option<Lines>) -> anyhow::Result<&str> {
    match told {
        Some(lines) => lines.text().ok_or(anyhow!("memory ran out")),
        None => Err(anyhow!("no such end")),
    }
}

/// A new end of each kind.
fn new_ends(alloc: Global, kinds: &[String]) -> Result<Vec<End>, AllocError> {
    let mut ends = Vec::new(alloc);
    for kind in kinds {
        ends.push(End::new(alloc, kind.as_str() == "tails"))?;
    }
    Ok(ends)
}

/// What follows a line.
fn told(ends: &mut [End], line: &str) -> Option<Lines> {
    let (name, event) = line.split_once(' ')?;
    let place = usize::from(*name.as_bytes().first()?).checked_sub(usize::from(b'A'))?;
    let end = ends.get_mut(place)?;
    Some(if name.ends_with("?") {
        end.tried(event)
    } else {
        end.done(event)
    })
}
