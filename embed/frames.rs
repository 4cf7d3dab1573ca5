//! frames [--packed]    reads a stream from standard input, and writes a line for each frame: how many bytes it has in the plain form.
#[allow(dead_code)]
mod jamdrosek;

use jamdrosek::{Limits, Reader};
use std::error::Error;
use std::io::Read;

fn main() -> Result<(), Box<dyn Error>> {
    let mut reader = Reader::new(std::env::args().any(|word| word == "--packed"), &Limits::STANDARD)?;
    let mut stream = Vec::new();
    std::io::stdin().read_to_end(&mut stream)?;
    let mut left = &stream[..];
    while !left.is_empty() {
        let (taken, has_frame) = reader.next(left)?;
        left = &left[taken..];
        if has_frame {
            reader.check()?;
            println!("{} bytes plain", reader.frame(false)?.len());
        }
    }
    Ok(reader.end()?)
}
