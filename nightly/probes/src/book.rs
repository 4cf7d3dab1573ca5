//! Reading an address book by the names of its schema.

use addressbook::{AddressBookReader, PersonPhoneNumberType, PersonReader};
use cp_fields::{PointerReader, WrongKind};
use cp_frame::FrameReader;
use cp_reading::View;
use cp_words::{Limits, Segments};
use std::alloc::Global;

/// Reads an address book this many times: the sum of all its people's texts' lengths and of the numbers of their phones'
/// types. Its message is checked anew each time, or once.
#[unsafe(no_mangle)]
pub extern "C" fn cpb_read_book(alloc: Global, bytes: &[u8], turns: u32, anew: bool) -> u64 {
    let mut reader = FrameReader::plain(alloc, Limits::standard());
    match reader.feed(bytes) {
        Ok(frames) => match frames.first() {
            Some((_, segments)) => read_turns(segments, turns, anew).unwrap_or(0),
            None => 0,
        },
        Err(_) => 0,
    }
}

/// Reads a book this many times.
fn read_turns(segments: &Segments, turns: u32, anew: bool) -> Option<u64> {
    let view = View::root(segments, Limits::standard()).ok()?;
    let mut sum = 0_u64;
    for _ in 0..turns {
        let view = if anew {
            View::root(segments, Limits::standard()).ok()?
        } else {
            view.reborrow()
        };
        sum = sum.wrapping_add(all_people(PointerReader::of_view(view)).ok()?);
    }
    Some(sum)
}

/// What is read of all people of a book.
fn all_people(root: PointerReader<'_>) -> Result<u64, WrongKind> {
    let mut sum = 0_u64;
    for person in AddressBookReader::of(root)?.people()? {
        sum = sum.wrapping_add(of_person(&person)?);
    }
    Ok(sum)
}

/// What is read of a person.
fn of_person(person: &PersonReader<'_>) -> Result<u64, WrongKind> {
    let mut sum = person.name()?.len() as u64;
    sum = sum.wrapping_add(person.email()?.len() as u64);
    for phone in person.phones()? {
        sum = sum.wrapping_add(phone.number()?.len() as u64);
        sum = sum.wrapping_add(match phone.type_() {
            PersonPhoneNumberType::Mobile => 0,
            PersonPhoneNumberType::Home => 1,
            PersonPhoneNumberType::Work => 2,
            PersonPhoneNumberType::Unknown(number) => number.number() as u64,
        });
    }
    Ok(sum)
}
