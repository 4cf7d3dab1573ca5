//! Copies what was read of an address book into others, by setters that take readers, and prints these as the example `book` reads them.

use crate::book::print_books;
use addressbook::{AddressBookBuilder, AddressBookReader, PersonBuilder, PersonListBuilder, PersonReader};
use anyhow::anyhow;
use jamdrosek::fields::PointerReader;
use jamdrosek::reading::View;
use jamdrosek::{FrameReader, Limits, Mode, Tap, write_struct};
use std::alloc::Global;
use std::fs;

pub fn run(rt: &HostRuntime) -> anyhow::Result<()> {
    let bytes = fs::read(rt, "book.bin")?;
    let mut reader = FrameReader::plain(rt.alloc(), Limits::standard());
    for (_, segments) in &reader.feed(&bytes)? {
        let view = View::root(segments, Limits::standard()).map_err(|fault| anyhow!("{fault}"))?;
        let book = AddressBookReader::of(PointerReader::of_view(view))?;
        print_books(rt, &written(rt.alloc(), with_all(rt.alloc(), &book)?)?)?;
        print_books(rt, &written(rt.alloc(), with_spouse(rt.alloc(), &book)?)?)?;
    }
    Ok(reader.finish()?)
}

/// The bytes of a book.
fn written(alloc: Global, book: AddressBookBuilder) -> anyhow::Result<Vec<u8>> {
    let mut to = Tap::new(Vec::new(alloc));
    let limits = Limits::standard();
    write_struct(alloc, &mut to, &book.body.into_object(), Mode::Plain, limits)?;
    Ok(to.into_inner())
}

/// A book of the same people and circles, a list of structs and one of texts. Its owner is the first of the people.
fn with_all(alloc: Global, of: &AddressBookReader<'_>) -> anyhow::Result<AddressBookBuilder> {
    let mut book = AddressBookBuilder::new(alloc)?;
    book.set_owner(first(of)?)?;
    book.set_people(of.people()?)?;
    book.set_circles(of.circles()?)?;
    Ok(book)
}

/// A book of the first person's spouse, who has the same phones, scores and picture, and of the one whose spouse that is.
fn with_spouse(alloc: Global, of: &AddressBookReader<'_>) -> anyhow::Result<AddressBookBuilder> {
    let first = first(of)?;
    let mut spouse = PersonBuilder::new(alloc)?;
    spouse.set_name(first.name()?)?;
    spouse.set_phones(first.phones()?)?;
    spouse.set_scores(first.scores()?)?;
    spouse.set_picture(first.picture()?)?;
    spouse.set_spouse(first)?;
    let mut people = PersonListBuilder::new(alloc);
    people.push(spouse)?;
    let mut book = AddressBookBuilder::new(alloc)?;
    book.set_people(people)?;
    Ok(book)
}

/// The first of the people.
fn first<'a>(of: &AddressBookReader<'a>) -> anyhow::Result<PersonReader<'a>> {
    match of.people()?.into_iter().next() {
        Some(person) => Ok(person),
        None => Err(anyhow!("nobody is in the book")),
    }
}
