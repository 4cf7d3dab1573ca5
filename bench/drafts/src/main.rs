//! Times an address book that is built by drafts and written as a frame.
#![tactic(auto)]

use addressbook::{
    AddressBookBuilder, PersonBuilder, PersonListBuilder, PersonPhoneNumberBuilder,
    PersonPhoneNumberListBuilder, PersonPhoneNumberType,
};
use cp_frame::{Mode, write_frame};
use cp_words::{Limits, Segments};
use cp_writing::write_root;
use std::alloc::Global;
use std::time::{Duration, Instant};

const PEOPLE: u32 = 1000;

/// The least times so far, in nanoseconds.
#[derive(Clone, Copy)]
struct Times {
    build: u64,
    lay: u64,
    frame: u64,
    drop: u64,
    all: u64,
}

fn phones(alloc: Global) -> anyhow::Result<PersonPhoneNumberListBuilder> {
    let mut phone = PersonPhoneNumberBuilder::new(alloc)?;
    phone.set_number("555-1212")?;
    phone.set_type(PersonPhoneNumberType::Home);
    let mut phones = PersonPhoneNumberListBuilder::new(alloc);
    phones.push(phone)?;
    Ok(phones)
}

fn person(alloc: Global, i: u32) -> anyhow::Result<PersonBuilder> {
    let mut person = PersonBuilder::new(alloc)?;
    person.set_id(i);
    person.set_name("Alice Example")?;
    person.set_email("alice@example.com")?;
    person.set_phones(phones(alloc)?)?;
    person.set_employment_employer("MIT")?;
    person.set_age((i % 90) as u8);
    person.set_active(i % 3 == 0);
    Ok(person)
}

fn book(alloc: Global) -> anyhow::Result<AddressBookBuilder> {
    let mut people = PersonListBuilder::new(alloc);
    for i in 0..PEOPLE {
        people.push(person(alloc, i)?)?;
    }
    let mut book = AddressBookBuilder::new(alloc)?;
    book.set_people(people)?;
    Ok(book)
}

fn since(rt: &HostRuntime, start: &Instant) -> anyhow::Result<u64> {
    let duration: Duration = start.elapsed(rt)?;
    Ok(u64::try_from(duration.as_nanos())?)
}

fn turn(rt: &HostRuntime, least: Times) -> anyhow::Result<Times> {
    let (alloc, limits) = (rt.alloc(), Limits::standard());
    let whole = Instant::now(rt)?;
    let object = book(alloc)?.body.into_object();
    let build = since(rt, &whole)?;
    let start = Instant::now(rt)?;
    let segments = Segments::one(write_root(alloc, &object, limits)?);
    let lay = since(rt, &start)?;
    let start = Instant::now(rt)?;
    let bytes = write_frame(alloc, &segments, Mode::Plain, limits)?;
    let frame = since(rt, &start)?;
    let start = Instant::now(rt)?;
    drop(object);
    let gone = since(rt, &start)?;
    drop(segments);
    drop(bytes);
    Ok(Times {
        build: least.build.min(build),
        lay: least.lay.min(lay),
        frame: least.frame.min(frame),
        drop: least.drop.min(gone),
        all: least.all.min(since(rt, &whole)?),
    })
}

fn main(rt: HostRuntime) -> anyhow::Result<()> {
    let mut least = Times {
        build: u64::MAX,
        lay: u64::MAX,
        frame: u64::MAX,
        drop: u64::MAX,
        all: u64::MAX,
    };
    for _ in 0..300 {
        least = turn(&rt, least)?;
    }
    let (build, lay) = (least.build / 1000, least.lay / 1000);
    let (frame, gone) = (least.frame / 1000, least.drop / 1000);
    let all = least.all / 1000;
    println!(rt;
        "ours: {all} ns a person: build {build}, lay out {lay}, frame {frame}, drop {gone}"
    )?;
    Ok(())
}
