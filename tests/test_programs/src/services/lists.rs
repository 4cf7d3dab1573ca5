//! Lists that objects and clients build for results and params, and results whose struct has a name.

ghost use Rattle.std.specs.Prelude.{ℕ};

use cp_builder::{
    BuildError, Enumerant, enumerants_of, float32_of, float64_of, signed8_of, signed16_of,
    signed32_of, signed64_of,
};
use cp_refs::Cap;
use cp_interfaces::{
    CapListBuilder, DataListBuilder, ListsBuilder, NamedResults, TextListBuilder,
};
use cp_interfaces::{CallTarget, NamingError, NoFieldsBuilder, Results, CapTableBuilder};
use cp_objects::SessionCap;
use cp_tree::{Tree, Whole};
use std::alloc::Global;

/// How many pointers a list has.
fn count(list: Whole) -> usize {
    let count = match list.tree() {
        Tree::Ptrs(items) => items.len(),
        _ => 0,
    };
    drop(list);
    count
}

/// How many capabilities of session 0 a table has.
fn len(table: CapTableBuilder) -> usize {
    let Ok(caps) = table.into_caps(0) else {
        return 0;
    };
    let len = caps.caps().len();
    drop(caps);
    len
}

/// The first number of a list.
fn first(list: Whole) -> u64 {
    let number = match list.tree() {
        Tree::Bytes(items) => items.first().copied().unwrap_or(0) as u64,
        Tree::Halves(items) => items.first().copied().unwrap_or(0) as u64,
        Tree::Quads(items) => items.first().copied().unwrap_or(0) as u64,
        Tree::Words(items) => items.first().copied().unwrap_or(0),
        _ => 0,
    };
    drop(list);
    number
}

/// The enumerant of this number.
struct Suit(u16);

impl Enumerant for Suit {
    ghost number = { λ s. s.0 };

    fn as_number(&self) -> u16 {
        self.0
    }
}

fn texts(alloc: Global) -> Result<TextListBuilder, BuildError> {
    let mut texts = TextListBuilder::new(alloc);
    texts.push("saw")?;
    texts.push("axe")?;
    Ok(texts)
}

fn pictures(alloc: Global) -> Result<usize, BuildError> {
    let mut pictures = DataListBuilder::new(alloc);
    pictures.push(Vec::new(alloc))?;
    Ok(count(pictures.into_whole()?))
}

/// How many capabilities a list has, and its table.
fn caps(alloc: Global) -> Result<(usize, usize), NamingError> {
    let mut table = CapTableBuilder::new(alloc);
    let mut caps = CapListBuilder::new(alloc);
    let cap = SessionCap::new(0, Cap::Object(4));
    let pushed = caps.push(&mut table, CallTarget::new(alloc, cap));
    let named = len(table);
    pushed?;
    Ok((count(caps.into_whole()?), named))
}

fn poems(alloc: Global) -> Result<usize, BuildError> {
    let mut poems = ListsBuilder::new(alloc);
    poems.push(texts(alloc)?)?;
    Ok(count(poems.into_whole()?))
}

fn grid(alloc: Global) -> Result<usize, BuildError> {
    let mut grid = ListsBuilder::new(alloc);
    grid.push(vec![in alloc; -1i32; 2]?)?;
    grid.push(vec![in alloc; 5i32; 2]?)?;
    Ok(count(grid.into_whole()?))
}

fn numbers(alloc: Global) -> Result<[u64; 7], BuildError> {
    Ok([
        first(signed8_of(alloc, &[-1])?),
        first(signed16_of(alloc, &[-2])?),
        first(signed32_of(alloc, &[-3])?),
        first(signed64_of(alloc, &[-4])?),
        first(float32_of(alloc, &[1.0])?),
        first(float64_of(alloc, &[1.0])?),
        first(enumerants_of(alloc, &[Suit(3)])?),
    ])
}

/// How many capabilities results name.
fn named(alloc: Global) -> Result<usize, NamingError> {
    let mut results = NamedResults::new(alloc, NoFieldsBuilder::new(alloc)?);
    let added = results.table.add(SessionCap::new(0, Cap::Object(2)));
    let (content, table) = results.into_parts(alloc);
    drop(content);
    let named = len(table);
    drop(added?);
    Ok(named)
}

#[test]
fn lists_are_built(rt: HostRuntime) {
    let alloc = rt.alloc();
    check!(&rt; matches!(pictures(alloc), Ok(1)));
    check!(&rt; matches!(caps(alloc), Ok((1, 1))));
    check!(&rt; matches!(poems(alloc), Ok(1)));
    check!(&rt; matches!(grid(alloc), Ok(2)));
    check!(&rt; matches!(named(alloc), Ok(1)));
}

#[test]
fn numbers_are_written(rt: HostRuntime) {
    let found = numbers(rt.alloc()).expect(&rt, "numbers");
    check!(&rt; found == [
        0xff,
        0xfffe,
        0xffff_fffd,
        0xffff_ffff_ffff_fffc,
        0x3f80_0000,
        0x3ff0_0000_0000_0000,
        3,
    ]);
}
