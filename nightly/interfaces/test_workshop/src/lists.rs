//! Lists that are built are read again.

use cp_builder::BuildError;
use cp_refs::{Caps, Outcome};
use cp_interfaces::{DataListBuilder, ListsBuilder, TextListBuilder};
use cp_interfaces::{ResultPayload, payload_of};
use std::alloc::Global;
use workshop::{Colour, StockBuilder, StockReader, ToolBuilder, ToolListBuilder};

/// What a caller gets of these results.
fn came(alloc: Global, stock: StockBuilder) -> Option<ResultPayload> {
    let outcome = Outcome::Results {
        content: stock.body.into_whole(),
        caps: Caps::new(Vec::new(alloc)),
    };
    payload_of(0, outcome).ok()
}

/// A list of these texts.
fn texts(alloc: Global, items: &[&str]) -> Result<TextListBuilder, BuildError> {
    let mut texts = TextListBuilder::new(alloc);
    for item in items {
        texts.push(item)?;
    }
    Ok(texts)
}

/// A list of a tool of this name.
fn tools(alloc: Global, name: &str) -> Result<ToolListBuilder, BuildError> {
    let mut tool = ToolBuilder::new(alloc)?;
    tool.set_name(name)?;
    tool.set_labels(texts(alloc, &["sharp", "old"])?)?;
    let mut tools = ToolListBuilder::new(alloc);
    tools.push(tool)?;
    Ok(tools)
}

/// Lists of what pointers stand for.
fn fill_pointers(alloc: Global, stock: &mut StockBuilder) -> Result<(), BuildError> {
    stock.set_texts(texts(alloc, &["saw", "", "axe"])?)?;
    let mut pictures = DataListBuilder::new(alloc);
    pictures.push(vec![in alloc; 1, 2]?)?;
    stock.set_pictures(pictures)?;
    let mut poems = ListsBuilder::new(alloc);
    poems.push(texts(alloc, &["one"])?)?;
    poems.push(texts(alloc, &["two", "three"])?)?;
    stock.set_poems(poems)?;
    let mut shelf = ListsBuilder::new(alloc);
    shelf.push(tools(alloc, "plane")?)?;
    let mut boxes = ListsBuilder::new(alloc);
    boxes.push(shelf)?;
    stock.set_boxes(boxes)
}

/// Lists of numbers.
fn fill_numbers(alloc: Global, stock: &mut StockBuilder) -> Result<(), BuildError> {
    stock.set_signed_bytes(vec![in alloc; -1, 2]?)?;
    stock.set_signed_halves(vec![in alloc; -300]?)?;
    stock.set_signed_quads(vec![in alloc; -70_000, 7]?)?;
    stock.set_signed_words(vec![in alloc; -1, 0, i64::MAX]?)?;
    stock.set_singles(vec![in alloc; -1.5]?)?;
    stock.set_doubles(vec![in alloc; 0.25, -2.0]?)?;
    stock.set_colours(vec![in alloc; Colour::Blue, Colour::Red]?)?;
    let mut matrix = ListsBuilder::new(alloc);
    matrix.push(vec![in alloc; 1.0, 0.0]?)?;
    matrix.push(vec![in alloc; 0.0, 1.0, 2.0]?)?;
    stock.set_matrix(matrix)?;
    let mut grid = ListsBuilder::new(alloc);
    grid.push(vec![in alloc; -5i16]?)?;
    stock.set_grid(grid)
}

#[test]
fn lists_of_pointers_are_read_again(rt: HostRuntime) {
    let alloc = rt.alloc();
    let mut stock = StockBuilder::new(alloc).expect(&rt, "memory");
    fill_pointers(alloc, &mut stock).expect(&rt, "lists");
    let came = came(alloc, stock).expect(&rt, "results");
    let body = came.results().expect(&rt, "a struct");
    let stock = StockReader { body };
    let texts = stock.texts().expect(&rt, "texts");
    check!(&rt; texts.len() == 3);
    let text = texts
        .get(2)
        .expect(&rt, "a text")
        .text(alloc)
        .expect(&rt, "UTF-8");
    check!(&rt; text.as_str() == "axe");
    let poems = stock.poems().expect(&rt, "poems");
    check!(&rt; poems.len() == 2);
    let boxes = stock.boxes().expect(&rt, "boxes");
    check!(&rt; boxes.len() == 1);
}

#[test]
fn lists_of_numbers_are_read_again(rt: HostRuntime) {
    let alloc = rt.alloc();
    let mut stock = StockBuilder::new(alloc).expect(&rt, "memory");
    fill_numbers(alloc, &mut stock).expect(&rt, "lists");
    let came = came(alloc, stock).expect(&rt, "results");
    let body = came.results().expect(&rt, "a struct");
    let stock = StockReader { body };
    let quads = stock.signed_quads().expect(&rt, "numbers");
    check!(&rt; quads.len() == 2);
    check!(&rt; quads.get(0) == -70_000);
    let words = stock.signed_words().expect(&rt, "numbers");
    check!(&rt; words.get(2) == i64::MAX);
    let doubles = stock.doubles().expect(&rt, "numbers");
    check!(&rt; doubles.get(1) == -2.0);
    let colours = stock.colours().expect(&rt, "colours");
    check!(&rt; colours.get(0) == Colour::Blue);
    let matrix = stock.matrix().expect(&rt, "a matrix");
    check!(&rt; matrix.len() == 2);
}
