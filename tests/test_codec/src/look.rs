//! What the tests of cp_fields share: roots and texts.

use cp_fields::{PointerReader, StructReader, TextReader, WrongKind};
use cp_reading::View;
use cp_tree::Tree;
use cp_words::{Limits, Segments};
use std::alloc::Global;
use std::process::Abort;

/// What a message's root stands for.
pub(crate) fn pointee_of<'a>(rt: &impl Abort, segments: &'a Segments) -> PointerReader<'a> {
    PointerReader::of_view(View::root(segments, Limits::standard()).expect(rt, "a root"))
}

/// A message's root.
pub(crate) fn root_of<'a>(rt: &impl Abort, segments: &'a Segments) -> StructReader<'a> {
    StructReader::of(pointee_of(rt, segments)).expect(rt, "a struct")
}

/// A message's tree.
pub(crate) fn tree_of(rt: &impl Abort, alloc: Global, segments: &Segments) -> Tree {
    pointee_of(rt, segments).tree(alloc).expect(rt, "memory")
}

/// Whether a text that was read is this one.
pub(crate) fn is_text(
    rt: &impl Abort,
    alloc: Global,
    text: Result<TextReader<'_>, WrongKind>,
    wanted: &str,
) -> bool {
    let text = text.expect(rt, "a text").text(alloc).expect(rt, "UTF-8");
    text.as_str() == wanted
}
