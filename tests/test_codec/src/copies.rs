//! What was read, copied to be set in structs that are built.

ghost use Rattle.std.specs.Prelude.{◌≡◌, [], Err, IfOk, OnOk, OnErr};
ghost use Rattle.cp_words.specs.declared.pointer.ElementSize.TheVariants as sizes;
ghost use Rattle.cp_tree.specs.Shaped.{Shaped};
ghost use Rattle.cp_builder.specs.Copies.{Sets, placed};
ghost use Rattle.cp_builder.specs.declared.fault.BuildError.TheVariants.{TooLong};

use crate::field_samples::{FULL, PAIRS};
use crate::look::{root_of, tree_of};
use crate::samples::one_segment;
use crate::trees::{body, expect_tree};
use cp_builder::*;
use cp_fields::{Constant, DataReader, Element, List, PointerReader, StructReader, TextReader, WrongKind};
use cp_tree::{Body, ListRef, Tree, Whole};
use cp_words::{ElementSize, Segments};
use std::alloc::Global;
use std::process::Abort;

/// A copy is this tree.
fn expect_copy(rt: &impl Abort, copy: Result<Whole, BuildError>, wanted: Tree) {
    let copy = copy.expect(rt, "a copy");
    expect_tree(rt, copy.tree(), wanted);
    drop(copy);
}

/// What an owned tree is copied to.
fn copy_of(alloc: Global, tree: &Tree, places: &[Option<u32>]) -> Result<Whole, BuildError> {
    pointer_copy(alloc, &PointerReader::of_tree(tree), places)
}

#[test]
fn a_struct_is_copied_with_all_that_it_has(rt: HostRuntime) {
    let alloc = rt.alloc();
    let segments = one_segment(&rt, alloc, &FULL);
    let copy = struct_copy(alloc, &root_of(&rt, &segments), &[]);
    expect_copy(&rt, copy, tree_of(&rt, alloc, &segments));
    let tree = tree_of(&rt, alloc, &segments);
    drop(segments);
    let copy = copy_of(alloc, &tree, &[]).expect(&rt, "a copy");
    expect_tree(&rt, copy.tree(), tree);
    drop(copy);
}

/// A list that is read as one of these elements is copied as it lies.
fn expect_same<'a, T: Element<'a>>(rt: &impl Abort, alloc: Global, root: &StructReader<'a>, i: u32) {
    let list = root.list::<T>(i).expect(rt, "a list");
    let wanted = root.pointer(i).tree(alloc).expect(rt, "memory");
    expect_copy(rt, list_copy(alloc, &list, &[]), wanted);
}

/// Each list of the struct.
fn expect_lists<'a>(rt: &impl Abort, alloc: Global, root: &StructReader<'a>) {
    expect_same::<()>(rt, alloc, root, 4);
    expect_same::<bool>(rt, alloc, root, 5);
    expect_same::<u8>(rt, alloc, root, 6);
    expect_same::<i16>(rt, alloc, root, 7);
    expect_same::<i32>(rt, alloc, root, 8);
    expect_same::<u64>(rt, alloc, root, 9);
    expect_same::<f32>(rt, alloc, root, 10);
    expect_same::<f64>(rt, alloc, root, 11);
    expect_same::<Result<TextReader<'a>, WrongKind>>(rt, alloc, root, 12);
    expect_same::<Result<DataReader<'a>, WrongKind>>(rt, alloc, root, 13);
    expect_same::<StructReader<'a>>(rt, alloc, root, 14);
    expect_same::<u16>(rt, alloc, root, 15);
    expect_same::<Result<List<'a, i8>, WrongKind>>(rt, alloc, root, 16);
}

/// Lists that a newer or an older schema's program wrote.
fn expect_editions<'a>(rt: &impl Abort, alloc: Global, root: &StructReader<'a>) {
    expect_same::<StructReader<'a>>(rt, alloc, root, 6);
    expect_same::<()>(rt, alloc, root, 9);
    expect_same::<u16>(rt, alloc, root, 9);
    expect_same::<StructReader<'a>>(rt, alloc, root, 12);
}

/// The same of an owned tree.
fn expect_owned_lists(rt: &impl Abort, alloc: Global, tree: &Tree) {
    let root = StructReader::of(PointerReader::of_tree(tree)).expect(rt, "a struct");
    expect_lists(rt, alloc, &root);
    expect_editions(rt, alloc, &root);
}

#[test]
fn lists_are_copied_as_they_lie(rt: HostRuntime) {
    let alloc = rt.alloc();
    let segments = one_segment(&rt, alloc, &FULL);
    expect_lists(&rt, alloc, &root_of(&rt, &segments));
    expect_editions(&rt, alloc, &root_of(&rt, &segments));
    let tree = tree_of(&rt, alloc, &segments);
    drop(segments);
    expect_owned_lists(&rt, alloc, &tree);
    drop(tree);
}

/// A list of structs that is read as structs, as their first numbers, and as their first pointers.
fn expect_pairs<'a>(rt: &impl Abort, alloc: Global, root: &StructReader<'a>) {
    expect_same::<StructReader<'a>>(rt, alloc, root, 0);
    expect_same::<u16>(rt, alloc, root, 0);
    expect_same::<PointerReader<'a>>(rt, alloc, root, 0);
}

#[test]
fn structs_of_a_list_keep_what_a_schema_lacks(rt: HostRuntime) {
    let alloc = rt.alloc();
    let segments = one_segment(&rt, alloc, &PAIRS);
    expect_pairs(&rt, alloc, &root_of(&rt, &segments));
    drop(segments);
}

/// The list that isn't there is copied as an empty one, which isn't null.
fn expect_empty<'a, T: Element<'a>>(rt: &impl Abort, alloc: Global, wanted: Tree) {
    let list = StructReader::empty().list::<T>(0).expect(rt, "a list");
    let copy = list_copy(alloc, &list, &[]).expect(rt, "a copy");
    expect_tree(rt, copy.tree(), wanted);
    drop(copy);
}

#[test]
fn null_is_copied_as_an_empty_list(rt: HostRuntime) {
    let alloc = rt.alloc();
    expect_empty::<()>(&rt, alloc, Tree::Voids(0));
    expect_empty::<bool>(&rt, alloc, Tree::Bits(Vec::new(alloc)));
    expect_empty::<u8>(&rt, alloc, Tree::Bytes(Vec::new(alloc)));
    expect_empty::<i16>(&rt, alloc, Tree::Halves(Vec::new(alloc)));
    expect_empty::<f32>(&rt, alloc, Tree::Quads(Vec::new(alloc)));
    expect_empty::<u64>(&rt, alloc, Tree::Words(Vec::new(alloc)));
    expect_empty::<PointerReader<'_>>(&rt, alloc, Tree::Ptrs(Vec::new(alloc)));
    let (words, ptrs, items) = (0, 0, Vec::new(alloc));
    expect_empty::<StructReader<'_>>(&rt, alloc, Tree::Structs { words, ptrs, items });
    let null = pointer_copy(alloc, &PointerReader::null(), &[]);
    expect_copy(&rt, null, Tree::Null);
}

static WORDS: Constant<'static> = Constant::List(ListRef::Words(&[1, 2]));

static TWO: Constant<'static> = Constant::Ptrs(&[Constant::Null, Constant::List(ListRef::Voids(3))]);

#[test]
fn constants_are_copied(rt: HostRuntime) {
    let alloc = rt.alloc();
    let list: Result<List<'_, u64>, WrongKind> = List::of(PointerReader::of_constant(&WORDS));
    let copy = list_copy(alloc, &list.expect(&rt, "a list"), &[]);
    let words = Vec::from_slice(alloc, &[1, 2]).expect(&rt, "memory");
    expect_copy(&rt, copy, Tree::Words(words));
    let copy = pointer_copy(alloc, &PointerReader::of_constant(&TWO), &[]);
    let two = Vec::from_array(alloc, [Tree::Null, Tree::Voids(3)]).expect(&rt, "memory");
    expect_copy(&rt, copy, Tree::Ptrs(two));
}

/// A struct that names capabilities by its own pointers, in a list of structs and in one of pointers.
fn naming(rt: &impl Abort, alloc: Global, first: Tree, second: Tree, third: Tree) -> Tree {
    let items = Vec::from_array(alloc, [body(rt, alloc, &[7], [second])]).expect(rt, "memory");
    let structs = Tree::Structs {
        words: 1,
        ptrs: 1,
        items,
    };
    let row = Vec::from_array(alloc, [Tree::Null, third]).expect(rt, "memory");
    Tree::Struct(body(rt, alloc, &[1, 2], [first, structs, Tree::Ptrs(row)]))
}

/// What a struct that names the capabilities 0, 2 and 7 is copied to.
fn expect_naming(rt: &impl Abort, alloc: Global, places: &[Option<u32>], wanted: Tree) {
    let tree = naming(rt, alloc, Tree::Cap(0), Tree::Cap(2), Tree::Cap(7));
    expect_copy(rt, copy_of(alloc, &tree, places), wanted);
    drop(tree);
}

#[test]
fn capabilities_get_the_places_that_they_have_where_they_go(rt: HostRuntime) {
    let alloc = rt.alloc();
    let none = naming(&rt, alloc, Tree::Null, Tree::Null, Tree::Null);
    expect_naming(&rt, alloc, &[], none);
    let two = naming(&rt, alloc, Tree::Cap(5), Tree::Cap(0), Tree::Null);
    expect_naming(&rt, alloc, &[Some(5), Some(9), Some(0)], two);
    let one = naming(&rt, alloc, Tree::Null, Tree::Null, Tree::Cap(4_294_967_295));
    let last = [None, None, None, None, None, None, None, Some(u32::MAX)];
    expect_naming(&rt, alloc, &last, one);
}

/// A list of structs, the second of which lacks the word that the list's sizes have.
fn uneven(rt: &impl Abort, alloc: Global) -> Tree {
    let items = [body(rt, alloc, &[1], []), body(rt, alloc, &[], [])];
    Tree::Structs {
        words: 1,
        ptrs: 0,
        items: Vec::from_array(alloc, items).expect(rt, "memory"),
    }
}

/// A list that no message can hold is no part of a struct.
fn expect_too_long(rt: &impl Abort, alloc: Global, tree: &Tree) {
    let list: Result<List<'_, StructReader<'_>>, WrongKind> = List::of(PointerReader::of_tree(tree));
    let copy = list_copy(alloc, &list.expect(rt, "a list"), &[]);
    check!(rt; copy.err() == Some(BuildError::TooLong));
}

#[test]
fn what_no_message_can_hold_is_not_copied(rt: HostRuntime) {
    let alloc = rt.alloc();
    let tree = uneven(&rt, alloc);
    check!(&rt; copy_of(alloc, &tree, &[]).err() == Some(BuildError::TooLong));
    expect_too_long(&rt, alloc, &tree);
    drop(tree);
}

/// A list of pointers in a list of pointers, and so on.
fn nested(rt: &impl Abort, alloc: Global, levels: u32) -> Tree {
    let mut tree = Tree::Cap(1);
    for _ in 0..levels {
        tree = Tree::Ptrs(Vec::from_array(alloc, [tree]).expect(rt, "memory"));
    }
    tree
}

#[test]
fn deep_trees_are_copied(rt: HostRuntime) {
    let alloc = rt.alloc();
    let tree = nested(&rt, alloc, 200);
    let copy = copy_of(alloc, &tree, &[None, Some(1)]).expect(&rt, "a copy");
    expect_tree(&rt, copy.tree(), tree);
    drop(copy);
}

/// Byte `i` of a sample: none is zero.
fn sample_byte(i: u64) -> u64 {
    i % 251 + 1
}

/// A message whose root has one pointer, to a list of so many bytes: those of the sample, and a zero if it is a text.
fn bytes_message(rt: &impl Abort, alloc: Global, count: u64, is_text: bool) -> Segments {
    let all = if is_text { count + 1 } else { count };
    let mut words = Vec::new(alloc);
    words.push(0x0001_0000_0000_0000).expect(rt, "memory");
    words.push(all << 35 | 0x2_0000_0001).expect(rt, "memory");
    for word in 0..(all + 7) / 8 {
        let mut next = 0;
        for i in 8 * word..count.min(8 * word + 8) {
            next |= sample_byte(i) << (8 * (i % 8));
        }
        words.push(next).expect(rt, "memory");
    }
    Segments::one(words)
}

/// The bytes of the sample, and then these.
fn sample(rt: &impl Abort, alloc: Global, count: u64, end: &[u8]) -> Tree {
    let mut bytes = Vec::new(alloc);
    for i in 0..count {
        bytes.push(sample_byte(i) as u8).expect(rt, "memory");
    }
    bytes.extend_from_slice(end).expect(rt, "memory");
    Tree::Bytes(bytes)
}

/// Counts of bytes about those that are copied at a time.
const COUNTS: [u64; 14] = [0, 1, 7, 8, 9, 56, 63, 64, 65, 127, 128, 129, 200, 1000];

#[test]
fn data_is_copied(rt: HostRuntime) {
    let alloc = rt.alloc();
    for count in COUNTS {
        let segments = bytes_message(&rt, alloc, count, false);
        let data = root_of(&rt, &segments).data(0).expect(&rt, "data");
        let copy = data_copy(alloc, &data);
        expect_copy(&rt, copy, sample(&rt, alloc, count, &[]));
        drop(segments);
    }
}

#[test]
fn texts_are_copied(rt: HostRuntime) {
    let alloc = rt.alloc();
    for count in COUNTS {
        let segments = bytes_message(&rt, alloc, count, true);
        let text = root_of(&rt, &segments).text(0).expect(&rt, "a text");
        let copy = text_copy(alloc, &text);
        expect_copy(&rt, copy, sample(&rt, alloc, count, &[0]));
        drop(segments);
    }
}

/// A struct of a schema, as the plugin would generate it: a name, bytes, numbers and a part of its own kind.
#[derive(Drop)]
struct JobReader<'a> {
    body: StructReader<'a>,
}

#[derive(Drop)]
struct JobBuilder {
    body: StructBuilder<1, 4>,
}

impl<'a> Element<'a> for JobReader<'a> {
    ghost SIZE = { sizes.Composite };

    ghost read = { λ t. record { body = t } };

    fn size() -> ElementSize
        ensures { result ≡ sizes.Composite }
    {
        ElementSize::Composite
    }

    fn of_element(item: StructReader<'a>) -> JobReader<'a> {
        JobReader { body: item }
    }
}

impl<'a> FieldValue<JobReader<'a>> for JobReader<'a> {
    ghost stands = { λ job t. t ≡ placed [] job.body };

    ghost is_long = { λ job. ¬ (Shaped (placed [] job.body)) };

    fn into_whole(self, alloc: Global) -> Result<Whole, BuildError> {
        struct_copy(alloc, &self.body, &[])
    }
}

impl<'a> FieldValue<JobReader<'a>> for JobBuilder {
    ghost stands = { λ job t. t ≡ job.body };

    ghost is_long = { λ job. ⊥ };

    fn into_whole(self, _alloc: Global) -> Result<Whole, BuildError>
        ensures value { IfOk result (λ whole. whole ≡ self.body) }
        ensures long { result ≡ Err TooLong → ⊥ }
    {
        Ok(self.body.into_whole())
    }
}

impl JobBuilder {
    fn new(alloc: Global) -> Result<JobBuilder, BuildError> {
        let body = StructBuilder::new(alloc)?;
        Ok(JobBuilder { body })
    }

    fn set_name<'a, V: FieldValue<TextReader<'a>>>(&mut self, value: V) -> Result<(), BuildError>
        ensures set { OnOk result (Sets (V.stands value) self.old.body 0 self.new.body) }
        ensures left { OnErr result (self.new ≡ self.old) }
        ensures long { result ≡ Err TooLong → V.is_long value }
    {
        let whole = value.into_whole(self.body.alloc())?;
        self.body.set_pointer(0, whole);
        Ok(())
    }

    fn set_data<'a, V: FieldValue<DataReader<'a>>>(&mut self, value: V) -> Result<(), BuildError>
        ensures set { OnOk result (Sets (V.stands value) self.old.body 1 self.new.body) }
        ensures left { OnErr result (self.new ≡ self.old) }
        ensures long { result ≡ Err TooLong → V.is_long value }
    {
        let whole = value.into_whole(self.body.alloc())?;
        self.body.set_pointer(1, whole);
        Ok(())
    }

    fn set_sizes<'a, V: FieldValue<List<'a, u16>>>(&mut self, value: V) -> Result<(), BuildError>
        ensures set { OnOk result (Sets (V.stands value) self.old.body 2 self.new.body) }
        ensures left { OnErr result (self.new ≡ self.old) }
        ensures long { result ≡ Err TooLong → V.is_long value }
    {
        let whole = value.into_whole(self.body.alloc())?;
        self.body.set_pointer(2, whole);
        Ok(())
    }

    fn set_part<'a, V: FieldValue<JobReader<'a>>>(&mut self, value: V) -> Result<(), BuildError>
        ensures set { OnOk result (Sets (V.stands value) self.old.body 3 self.new.body) }
        ensures left { OnErr result (self.new ≡ self.old) }
        ensures long { result ≡ Err TooLong → V.is_long value }
    {
        let whole = value.into_whole(self.body.alloc())?;
        self.body.set_pointer(3, whole);
        Ok(())
    }
}

/// A job whose fields were built.
fn built(alloc: Global) -> Result<JobBuilder, BuildError> {
    let mut job = JobBuilder::new(alloc)?;
    job.body.set_u64(0, 7);
    job.set_name("job")?;
    job.set_data(Vec::from_slice(alloc, &[1, 0, 2])?)?;
    job.set_sizes(Vec::from_slice(alloc, &[3, 0xffff])?)?;
    job.set_part(JobBuilder::new(alloc)?)?;
    Ok(job)
}

/// A job whose fields are those of one that was read.
fn copied(rt: &impl Abort, alloc: Global, from: &StructReader<'_>) -> Result<JobBuilder, BuildError> {
    let mut job = JobBuilder::new(alloc)?;
    job.body.set_u64(0, from.u64(0));
    job.set_name(from.text(0).expect(rt, "a text"))?;
    job.set_data(from.data(1).expect(rt, "data"))?;
    job.set_sizes(from.list::<u16>(2).expect(rt, "a list"))?;
    let body = from.structure(3).expect(rt, "a struct");
    job.set_part(JobReader { body })?;
    Ok(job)
}

/// A job in a job is the one that was built.
fn expect_part_copied(rt: &impl Abort, alloc: Global, job: &Whole) {
    let from = StructReader::of(PointerReader::of_whole(job)).expect(rt, "a struct");
    let mut outer = JobBuilder::new(alloc).expect(rt, "memory");
    outer.set_part(copied(rt, alloc, &from).expect(rt, "a copy")).expect(rt, "set");
    let outer = outer.body.into_whole();
    check!(rt; outer.tree().pointer(3) == Some(job.tree()));
    drop(outer);
}

#[test]
fn setters_take_what_was_built_and_what_was_read(rt: HostRuntime) {
    let alloc = rt.alloc();
    let job = built(alloc).expect(&rt, "a job").body.into_whole();
    expect_part_copied(&rt, alloc, &job);
    drop(job);
}
