//! `held` of clauses.capnp, made by capnpc_rattle.

ghost use Rattle.std.specs.Prelude.{◌≡◌, not, bit_xor, IfOk, OnOk, OnErr, Err, ◌+◌, []};
ghost use Rattle.cp_words.specs.declared.pointer.ElementSize.TheVariants as sizes;
ghost use Rattle.std.specs.Int.{cast_signed, cast_unsigned, w32};
ghost use Rattle.cp_tree.specs.Seen.{pointee_of};
ghost use Rattle.cp_tree.specs.Shaped.{Shaped};
ghost use Rattle.cp_fields.specs.Numbers.{flag, plain, uint};
ghost use Rattle.cp_fields.specs.Pointers.{Reads, data_field, list_field, struct_field, text_field};
ghost use Rattle.cp_builder.specs.Numbers.{flag_bit};
ghost use Rattle.cp_builder.specs.declared.fault.BuildError.TheVariants.{TooLong};
ghost use Rattle.cp_builder.specs.Copies.{Sets, placed};
ghost use Rattle.cp_builder.specs.Drafts.{HoldsOneMore, blank, blank_list, with_last, with_uint};
ghost use Rattle.cp_interfaces.specs.Tables.{none_named};
ghost use Rattle.clauses.specs.Not.{not_number};
ghost use Rattle.clauses.specs.Not.{not_of};
ghost use Rattle.clauses.specs.Held.{held_which_of, held_member, held_length_chosen, held_length_blank};

use crate::not::Not;
use cp_builder::{BuildError, FieldValue, StructBuilder, StructListBuilder};
use cp_fields::{
    DataReader, Element, List, PointerReader, StructReader, TextReader, UnknownEnumerant, WrongKind,
};
use cp_interfaces::{CapTableBuilder, Lends, Results, TypedPipeline};
use cp_tree::Whole;
use std::alloc::{AllocError, Global};

/// `struct Held`.
#[derive(Drop)]
pub struct HeldReader<'a> {
    /// The struct, by the places of its fields.
    pub body: StructReader<'a>,
}

impl<'a> Element<'a> for HeldReader<'a> {
    ghost SIZE = { sizes.Composite };

    ghost read = { λ t. record { body = t } };

    fn size() -> cp_words::ElementSize
        ensures { result ≡ sizes.Composite }
    {
        cp_words::ElementSize::Composite
    }

    fn of_element(item: StructReader<'a>) -> HeldReader<'a> {
        HeldReader { body: item }
    }
}

impl<'a> HeldReader<'a> {
    /// The struct that a pointer stands for; null is the struct whose fields are all as by default.
    pub fn of(at: PointerReader<'a>) -> Result<HeldReader<'a>, WrongKind>
        ensures { Reads result (λ x. x.body) (struct_field at.entry) }
    {
        Ok(HeldReader {
            body: StructReader::of(at)?,
        })
    }

    /// Which member of the union is set.
    pub fn which(&self) -> HeldWhich
        ensures { result ≡ held_which_of (plain self.now.body 16 4) }
    {
        HeldWhich::of(self.body.u16(4))
    }

    /// `on @0`.
    pub fn on(&self) -> u8
        ensures { result ≡ plain self.now.body 8 0 }
    {
        self.body.u8(0)
    }

    /// `not @1`.
    pub fn not(&self) -> bool
        ensures { result ≡ not (flag self.now.body 8) }
    {
        self.body.bit_or_true(8)
    }

    /// `blank @2`.
    pub fn blank(&self) -> Result<TextReader<'a>, WrongKind>
        ensures { result ≡ text_field [] (pointee_of self.now.body 0) }
    {
        self.body.text(0)
    }

    /// `w32 @3`.
    pub fn w32(&self) -> i32
        ensures { result ≡ cast_signed w32 (uint self.now.body 32 1 4294967295) }
    {
        self.body.i32_or(1, 4294967295)
    }

    /// `textTree @4`.
    pub fn text_tree(&self) -> Result<DataReader<'a>, WrongKind>
        ensures { result ≡ data_field [] (pointee_of self.now.body 1) }
    {
        self.body.data(1)
    }

    /// `map @5`.
    pub fn map(&self) -> Result<List<'a, f32>, WrongKind>
        ensures { result ≡ list_field sizes.FourBytes (pointee_of self.now.body 2) }
    {
        self.body.list(2)
    }

    /// `withPointer @6`.
    pub fn with_pointer(&self) -> Not
        ensures { result ≡ not_of (plain self.now.body 16 1) }
    {
        Not::of(self.body.u16(1))
    }

    /// Group `length`.
    pub fn length(&self) -> HeldLengthReader<'a>
        ensures { result.body ≡ self.now.body }
    {
        HeldLengthReader {
            body: self.body.reborrow(),
        }
    }

    /// The member of the union that is set, with what it holds.
    pub fn member(&self) -> Result<HeldMember<'a>, WrongKind>
        ensures { result ≡ held_member self.now.body }
    {
        Ok(match self.which() {
            HeldWhich::Plain => HeldMember::Plain,
            HeldWhich::Length => HeldMember::Length(self.length()),
            HeldWhich::Unknown(number) => HeldMember::Unknown(number),
        })
    }
}

/// The members of the union of `Held`.
#[derive(Clone, Copy, PartialEq, Eq)]
pub enum HeldWhich {
    Plain,
    Length,
    /// A number that a newer schema has.
    Unknown(UnknownEnumerant<1>),
}

impl HeldWhich {
    /// The value of this number.
    pub fn of(number: u16) -> HeldWhich
        ensures { result ≡ held_which_of number }
    {
        match number {
            0 => HeldWhich::Plain,
            1 => HeldWhich::Length,
            _ => match UnknownEnumerant::new(number) {
                Some(number) => HeldWhich::Unknown(number),
                None => unreachable!(),
            },
        }
    }
}

/// The member of the union of `Held` that is set, with what it holds.
#[derive(Drop)]
pub enum HeldMember<'a> {
    Plain,
    Length(HeldLengthReader<'a>),
    /// A member that a newer schema has.
    Unknown(UnknownEnumerant<1>),
}

/// `struct Held`, to be written.
#[derive(Drop)]
pub struct HeldBuilder {
    /// The struct, by the places of its fields.
    pub body: StructBuilder<2, 4>,
}

impl HeldBuilder {
    /// A struct whose fields are all as by default.
    pub fn new(alloc: Global) -> Result<HeldBuilder, AllocError>
        ensures { IfOk result (λ d. d.body ≡ blank 2 4) }
    {
        Ok(HeldBuilder {
            body: StructBuilder::new(alloc)?,
        })
    }

    /// Sets `on`.
    pub fn set_on(&mut self, value: u8)
        ensures { self.new.body ≡ with_uint self.old.body 8 0 value }
    {
        self.body.set_u8(0, value);
    }

    /// Sets `not`.
    pub fn set_not(&mut self, value: bool)
        ensures { self.new.body ≡ with_uint self.old.body 1 8 (flag_bit (not value)) }
    {
        self.body.set_bit(8, !value);
    }

    /// Sets `blank`.
    pub fn set_blank<'a, V: FieldValue<TextReader<'a>>>(
        &mut self,
        value: V,
    ) -> Result<(), BuildError>
        ensures set { OnOk result (Sets (V.stands value) self.old.body 0 self.new.body) }
        ensures left { OnErr result (self.new ≡ self.old) }
        ensures long { result ≡ Err TooLong → V.is_long value }
    {
        let whole = value.into_whole(self.body.alloc())?;
        self.body.set_pointer(0, whole);
        Ok(())
    }

    /// Sets `w32`.
    pub fn set_w32(&mut self, value: i32)
        ensures { self.new.body ≡ with_uint self.old.body 32 1 (bit_xor (cast_unsigned w32 value) 4294967295) }
    {
        self.body.set_u32(1, value.cast_unsigned() ^ 4294967295);
    }

    /// Sets `textTree`.
    pub fn set_text_tree<'a, V: FieldValue<DataReader<'a>>>(
        &mut self,
        value: V,
    ) -> Result<(), BuildError>
        ensures set { OnOk result (Sets (V.stands value) self.old.body 1 self.new.body) }
        ensures left { OnErr result (self.new ≡ self.old) }
        ensures long { result ≡ Err TooLong → V.is_long value }
    {
        let whole = value.into_whole(self.body.alloc())?;
        self.body.set_pointer(1, whole);
        Ok(())
    }

    /// Sets `map`.
    pub fn set_map<'a, V: FieldValue<List<'a, f32>>>(&mut self, value: V) -> Result<(), BuildError>
        ensures set { OnOk result (Sets (V.stands value) self.old.body 2 self.new.body) }
        ensures left { OnErr result (self.new ≡ self.old) }
        ensures long { result ≡ Err TooLong → V.is_long value }
    {
        let whole = value.into_whole(self.body.alloc())?;
        self.body.set_pointer(2, whole);
        Ok(())
    }

    /// Sets `withPointer`.
    pub fn set_with_pointer(&mut self, value: Not)
        ensures { self.new.body ≡ with_uint self.old.body 16 1 (not_number value) }
    {
        self.body.set_u16(1, value.number());
    }

    /// Sets `plain`, and chooses it in its union.
    pub fn set_plain(&mut self)
        ensures { self.new.body ≡ with_uint self.old.body 16 4 0 }
    {
        self.body.set_u16(4, 0);
    }

    /// Chooses group `length` in its union.
    /// All its fields are then as by default.
    pub fn set_length(&mut self)
        ensures { self.new.body ≡ held_length_blank self.old.body }
    {
        self.body.set_u16(4, 1);
        self.body.set_u16(5, 0);
        self.body.set_pointer(3, Whole::null());
    }

    /// Chooses it, unless it is chosen.
    fn choose_length(&mut self)
        ensures { self.new.body ≡ held_length_chosen self.old.body }
    {
        if self.body.u16(4) != 1 {
            self.set_length();
        }
    }

    /// Sets `bitXor`, and chooses the group that it is in.
    pub fn set_length_bit_xor(&mut self, value: u16)
        ensures { self.new.body ≡ with_uint (held_length_chosen self.old.body) 16 5 (bit_xor value 7) }
    {
        self.choose_length();
        self.body.set_u16(5, value ^ 7);
    }

    /// Sets `areOf`, and chooses the group that it is in.
    pub fn set_length_are_of<'a, V: FieldValue<TextReader<'a>>>(
        &mut self,
        value: V,
    ) -> Result<(), BuildError>
        ensures set { OnOk result (Sets (V.stands value) (held_length_chosen self.old.body) 3 self.new.body) }
        ensures left { OnErr result (self.new ≡ self.old) }
        ensures long { result ≡ Err TooLong → V.is_long value }
    {
        let whole = value.into_whole(self.body.alloc())?;
        self.choose_length();
        self.body.set_pointer(3, whole);
        Ok(())
    }
}

/// A list of `struct Held`, to be written.
#[derive(Drop)]
pub struct HeldListBuilder {
    /// The list.
    pub items: StructListBuilder<2, 4>,
}

impl HeldListBuilder {
    /// No struct yet.
    pub fn new(alloc: Global) -> HeldListBuilder
        ensures { result.items ≡ blank_list 2 4 }
    {
        HeldListBuilder {
            items: StructListBuilder::new(alloc),
        }
    }

    /// Adds a struct at the end.
    pub fn push(&mut self, item: HeldBuilder) -> Result<(), BuildError>
        ensures pushed { OnOk result (self.new.items ≡ with_last self.old.items item.body) }
        ensures left { OnErr result (self.new ≡ self.old) }
        ensures long { result ≡ Err TooLong → ¬ (HoldsOneMore self.old.items (2 + 4)) }
    {
        self.items.push(item.body)
    }
}

impl<'a> FieldValue<List<'a, HeldReader<'a>>> for HeldListBuilder {
    ghost stands = { λ l t. t ≡ l.items };

    ghost is_long = { λ l. ⊥ };

    fn into_whole(self, _alloc: Global) -> Result<Whole, BuildError>
        ensures value { IfOk result (λ whole. whole ≡ self.items) }
        ensures long { result ≡ Err TooLong → ⊥ }
    {
        Ok(self.items.into_whole())
    }
}

impl<'a> FieldValue<HeldReader<'a>> for HeldReader<'a> {
    ghost stands = { λ r t. t ≡ placed [] r.body };

    ghost is_long = { λ r. ¬ (Shaped (placed [] r.body)) };

    fn into_whole(self, alloc: Global) -> Result<Whole, BuildError> {
        cp_builder::struct_copy(alloc, &self.body, &[])
    }
}

impl<'a> FieldValue<HeldReader<'a>> for HeldBuilder {
    ghost stands = { λ d t. t ≡ d.body };

    ghost is_long = { λ d. ⊥ };

    fn into_whole(self, _alloc: Global) -> Result<Whole, BuildError>
        ensures value { IfOk result (λ whole. whole ≡ self.body) }
        ensures long { result ≡ Err TooLong → ⊥ }
    {
        Ok(self.body.into_whole())
    }
}

impl Results for HeldBuilder {
    ghost content = { λ d. d.body };

    ghost names = { λ d. none_named };

    fn into_parts(self, alloc: Global) -> (Whole, CapTableBuilder) {
        (self.body.into_whole(), CapTableBuilder::new(alloc))
    }
}

/// `struct Held`, as a question will give it.
pub type HeldPipeline = TypedPipeline<HeldBuilder>;

impl<'a> Lends<'a> for HeldBuilder {
    type Reader = HeldReader<'a>;

    ghost read = { λ x. x.body };

    fn reader(body: StructReader<'a>) -> HeldReader<'a> {
        HeldReader { body }
    }
}

/// `group Held.length`.
#[derive(Drop)]
pub struct HeldLengthReader<'a> {
    /// The struct, by the places of its fields.
    pub body: StructReader<'a>,
}

impl<'a> HeldLengthReader<'a> {
    /// `bitXor @8`.
    pub fn bit_xor(&self) -> u16
        ensures { result ≡ uint self.now.body 16 5 7 }
    {
        self.body.u16_or(5, 7)
    }

    /// `areOf @9`.
    pub fn are_of(&self) -> Result<TextReader<'a>, WrongKind>
        ensures { result ≡ text_field [] (pointee_of self.now.body 3) }
    {
        self.body.text(3)
    }
}
