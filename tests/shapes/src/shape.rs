//! `shape` of shapes.capnp, made by capnpc_rattle.

ghost use Rattle.std.specs.Prelude.{◌≡◌, not, from_bits, to_bits, bit_xor, IfOk, OnOk, OnErr, Err, ◌+◌, []};
ghost use Rattle.cp_words.specs.declared.pointer.ElementSize.TheVariants as sizes;
ghost use Rattle.std.specs.Int.{cast_signed, cast_unsigned, w32};
ghost use Rattle.std.specs.Float.{binary64};
ghost use Rattle.cp_tree.specs.Seen.{pointee_of};
ghost use Rattle.cp_tree.specs.Shaped.{Shaped};
ghost use Rattle.cp_fields.specs.Numbers.{flag, plain, uint};
ghost use Rattle.cp_fields.specs.Pointers.{Reads, struct_field, text_field};
ghost use Rattle.cp_builder.specs.Numbers.{flag_bit};
ghost use Rattle.cp_builder.specs.declared.fault.BuildError.TheVariants.{TooLong};
ghost use Rattle.cp_builder.specs.Copies.{Sets, placed};
ghost use Rattle.cp_builder.specs.Drafts.{HoldsOneMore, blank, blank_list, with_last, with_uint};
ghost use Rattle.cp_interfaces.specs.Tables.{none_named};
ghost use Rattle.shapes.specs.Shape.{shape_kind_square_chosen, shape_kind_square_blank, shape_kind_circle_chosen, shape_kind_circle_blank, shape_kind_circle_style_dashed_chosen, shape_kind_circle_style_dashed_blank, shape_kind_which_of, shape_kind_member, shape_kind_circle_style_which_of, shape_kind_circle_style_member};

use cp_builder::{BuildError, FieldValue, StructBuilder, StructListBuilder};
use cp_fields::{
    Element, List, PointerReader, StructReader, TextReader, UnknownEnumerant, WrongKind,
};
use cp_interfaces::{CapTableBuilder, Lends, Results, TypedPipeline};
use cp_tree::Whole;
use std::alloc::{AllocError, Global};
use std::num::f64_to_bits_with_nan;

/// `group Shape.kind.square`.
#[derive(Drop)]
pub struct ShapeKindSquareReader<'a> {
    /// The struct, by the places of its fields.
    pub body: StructReader<'a>,
}

impl<'a> ShapeKindSquareReader<'a> {
    /// `side @2`.
    pub fn side(&self) -> u32
        ensures { result ≡ plain self.now.body 32 3 }
    {
        self.body.u32(3)
    }

    /// `label @3`.
    pub fn label(&self) -> Result<TextReader<'a>, WrongKind>
        ensures { result ≡ text_field [] (pointee_of self.now.body 0) }
    {
        self.body.text(0)
    }

    /// `filled @4`.
    pub fn filled(&self) -> bool
        ensures { result ≡ not (flag self.now.body 80) }
    {
        self.body.bit_or_true(80)
    }
}

/// `group Shape.kind.circle`.
#[derive(Drop)]
pub struct ShapeKindCircleReader<'a> {
    /// The struct, by the places of its fields.
    pub body: StructReader<'a>,
}

impl<'a> ShapeKindCircleReader<'a> {
    /// `radius @5`.
    pub fn radius(&self) -> i32
        ensures { result ≡ cast_signed w32 (uint self.now.body 32 3 4294967295) }
    {
        self.body.i32_or(3, 4294967295)
    }

    /// `name @6`.
    pub fn name(&self) -> Result<TextReader<'a>, WrongKind>
        ensures { result ≡ text_field [] (pointee_of self.now.body 0) }
    {
        self.body.text(0)
    }

    /// Group `style`.
    pub fn style(&self) -> ShapeKindCircleStyleReader<'a>
        ensures { result.body ≡ self.now.body }
    {
        ShapeKindCircleStyleReader {
            body: self.body.reborrow(),
        }
    }
}

/// `struct Shape`.
#[derive(Drop)]
pub struct ShapeReader<'a> {
    /// The struct, by the places of its fields.
    pub body: StructReader<'a>,
}

impl<'a> Element<'a> for ShapeReader<'a> {
    ghost SIZE = { sizes.Composite };

    ghost read = { λ t. record { body = t } };

    fn size() -> cp_words::ElementSize
        ensures { result ≡ sizes.Composite }
    {
        cp_words::ElementSize::Composite
    }

    fn of_element(item: StructReader<'a>) -> ShapeReader<'a> {
        ShapeReader { body: item }
    }
}

impl<'a> ShapeReader<'a> {
    /// The struct that a pointer stands for; null is the struct whose fields are all as by default.
    pub fn of(at: PointerReader<'a>) -> Result<ShapeReader<'a>, WrongKind>
        ensures { Reads result (λ x. x.body) (struct_field at.entry) }
    {
        Ok(ShapeReader {
            body: StructReader::of(at)?,
        })
    }

    /// `area @0`.
    pub fn area(&self) -> f64
        ensures { result ≡ from_bits binary64 (plain self.now.body 64 0) }
    {
        self.body.f64(0)
    }

    /// Group `kind`.
    pub fn kind(&self) -> ShapeKindReader<'a>
        ensures { result.body ≡ self.now.body }
    {
        ShapeKindReader {
            body: self.body.reborrow(),
        }
    }
}

/// `struct Shape`, to be written.
#[derive(Drop)]
pub struct ShapeBuilder {
    /// The struct, by the places of its fields.
    pub body: StructBuilder<3, 2>,
}

impl ShapeBuilder {
    /// A struct whose fields are all as by default.
    pub fn new(alloc: Global) -> Result<ShapeBuilder, AllocError>
        ensures { IfOk result (λ d. d.body ≡ blank 3 2) }
    {
        Ok(ShapeBuilder {
            body: StructBuilder::new(alloc)?,
        })
    }

    /// Sets `area`.
    pub fn set_area(&mut self, value: f64)
        ensures { self.new.body ≡ with_uint self.old.body 64 0 (to_bits binary64 value) }
    {
        self.body.set_u64(0, f64_to_bits_with_nan(value));
    }

    /// Sets `nothing`, and chooses it in its union.
    pub fn set_kind_nothing(&mut self)
        ensures { self.new.body ≡ with_uint self.old.body 16 4 0 }
    {
        self.body.set_u16(4, 0);
    }

    /// Chooses group `square` in its union.
    /// All its fields are then as by default.
    pub fn set_kind_square(&mut self)
        ensures { self.new.body ≡ shape_kind_square_blank self.old.body }
    {
        self.body.set_u16(4, 1);
        self.body.set_u32(3, 0);
        self.body.set_bit(80, false);
        self.body.set_pointer(0, Whole::null());
    }

    /// Chooses it, unless it is chosen.
    fn choose_kind_square(&mut self)
        ensures { self.new.body ≡ shape_kind_square_chosen self.old.body }
    {
        if self.body.u16(4) != 1 {
            self.set_kind_square();
        }
    }

    /// Sets `side`, and chooses the group that it is in.
    pub fn set_kind_square_side(&mut self, value: u32)
        ensures { self.new.body ≡ with_uint (shape_kind_square_chosen self.old.body) 32 3 value }
    {
        self.choose_kind_square();
        self.body.set_u32(3, value);
    }

    /// Sets `label`, and chooses the group that it is in.
    pub fn set_kind_square_label<'a, V: FieldValue<TextReader<'a>>>(
        &mut self,
        value: V,
    ) -> Result<(), BuildError>
        ensures set { OnOk result (Sets (V.stands value) (shape_kind_square_chosen self.old.body) 0 self.new.body) }
        ensures left { OnErr result (self.new ≡ self.old) }
        ensures long { result ≡ Err TooLong → V.is_long value }
    {
        let whole = value.into_whole(self.body.alloc())?;
        self.choose_kind_square();
        self.body.set_pointer(0, whole);
        Ok(())
    }

    /// Sets `filled`, and chooses the group that it is in.
    pub fn set_kind_square_filled(&mut self, value: bool)
        ensures { self.new.body ≡ with_uint (shape_kind_square_chosen self.old.body) 1 80 (flag_bit (not value)) }
    {
        self.choose_kind_square();
        self.body.set_bit(80, !value);
    }

    /// Chooses group `circle` in its union.
    /// All its fields are then as by default.
    pub fn set_kind_circle(&mut self)
        ensures { self.new.body ≡ shape_kind_circle_blank self.old.body }
    {
        self.body.set_u16(4, 2);
        self.body.set_u32(3, 0);
        self.body.set_u16(5, 0);
        self.body.set_u16(8, 0);
        self.body.set_pointer(0, Whole::null());
        self.body.set_pointer(1, Whole::null());
    }

    /// Chooses it, unless it is chosen.
    fn choose_kind_circle(&mut self)
        ensures { self.new.body ≡ shape_kind_circle_chosen self.old.body }
    {
        if self.body.u16(4) != 2 {
            self.set_kind_circle();
        }
    }

    /// Sets `radius`, and chooses the group that it is in.
    pub fn set_kind_circle_radius(&mut self, value: i32)
        ensures { self.new.body ≡ with_uint (shape_kind_circle_chosen self.old.body) 32 3 (bit_xor (cast_unsigned w32 value) 4294967295) }
    {
        self.choose_kind_circle();
        self.body.set_u32(3, value.cast_unsigned() ^ 4294967295);
    }

    /// Sets `name`, and chooses the group that it is in.
    pub fn set_kind_circle_name<'a, V: FieldValue<TextReader<'a>>>(
        &mut self,
        value: V,
    ) -> Result<(), BuildError>
        ensures set { OnOk result (Sets (V.stands value) (shape_kind_circle_chosen self.old.body) 0 self.new.body) }
        ensures left { OnErr result (self.new ≡ self.old) }
        ensures long { result ≡ Err TooLong → V.is_long value }
    {
        let whole = value.into_whole(self.body.alloc())?;
        self.choose_kind_circle();
        self.body.set_pointer(0, whole);
        Ok(())
    }

    /// Sets `plain`, and chooses it in its union.
    pub fn set_kind_circle_style_plain(&mut self)
        ensures { self.new.body ≡ with_uint (shape_kind_circle_chosen self.old.body) 16 5 0 }
    {
        self.choose_kind_circle();
        self.body.set_u16(5, 0);
    }

    /// Chooses group `dashed` in its union.
    /// All its fields are then as by default.
    pub fn set_kind_circle_style_dashed(&mut self)
        ensures { self.new.body ≡ shape_kind_circle_style_dashed_blank (shape_kind_circle_chosen self.old.body) }
    {
        self.choose_kind_circle();
        self.body.set_u16(5, 1);
        self.body.set_u16(8, 0);
        self.body.set_pointer(1, Whole::null());
    }

    /// Chooses it, unless it is chosen.
    fn choose_kind_circle_style_dashed(&mut self)
        ensures { self.new.body ≡ shape_kind_circle_style_dashed_chosen self.old.body }
    {
        self.choose_kind_circle();
        if self.body.u16(5) != 1 {
            self.body.set_u16(5, 1);
            self.body.set_u16(8, 0);
            self.body.set_pointer(1, Whole::null());
        }
    }

    /// Sets `length`, and chooses the group that it is in.
    pub fn set_kind_circle_style_dashed_length(&mut self, value: u16)
        ensures { self.new.body ≡ with_uint (shape_kind_circle_style_dashed_chosen self.old.body) 16 8 value }
    {
        self.choose_kind_circle_style_dashed();
        self.body.set_u16(8, value);
    }

    /// Sets `note`, and chooses the group that it is in.
    pub fn set_kind_circle_style_dashed_note<'a, V: FieldValue<TextReader<'a>>>(
        &mut self,
        value: V,
    ) -> Result<(), BuildError>
        ensures set { OnOk result (Sets (V.stands value) (shape_kind_circle_style_dashed_chosen self.old.body) 1 self.new.body) }
        ensures left { OnErr result (self.new ≡ self.old) }
        ensures long { result ≡ Err TooLong → V.is_long value }
    {
        let whole = value.into_whole(self.body.alloc())?;
        self.choose_kind_circle_style_dashed();
        self.body.set_pointer(1, whole);
        Ok(())
    }

    /// Sets `code`, and chooses it in its union.
    pub fn set_kind_code(&mut self, value: u64)
        ensures { self.new.body ≡ with_uint (with_uint self.old.body 16 4 3) 64 2 value }
    {
        self.body.set_u16(4, 3);
        self.body.set_u64(2, value);
    }
}

/// A list of `struct Shape`, to be written.
#[derive(Drop)]
pub struct ShapeListBuilder {
    /// The list.
    pub items: StructListBuilder<3, 2>,
}

impl ShapeListBuilder {
    /// No struct yet.
    pub fn new(alloc: Global) -> ShapeListBuilder
        ensures { result.items ≡ blank_list 3 2 }
    {
        ShapeListBuilder {
            items: StructListBuilder::new(alloc),
        }
    }

    /// Adds a struct at the end.
    pub fn push(&mut self, item: ShapeBuilder) -> Result<(), BuildError>
        ensures pushed { OnOk result (self.new.items ≡ with_last self.old.items item.body) }
        ensures left { OnErr result (self.new ≡ self.old) }
        ensures long { result ≡ Err TooLong → ¬ (HoldsOneMore self.old.items (3 + 2)) }
    {
        self.items.push(item.body)
    }
}

impl<'a> FieldValue<List<'a, ShapeReader<'a>>> for ShapeListBuilder {
    ghost stands = { λ l t. t ≡ l.items };

    ghost is_long = { λ l. ⊥ };

    fn into_whole(self, _alloc: Global) -> Result<Whole, BuildError>
        ensures value { IfOk result (λ whole. whole ≡ self.items) }
        ensures long { result ≡ Err TooLong → ⊥ }
    {
        Ok(self.items.into_whole())
    }
}

impl<'a> FieldValue<ShapeReader<'a>> for ShapeReader<'a> {
    ghost stands = { λ r t. t ≡ placed [] r.body };

    ghost is_long = { λ r. ¬ (Shaped (placed [] r.body)) };

    fn into_whole(self, alloc: Global) -> Result<Whole, BuildError> {
        cp_builder::struct_copy(alloc, &self.body, &[])
    }
}

impl<'a> FieldValue<ShapeReader<'a>> for ShapeBuilder {
    ghost stands = { λ d t. t ≡ d.body };

    ghost is_long = { λ d. ⊥ };

    fn into_whole(self, _alloc: Global) -> Result<Whole, BuildError>
        ensures value { IfOk result (λ whole. whole ≡ self.body) }
        ensures long { result ≡ Err TooLong → ⊥ }
    {
        Ok(self.body.into_whole())
    }
}

impl Results for ShapeBuilder {
    ghost content = { λ d. d.body };

    ghost names = { λ d. none_named };

    fn into_parts(self, alloc: Global) -> (Whole, CapTableBuilder) {
        (self.body.into_whole(), CapTableBuilder::new(alloc))
    }
}

/// `struct Shape`, as a question will give it.
pub type ShapePipeline = TypedPipeline<ShapeBuilder>;

impl<'a> Lends<'a> for ShapeBuilder {
    type Reader = ShapeReader<'a>;

    ghost read = { λ x. x.body };

    fn reader(body: StructReader<'a>) -> ShapeReader<'a> {
        ShapeReader { body }
    }
}

/// `group Shape.kind`.
#[derive(Drop)]
pub struct ShapeKindReader<'a> {
    /// The struct, by the places of its fields.
    pub body: StructReader<'a>,
}

impl<'a> ShapeKindReader<'a> {
    /// Which member of the union is set.
    pub fn which(&self) -> ShapeKindWhich
        ensures { result ≡ shape_kind_which_of (plain self.now.body 16 4) }
    {
        ShapeKindWhich::of(self.body.u16(4))
    }

    /// Group `square`.
    pub fn square(&self) -> ShapeKindSquareReader<'a>
        ensures { result.body ≡ self.now.body }
    {
        ShapeKindSquareReader {
            body: self.body.reborrow(),
        }
    }

    /// Group `circle`.
    pub fn circle(&self) -> ShapeKindCircleReader<'a>
        ensures { result.body ≡ self.now.body }
    {
        ShapeKindCircleReader {
            body: self.body.reborrow(),
        }
    }

    /// `code @10`.
    pub fn code(&self) -> u64
        ensures { result ≡ plain self.now.body 64 2 }
    {
        self.body.u64(2)
    }

    /// The member of the union that is set, with what it holds.
    pub fn member(&self) -> Result<ShapeKindMember<'a>, WrongKind>
        ensures { result ≡ shape_kind_member self.now.body }
    {
        Ok(match self.which() {
            ShapeKindWhich::Nothing => ShapeKindMember::Nothing,
            ShapeKindWhich::Square => ShapeKindMember::Square(self.square()),
            ShapeKindWhich::Circle => ShapeKindMember::Circle(self.circle()),
            ShapeKindWhich::Code => ShapeKindMember::Code(self.code()),
            ShapeKindWhich::Unknown(number) => ShapeKindMember::Unknown(number),
        })
    }
}

/// The members of the union of `Shape.kind`.
#[derive(Clone, Copy, PartialEq, Eq)]
pub enum ShapeKindWhich {
    Nothing,
    Square,
    Circle,
    Code,
    /// A number that a newer schema has.
    Unknown(UnknownEnumerant<3>),
}

impl ShapeKindWhich {
    /// The value of this number.
    pub fn of(number: u16) -> ShapeKindWhich
        ensures { result ≡ shape_kind_which_of number }
    {
        match number {
            0 => ShapeKindWhich::Nothing,
            1 => ShapeKindWhich::Square,
            2 => ShapeKindWhich::Circle,
            3 => ShapeKindWhich::Code,
            _ => match UnknownEnumerant::new(number) {
                Some(number) => ShapeKindWhich::Unknown(number),
                None => unreachable!(),
            },
        }
    }
}

/// The member of the union of `Shape.kind` that is set, with what it holds.
#[derive(Drop)]
pub enum ShapeKindMember<'a> {
    Nothing,
    Square(ShapeKindSquareReader<'a>),
    Circle(ShapeKindCircleReader<'a>),
    Code(u64),
    /// A member that a newer schema has.
    Unknown(UnknownEnumerant<3>),
}

/// `group Shape.kind.circle.style`.
#[derive(Drop)]
pub struct ShapeKindCircleStyleReader<'a> {
    /// The struct, by the places of its fields.
    pub body: StructReader<'a>,
}

impl<'a> ShapeKindCircleStyleReader<'a> {
    /// Which member of the union is set.
    pub fn which(&self) -> ShapeKindCircleStyleWhich
        ensures { result ≡ shape_kind_circle_style_which_of (plain self.now.body 16 5) }
    {
        ShapeKindCircleStyleWhich::of(self.body.u16(5))
    }

    /// Group `dashed`.
    pub fn dashed(&self) -> ShapeKindCircleStyleDashedReader<'a>
        ensures { result.body ≡ self.now.body }
    {
        ShapeKindCircleStyleDashedReader {
            body: self.body.reborrow(),
        }
    }

    /// The member of the union that is set, with what it holds.
    pub fn member(&self) -> Result<ShapeKindCircleStyleMember<'a>, WrongKind>
        ensures { result ≡ shape_kind_circle_style_member self.now.body }
    {
        Ok(match self.which() {
            ShapeKindCircleStyleWhich::Plain => ShapeKindCircleStyleMember::Plain,
            ShapeKindCircleStyleWhich::Dashed => ShapeKindCircleStyleMember::Dashed(self.dashed()),
            ShapeKindCircleStyleWhich::Unknown(number) => ShapeKindCircleStyleMember::Unknown(
                number,
            ),
        })
    }
}

/// The members of the union of `Shape.kind.circle.style`.
#[derive(Clone, Copy, PartialEq, Eq)]
pub enum ShapeKindCircleStyleWhich {
    Plain,
    Dashed,
    /// A number that a newer schema has.
    Unknown(UnknownEnumerant<1>),
}

impl ShapeKindCircleStyleWhich {
    /// The value of this number.
    pub fn of(number: u16) -> ShapeKindCircleStyleWhich
        ensures { result ≡ shape_kind_circle_style_which_of number }
    {
        match number {
            0 => ShapeKindCircleStyleWhich::Plain,
            1 => ShapeKindCircleStyleWhich::Dashed,
            _ => match UnknownEnumerant::new(number) {
                Some(number) => ShapeKindCircleStyleWhich::Unknown(number),
                None => unreachable!(),
            },
        }
    }
}

/// The member of the union of `Shape.kind.circle.style` that is set, with what it holds.
#[derive(Drop)]
pub enum ShapeKindCircleStyleMember<'a> {
    Plain,
    Dashed(ShapeKindCircleStyleDashedReader<'a>),
    /// A member that a newer schema has.
    Unknown(UnknownEnumerant<1>),
}

/// `group Shape.kind.circle.style.dashed`.
#[derive(Drop)]
pub struct ShapeKindCircleStyleDashedReader<'a> {
    /// The struct, by the places of its fields.
    pub body: StructReader<'a>,
}

impl<'a> ShapeKindCircleStyleDashedReader<'a> {
    /// `length @8`.
    pub fn length(&self) -> u16
        ensures { result ≡ plain self.now.body 16 8 }
    {
        self.body.u16(8)
    }

    /// `note @9`.
    pub fn note(&self) -> Result<TextReader<'a>, WrongKind>
        ensures { result ≡ text_field [] (pointee_of self.now.body 1) }
    {
        self.body.text(1)
    }
}
