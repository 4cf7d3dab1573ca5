//! `blank` of clauses.capnp, made by capnpc_rattle.

ghost use Rattle.std.specs.Prelude.{◌≡◌, from_bits, to_bits, IfOk, OnOk, OnErr, Err, ◌↔◌, ◌≤◌, ◌^◌, length, ◌+◌, ◌∷◌, [], true, false, map};
ghost use Rattle.cp_words.specs.declared.pointer.ElementSize.TheVariants as sizes;
ghost use Rattle.std.specs.Int.{cast_signed, cast_unsigned, w16, w32};
ghost use Rattle.std.specs.Float.{binary64};
ghost use Rattle.cp_tree.specs.Seen.{pointee_of};
ghost use Rattle.cp_fields.specs.Numbers.{flag, plain};
ghost use Rattle.cp_fields.specs.Pointers.{Reads, cap_field, data_field, held, list_field, struct_field, text_field};
ghost use Rattle.cp_builder.specs.Numbers.{flag_bit};
ghost use Rattle.cp_builder.specs.declared.fault.BuildError.TheVariants.{TooLong};
ghost use Rattle.cp_builder.specs.Copies.{Sets};
ghost use Rattle.cp_builder.specs.Drafts.{blank, bytes_tree, halves_tree, text_tree, with_pointer, with_uint};
ghost use Rattle.cp_servants.specs.Naming.{pointer_naming};
ghost use Rattle.cp_interfaces.specs.Calls.{IsCall, MakesOf, request_of};
ghost use Rattle.cp_interfaces.specs.Faults.{Unbuilt, Unnamed};
ghost use Rattle.cp_interfaces.specs.Promises.{Finds, along, promised_cap};
ghost use Rattle.cp_interfaces.specs.ServiceCalls.{Answers};
ghost use Rattle.cp_interfaces.specs.Streams.{no_streams};
ghost use Rattle.cp_interfaces.specs.Tables.{IsFull, may_name, may_name_all, naming, none_named};
ghost use Rattle.clauses.specs.Not.{not_number};
ghost use Rattle.clauses.specs.Not.{not_of};
ghost use Rattle.cp_interfaces.specs.Services.{At, at};
ghost use Rattle.cp_interfaces.specs.declared.naming_error.NamingError.TheVariants as errors;
ghost use Rattle.clauses.specs.Blank.{BlankKind, BlankTakes, any_blank};

use crate::held::{HeldBuilder, HeldPipeline, HeldReader};
use crate::not::Not;
use cp_builder::{BuildError, FieldValue, StructBuilder};
use cp_fields::{DataReader, List, StructReader, TextReader, WrongKind};
use cp_interfaces::{
    CallTarget, Caller, CapFault, CapTable, CapTableBuilder, Dispatch, LaterAnswer, Lends,
    MethodCall, MethodFault, MethodRequest, MethodResult, NamingError, ObjectDispatch, Pipeline,
    ResultPayload, Results, ServiceCall, ServiceObject, SharedClient, TypedClient, TypedPipeline,
    TypedResolver, refuse, refuse_method,
};
use cp_objects::{Context, SessionCap};
use cp_servants::Reply;
use cp_tree::Whole;
use std::alloc::{AllocError, Global};
use std::num::f64_to_bits_with_nan;

/// `interface Blank`.
#[derive(Drop)]
pub struct BlankClient {
    /// The capability that is called.
    pub target: CallTarget,
}

impl BlankClient {
    /// The interface's number.
    pub const ID: u64 = 0xeca4a334eb82a4a8;

    /// The object that a capability stands for.
    pub fn new(alloc: Global, cap: SessionCap) -> BlankClient
        ensures { result.target ≡ cap }
    {
        BlankClient {
            target: CallTarget::new(alloc, cap),
        }
    }

    /// A call of `take @0`.
    pub fn take_request(
        &self,
        on_: u8,
        not_: bool,
        blank_: &str,
        w32_: i32,
    ) -> Result<MethodRequest<'_>, BuildError>
        ensures request { IfOk result (λ r. IsCall r self.now.target (request_of 0xeca4a334eb82a4a8 0 (with_uint (with_pointer (with_uint (with_uint (blank 1 1) 8 0 on_) 1 8 (flag_bit not_)) 0 (text_tree blank_.now)) 32 1 (cast_unsigned w32 w32_)) [])) }
        ensures long { result ≡ Err TooLong → 2 ^ 29 ≤ length blank_.now + 1 }
    {
        let mut params: StructBuilder<1, 1> = StructBuilder::new(self.target.alloc())?;
        params.set_u8(0, on_);
        params.set_bit(8, not_);
        params.set_pointer(0, cp_builder::text_of(self.target.alloc(), blank_)?);
        params.set_u32(1, w32_.cast_unsigned());
        let content = params.into_whole();
        Ok(self.target.request(0xeca4a334eb82a4a8, 0, content))
    }

    /// Takes values.
    pub fn take<C: Caller>(
        &self,
        caller: &mut C,
        on_: u8,
        not_: bool,
        blank_: &str,
        w32_: i32,
    ) -> Result<BlankTakeResultsPipeline, C::Fault>
        ensures { MakesOf (λ p. p.at) C.number C.sends C.Fault.From-2.from_gives (Unbuilt C.Fault.From-1.from_gives (2 ^ 29 ≤ length blank_.now + 1)) caller.old self.now.target 0xeca4a334eb82a4a8 0 (with_uint (with_pointer (with_uint (with_uint (blank 1 1) 8 0 on_) 1 8 (flag_bit not_)) 0 (text_tree blank_.now)) 32 1 (cast_unsigned w32 w32_)) [] result caller.new }
    {
        let call = self.take_request(on_, not_, blank_, w32_)?;
        Ok(BlankTakeResultsPipeline::of(self.target.call(caller, call.request)?))
    }

    /// A call of `give @1`.
    pub fn give_request(
        &self,
        text_tree_: Vec<u8>,
        with_uint_: f64,
        naming_: BlankClient,
        none_named_: Not,
    ) -> Result<MethodRequest<'_>, NamingError>
        ensures request { IfOk result (λ r. IsCall r self.now.target (request_of 0xeca4a334eb82a4a8 1 (with_uint (with_pointer (with_uint (with_pointer (blank 2 2) 0 (bytes_tree text_tree_.items)) 64 0 (to_bits binary64 with_uint_)) 1 (pointer_naming (none_named).caps naming_.target.cap)) 16 4 (not_number none_named_)) ((naming none_named naming_.target)).caps)) }
        ensures long { result ≡ Err errors.TooLong → 2 ^ 29 ≤ length text_tree_.items }
        ensures own { OnOk result (may_name_all self.now.target.session none_named (naming_.target ∷ []) ≡ true) }
        ensures other { result ≡ Err errors.OtherSession → may_name_all self.now.target.session none_named (naming_.target ∷ []) ≡ false }
    {
        let mut params: StructBuilder<2, 2> = StructBuilder::new(self.target.alloc())?;
        let mut table = CapTableBuilder::new(self.target.alloc());
        params.set_pointer(0, cp_builder::bytes_of(text_tree_)?);
        params.set_u64(0, f64_to_bits_with_nan(with_uint_));
        params.set_pointer(1, table.add(naming_.target.into_cap())?);
        params.set_u16(4, none_named_.number());
        let content = params.into_whole();
        self.target
            .request_naming(0xeca4a334eb82a4a8, 1, content, table)
    }

    /// Takes a capability among values.
    pub fn give<C: Caller>(
        &self,
        caller: &mut C,
        text_tree_: Vec<u8>,
        with_uint_: f64,
        naming_: BlankClient,
        none_named_: Not,
    ) -> Result<BlankGiveResultsPipeline, C::Fault>
        ensures { MakesOf (λ p. p.at) C.number C.sends C.Fault.From-2.from_gives (Unnamed C.Fault.From-2.from_gives (2 ^ 29 ≤ length text_tree_.items) (may_name_all self.now.target.session none_named (naming_.target ∷ []))) caller.old self.now.target 0xeca4a334eb82a4a8 1 (with_uint (with_pointer (with_uint (with_pointer (blank 2 2) 0 (bytes_tree text_tree_.items)) 64 0 (to_bits binary64 with_uint_)) 1 (pointer_naming (none_named).caps naming_.target.cap)) 16 4 (not_number none_named_)) ((naming none_named naming_.target)).caps result caller.new }
    {
        let call = self.give_request(text_tree_, with_uint_, naming_, none_named_)?;
        Ok(BlankGiveResultsPipeline::of(self.target.call(caller, call.request)?))
    }

    /// A call of `hold @2`.
    pub fn hold_request(
        &self,
        held: HeldBuilder,
        map_: &[i16],
        not_number_: Not,
    ) -> Result<MethodRequest<'_>, BuildError>
        ensures request { IfOk result (λ r. IsCall r self.now.target (request_of 0xeca4a334eb82a4a8 2 (with_uint (with_pointer (with_pointer (blank 1 2) 0 held.body) 1 (halves_tree (map (cast_unsigned w16) map_.now))) 16 0 (not_number not_number_)) [])) }
        ensures long { result ≡ Err TooLong → 2 ^ 29 ≤ length map_.now }
    {
        let mut params: StructBuilder<1, 2> = StructBuilder::new(self.target.alloc())?;
        params.set_pointer(0, held.body.into_whole());
        params.set_pointer(1, cp_builder::signed16_of(self.target.alloc(), map_)?);
        params.set_u16(0, not_number_.number());
        let content = params.into_whole();
        Ok(self.target.request(0xeca4a334eb82a4a8, 2, content))
    }

    /// Takes a struct, a list and a value of an enum, called as definitions call such a value's number.
    pub fn hold<C: Caller>(
        &self,
        caller: &mut C,
        held: HeldBuilder,
        map_: &[i16],
        not_number_: Not,
    ) -> Result<BlankHoldResultsPipeline, C::Fault>
        ensures { MakesOf (λ p. p.at) C.number C.sends C.Fault.From-2.from_gives (Unbuilt C.Fault.From-1.from_gives (2 ^ 29 ≤ length map_.now)) caller.old self.now.target 0xeca4a334eb82a4a8 2 (with_uint (with_pointer (with_pointer (blank 1 2) 0 held.body) 1 (halves_tree (map (cast_unsigned w16) map_.now))) 16 0 (not_number not_number_)) [] result caller.new }
    {
        let call = self.hold_request(held, map_, not_number_)?;
        Ok(BlankHoldResultsPipeline::of(self.target.call(caller, call.request)?))
    }
}

impl TypedClient for BlankClient {
    ghost called = { λ c. c.target };

    fn of(target: CallTarget) -> BlankClient {
        BlankClient { target }
    }

    fn into_target(self) -> CallTarget {
        self.target
    }
}

/// A call of `take`.
pub type BlankTakeCall<'c> = ServiceCall<'c, BlankTakeParamsReader<'c>, BlankTakeResultsBuilder>;

/// The answer of a call of `take` that is given later.
pub type BlankTakeLater = LaterAnswer<BlankTakeResultsBuilder>;

/// A call of `give`.
pub type BlankGiveCall<'c> = ServiceCall<'c, BlankGiveParamsReader<'c>, BlankGiveResultsBuilder>;

/// The answer of a call of `give` that is given later.
pub type BlankGiveLater = LaterAnswer<BlankGiveResultsBuilder>;

/// A call of `hold`.
pub type BlankHoldCall<'c> = ServiceCall<'c, BlankHoldParamsReader<'c>, BlankHoldResultsBuilder>;

/// The answer of a call of `hold` that is given later.
pub type BlankHoldLater = LaterAnswer<BlankHoldResultsBuilder>;

/// An object of `interface Blank`.
pub trait BlankServer: ServiceObject {
    /// What calls of its methods lead to. Of an object that doesn't say it nothing is known.
    ghost blank_kind: { BlankKind (At Self Self.Makes) } = { any_blank };

    /// Takes values.
    fn take(
        &mut self,
        call: &mut BlankTakeCall<'_>,
        context: &mut Context<Self::Makes>,
    ) -> MethodResult
        ensures { Answers (λ p. p.body) (λ d. d.body) (λ d. none_named) blank_kind.on_take (at self.old context.old) call.old call.new result (at self.new context.new) };

    /// Takes a capability among values.
    fn give(
        &mut self,
        call: &mut BlankGiveCall<'_>,
        context: &mut Context<Self::Makes>,
    ) -> MethodResult
        ensures { Answers (λ p. p.body) (λ d. d.body) (λ d. d.table) blank_kind.on_give (at self.old context.old) call.old call.new result (at self.new context.new) };

    /// Takes a struct, a list and a value of an enum, called as definitions call such a value's number.
    fn hold(
        &mut self,
        call: &mut BlankHoldCall<'_>,
        context: &mut Context<Self::Makes>,
    ) -> MethodResult
        ensures { Answers (λ p. p.body) (λ d. d.body) (λ d. none_named) blank_kind.on_hold (at self.old context.old) call.old call.new result (at self.new context.new) };
}

/// An object of `interface Blank`, as a connection serves it.
pub type BlankDispatch<T> = ObjectDispatch<T, BlankClient>;

/// Resolves a promise of an object of `interface Blank`: one that is named before it is there.
pub type BlankResolver = TypedResolver<BlankClient>;

/// An object of `interface Blank` that all connections of a host may name.
pub type BlankShared = SharedClient<BlankClient>;

impl<T: BlankServer> Dispatch<T> for BlankClient {
    ghost takes = { BlankTakes T.blank_kind };

    ghost streams = { no_streams };

    fn dispatch(
        object: &mut T,
        call: &MethodCall<'_>,
        context: &mut Context<T::Makes>,
    ) -> Result<Reply, AllocError> {
        match (call.request.interface, call.request.method, call.params()) {
            (0xeca4a334eb82a4a8, 0, Ok(body)) => {
                let results = BlankTakeResultsBuilder::new(context.alloc())?;
                let params = BlankTakeParamsReader { body };
                let mut passed = ServiceCall::new(context.alloc(), call, params, results);
                let done = BlankServer::take(object, &mut passed, context);
                passed.reply(call, done)
            }
            (0xeca4a334eb82a4a8, 1, Ok(body)) => {
                let results = BlankGiveResultsBuilder::new(context.alloc())?;
                let params = BlankGiveParamsReader { body };
                let mut passed = ServiceCall::new(context.alloc(), call, params, results);
                let done = BlankServer::give(object, &mut passed, context);
                passed.reply(call, done)
            }
            (0xeca4a334eb82a4a8, 2, Ok(body)) => {
                let results = BlankHoldResultsBuilder::new(context.alloc())?;
                let params = BlankHoldParamsReader { body };
                let mut passed = ServiceCall::new(context.alloc(), call, params, results);
                let done = BlankServer::hold(object, &mut passed, context);
                passed.reply(call, done)
            }
            (0xeca4a334eb82a4a8, 0..=2, Err(fault)) => {
                refuse(context.alloc(), call, MethodFault::WrongKind(fault))
            }
            _ => refuse_method(context.alloc(), call, "Blank"),
        }
    }

    fn is_stream(interface: u64, method: u16) -> bool {
        let _ = (interface, method);
        false
    }
}

/// `struct Blank.take$Params`.
#[derive(Drop)]
pub struct BlankTakeParamsReader<'a> {
    /// The struct, by the places of its fields.
    pub body: StructReader<'a>,
}

impl<'a> BlankTakeParamsReader<'a> {
    /// `on @0`.
    pub fn on(&self) -> u8
        ensures { result ≡ plain self.now.body 8 0 }
    {
        self.body.u8(0)
    }

    /// `not @1`.
    pub fn not(&self) -> bool
        ensures { result ≡ flag self.now.body 8 }
    {
        self.body.bit(8)
    }

    /// `blank @2`.
    pub fn blank(&self) -> Result<TextReader<'a>, WrongKind>
        ensures { result ≡ text_field [] (pointee_of self.now.body 0) }
    {
        self.body.text(0)
    }

    /// `w32 @3`.
    pub fn w32(&self) -> i32
        ensures { result ≡ cast_signed w32 (plain self.now.body 32 1) }
    {
        self.body.i32(1)
    }
}

/// `struct Blank.take$Results`.
#[derive(Drop)]
pub struct BlankTakeResultsReader<'a> {
    /// The struct, by the places of its fields.
    pub body: StructReader<'a>,
}

impl<'a> BlankTakeResultsReader<'a> {
    /// `textTree @0`.
    pub fn text_tree(&self) -> Result<TextReader<'a>, WrongKind>
        ensures { result ≡ text_field [] (pointee_of self.now.body 0) }
    {
        self.body.text(0)
    }

    /// `length @1`.
    pub fn length(&self) -> u64
        ensures { result ≡ plain self.now.body 64 0 }
    {
        self.body.u64(0)
    }
}

/// `struct Blank.take$Results`, to be written.
#[derive(Drop)]
pub struct BlankTakeResultsBuilder {
    /// The struct, by the places of its fields.
    pub body: StructBuilder<1, 1>,
}

impl BlankTakeResultsBuilder {
    /// A struct whose fields are all as by default.
    pub fn new(alloc: Global) -> Result<BlankTakeResultsBuilder, AllocError>
        ensures { IfOk result (λ d. d.body ≡ blank 1 1) }
    {
        Ok(BlankTakeResultsBuilder {
            body: StructBuilder::new(alloc)?,
        })
    }

    /// Sets `textTree`.
    pub fn set_text_tree<'a, V: FieldValue<TextReader<'a>>>(
        &mut self,
        value: V,
    ) -> Result<(), BuildError>
        ensures set { OnOk result (Sets (V.stands value) self.old.body 0 self.new.body) }
        ensures left { OnErr result (self.new ≡ self.old) }
        ensures long { result ≡ Err TooLong → V.is_long value }
    {
        let whole = value.into_whole(self.body.alloc())?;
        self.body.set_pointer(0, whole);
        Ok(())
    }

    /// Sets `length`.
    pub fn set_length(&mut self, value: u64)
        ensures { self.new.body ≡ with_uint self.old.body 64 0 value }
    {
        self.body.set_u64(0, value);
    }
}

impl Results for BlankTakeResultsBuilder {
    ghost content = { λ d. d.body };

    ghost names = { λ d. none_named };

    fn into_parts(self, alloc: Global) -> (Whole, CapTableBuilder) {
        (self.body.into_whole(), CapTableBuilder::new(alloc))
    }
}

/// `struct Blank.take$Results`, as a question will give it.
pub type BlankTakeResultsPipeline = TypedPipeline<BlankTakeResultsBuilder>;

impl<'a> Lends<'a> for BlankTakeResultsBuilder {
    type Reader = BlankTakeResultsReader<'a>;

    ghost read = { λ x. x.body };

    fn reader(body: StructReader<'a>) -> BlankTakeResultsReader<'a> {
        BlankTakeResultsReader { body }
    }
}

/// `struct Blank.give$Params`.
#[derive(Drop)]
pub struct BlankGiveParamsReader<'a> {
    /// The struct, by the places of its fields.
    pub body: StructReader<'a>,
}

impl<'a> BlankGiveParamsReader<'a> {
    /// `textTree @0`.
    pub fn text_tree(&self) -> Result<DataReader<'a>, WrongKind>
        ensures { result ≡ data_field [] (pointee_of self.now.body 0) }
    {
        self.body.data(0)
    }

    /// `withUint @1`.
    pub fn with_uint(&self) -> f64
        ensures { result ≡ from_bits binary64 (plain self.now.body 64 0) }
    {
        self.body.f64(0)
    }

    /// `naming @2`.
    pub fn naming(&self) -> Result<Option<u32>, WrongKind>
        ensures { result ≡ cap_field (pointee_of self.now.body 1) }
    {
        self.body.cap(1)
    }

    /// `naming @2`, of those that a table has.
    pub fn naming_client(&self, alloc: Global, caps: CapTable<'_>) -> Result<BlankClient, CapFault>
        ensures { Finds result (λ c. c.target) (cap_field (pointee_of self.now.body 1)) caps.entry }
    {
        let place = self.naming()?;
        Ok(BlankClient {
            target: CallTarget::of_field(alloc, place, caps)?,
        })
    }

    /// `noneNamed @3`.
    pub fn none_named(&self) -> Not
        ensures { result ≡ not_of (plain self.now.body 16 4) }
    {
        Not::of(self.body.u16(4))
    }
}

/// `struct Blank.give$Results`.
#[derive(Drop)]
pub struct BlankGiveResultsReader<'a> {
    /// The struct, by the places of its fields.
    pub body: StructReader<'a>,
}

impl<'a> BlankGiveResultsReader<'a> {
    /// `held @0`.
    pub fn held(&self) -> Result<HeldReader<'a>, WrongKind>
        ensures { Reads result (λ x. x.body) (struct_field (pointee_of self.now.body 0)) }
    {
        Ok(HeldReader {
            body: self.body.structure(0)?,
        })
    }

    /// `table @1`.
    pub fn table(&self) -> Result<Option<u32>, WrongKind>
        ensures { result ≡ cap_field (pointee_of self.now.body 1) }
    {
        self.body.cap(1)
    }

    /// `table @1`, of those that a table has.
    pub fn table_client(&self, alloc: Global, caps: CapTable<'_>) -> Result<BlankClient, CapFault>
        ensures { Finds result (λ c. c.target) (cap_field (pointee_of self.now.body 1)) caps.entry }
    {
        let place = self.table()?;
        Ok(BlankClient {
            target: CallTarget::of_field(alloc, place, caps)?,
        })
    }
}

/// `struct Blank.give$Results`, to be written.
#[derive(Drop)]
pub struct BlankGiveResultsBuilder {
    /// The struct, by the places of its fields.
    pub body: StructBuilder<0, 2>,
    /// The capabilities that it names.
    pub table: CapTableBuilder,
}

impl BlankGiveResultsBuilder {
    /// A struct whose fields are all as by default.
    pub fn new(alloc: Global) -> Result<BlankGiveResultsBuilder, AllocError>
        ensures blank { IfOk result (λ d. d.body ≡ blank 0 2) }
        ensures names { IfOk result (λ d. d.table ≡ none_named) }
    {
        Ok(BlankGiveResultsBuilder {
            body: StructBuilder::new(alloc)?,
            table: CapTableBuilder::new(alloc),
        })
    }

    /// Sets `held`.
    pub fn set_held<'a, V: FieldValue<HeldReader<'a>>>(
        &mut self,
        value: V,
    ) -> Result<(), BuildError>
        ensures set { OnOk result (Sets (V.stands value) self.old.body 0 self.new.body) }
        ensures names { self.new.table ≡ self.old.table }
        ensures left { OnErr result (self.new ≡ self.old) }
        ensures long { result ≡ Err TooLong → V.is_long value }
    {
        let whole = value.into_whole(self.body.alloc())?;
        self.body.set_pointer(0, whole);
        Ok(())
    }

    /// Sets `table`.
    pub fn set_table(&mut self, value: BlankClient) -> Result<(), NamingError>
        ensures set { OnOk result (self.new.body ≡ with_pointer self.old.body 1 (pointer_naming self.old.table.caps value.target.cap)) }
        ensures added { OnOk result (self.new.table ≡ naming self.old.table value.target) }
        ensures left { OnErr result (self.new ≡ self.old) }
        ensures full { result ≡ Err errors.TooLong ↔ IsFull self.old.table }
        ensures own { OnOk result (may_name self.old.table value.target ≡ true) }
        ensures other { result ≡ Err errors.OtherSession → may_name self.old.table value.target ≡ false }
    {
        let pointer = self.table.add(value.target.into_cap())?;
        self.body.set_pointer(1, pointer);
        Ok(())
    }
}

impl Results for BlankGiveResultsBuilder {
    ghost content = { λ d. d.body };

    ghost names = { λ d. d.table };

    fn into_parts(self, alloc: Global) -> (Whole, CapTableBuilder) {
        let _ = alloc;
        (self.body.into_whole(), self.table)
    }
}

/// `struct Blank.give$Results`, as a question will give it.
#[derive(Drop)]
pub struct BlankGiveResultsPipeline {
    /// The question, and the path to the struct.
    pub at: Pipeline,
}

impl BlankGiveResultsPipeline {
    /// What is promised there.
    pub fn of(at: Pipeline) -> BlankGiveResultsPipeline
        ensures { result.at ≡ at }
    {
        BlankGiveResultsPipeline { at }
    }

    /// The number of the question, whose outcome can be waited for.
    pub fn question(&self) -> u32
        ensures { result ≡ self.now.at.question }
    {
        self.at.question()
    }

    /// The results that came.
    pub fn results<'a>(
        &self,
        came: &'a ResultPayload,
    ) -> Result<BlankGiveResultsReader<'a>, WrongKind>
        ensures { Reads result (λ x. x.body) (struct_field came.now.content) }
    {
        Ok(BlankGiveResultsReader {
            body: came.results()?,
        })
    }

    /// `held @0`.
    pub fn held(&self) -> Result<HeldPipeline, AllocError>
        ensures { IfOk result (λ p. p.at ≡ along self.now.at 0) }
    {
        Ok(HeldPipeline::of(self.at.field(0)?))
    }

    /// `table @1`.
    pub fn table(&self) -> Result<BlankClient, AllocError>
        ensures { IfOk result (λ c. c.target ≡ promised_cap self.now.at 1) }
    {
        Ok(BlankClient {
            target: self.at.target(1)?,
        })
    }
}

/// `struct Blank.hold$Params`.
#[derive(Drop)]
pub struct BlankHoldParamsReader<'a> {
    /// The struct, by the places of its fields.
    pub body: StructReader<'a>,
}

impl<'a> BlankHoldParamsReader<'a> {
    /// `held @0`.
    pub fn held(&self) -> Result<HeldReader<'a>, WrongKind>
        ensures { Reads result (λ x. x.body) (struct_field (pointee_of self.now.body 0)) }
    {
        Ok(HeldReader {
            body: self.body.structure(0)?,
        })
    }

    /// `map @1`.
    pub fn map(&self) -> Result<List<'a, i16>, WrongKind>
        ensures { result ≡ list_field sizes.TwoBytes (pointee_of self.now.body 1) }
    {
        self.body.list(1)
    }

    /// `notNumber @2`.
    pub fn not_number(&self) -> Not
        ensures { result ≡ not_of (plain self.now.body 16 0) }
    {
        Not::of(self.body.u16(0))
    }
}

/// `struct Blank.hold$Results`.
#[derive(Drop)]
pub struct BlankHoldResultsReader<'a> {
    /// The struct, by the places of its fields.
    pub body: StructReader<'a>,
}

impl<'a> BlankHoldResultsReader<'a> {
    /// `on @0`.
    pub fn on(&self) -> Not
        ensures { result ≡ not_of (plain self.now.body 16 0) }
    {
        Not::of(self.body.u16(0))
    }
}

/// `struct Blank.hold$Results`, to be written.
#[derive(Drop)]
pub struct BlankHoldResultsBuilder {
    /// The struct, by the places of its fields.
    pub body: StructBuilder<1, 0>,
}

impl BlankHoldResultsBuilder {
    /// A struct whose fields are all as by default.
    pub fn new(alloc: Global) -> Result<BlankHoldResultsBuilder, AllocError>
        ensures { IfOk result (λ d. d.body ≡ blank 1 0) }
    {
        Ok(BlankHoldResultsBuilder {
            body: StructBuilder::new(alloc)?,
        })
    }

    /// Sets `on`.
    pub fn set_on(&mut self, value: Not)
        ensures { self.new.body ≡ with_uint self.old.body 16 0 (not_number value) }
    {
        self.body.set_u16(0, value.number());
    }
}

impl Results for BlankHoldResultsBuilder {
    ghost content = { λ d. d.body };

    ghost names = { λ d. none_named };

    fn into_parts(self, alloc: Global) -> (Whole, CapTableBuilder) {
        (self.body.into_whole(), CapTableBuilder::new(alloc))
    }
}

/// `struct Blank.hold$Results`, as a question will give it.
pub type BlankHoldResultsPipeline = TypedPipeline<BlankHoldResultsBuilder>;

impl<'a> Lends<'a> for BlankHoldResultsBuilder {
    type Reader = BlankHoldResultsReader<'a>;

    ghost read = { λ x. x.body };

    fn reader(body: StructReader<'a>) -> BlankHoldResultsReader<'a> {
        BlankHoldResultsReader { body }
    }
}
