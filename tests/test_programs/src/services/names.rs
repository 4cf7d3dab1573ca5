//! Names that clauses and definitions of generated code have too: of params, results, fields and an enum's values.

use clauses::{
    BlankClient, BlankGiveParamsReader, BlankHoldParamsReader, BlankHoldResultsBuilder, BlankTakeParamsReader, HeldBuilder,
    HeldMember, HeldReader, Not,
};
use cp_fields::{PointerReader, StructReader};
use cp_interfaces::{CallTarget, MethodFault};
use cp_objects::SessionCap;
use cp_refs::{Cap, Request};
use std::alloc::Global;

/// The client of an object of session 0.
fn client(alloc: Global, number: u32) -> BlankClient {
    let cap = SessionCap::new(0, Cap::Object(number));
    BlankClient {
        target: CallTarget::new(alloc, cap),
    }
}

/// The struct of a call's params.
fn params_of(request: &Request) -> Result<StructReader<'_>, MethodFault> {
    Ok(StructReader::of(PointerReader::of_whole(&request.content))?)
}

/// Whether a method gets the values that it is called with.
fn takes_values(alloc: Global) -> Result<bool, MethodFault> {
    let called = client(alloc, 1);
    let request = called.take_request(3, true, "on", -2)?.request;
    let params = BlankTakeParamsReader {
        body: params_of(&request)?,
    };
    Ok(params.on() == 3 && params.not() && params.blank()?.len() == 2 && params.w32() == -2)
}

/// Whether a method gets a capability among values.
fn takes_a_capability(alloc: Global) -> Result<bool, MethodFault> {
    let data = vec![in alloc; 1u8; 3]?;
    let called = client(alloc, 1);
    let request = called.give_request(data, 0.5, client(alloc, 2), Not::Blank)?.request;
    let params = BlankGiveParamsReader {
        body: params_of(&request)?,
    };
    Ok(params.text_tree()?.len() == 3
        && params.with_uint() == 0.5
        && params.naming()? == Some(0)
        && matches!(params.none_named(), Not::Blank)
        && matches!(request.caps.caps(), [Cap::Object(2)]))
}

/// A struct, with all fields set.
fn held(alloc: Global) -> Result<HeldBuilder, MethodFault> {
    let mut held = HeldBuilder::new(alloc)?;
    held.set_on(7);
    held.set_not(false);
    held.set_blank("blank")?;
    held.set_w32(5);
    held.set_text_tree(vec![in alloc; 0u8; 4]?)?;
    held.set_map(vec![in alloc; 1.5f32; 2]?)?;
    held.set_with_pointer(Not::None);
    held.set_length_bit_xor(9);
    held.set_length_are_of("none")?;
    Ok(held)
}

/// Whether a reader finds these fields.
fn is_held(held: &HeldReader<'_>) -> Result<bool, MethodFault> {
    let HeldMember::Length(length) = held.member()? else {
        return Ok(false);
    };
    Ok(held.on() == 7
        && !held.not()
        && held.blank()?.len() == 5
        && held.w32() == 5
        && held.text_tree()?.len() == 4
        && held.map()?.len() == 2
        && matches!(held.with_pointer(), Not::None)
        && length.bit_xor() == 9
        && length.are_of()?.len() == 4)
}

/// Whether a method gets a struct and a list.
fn takes_a_struct(alloc: Global) -> Result<bool, MethodFault> {
    let called = client(alloc, 1);
    let call = called.hold_request(held(alloc)?, &[-1, 0, 1], Not::Blank)?;
    let request = call.request;
    let params = BlankHoldParamsReader {
        body: params_of(&request)?,
    };
    let mut results = BlankHoldResultsBuilder::new(alloc)?;
    results.set_on(Not::On);
    let is_named = matches!(params.not_number(), Not::Blank);
    Ok(is_named && params.map()?.len() == 3 && is_held(&params.held()?)?)
}

#[test]
fn words_of_clauses_are_names(rt: HostRuntime) {
    let alloc = rt.alloc();
    check!(&rt; matches!(takes_values(alloc), Ok(true)));
    check!(&rt; matches!(takes_a_capability(alloc), Ok(true)));
    check!(&rt; matches!(takes_a_struct(alloc), Ok(true)));
}
