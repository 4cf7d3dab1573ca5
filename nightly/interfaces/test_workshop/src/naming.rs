//! Results and params hold the table of the capabilities that they name, for their parts too.

use cp_objects::SessionCap;
use cp_refs::Cap;
use cp_interfaces::{CapTableBuilder, NamingError, Results};
use std::alloc::Global;
use workshop::{MakerClient, MakerMakeParamsBuilder, MakerMakeResultsBuilder, ToolBuilder};

/// Who calls this import of session 0.
fn maker(alloc: Global, import: u32) -> MakerClient {
    MakerClient::new(alloc, SessionCap::new(0, Cap::Import(import)))
}

/// Results with a tool of import 3 that import 4 owns, made by import 5.
fn made(alloc: Global) -> Result<MakerMakeResultsBuilder, NamingError> {
    let mut results = MakerMakeResultsBuilder::new(alloc)?;
    let mut tool = ToolBuilder::new(alloc)?;
    tool.set_maker(&mut results.table, maker(alloc, 3))?;
    tool.set_owner(&mut results.table, maker(alloc, 4))?;
    results.set_tool(tool);
    results.set_by(maker(alloc, 5))?;
    results.set_count(1);
    Ok(results)
}

/// Params with import 7.
fn asked(alloc: Global) -> Result<MakerMakeParamsBuilder, NamingError> {
    let mut params = MakerMakeParamsBuilder::new(alloc)?;
    params.set_for(maker(alloc, 7))?;
    params.set_name("plane")?;
    Ok(params)
}

/// Whether a table has these imports.
fn has(table: CapTableBuilder, imports: &[u32]) -> bool {
    let Ok(caps) = table.into_caps(0) else {
        return false;
    };
    if caps.caps().len() != imports.len() {
        return false;
    }
    for (cap, import) in caps.caps().iter().zip(imports) {
        if !matches!(cap, Cap::Import(i) if i == import) {
            return false;
        }
    }
    true
}

#[test]
fn results_have_the_table_of_their_parts(rt: HostRuntime) {
    let alloc = rt.alloc();
    let results = made(alloc).expect(&rt, "results");
    let (content, table) = results.into_parts(alloc);
    drop(content);
    check!(&rt; has(table, &[3, 4, 5]));
}

#[test]
fn a_request_has_the_table_of_its_params(rt: HostRuntime) {
    let alloc = rt.alloc();
    let params = asked(alloc).expect(&rt, "params");
    let maker = maker(alloc, 1);
    let request = maker.make_request(params).expect(&rt, "a request").request;
    check!(&rt; matches!(request.caps.caps(), [Cap::Import(7)]));
}
