//! The vectors and the string of a message's parts, taken out again.

use cp_rpc::{CapTable, Descriptor, Op, Text, Transform};

#[test]
fn a_transform_gives_back_its_steps(rt: HostRuntime) {
    let ops = vec![in rt.alloc(); Op::GetPointerField(3)].expect(&rt, "memory");
    let ops = Transform::new(ops).into_ops();
    check!(&rt; ops.len() == 1 && matches!(ops[0], Op::GetPointerField(3)));
    drop(ops);
}

#[test]
fn a_table_gives_back_its_descriptors(rt: HostRuntime) {
    let table = vec![in rt.alloc(); Descriptor::SenderHosted(7)].expect(&rt, "memory");
    let descriptors = CapTable::new(table).into_descriptors();
    check!(&rt; descriptors.len() == 1);
    check!(&rt; matches!(descriptors[0], Descriptor::SenderHosted(7)));
    drop(descriptors);
}

#[test]
fn a_text_gives_back_its_string(rt: HostRuntime) {
    let string = format!(in rt.alloc(); "reason").expect(&rt, "memory");
    let string = Text::new(string).into_string();
    check!(&rt; string.as_str() == "reason");
    drop(string);
}
