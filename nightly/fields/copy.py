#!/usr/bin/env python3
"""copy.py REQUEST STRUCT    writes a program that reads each message of standard input by the readers that capnpc_rattle makes of the
same request, builds it again by its builders, and writes it to standard output. Capabilities and lists of lists are copied as they are."""
import sys

from print import FLOATS, INTEGERS, Printer, method, variant, words

VECTORS = {1, 2, 3, 4, 5, 6, 7, 8, 9, 10, 11, 15}  # lists that are set to a Vec


class Copier(Printer):
    def pointer(self, field, at, to, setter):
        """Statements that copy a pointer that isn't null."""
        kind, place = field["type"], field["offset"]
        code = kind["kind"]
        read = f"{at}.{method(field['name'])}()?"
        if code == 12:
            copied = f"{to}.{setter}({read})?;"
        elif code == 13:
            copied = f"{to}.{setter}({read}.to_vec(alloc)?)?;"
        elif code == 16:
            copied = f"{to}.{setter}({self.struct(self.nodes[kind['id']])}(alloc, &{read})?){self.fails(kind)};"
        elif code == 14 and kind["elem"]["kind"] == 16:
            node = self.nodes[kind["elem"]["id"]]
            self.cite(node, "ListBuilder")
            copied = (f"let mut items = {self.name(node)}ListBuilder::new(alloc); "
                      f"for item in {read} {{ items.push({self.struct(node)}(alloc, &item)?)?; }} {to}.{setter}(items){self.fails(kind)};")
        elif code == 14 and kind["elem"]["kind"] in VECTORS:
            copied = f"let mut items = Vec::new(alloc); for item in {read} {{ items.push(item)?; }} {to}.{setter}(items)?;"
        elif code == 14 and kind["elem"]["kind"] == 12:
            self.types.add(("cp_interfaces", "TextListBuilder"))
            copied = (f"let mut items = TextListBuilder::new(alloc); for item in {read} {{ items.push(item?.text(alloc)?.as_str())?; }} "
                      f"{to}.{setter}(items)?;")
        elif code == 14 and kind["elem"]["kind"] == 13:
            self.types.add(("cp_interfaces", "DataListBuilder"))
            copied = f"let mut items = DataListBuilder::new(alloc); for item in {read} {{ items.push(item?.to_vec(alloc)?)?; }} {to}.{setter}(items)?;"
        else:
            copied = f"{to}.body.set_pointer({place}, whole_at(alloc, &{at}.body, {place})?);"
        return f"if !{at}.body.pointer({place}).is_null() {{ {copied} }}"

    def fails(self, kind):
        """What ends the setter of a struct or a list of them, which takes readers too, and may fail, if its type can name no capability."""
        return "" if self.can_name(kind, set()) else "?"

    def can_name(self, kind, seen):
        """Whether a value of a type can name a capability."""
        while kind["kind"] == 14:
            kind = kind["elem"]
        return kind["kind"] in (17, 18) or kind["kind"] == 16 and self.node_can_name(kind["id"], seen)

    def node_can_name(self, id, seen):
        if id in seen:
            return False
        seen.add(id)
        return any(self.node_can_name(it["group"], seen) if it["which"] == 1 else self.can_name(it["type"], seen) for it in self.nodes[id]["fields"])

    def field(self, field, at, to, prefix):
        """Statements that copy a field; a member of a union is chosen first, as it may be null."""
        setter = "set_" + prefix + words(field["name"])
        chosen = field["disc"] != 0xFFFF
        if field["which"] == 1:
            group = self.nodes[field["group"]]
            choose = f"{to}.{setter}(); " if chosen else ""
            return choose + self.fields(group, f"{at}.{method(field['name'])}()", to, prefix + words(field["name"]) + "_")
        code = field["type"]["kind"]
        if code == 0:
            return f"{to}.{setter}();" if chosen else ""
        if code in INTEGERS or code in FLOATS or code in (1, 15):
            return f"{to}.{setter}({at}.{method(field['name'])}());"
        return self.pointer(field, at, to, setter)

    def fields(self, node, at, to, prefix):
        """Statements that copy the fields of a struct or a group."""
        text, members = "", []
        for field in node["fields"]:
            if field["disc"] == 0xFFFF:
                text += self.field(field, at, to, prefix) + "\n"
            else:
                members.append(field)
        if members:
            name = self.name(node)
            self.cite(node, "Which")
            arms = ""
            for field in sorted(members, key=lambda f: f["disc"]):
                arms += f"{name}Which::{variant(field['name'])} => {{ {self.tag(node, field, to)} {self.field(field, at, to, prefix)} }}\n"
            text += f"match {at}.which() {{ {arms} {name}Which::Unknown(_) => {{}} }}\n"
        return text

    def tag(self, node, field, to):
        """A member whose pointer is null is chosen by its number alone."""
        if field["which"] == 0 and field["type"]["kind"] in (12, 13, 14, 16, 17, 18):
            return f"{to}.body.set_u16({node['doff']}, {field['disc']});"
        return ""

    def struct(self, node):
        """The function that copies a struct."""
        name = self.name(node)
        function = "copy_" + words(name)
        if name not in self.done:
            self.done.add(name)
            self.cite(node, "Reader")
            self.cite(node, "Builder")
            body = self.fields(node, "at", "to", "")
            self.functions.append(f"fn {function}(alloc: Global, at: &{name}Reader<'_>) -> anyhow::Result<{name}Builder> {{\n"
                                  f"let mut to = {name}Builder::new(alloc)?;\n{body}Ok(to)\n}}\n")
        return function

    def program(self, root):
        node = next(n for n in self.nodes.values() if n["name"].endswith(":" + root))
        function = self.struct(node)
        return f"""//! Copies messages of {root}.
#![tactic(auto)]

use anyhow::anyhow;
use cp_fields::{{PointerReader, StructReader}};
use cp_frame::{{FrameReader, Mode}};
use cp_reading::View;
use cp_stream::{{Tap, write_struct}};
use cp_tree::Whole;
use cp_words::Limits;
use std::alloc::Global;
use std::io::{{self, Read}};
{self.imports()}
fn whole_at(alloc: Global, body: &StructReader<'_>, place: u32) -> anyhow::Result<Whole> {{
    Whole::new(body.pointer(place).tree(alloc)?).map_err(|_| anyhow!("no message can hold this"))
}}

{"".join(f + chr(10) for f in self.functions)}fn main(rt: HostRuntime) -> anyhow::Result<()> {{
    let mut bytes = Vec::new(rt.alloc());
    rt.stdin().read_to_end(&mut bytes)?;
    let mut reader = FrameReader::plain(rt.alloc(), Limits::standard());
    let mut out = Tap::new(io::writer(&rt));
    for (_, segments) in &reader.feed(&bytes)? {{
        let view = View::root(segments, Limits::standard()).map_err(|fault| anyhow!("{{fault}}"))?;
        let built = {function}(rt.alloc(), &{root}Reader::of(PointerReader::of_view(view))?)?;
        write_struct(rt.alloc(), &mut out, &built.body.into_object(), Mode::Plain, Limits::standard())?;
    }}
    Ok(reader.finish()?)
}}
"""


if __name__ == "__main__":
    sys.stdout.write(Copier(sys.argv[1]).program(sys.argv[2]))
