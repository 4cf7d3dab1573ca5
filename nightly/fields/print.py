#!/usr/bin/env python3
"""print.py REQUEST STRUCT [FIELD..]    writes a program that prints messages as `capnp decode --short` does, over what capnpc_rattle
makes of the same request. With FIELDs it prints these of the struct alone, and what null stands for too. Names and offsets come from
the request alone, read by request.py."""
import os
import re
import sys

from request import load

INTEGERS = {2: "i8", 3: "i16", 4: "i32", 5: "i64", 6: "u8", 7: "u16", 8: "u32", 9: "u64"}
FLOATS = {10: "f32", 11: "f64"}
HERE = os.path.dirname(os.path.abspath(__file__))


def listed(name):
    """A list of words that the plugin has, which names of fields and types may not be."""
    with open(os.path.join(HERE, "../../crates/capnpc_rattle/src/names.rt"), encoding="utf-8") as file:
        return set(re.search(rf'{name}: &str = "([^"]*)"', file.read()).group(1).replace("\\", "").split())


RESERVED = listed("OF_RATTLE") | listed("OF_PROOFS") | listed("OF_CRATES")
AMBIGUOUS, TAKEN = {"Data", "Struct", "Structs", "Text"}, listed("TYPES")


def words(name):
    return re.sub("([A-Z])", lambda c: "_" + c.group().lower(), name).lstrip("_")


def method(name):
    return words(name) + ("_" if words(name) in RESERVED else "")


def camel(title):
    return "".join(part[:1].upper() + part[1:] for part in re.split("[.$]", title))


class Printer:
    def __init__(self, path, chosen=()):
        self.chosen = chosen
        self.nodes, _, _ = load(path)
        self.types, self.done, self.functions = set(), set(), []

    def name(self, node):
        name = camel(node["name"].split(":")[1])
        return name + ("_" if name in AMBIGUOUS or node["kind"] == 2 and name in TAKEN else "")

    def cite(self, node, ending=""):
        """Has a type imported from its file's crate."""
        self.types.add((os.path.basename(node["name"].split(":")[0]).split(".")[0], self.name(node) + ending))

    def imports(self):
        crates = sorted({krate for krate, _ in self.types})
        return "".join(f"use {krate}::{{{', '.join(sorted(n for k, n in self.types if k == krate))}}};\n" for krate in crates)

    def value(self, kind, at, depth=0):
        """Statements that print the value `at` of a type."""
        code = kind["kind"]
        if code == 0:
            return f'let _ = {at}; line.text.push_str("void")?;'
        if code == 1 or code in INTEGERS:
            return f'write!(line.text, "{{}}", {at})?;'
        if code in FLOATS:
            return f'line.float(format!(in line.alloc; "{{:?}}", {at})?.as_str())?;'
        if code == 12:
            return f"line.string(&{at})?;"
        if code == 13:
            return f"line.bytes(&{at})?;"
        if code == 14:
            inner = kind["elem"]
            fails = inner["kind"] in (12, 13, 14)
            item = f"item{depth}"
            element = self.value(inner, item + ("?" if fails else ""), depth + 1)
            return f"line.open('[')?; for {item} in {at} {{ line.item()?; {element} }} line.close(']')?;"
        if code == 17:
            return f'let _ = {at}; line.text.push_str("<external capability>")?;'
        if code == 18:
            return f'let _ = {at}; line.text.push_str("<opaque pointer>")?;'
        node = self.nodes[kind["id"]]
        if code == 15:
            self.enum(node)
            return f"{words(self.name(node))}_text(line, {at})?;"
        if code == 16:
            self.struct(node)
            return f"{words(self.name(node))}_line(line, &{at})?;"
        raise SystemExit(f"no printing of type {code}")

    def enum(self, node):
        name = self.name(node)
        if name in self.done:
            return
        self.done.add(name)
        self.cite(node)
        arms = "".join(f"        {name}::{variant(item)} => \"{item}\",\n" for item in node["enumerants"])
        self.functions.append(f"fn {words(name)}_text(line: &mut Line, value: {name}) -> anyhow::Result<()> {{\n"
                              f"    let text = match value {{\n{arms}        {name}::Unknown(number) => {{\n"
                              f"            write!(line.text, \"({{}})\", number.number())?;\n            return Ok(());\n        }}\n    }};\n"
                              f"    line.text.push_str(text)?;\n    Ok(())\n}}\n")

    def field(self, field, at):
        """Statements that print a field as it is read by its method."""
        if field["which"] == 1:
            node = self.nodes[field["group"]]
            self.struct(node)
            return f'line.field("{field["name"]}")?; {words(self.name(node))}_line(line, &{at}.{method(field["name"])}())?;'
        code = field["type"]["kind"]
        if code == 0:
            return f'line.field("{field["name"]}")?; line.text.push_str("void")?;'
        if code == 17:
            return ""
        fails = code in (12, 13, 14, 16)
        value = self.value(field["type"], f'{at}.{method(field["name"])}()' + ("?" if fails else ""))
        text = f'line.field("{field["name"]}")?; {value}'
        always = field["name"] in self.chosen or not (fails or code == 18)
        return text if always else f'if has(&{at}.body, {field["offset"]}) {{ {text} }}'

    def member(self, node, field):
        """Statements that print a member of a union, by what it holds, if it is the one that is set."""
        name = self.name(node)
        self.cite(node, "Member")
        arm = f"{name}Member::{variant(field['name'])}"
        head = f'line.field("{field["name"]}")?;'
        if field["which"] == 1:
            group = self.nodes[field["group"]]
            self.struct(group)
            arm = f"{arm}(held) => {{ {head} {words(self.name(group))}_line(line, &held)?; }}"
        elif field["type"]["kind"] == 0:
            arm = f'{arm} => {{ {head} line.text.push_str("void")?; }}'
        elif field["type"]["kind"] == 17:
            return ""
        else:
            value = self.value(field["type"], "held")
            if field["type"]["kind"] in (12, 13, 14, 16, 18) and field["disc"] == 0:
                value = f'if has(&at.body, {field["offset"]}) {{ {head} {value} }}'
                head = ""
            arm = f"{arm}(held) => {{ {head} {value} }}"
        return f"match at.member()? {{ {arm} _ => {{}} }}"

    def struct(self, node):
        name = self.name(node)
        if name in self.done:
            return
        self.done.add(name)
        self.cite(node, "Reader")
        body = ""
        chosen = [f for f in node["fields"] if f["name"] in self.chosen]
        for field in chosen or node["fields"]:
            statements = self.field(field, "at") if field["disc"] == 0xFFFF else self.member(node, field)
            body += "    " + statements + "\n"
        self.functions.append(f"fn {words(name)}_line(line: &mut Line, at: &{name}Reader<'_>) -> anyhow::Result<()> {{\n"
                              f"    line.open('(')?;\n{body}    line.close(')')?;\n    Ok(())\n}}\n")

    def program(self, root):
        node = next(n for n in self.nodes.values() if n["name"].endswith(":" + root))
        self.struct(node)
        name = words(self.name(node))
        return f"""//! Prints messages of {root}, a line each.
#![tactic(auto)]

mod line;

use anyhow::anyhow;
use cp_fields::PointerReader;
use cp_frame::FrameReader;
use cp_reading::View;
use cp_words::Limits;
use line::{{Line, has}};
use std::io::Read;
{self.imports()}
{"".join(f + chr(10) for f in self.functions)}fn main(rt: HostRuntime) -> anyhow::Result<()> {{
    let mut bytes = Vec::new(rt.alloc());
    rt.stdin().read_to_end(&mut bytes)?;
    let mut reader = FrameReader::plain(rt.alloc(), Limits::standard());
    for (_, segments) in &reader.feed(&bytes)? {{
        let view = View::root(segments, Limits::standard()).map_err(|fault| anyhow!("{{fault}}"))?;
        let mut line = Line::new(rt.alloc());
        {name}_line(&mut line, &{root}Reader::of(PointerReader::of_view(view))?)?;
        println!(rt; "{{}}", line.text.as_str())?;
    }}
    Ok(reader.finish()?)
}}
"""


def variant(name):
    return camel(name) + ("_" if camel(name) in ("Unknown", "Self") else "")


if __name__ == "__main__":
    sys.stdout.write(Printer(sys.argv[1], sys.argv[3:]).program(sys.argv[2]))
