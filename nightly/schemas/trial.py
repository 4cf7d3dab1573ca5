#!/usr/bin/env python3
"""trial.py FOLDER SEED..    writes into FOLDER, the program's sources, what reads messages of Root of each sSEED.request two folders above: by
the readers that capnpc_rattle makes of it, and again after its builders have built and written them, a line each time. Standard input has for
each seed a frame of struct Turn, whose numbers are the seed's place and how many messages follow, and these."""
import os
import runpy
import shutil
import sys

FIELDS = os.path.join(os.path.dirname(os.path.abspath(__file__)), "..", "fields")
sys.path.insert(0, FIELDS)
from print import Printer

Copier = runpy.run_path(os.path.join(FIELDS, "copy.py"))["Copier"]  # (`copy` is a module of Python's)

MODULE = """//! Messages of {stem}.

use crate::line::{{Line, has}};
use anyhow::{{anyhow, bail}};
use cp_fields::{{PointerReader, StructReader}};
use cp_frame::Mode;
use cp_reading::View;
use cp_stream::{{Tap, read_struct, write_struct}};
use cp_tree::Whole;
use cp_words::{{Limits, Segments}};
use std::alloc::Global;
{imports}
fn whole_at(alloc: Global, body: &StructReader<'_>, place: u32) -> anyhow::Result<Whole> {{
    Whole::new(body.pointer(place).tree(alloc)?).map_err(|_| anyhow!("no message can hold this"))
}}

{functions}
fn print(rt: &HostRuntime, root: &RootReader<'_>) -> anyhow::Result<()> {{
    let mut line = Line::new(rt.alloc());
    root_line(&mut line, root)?;
    println!(rt; "{{}}", line.text.as_str())?;
    Ok(())
}}

/// The bytes of a message that is built again.
fn built(alloc: Global, root: &RootReader<'_>) -> anyhow::Result<Vec<u8>> {{
    let root = copy_root(alloc, root)?;
    let mut to = Tap::new(Vec::new(alloc));
    write_struct(alloc, &mut to, &root.body.into_object(), Mode::Plain, Limits::standard())?;
    Ok(to.into_inner())
}}

pub fn show(rt: &HostRuntime, segments: &Segments) -> anyhow::Result<()> {{
    let view = View::root(segments, Limits::standard()).map_err(|fault| anyhow!("{{fault}}"))?;
    let root = RootReader::of(PointerReader::of_view(view))?;
    print(rt, &root)?;
    let bytes = built(rt.alloc(), &root)?;
    let mut from = Tap::new(bytes.as_slice());
    match read_struct(rt.alloc(), &mut from, Mode::Plain, Limits::standard())? {{
        Some(whole) => print(rt, &RootReader::of(PointerReader::of_whole(&whole))?),
        None => bail!("nothing was written"),
    }}
}}
"""

MAIN = """//! Reads messages of random schemas, and builds them again.
#![tactic(auto)]

mod line;
{modules}
use anyhow::{{anyhow, bail}};
use cp_fields::{{PointerReader, StructReader}};
use cp_frame::FrameReader;
use cp_reading::View;
use cp_words::{{Limits, Segments}};
use std::io::Read;

/// The place of a seed, and the number of its messages.
fn turn_of(segments: &Segments) -> anyhow::Result<(u32, u32)> {{
    let view = View::root(segments, Limits::standard()).map_err(|fault| anyhow!("{{fault}}"))?;
    let turn = StructReader::of(PointerReader::of_view(view))?;
    Ok((turn.u32(0), turn.u32(1)))
}}

fn show(rt: &HostRuntime, place: u32, segments: &Segments) -> anyhow::Result<()> {{
    match place {{
{arms}        _ => bail!("no such schema"),
    }}
}}

fn main(rt: HostRuntime) -> anyhow::Result<()> {{
    let mut bytes = Vec::new(rt.alloc());
    rt.stdin().read_to_end(&mut bytes)?;
    let mut reader = FrameReader::plain(rt.alloc(), Limits::standard());
    let mut turn = (0_u32, 0_u32);
    for (_, segments) in &reader.feed(&bytes)? {{
        if turn.1 == 0 {{
            turn = turn_of(segments)?;
        }} else {{
            turn.1 = turn.1 - 1;
            show(&rt, turn.0, segments)?;
        }}
    }}
    Ok(reader.finish()?)
}}
"""


def module_of(request, stem):
    printer, copier = Printer(request), Copier(request)
    root = next(n for n in printer.nodes.values() if n["name"].endswith(":Root"))
    printer.struct(root)
    copier.struct(root)
    copier.types |= printer.types
    return MODULE.format(stem=stem, imports=copier.imports(), functions="\n".join(printer.functions + copier.functions))


def main(folder, *seeds):
    stems = [f"s{seed}" for seed in seeds]
    for stem in stems:
        with open(os.path.join(folder, f"on_{stem}.rt"), "w", encoding="utf-8") as file:
            file.write(module_of(os.path.join(folder, "..", "..", "..", f"{stem}.request"), stem))
    shutil.copy(os.path.join(FIELDS, "line.rs"), os.path.join(folder, "line.rt"))
    arms = "".join(f"        {place} => on_{stem}::show(rt, segments),\n" for place, stem in enumerate(stems))
    with open(os.path.join(folder, "main.rt"), "w", encoding="utf-8") as file:
        file.write(MAIN.format(modules="".join(f"mod on_{stem};\n" for stem in stems), arms=arms))


if __name__ == "__main__":
    main(*sys.argv[1:])
