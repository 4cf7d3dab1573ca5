#!/usr/bin/env python3
"""random_schema.py SEED FOLDER [plain]    writes a random schema into FOLDER: sSEED.capnp, whose first struct is Root, and sSEED_other.capnp,
which it imports; and an older edition of both, sSEED_old.capnp and sSEED_old_other.capnp, in which the last fields and values lack. With
`plain` floats by default are those that every notation writes alike.

Types are kept as request.py reads them of a request, so that random_values.py writes defaults and constants too."""
import os
import random
import sys

from random_values import AnyValues, has_text

BUILT_IN = ["Void", "Bool", "Int8", "Int16", "Int32", "Int64", "UInt8", "UInt16", "UInt32", "UInt64", "Float32", "Float64", "Text", "Data"]
VOID, BOOL, FLOAT32, FLOAT64, TEXT, DATA, LIST, ENUM, STRUCT, INTERFACE, ANY = 0, 1, 10, 11, 12, 13, 14, 15, 16, 17, 18
NO_UNION = 0xFFFF
BRANDS = ["Text", "Data", "List(Bool)", "List(List(Text))"]
SYLLABLES = ["ba", "ko", "Mi", "x", "7", "Zu", "re", "HTTP", "Q", "lo", "ng", "A1", "ti", "De"]

# Words of languages and of generated code; a field's name begins with a small letter, a type's with a capital one.
WORDS = """self super crate type match of which member new body size clone ofItem tree default value number result alloc list item items ok err
none some unknown union struct enum group import using const annotation interface extends in let mut ref box do dyn else for fn gen
if impl loop macro mod move override priv pub return static trait try typeof unsafe unsized use virtual where while yield abstract as async await
become break continue extern final abbrev assumption axiom coe com data deriving elim ensures entry exit fcoe ghost ground hcom infix mutual
now old open package record requires ruleset tcoe unfold held flag plain uint blank read kind at view draft set get from into index len push
pop iter next drop copy text string bool u8 i64 f32 char str usize option vec pointee constant length not exists with then end prove body2
callers request table place params content came caps target call reply answer object alloc2 rt std core lib main specs declared contracts
on w32 textTree withUint bytesTree requestOf areOf naming noneNamed map binary64 toBits bitXor castUnsigned""".split()

COMMENTS = ["Plain.", "With `code`, *stars* and \"quotes\".", "$0 $1 $$ {0} {{}} %s \\n \\", "```", "    indented", "ends with a backslash \\",
            "*/ /* // /// //! --", "{- -} -- | ensures { false }", "\u00e9 \u4e2d \U0001f600", "", "blanks at its end   ", "\tafter a tab",
            "#[derive(Drop)]", "[a link](x) <b>&amp;</b>", "use std::alloc::Global; trees.null sizes.Bit"]


def capital(name):
    return name[:1].upper() + name[1:]


def snake(name):
    return "".join("_" + c.lower() if c.isupper() else c for c in name).lstrip("_")


class Schema:
    def __init__(self, seed, plain):
        self.random = random.Random(seed)
        self.stem, self.old = f"s{seed}", False
        self.nodes, self.tops, self.constants = {}, ([], []), []
        self.taken = {"root", "note"}
        self.values = AnyValues(self.nodes, self.random, plain)
        for file in (1, 0):
            self.declare_file(file)
        for node in list(self.nodes.values()):
            self.fill(node)
        for node in list(self.nodes.values()):
            self.number(node)
        self.add_constants()
        for node in list(self.nodes.values()):
            self.add_defaults(node)
        self.add_messages()

    def chance(self, of):
        return self.random.random() < of

    # Names

    def word(self):
        if self.chance(0.03):
            return "aVeryLongName" + "".join(self.random.choice(["OfSomething", "AndMore", "Within", "X"]) for _ in range(self.random.randint(3, 8)))
        if self.chance(0.5):
            return self.random.choice(WORDS)
        name = "".join(self.random.choice(SYLLABLES) for _ in range(self.random.randint(1, 4)))
        return name[:1].lower() + name[1:] if name[0].isalpha() else "n" + name

    def type_name(self, scope):
        """A name that no other type has, in either file, also once those of the types around it are put before it."""
        before = "".join(self.nodes[i]["name"] for i in self.around(scope))
        while True:
            name = capital(self.word())
            whole = (before + name).lower()
            if name not in (*BUILT_IN, "List") and whole not in self.taken and name.lower() not in self.taken:
                self.taken.update((whole, name.lower()))
                return name

    def field_name(self, names):
        """A name that is free in a struct, also for methods, which put those of groups before it."""
        while True:
            name = self.word()
            if name not in names and snake(name) not in {snake(n) for n in names}:
                names.add(name)
                return name

    def around(self, scope):
        """The numbers of the types that a type of this scope lies in, the outermost first."""
        found = []
        while scope is not None:
            found.insert(0, scope)
            scope = self.nodes[scope]["scope"]
        return found

    # Types

    def declare_file(self, file):
        for at in range(self.random.randint(2, 6)):
            kind = STRUCT if at == 0 else self.random.choices([STRUCT, ENUM, INTERFACE], [6, 3, 1])[0]
            self.declare(file, None, kind, "Root" if file == 0 and at == 0 else None)

    def declare(self, file, scope, kind, name=None):
        node = {"id": len(self.nodes) + 1, "file": file, "scope": scope, "kind": kind, "nested": [], "group": False, "parameters": []}
        node["name"] = name or self.type_name(scope)
        self.nodes[node["id"]] = node
        (self.nodes[scope]["nested"] if scope else self.tops[file]).append(node["id"])
        if kind == STRUCT and name is None and self.chance(0.15):
            node["parameters"] = [f"Param{node['id']}", f"More{node['id']}"][:self.random.randint(1, 2)]
        if kind != ENUM and len(self.around(scope)) < 4:
            for _ in range(self.random.choice([0, 0, 0, 1, 2])):
                self.declare(file, node["id"], self.random.choices([STRUCT, ENUM, INTERFACE], [5, 4, 1])[0])

    def fill(self, node):
        if node["kind"] == ENUM:
            names = set()
            node["enumerants"] = [self.field_name(names) for _ in range(self.random.choice([1, 2, 3, 5, 20]))]
            node["kept"] = self.random.randint(1, len(node["enumerants"]))
            node["order"] = self.random.sample(range(len(names)), len(names))
        elif node["kind"] == INTERFACE:
            self.fill_interface(node)
        else:
            self.fill_struct(node, node, self.random.choice([0, 1, 2, 4, 8, 14, 40] if node["name"] != "Root" else [14, 30]), 0)

    def some_type(self, owner, lists=0):
        kinds = [n["kind"] for n in self.nodes.values()]
        code = self.random.choices(list(range(19)), [1, 3, 1, 2, 1, 2, 1, 2, 1, 2, 2, 2, 4, 3, 6 if lists < 3 else 0, 3 * (ENUM in kinds), 6,
                                                     INTERFACE in kinds, 1 if lists == 0 else 0])[0]
        kind = {"kind": code}
        if code == LIST:
            kind["elem"] = self.some_type(owner, lists + 1)
        elif code in (ENUM, STRUCT, INTERFACE):
            fits = [n for n in self.nodes.values() if n["kind"] == code and not n["group"] and n["file"] >= owner["file"]]
            if not fits:
                return self.some_type(owner, lists)
            kind["id"] = self.random.choice(fits)["id"]
            kind["brand"] = self.random.choice(["", *BRANDS])
        elif code == ANY:
            parameters = [p for i in self.around(owner["id"]) for p in self.nodes[i]["parameters"]]
            kind["any"] = self.random.choice(parameters + ["AnyPointer"])
        return kind

    def fill_struct(self, node, owner, count, depth):
        """Fields, groups and a union of a struct or a group; a named union is a group of members alone."""
        node["fields"], names = [], set()
        members = self.random.randint(2, 6) if self.chance(0.4) else 0
        if node["group"] and members and self.chance(0.5):
            count = 0
        for at in range(max(count + members, 1 if node["group"] else 0)):
            self.add_field(node, owner, names, at - count if at >= count and members else NO_UNION, depth)
        self.random.shuffle(node["fields"])

    def add_field(self, node, owner, names, tag, depth):
        field = {"name": self.field_name(names), "disc": tag, "which": 0}
        if depth < 3 and self.chance(0.12):
            group = {"id": len(self.nodes) + 1, "kind": STRUCT, "group": True, "scope": None, "file": owner["file"]}
            self.nodes[group["id"]] = group
            field.update(which=1, group=group["id"])
            self.fill_struct(group, owner, self.random.randint(1, 4), depth + 1)
        else:
            field["type"] = self.some_type(owner)
        node["fields"].append(field)

    def fill_interface(self, node):
        names = set()
        supers = [n["id"] for n in self.nodes.values() if n["kind"] == INTERFACE and n["id"] < node["id"] and n["file"] >= node["file"]]
        node["supers"] = self.random.sample(supers, min(len(supers), self.random.choice([0, 0, 1, 2])))
        node["methods"] = [self.method(node, self.field_name(names)) for _ in range(self.random.choice([0, 1, 3, 6]))]

    def method(self, node, name):
        names = set()
        return {"name": name, "sides": [self.side(node, names, "params"), self.side(node, set(), "results")]}

    def side(self, node, names, which):
        """The params or the results of a method: fields, or a struct, or nothing where they are a stream."""
        structs = [n["id"] for n in self.nodes.values() if n["kind"] == STRUCT and not n["group"] and n["file"] >= node["file"]]
        if self.chance(0.2):
            return {"kind": STRUCT, "id": self.random.choice(structs), "brand": ""}
        if which == "results" and self.chance(0.15):
            return None
        return [(self.field_name(names), self.some_type(node)) for _ in range(self.random.randint(0, 4))]

    # Numbers, defaults and constants

    def slots(self, node):
        for field in node["fields"]:
            if field["which"] == 1:
                yield from self.slots(self.nodes[field["group"]])
            else:
                yield field

    def number(self, node):
        if node["kind"] != STRUCT or node["group"]:
            return
        slots = list(self.slots(node))
        self.random.shuffle(slots)
        for ordinal, field in enumerate(slots):
            field["ordinal"] = ordinal
            field["narrow"] = self.chance(0.2)
        self.old, kept = True, len(slots) if self.chance(0.3) else self.random.randint(0, len(slots))
        while True:
            for field in slots:
                field["late"] = field["ordinal"] >= kept
            if self.may_grow(node):
                break
            kept += 1
        self.old = False
        for field in slots:
            field["last"] = field["ordinal"] == kept - 1

    def may_grow(self, node):
        """Whether the older edition has all of a union but for later members, or nothing of it, or one field: not one group."""
        kept = [f for f in node["fields"] if self.is_kept(f)]
        members = [f for f in kept if f["disc"] != NO_UNION]
        return (len(members) != 1 or members[0]["which"] == 0) and all(self.may_grow(self.nodes[f["group"]]) for f in kept if f["which"] == 1)

    def add_constants(self):
        """Constants of structs, lists, texts and numbers; those of floats the plugin doesn't write."""
        structs = [n for n in self.nodes.values() if n["kind"] == STRUCT and not n["group"] and not n["parameters"]]
        for at in range(self.random.randint(0, 5)):
            owner = self.random.choice(structs)
            kind = self.some_type(owner)
            if kind["kind"] in (VOID, FLOAT32, FLOAT64) or not has_text(kind):
                continue
            scope = None if self.chance(0.6) else owner["id"]
            if any(self.nodes[i]["parameters"] for i in self.around(scope)):
                scope = None
            text = self.values.value(kind, 2)
            if kind["kind"] == LIST and text == "[]":
                continue
            self.constants.append({"name": f"fixed{at}", "file": owner["file"], "scope": scope, "type": kind, "text": text})

    def add_defaults(self, node):
        if node["kind"] != STRUCT or node["group"]:
            return
        for field in self.slots(node):
            kind = field["type"]
            if self.chance(0.4):
                field["default"] = self.default(node, kind)

    def pointers(self):
        """The constants that an AnyPointer can be."""
        return [c for c in self.constants if c["type"]["kind"] in (LIST, STRUCT)]

    def default(self, node, kind):
        pointers = [c for c in self.pointers() if c["file"] >= node["file"]]
        same = [c for c in self.constants if c["file"] >= node["file"] and c["type"] == kind and kind["kind"] not in (BOOL, ENUM)]
        if kind["kind"] == ANY and kind["any"] == "AnyPointer" and pointers:
            return self.random.choice(pointers)
        if same and self.chance(0.5):
            return self.random.choice(same)
        return self.values.value(kind, self.random.choice([2, 3, 4])) if has_text(kind) and kind["kind"] != VOID else None

    def add_messages(self):
        """Constants that are messages, in which pointers of any kind are other constants."""
        root = self.nodes[self.tops[0][0]]
        pointers = self.pointers()
        fields = [f["name"] for f in root["fields"] if f["which"] == 0 and f["type"]["kind"] == ANY and f["disc"] == NO_UNION]
        if pointers and fields:
            parts = [f"{name} = {self.constant_path(self.random.choice(pointers), 0)}" for name in fields]
            self.constants.append({"name": "message", "file": 0, "scope": None, "type": {"kind": STRUCT, "id": root["id"], "brand": ""},
                                   "text": "(" + ", ".join(parts) + ")"})

    # Texts

    def file_name(self, file, old):
        return self.stem + ("_old" if old else "") + ("_other" if file else "") + ".capnp"

    def path(self, scope, file, brand=""):
        """A type's name from a file."""
        parts, home = "", 0
        for i in self.around(scope):
            node = self.nodes[i]
            home = node["file"]
            parts += "." + node["name"]
            if brand and node["parameters"]:
                parts += "(" + ", ".join([brand] * len(node["parameters"])) + ")"
        return (f'import "{self.file_name(1, self.old)}"' if home != file else "") + parts

    def constant_path(self, constant, file):
        before = self.path(constant["scope"], file) if constant["scope"] else ""
        if not before and constant["file"] != file:
            before = f'import "{self.file_name(1, self.old)}"'
        return f"{before}.{constant['name']}"

    def type_text(self, kind, file):
        if kind["kind"] < LIST:
            return BUILT_IN[kind["kind"]]
        if kind["kind"] == LIST:
            return f"List({self.type_text(kind['elem'], file)})"
        return kind["any"] if kind["kind"] == ANY else self.path(kind["id"], file, kind["brand"])

    def narrow(self, field):
        """In the older edition, the type of a list of structs may be that of their first field, and the last pointer in a union void, so that
        it is null where it is set."""
        kind = field["type"]
        if self.old and field["last"] and field["disc"] != NO_UNION and kind["kind"] in (TEXT, DATA, LIST, STRUCT):
            return {"kind": VOID}
        if not (self.old and field["narrow"] and kind["kind"] == LIST and kind["elem"]["kind"] == STRUCT):
            return kind
        element = self.nodes[kind["elem"]["id"]]
        first = [f for f in element["fields"] if f["which"] == 0 and f["ordinal"] == 0 and f["disc"] == NO_UNION]
        if not first or first[0]["type"]["kind"] in (VOID, BOOL, STRUCT, ANY) or element["file"] != self.nodes[self.tops[0][0]]["file"]:
            return kind
        return {"kind": LIST, "elem": first[0]["type"]}

    def default_text(self, field, file):
        default = field.get("default")
        if default is None or self.narrow(field) != field["type"]:
            return ""
        kind = field["type"]
        while kind["kind"] == LIST:
            kind = kind["elem"]
        if self.old and kind["kind"] >= LIST:
            return ""
        if isinstance(default, dict):
            return "" if self.old else f" = {self.constant_path(default, file)}"
        return f" = {default}"

    def is_kept(self, field):
        if field["which"] == 1:
            return any(self.is_kept(f) for f in self.nodes[field["group"]]["fields"])
        return not (self.old and field["late"])

    def note(self):
        return f' $note("{self.random.randint(0, 9)}")' if self.chance(0.05) else ""

    def comment(self, indent):
        lines = [self.random.choice(COMMENTS) for _ in range(self.random.choice([0] * 8 + [1, 1, 3]))]
        return "".join(f"{indent}#{' ' + line if line else ''}\n" for line in lines)

    def field_text(self, field, file, indent):
        if field["which"] == 0:
            kind = self.type_text(self.narrow(field), file)
            return f"{indent}{field['name']} @{field['ordinal']} : {kind}{self.default_text(field, file)}{self.note()};\n{self.comment(indent)}"
        group = self.nodes[field["group"]]
        members = [f for f in group["fields"] if f["disc"] != NO_UNION and self.is_kept(f)]
        others = [f for f in group["fields"] if f["disc"] == NO_UNION and self.is_kept(f)]
        if len(members) > 1 and not others and self.chance(0.7):
            inner = "".join(self.field_text(f, file, indent + "  ") for f in members)
            return f"{indent}{field['name']} :union{self.note()} {{\n{self.comment(indent + '  ')}{inner}{indent}}}\n"
        return f"{indent}{field['name']} :group{self.note()} {{\n{self.comment(indent + '  ')}{self.fields_text(group, file, indent + '  ')}{indent}}}\n"

    def fields_text(self, node, file, indent):
        """The fields of a struct or a group. A union of one member is that field."""
        kept = [f for f in node["fields"] if self.is_kept(f)]
        members = [f for f in kept if f["disc"] != NO_UNION]
        texts = [self.field_text(f, file, indent) for f in kept if f["disc"] == NO_UNION or len(members) == 1]
        if len(members) > 1:
            inner = "".join(self.field_text(f, file, indent + "  ") for f in members)
            texts.append(f"{indent}union {{\n{inner}{indent}}}\n")
        self.random.shuffle(texts)
        return "".join(texts)

    def side_text(self, side, file):
        if side is None:
            return "stream"
        if isinstance(side, dict):
            return self.type_text(side, file)
        return "(" + ", ".join(f"{name} : {self.type_text(kind, file)}" for name, kind in side) + ")"

    def methods_text(self, node, indent):
        text = ""
        for ordinal, method in enumerate(node["methods"]):
            params, results = (self.side_text(side, node["file"]) for side in method["sides"])
            text += f"{indent}{method['name']} @{ordinal} {params} -> {results}{self.note()};\n{self.comment(indent)}"
        return text

    def node_text(self, node, indent):
        inner = indent + "  "
        if node["kind"] == ENUM:
            kept = node["kept"] if self.old else len(node["order"])
            body = "".join(f"{inner}{node['enumerants'][i]} @{i}{self.note()};\n{self.comment(inner)}" for i in node["order"] if i < kept)
            return f"{indent}enum {node['name']}{self.note()} {{\n{self.comment(inner)}{body}{indent}}}\n"
        body = "".join(self.node_text(self.nodes[i], inner) for i in node["nested"]) + self.constants_text(node["file"], node["id"], inner)
        if node["kind"] == INTERFACE:
            supers = ", ".join(self.path(i, node["file"]) for i in node["supers"])
            head = f"interface {node['name']}" + (f" extends({supers})" if supers else "")
            body += self.methods_text(node, inner)
        else:
            head = f"struct {node['name']}" + (f"({', '.join(node['parameters'])})" if node["parameters"] else "")
            body += self.fields_text(node, node["file"], inner)
        return f"{indent}{head}{self.note()} {{\n{self.comment(inner)}{body}{indent}}}\n"

    def constants_text(self, file, scope, indent):
        text = ""
        for constant in self.constants:
            if not self.old and constant["file"] == file and constant["scope"] == scope:
                text += f"{indent}const {constant['name']} : {self.type_text(constant['type'], file)} = {constant['text']};\n{self.comment(indent)}"
        return text

    def write(self, folder):
        for self.old in (False, True):
            for file in (0, 1):
                text = f"@0xc0ffee000001{file:04x};\nannotation note(*) :Text;\n"
                text += "".join(self.node_text(self.nodes[i], "") for i in self.tops[file]) + self.constants_text(file, None, "")
                with open(os.path.join(folder, self.file_name(file, self.old)), "w", encoding="utf-8") as out:
                    out.write(text)


def main(seed, folder, plain=""):
    Schema(int(seed), plain == "plain").write(folder)


if __name__ == "__main__":
    main(*sys.argv[1:])
