#!/usr/bin/env python3
"""Compares the public surfaces of two crates, which rustdoc tells as JSON: items, signatures, traits and bounds.

surface.py ORIGINAL CRATE: prints what CRATE has beside, then what it lacks, and how many lines that are. The names
of parameters, sealed traits and blanket impls do not count, and lifetimes are named by their order in a line.
"""

import json
import re
import sys

# Traits that are implemented without a word, and tell where a value may go.
AUTO = {"Send", "Sync", "Unpin", "UnwindSafe", "RefUnwindSafe"}
IMPLIED = {"Ord": {"Eq", "PartialEq", "PartialOrd"}, "Eq": {"PartialEq"}, "Clone": {"Sized"}}
LIFETIME = r"'(?!static|_)\w+"


def named(line):
    """A line with its lifetimes by number, in which one that stands there once is as one without a name."""
    names = re.findall(LIFETIME, line)
    names = [it for it in dict.fromkeys(names) if names.count(it) > 1]
    line = re.sub(LIFETIME, lambda it: f"'{names.index(it[0])}" if it[0] in names else "'_", line)
    return line.replace("&'_ ", "&").replace("<'_>", "").replace("<'_, ", "<")


def looser(line):
    """A line without the bounds of its parameters by lifetimes, which only keep a caller from more."""
    return named(re.sub(r"(?<=: )'\d+ \+ ", "", line))


class Surface:
    def __init__(self, path):
        with open(path, encoding="utf-8") as file:
            told = json.load(file)
        self.index, self.paths, self.shown = told["index"], told["paths"], set()
        # Twice, since a bound may stand before the trait that shows whether it is sealed.
        for _ in range(2):
            self.lines = set()
            self.module(self.item(told["root"]), "")
        for item in self.index.values():
            if "impl" in item["inner"]:
                self.implementation(item["inner"]["impl"])

    def item(self, number):
        return self.index.get(str(number))

    def is_shown(self, trait):
        return self.paths[str(trait["id"])]["crate_id"] != 0 or trait["id"] in self.shown

    def say(self, line):
        self.lines.add(named(line))

    # Types, as text.

    def type(self, it):
        if it is None:
            return "()"
        (kind, of), = it.items()
        if kind in ("generic", "primitive"):
            return of
        if kind == "resolved_path":
            return of["path"].split("::")[-1] + self.arguments(of["args"])
        if kind == "borrowed_ref":
            lifetime = of["lifetime"] + " " if of["lifetime"] else ""
            return "&" + lifetime + "mut " * of["is_mutable"] + self.type(of["type"])
        if kind == "slice":
            return f"[{self.type(of)}]"
        if kind == "array":
            return f"[{self.type(of['type'])}; {of['len']}]"
        if kind == "tuple":
            return f"({', '.join(map(self.type, of))})"
        if kind == "qualified_path":
            of_trait = of["trait"]["path"].split("::")[-1] if of["trait"] else ""
            return f"<{self.type(of['self_type'])} as {of_trait}>::{of['name']}" + self.arguments(of["args"])
        if kind == "impl_trait":
            return "impl " + self.bounds(of)
        raise ValueError(f"a type of the kind {kind}")

    def arguments(self, it):
        if not it:
            return ""
        parts = [
            self.type(one["type"]) if "type" in one else one.get("lifetime") or one["const"]["expr"]
            for one in it["angle_bracketed"]["args"]
        ]
        for one in it["angle_bracketed"]["constraints"]:
            parts.append(f"{one['name']} = {self.type(one['binding']['equality']['type'])}")
        return f"<{', '.join(parts)}>" if parts else ""

    def bounds(self, its):
        """Bounds in one order. Of a trait that is sealed nothing is told, nor are bounds that another one implies."""
        words = set()
        for it in its:
            if "outlives" in it:
                words.add(it["outlives"])
            elif "trait_bound" in it:
                of, modifier = it["trait_bound"]["trait"], it["trait_bound"]["modifier"]
                if self.is_shown(of):
                    words.add("?" * (modifier == "maybe") + of["path"].split("::")[-1] + self.arguments(of["args"]))
        for one, implied in IMPLIED.items():
            words -= implied if one in words else set()
        if any(it.startswith("Iterator<") for it in words):
            words = {re.sub("^DoubleEndedIterator<.*", "DoubleEndedIterator", it) for it in words}
        return " + ".join(sorted(words))

    def where(self, generics):
        """The bounds of parameters, wherever they stand."""
        of = {}
        for it in generics["params"]:
            if "type" in it["kind"] and not it["kind"]["type"]["is_synthetic"]:
                of.setdefault(it["name"], []).extend(it["kind"]["type"]["bounds"])
        for it in generics["where_predicates"]:
            if "bound_predicate" in it:
                it = it["bound_predicate"]
                of.setdefault(self.type(it["type"]), []).extend(it["bounds"])
        words = [f"{name}: {self.bounds(its)}" for name, its in sorted(of.items()) if self.bounds(its)]
        return " where " + ", ".join(words) if words else ""

    def function(self, item):
        of = item["inner"]["function"]
        takes = ", ".join(self.type(kind) for _, kind in of["sig"]["inputs"])
        marks = "".join(f"{it} " for it in ("const", "unsafe", "async") if of["header"][f"is_{it}"])
        returns = self.type(of["sig"]["output"])
        return f"{marks}fn {item['name']}({takes}) -> {returns}{self.where(of['generics'])}"

    # Items.

    def module(self, item, prefix):
        for number in item["inner"]["module"]["items"]:
            self.visit(self.item(number), prefix)

    def visit(self, item, prefix):
        (kind, of), = item["inner"].items()
        if kind == "use":
            target = self.item(of["id"])
            if target and "module" in target["inner"] and of["is_glob"]:
                self.module(target, prefix)
            elif target:
                self.visit(target, prefix)
            return
        name = prefix + item["name"]
        self.shown.add(item["id"])
        if item["visibility"] != "public" or kind == "module":
            if item["visibility"] == "public":
                self.say(f"module {name}")
                self.module(item, name + "::")
            return
        generics = ""
        if kind in ("struct", "enum", "trait", "type_alias"):
            parameters = ", ".join(it["name"] for it in of["generics"]["params"])
            name, generics = f"{name}<{parameters}>".replace("<>", ""), self.where(of["generics"])
        if kind == "function":
            self.say(f"{prefix}{self.function(item)}")
        elif kind == "constant":
            self.say(f"const {name}: {self.type(of['type'])}")
        elif kind == "type_alias":
            self.say(f"type {name} = {self.type(of['type'])}")
        else:
            self.say(f"{kind} {name}{generics}")
        if kind == "enum":
            for number in of["variants"]:
                self.variant(self.item(number), name)
        elif kind == "struct":
            self.fields(of["kind"], name)
        elif kind == "trait":
            self.trait(of, name)

    def variant(self, item, name):
        kind = item["inner"]["variant"]["kind"]
        fields = kind["tuple"] if isinstance(kind, dict) and "tuple" in kind else []
        fields = ", ".join(self.type(self.item(it)["inner"]["struct_field"]) for it in fields)
        self.say(f"{name}::{item['name']}({fields})")

    def fields(self, kind, name):
        if isinstance(kind, dict) and "plain" in kind:
            for it in map(self.item, kind["plain"]["fields"]):
                if it and it["visibility"] == "public":
                    self.say(f"{name}.{it['name']}: {self.type(it['inner']['struct_field'])}")
        elif kind == "unit":
            self.say(f"{name} has no fields")

    def trait(self, of, name):
        if self.bounds(of["bounds"]):
            self.say(f"trait {name}: {self.bounds(of['bounds'])}")
        for it in map(self.item, of["items"]):
            (kind, inner), = it["inner"].items()
            if kind == "function":
                default = " {..}" if inner["has_body"] else ""
                self.say(f"trait {name}: {self.function(it)}{default}")
            else:
                self.say(f"trait {name}: {kind} {it['name']}: {self.bounds(inner.get('bounds', []))}")

    def implementation(self, of):
        if of["blanket_impl"]:
            return
        name, where = self.type(of["for"]), self.where(of["generics"])
        if of["trait"] is None:
            for it in map(self.item, of["items"]):
                if it["visibility"] == "public":
                    (kind, inner), = it["inner"].items()
                    told = self.function(it) if kind == "function" else f"{kind} {it['name']}"
                    self.say(f"{name}: {told}{where}")
            return
        trait = of["trait"]["path"].split("::")[-1]
        if of["is_synthetic"] and trait not in AUTO or trait == "StructuralPartialEq":
            return
        if self.is_shown(of["trait"]):
            where = "" if of["is_synthetic"] else where
            self.say(f"impl {'!' * of['is_negative']}{trait}{self.arguments(of['trait']['args'])} for {name}{where}")


def main(original, crate):
    theirs, ours = Surface(original).lines, Surface(crate).lines
    lacking = [line for line in sorted(theirs - ours) if looser(line) not in ours]
    for line in sorted(ours - theirs):
        print(f"has beside: {line}")
    for line in lacking:
        print(f"lacks: {line}")
    print(f"{len(theirs)} lines, {len(lacking)} wrong")
    return bool(lacking) or not theirs


if __name__ == "__main__":
    sys.exit(main(*sys.argv[1:]))
