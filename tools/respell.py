#!/usr/bin/env python3
"""Brings the names of this repository's definitions and lemmas to the spelling of today's Rattle: words in snake case.

It ran once, at the top of a checkout, on what the port.py of the Rattle kit had made of the last commit before the port
(docs/PORT.md). A lemma whose new name a definition has is called after it, with `_lem`. Names of functions in src/,
exported names, strings, inputs and outputs keep their spelling, and so do names that are imported from the libraries.

usage: python3 tools/respell.py
"""

import collections
import os
import re

# A name of antt: all but blanks, brackets and what parts names from one another.
NAME = re.compile(r"[^\s(){}\[\],;.:\"`|]+")
DECLARED = re.compile(
    r"^[ ]*(?P<kind>(?:(?:abbrev|unfoldable|opaque|data|record|ruleset)\s+)?)(?:pub\s+)?(?P<name>[^\W\d][\w'-]*)"
    r"(?:\s*\([^()\n]*\)|\s*\{[^{}\n]*\})*\s*:\s",
    re.M,
)
# What is imported under another name is a name of this repository too.
RENAMED = re.compile(r"[\w'-]+\s+as\s+([a-z][\w'-]*)")
IMPORTED = re.compile(r"use\s+([\w.+'-]+)\.\{([^}]*)\}")
KEYWORDS = {"use", "module", "let", "where", "pub", "mod"}
# Names that would fall together with others where both are in scope, or that say something else than their new
# spelling.
BY_HAND = {"last-questions": "closing_questions"}
# Lemmas in snake case already, beside a definition that comes to their name: the modules where both are in scope.
CALLED_AFTER = {
    "all_read": ("query_nearest/specs/", "query_rides/specs/"),
    "in_order": ("lines_order/specs/",),
    "kept_on": ("query_kept/proofs/",),
}
# A definition of an input, and no lemma.
KEPT_PLAIN = {("first-ride", "listing_printing/")}


def files(*endings):
    for folder, dirs, names in os.walk("crates"):
        dirs[:] = sorted(d for d in dirs if d != "out")
        for name in sorted(names):
            if name.endswith(endings):
                yield os.path.join(folder, name)


def read(path):
    with open(path, encoding="utf-8") as file:
        return file.read()


def is_of_a_function(path):
    """Whether a file is the proof of one function, whose names are its own."""
    parts = path.split("/")
    return "proofs" in parts and len(parts) - parts.index("proofs") > 2


def own_names(texts):
    """The names that the files of specs/ and the lemma files of proofs/ declare, and those that any file imports under
    another name, with the kinds of their declarations."""
    kinds = collections.defaultdict(set)
    for path, text in texts.items():
        for found in RENAMED.finditer("\n".join(line for line in text.split("\n") if "use " in line)):
            if found[1] != snake(found[1]):
                kinds[found[1]].add("as")
        if path.endswith("/Lib.antt") or is_of_a_function(path):
            continue
        for found in DECLARED.finditer(text):
            if found["name"] not in KEYWORDS:
                kinds[found["name"]].add(found["kind"].strip())
    return kinds


def foreign_names(texts):
    names = set()
    for text in texts.values():
        for found in IMPORTED.finditer(text):
            if not found[1].startswith("Rattle.") or found[1].startswith("Rattle.std."):
                names |= {re.split(r"\s+as\s+", name.strip())[0] for name in found[2].split(",")}
    return names


def snake(name):
    parts = []
    for part in name.split("-"):
        if re.match(r"[a-z]", part):
            part = re.sub(r"([a-z0-9])([A-Z])", lambda found: found[1] + "_" + found[2].lower(), part)
        parts.append(part)
    return "_".join(parts)


def new_names(texts):
    kinds = own_names(texts)
    foreign = foreign_names(texts)
    new = {}
    for name in kinds:
        to = BY_HAND.get(name, snake(name))
        if to == name or name in foreign:
            continue
        others = [other for other in kinds if other != name and snake(other) == to]
        new[name] = to + "_lem" if "-" in name and others else to
    return new


def turned(text, scoped, new):
    """Text with the new names. A name behind a dot is a field or a folder, which the scoped ones are not."""

    def one(found):
        name = found[0]
        if name in scoped and text[: found.start()][-1:] != ".":
            return scoped[name]
        return new.get(name, name)

    return NAME.sub(one, text)


def respell(path, text, new):
    """A file's text with the new names; in a comment only what stands in backquotes is a name."""
    is_antt = path.endswith(".antt")
    scoped = {name: name + "_lem" for name, where in CALLED_AFTER.items() if is_antt and any(w in path for w in where)}
    new = new | {name: snake(name) for name, where in KEPT_PLAIN if where in path}
    lines = []
    for line in text.split("\n"):
        code, mark, said = line.partition("--" if is_antt else "//")
        said = re.sub(r"`[^`]*`", lambda found: turned(found[0], scoped, new), said)
        lines.append(turned(code, scoped, new) + mark + said)
    return "\n".join(lines)


def main():
    texts = {path: read(path) for path in files(".antt", ".rt")}
    new = new_names(texts)
    for path, text in texts.items():
        to = respell(path, text, new)
        if to != text:
            with open(path, "w", encoding="utf-8") as file:
                file.write(to)
    print(f"respell: {len(new)} names")


if __name__ == "__main__":
    main()
