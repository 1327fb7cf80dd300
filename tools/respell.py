#!/usr/bin/env python3
"""Brings this repository's own definitions and lemmas to the spelling of today's Rattle: words in snake case.

usage: python3 tools/respell.py        once, at the top, after the kit's port.py and before any edit by hand

In .rt, .antt and .edit files below crates/ each name in lower camel case becomes snake case (settleEnds, settle_ends), and so do
the paper's Wc and Wf. Functions, strings and inputs have no such names, and keep theirs. Where a lemma had the snake case already,
it is named after the definition that takes it, with _lem. No two names fall together: the script stops where they would.
A module specs.Contracts becomes specs.Promises, since Rattle makes one of its own with that name.
"""
import os
import re
import sys

# lemmas whose name a definition takes: the module where each stands
TAKEN = {
    "at_ready": "controller.specs.Bounds",
    "name_back": "reasons.specs.Says",
    "not_first": "consumption.specs.Readable",
    "same_flag": "boundary.specs.Table",
    "sent_back": "asking.specs.Says",
    "set_back": "setup.specs.Determined",
    "two_products": "series.specs.Examples",
}
EXACT = {"Wc": "wc", "Wf": "wf"}
WORD = re.compile(r"(?<![\w'-])[A-Za-z_][\w'-]*")


def texts():
    for folder, dirs, files in os.walk("crates"):
        dirs[:] = sorted(d for d in dirs if d != "out")
        for name in sorted(files):
            if name.endswith((".rt", ".antt", ".edit")):
                yield os.path.join(folder, name)


def snake(word):
    def part(p):
        if not re.match(r"[a-z]\w*[A-Z]|[a-z][A-Z]", p):
            return p
        p = re.sub(r"AL(?=[0-9])", "Al", p)
        return re.sub(r"(?<=[a-z0-9])([A-Z])", r"_\1", p).lower()
    return "-".join(EXACT.get(p, part(p)) for p in word.split("-"))


def main():
    held = {}
    for path in texts():
        with open(path, encoding="utf-8") as f:
            held[path] = f.read()
    words = {w for t in held.values() for w in WORD.findall(t)}
    turned = {w: snake(w) for w in words if snake(w) != w}
    together = [(a, b) for a in turned for b in turned if a < b and turned[a] == turned[b]]
    if together:
        sys.exit(f"fall together: {together}")
    for path, old in held.items():
        text = old
        for lemma, module in TAKEN.items():
            stands = path == "crates/" + module.replace(".", "/") + ".antt"
            brought = re.search(r"use Rattle\." + re.escape(module) + r"\.\{[^}]*(?<![\w'-])" + lemma + r"(?![\w'-])", text)
            if stands or brought:
                text = re.sub(r"(?<![\w'.-])" + lemma + r"(?![\w'-])", lemma + "_lem", text)
        text = WORD.sub(lambda m: turned.get(m.group(0), m.group(0)), text)
        text = re.sub(r"(?<=\.specs\.)Contracts(?![\w'-])", "Promises", text)
        text = re.sub(r"^pub mod Contracts$", "pub mod Promises", text, flags=re.M)
        if text != old:
            with open(path, "w", encoding="utf-8") as f:
                f.write(text)
    for path in held:
        if path.endswith("/specs/Contracts.antt"):
            os.rename(path, path.replace("/Contracts.antt", "/Promises.antt"))
    print(f"{len(turned)} names")


main()
