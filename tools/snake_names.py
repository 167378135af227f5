#!/usr/bin/env python3
"""Brings definitions, lemmas, fields and constructors of specs/ and proofs/ to snake case.

usage: python3 tools/snake_names.py [--dry]     at the top of the repository, once, after the kit's port.py

Names with hyphens (`one-lowest`) and camel-case words (`layerOf`) become `one_lowest` and `layer_of`, in .antt files and in the
ghost parts of .rt files alike. Left alone: types and modules, the library's names, what the check itself names in proofs
(goals, labels such as `c.loop-word`), and strings. Prints `clash:` where two names would fall together in one file.
"""
import os
import re
import sys

TOKEN = re.compile(r"(?<![\w'\-])[A-Za-z_][\w'\-]*")
WORD = r"[A-Za-z_][\w'\-]*"
# where snake case would make two names of one file fall together
OWN = {
    "arcs-at": "arcs_at_state",
    "in-range": "within_range",
    "layerName": "name_of_layer",
    "listCall": "list_said",
    "number-of": "number_agrees",
    "tableWords": "words_of_table",
    "values-of": "values_fit",
}
# a name that port.py gave already, where another is to have it
FIRST = {"crates/session/proofs/Laws.antt": ("is_open", "here_open")}
PROOFS_OF_FUNCTIONS = ("Answers.antt", "Invariants.antt", "Proof.antt")


def snake(name):
    if name in OWN:
        return OWN[name]
    name = re.sub(r"(?<=[a-z0-9])([A-Z])", lambda m: "_" + m.group(1).lower(), name) if name[0].islower() else name
    return re.sub(r"^[A-Z](?=-)", lambda m: m.group(0).lower(), name).replace("-", "_")


def to_change(name):
    return "-" in name or (name[0].islower() and re.search("[A-Z]", name))


def files(ending):
    for folder, dirs, names in os.walk("crates"):
        dirs[:] = sorted(d for d in dirs if d != "out")
        for name in sorted(names):
            if name.endswith(ending):
                yield os.path.join(folder, name)


def declared(path, text):
    """Names that a file declares, and names that it binds. What has a goal for its type is the check's own name."""
    decls, binds = set(), set()
    goals = set(re.findall(r"^pub (" + WORD + r") : goal\.", text, re.M)) | set(re.findall(r"^abbrev pub (" + WORD + r") : goal\.", text, re.M))
    for line in text.splitlines():
        if line.lstrip().startswith(("--", "use ")):
            continue
        at = re.match(r"\s*(?:abbrev |pub )*((?:" + WORD + r" )+):(?!=)", line)
        if at:
            decls |= {n for n in at.group(1).split() if n not in ("abbrev", "pub", "data", "record")}
        for group in re.findall(r"λ ((?:[\w'\-]+ ?)+)\.", line) + re.findall(r"[({]((?:" + WORD + r" )+):", line):
            binds |= set(group.split())
        binds |= set(re.findall(r"\blet (" + WORD + ")", line))
        clause = re.match(r"\s*" + WORD + " ((?:[\\w'\\-]+ )+)=(?: |$)", line)
        if clause and not path.endswith(PROOFS_OF_FUNCTIONS):
            binds |= {n for n in clause.group(1).split() if re.match(WORD, n)}
    return decls - goals, {n for n in binds if re.match(WORD, n)}


def main():
    dry = "--dry" in sys.argv
    decls, binds, texts = set(), set(), {}
    for path in files(".antt"):
        texts[path] = open(path, encoding="utf-8").read()
        if path in FIRST:
            texts[path] = re.sub(r"(?<![\w'\-])%s(?![\w'\-])" % FIRST[path][0], FIRST[path][1], texts[path])
        d, b = declared(path, texts[path])
        decls |= d
        binds |= b
    for path in files(".rt"):
        texts[path] = open(path, encoding="utf-8").read()
    for path, text in texts.items():
        for line in re.findall(r"^(?:pub )?(?:ghost )?use (?:Rattle|crate).*\.\{.*$", text, re.M):
            binds |= set(re.findall(r" as (" + WORD + ")", line))
    names = {n: snake(n) for n in decls | binds if to_change(n)}
    fields = set()
    for path, text in texts.items():
        if path.endswith(".antt"):
            fields |= set(re.findall(r"^  pub (" + WORD + r") :", text, re.M)) | set(re.findall(r"[({;] ?(" + WORD + r") = ", text))
            fields |= set(re.findall(r"^\s+(" + WORD + r") = .*;$", text, re.M))
    for path, text in sorted(texts.items()):
        own = os.path.basename(path) in PROOFS_OF_FUNCTIONS
        here = set(TOKEN.findall(text))
        for n in sorted(here & set(names)):
            if names[n] in here:
                print(f"clash: {path}: {n} and {names[n]}")
        for new in {names[n] for n in here & set(names)}:
            old = sorted(n for n in here & set(names) if names[n] == new)
            if len(old) > 1:
                print(f"clash: {path}: {' and '.join(old)}")

        def turned(m):
            n = m.group(0)
            if n not in names:
                return n
            dotted = m.start() > 0 and text[m.start() - 1] == "."
            if own and dotted:
                head = re.search(r"([\w'\-«»\.]*)\.$", text[:m.start()]).group(1)
                if n not in fields or head in ("c", "l", "goal"):
                    return n
                print(f"look: {path}: {head}.{n}")
            return names[n]

        out = TOKEN.sub(turned, text)
        if out != text and not dry:
            open(path, "w", encoding="utf-8").write(out)
    print(len(names), "names")


main()
