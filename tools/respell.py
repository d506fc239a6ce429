#!/usr/bin/env python3
"""Brings the definitions and lemmas of this repository to the spelling of today's Rattle: snake case. To be run once, at the top, right after
the toolchain's port.py.

usage: python3 tools/respell.py [--show]      --show prints the names and what they become, and writes nothing

What is renamed: names that specs/ and the lemma files of proofs/ declare, in lower camel case or with dashes. A dash stays after a word of the
library (length-two_ticks, but set_up and take_least), and after a name in camel case, where it joins two names. Names of src/, exported names, texts
and outputs stay, and so does a name that is a label of a proof too. A lemma with dashes that would meet another name gets `_lem`; of a name in camel
case that would a line says so. Some are chosen by hand, below.
"""

import os
import re
import sys

NAME = r"[A-Za-z_₀-₉][A-Za-z0-9_'₀-₉-]*"
DECLARED = re.compile(rf"(?m)^ *(?:(?:abbrev|unfoldable|pub|data|record|mutual) +)*({NAME}(?: {NAME})*)(?: [({{][^(){{}}\n]*[)}}])* :")
TOKEN = re.compile(rf"(?<![\w'-])({NAME})")
# A name of its own, and no field or part of a path.
FREE = re.compile(rf"(?<![\w'.-])({NAME})")
LIBRARY = "length take drop set sets map append replicate getD get_or".split()
OLD_HEADS = {"getD": "get_or"}
# Names, most of them fields of records, that stand beside a field of src/ or beside a definition whose name they would have.
CHOSEN = {
    "let-go": "let_go",
    "valid-least": "valid_least",
    "valid-most": "valid_most",
    "no-response": "no_response",
    "end-gap": "end_gap_fits",
    "byte-room": "byte_room_lent",
    "ledger-room": "ledger_room_lent",
    "is-past": "is_past_stage",
    "is-decided": "is_decided_stage",
    "receiver-pulls": "receiver_pulling",
    "sender-pulls": "sender_pulling",
    "some-in-use": "some_used",
    "all-passed": "all_used_passed",
    "total-ticks": "total_ticks",
    "sameText": "is_same_text",
}


def snake(word):
    return re.sub(r"(?<=[a-z0-9])([A-Z])", lambda m: "_" + m.group(1).lower(), word)


def respelled(name):
    if name in CHOSEN:
        return CHOSEN[name]
    if name[0].isupper():
        return name
    head, dash, rest = name.partition("-")
    if dash and not rest.startswith(("up", "least", "most")) and (head in LIBRARY or snake(head) != head):
        return OLD_HEADS.get(head, snake(head)) + "-" + snake(rest).replace("-", "_")
    return snake(name).replace("-", "_")


def files(root, ends):
    for folder, dirs, names in os.walk(os.path.join(root, "crates")):
        dirs[:] = sorted(d for d in dirs if d != "out")
        for n in sorted(names):
            if n.endswith(ends):
                yield os.path.join(folder, n)


def is_lemmas(path):
    return path.endswith(".antt") and os.path.basename(path) not in ("Proof.antt", "Answers.antt", "Invariants.antt")


def read(path):
    with open(path, encoding="utf-8") as f:
        return f.read()


def code_of(text, mark):
    """The text without comments and without what stands between quotes."""
    return re.sub(rf'"[^"\n]*"|{mark}[^\n]*', " ", text)


def clauses_of(text):
    """Of a Rust text, the lines of `ghost use` and of clauses."""
    return "\n".join(re.findall(r"ghost use [^;]*;|(?:requires|ensures|ghost)\*?[^{]*\{[^\n]*\}", text))


def rename(text, mark, names, comments):
    """Replaces the names outside quotes; in comments only those of two words or more in camel case."""

    def turned(piece, table):
        return TOKEN.sub(lambda m: table.get(m.group(1), m.group(1)), piece)

    out, at = [], 0
    for m in re.finditer(rf'"[^"\n]*"|{mark}[^\n]*', text):
        out.append(turned(text[at : m.start()], names))
        out.append(m.group() if m.group().startswith('"') else turned(m.group(), comments))
        at = m.end()
    return "".join(out) + turned(text[at:], names)


def main(argv):
    root = os.getcwd()
    texts = {p: read(p) for p in files(root, (".antt", ".rt", ".edit"))}
    declared, labels = set(), set()
    for p, t in texts.items():
        if is_lemmas(p):
            code = re.sub(r"--[^\n]*", "", t)
            for m in DECLARED.finditer(code):
                declared |= set(m.group(1).split())
        elif p.endswith(".antt"):
            labels |= set(re.findall(rf"\b(?:tie|goal)\.(?:Need-)?({NAME})", t)) | set(re.findall(rf"(?m)^(?:abbrev |pub )*({NAME}) :", t))
    names = {n: respelled(n) for n in declared if respelled(n) != n and n not in labels}
    for n in sorted(n for n in declared & labels if respelled(n) != n):
        print(f"a label too, so it stays: {n}")
    # A lemma that would have the name of a definition, or of another lemma, gets `_lem`.
    apart = {}
    for p, t in texts.items():
        mark = "//" if p.endswith(".rt") else "--"
        tokens = set(FREE.findall(clauses_of(code_of(t, mark)) if p.endswith(".rt") else code_of(t, mark)))
        for n in sorted(tokens & names.keys(), key=lambda n: ("-" in n, n)):
            meets = names[n] in tokens or any(names[m] == names[n] for m in tokens & names.keys() if m != n)
            if meets and n not in CHOSEN and "-" in n:
                apart[n] = names[n] + "_lem"
            elif meets and n not in CHOSEN and names[n] in declared:
                print(f"look: {n} meets {names[n]} in {os.path.relpath(p, root)}")
    camel = {names[n] for n in names if "-" not in n}
    apart |= {n: names[n] + "_lem" for n in names if "-" in n and n not in CHOSEN and names[n] in camel}
    names |= apart
    if "--show" in argv:
        for n in sorted(names):
            print(n, names[n])
        return 0
    told = {n: w for n, w in names.items() if re.search("[a-z0-9][A-Z]", n)}
    # src/ has no name with a dash.
    undashed = {n: w for n, w in names.items() if "-" not in n}
    changed = 0
    for p, t in texts.items():
        mark = "//" if p.endswith(".rt") else "--"
        if p.endswith(".edit"):
            new, table = [], names
            for line in t.splitlines(keepends=True):
                if line.startswith("file: "):
                    table = undashed if line.startswith("file: src/") else names
                new.append(line if line.startswith(("#", "file:")) else rename(line, "--", table, told))
            new = "".join(new)
        else:
            new = rename(t, mark, undashed if p.endswith(".rt") else names, told)
        if new != t:
            changed += 1
            with open(p, "w", encoding="utf-8") as f:
                f.write(new)
    print(f"{len(names)} names, {changed} files")
    return 0


if __name__ == "__main__":
    raise SystemExit(main(sys.argv[1:]))
