#!/usr/bin/env python3
"""Brings the repository's own definitions and lemmas to the spelling of today's Rattle, and gives a crate a new name.

usage: tools/respell.py          at the top of the repository, once, right after the kit's port.py

Types and facts are in upper camel case (Good-frame becomes GoodFrame), everything else in snake case (kind-number becomes
kind_number). The names are those with a dash in them that the files of specs/ and proofs/ declare, or that an import gives by `as`, in
the code too. The names of goals, which Rattle makes, stay, and so do names of libraries, of Rust items, strings, and prose.
The crate `bytes` becomes `octets`, since the kit has a library `bytes`. It prints each new name, and MEETS where the file that
has the old name has the new one already. Names that port.py has turned before are not seen.
"""

import os
import re
import subprocess
import sys

CRATES = {"bytes": "octets"}
WORD = r"[^\s(){}\[\].;,@\"«»]+"
DECLARED = re.compile(r"(?m)^\s*(?:(?:pub|abbrev|unfoldable|data|record|mutual|where)\s+)*(" + WORD + r")\s*(?:[({][^:(){}]*:[^(){}]*[)}]\s*)*:(?=\s)(.*)$")
# a record or a data type, and a name that an import gives
OTHER = re.compile(r"(?m)^\s*(?:pub\s+)?(?:record|data)\s+(" + WORD + r")(?=\s)|\bas (" + WORD + r")(?=[,}])")
TOKEN = re.compile(r"(?<![^\s(){}\[\].;,@\"«»])" + WORD)
RUST = re.compile(r'//[^\n]*|"(?:\\.|[^"\\])*"', re.S)
GOAL = re.compile(r"\s*(?:\w+\.)?(?:goal|given|need)\.")
# behind these heads the names of steps stand, which Rattle makes
HEADS = re.compile(r"(?:goal|c|w|l|a|g|new|args|initial|fn)$")


def new_name(name):
    if name[0].isupper():
        return "".join(part[:1].upper() + part[1:] for part in name.split("-"))
    words = re.sub(r"(?<=[a-z0-9])[A-Z]", lambda m: "_" + m[0].lower(), name).replace("-", "_")
    # a name begins with a letter
    return re.sub(r"^(\d+)_([a-z]+)", r"\2_\1", words)


def listed(ending):
    out = subprocess.run(["git", "ls-files", "-co", "--exclude-standard"], capture_output=True, text=True, check=True).stdout
    return [f for f in out.splitlines() if f.endswith(ending) and os.path.isfile(f)]


def read(path):
    with open(path, encoding="utf-8") as f:
        return f.read()


def write(path, text):
    with open(path, "w", encoding="utf-8") as f:
        f.write(text)


def declared(paths):
    names = set()
    for path in paths:
        for m in DECLARED.finditer(read(path)):
            if "-" in m.group(1) and m.group(1)[0].isalnum() and not GOAL.match(m.group(2)):
                names.add(m.group(1))
        for m in OTHER.finditer(read(path)):
            name = m.group(1) or m.group(2)
            if "-" in name and not path.endswith(("/Answers.antt", "/Invariants.antt")):
                names.add(name)
    return names


def turn(text, table):
    def one(m):
        word = m.group(0)
        if word not in table:
            return word
        head = re.search(r"(\w+)\.$", text[: m.start()])
        if head and HEADS.match(head.group(1)):
            print(f"look: {head.group(1)}.{word} stays")
            return word
        return table[word]

    return TOKEN.sub(one, text)


def turn_antt(text, table):
    out = []
    for line in text.splitlines(keepends=True):
        at = re.search(r"(?<!\S)--(?=\s|$)", line)
        cut = at.start() if at else len(line)
        out.append(turn(line[:cut], table) + line[cut:])
    return "".join(out)


def turn_rust(text, table):
    out, at = [], 0
    for m in RUST.finditer(text):
        out += [turn(text[at : m.start()], table), m.group(0)]
        at = m.end()
    return "".join(out) + turn(text[at:], table)


def rename_crates():
    for old, new in CRATES.items():
        if not os.path.isdir(f"crates/{old}"):
            continue
        subprocess.run(["git", "mv", f"crates/{old}", f"crates/{new}"], check=True)
        for path in listed((".rt", ".antt", ".edit")):
            text = read(path)
            text = re.sub(rf"\bRattle\.{old}\.", f"Rattle.{new}.", text)
            if path.endswith((".rt", ".edit")):
                text = re.sub(rf"(?<![\w.:]){old}::", f"{new}::", text)
            write(path, text)
        lines = read("crates.txt").splitlines(keepends=True)
        write("crates.txt", "".join(re.sub(rf"\b{old}\b", new, l) if not l.startswith("#") else l for l in lines))


def main():
    antt, rust, edits = listed(".antt"), listed(".rt"), listed(".edit")
    table = {name: new_name(name) for name in declared(antt + rust)}
    used = {}
    for path in antt + rust:
        for word in TOKEN.findall(read(path)):
            used.setdefault(word, set()).add(path)
    for old, new in sorted(table.items()):
        both = sorted(used.get(new, set()) & used.get(old, set()))
        print(f"{old} -> {new}" + (f"   MEETS {new} in {', '.join(both)}" if both else ""))
    for path in antt:
        write(path, turn_antt(read(path), table))
    for path in rust:
        write(path, turn_rust(read(path), table))
    for path in edits:
        write(path, turn_rust(read(path), table))
    rename_crates()


if __name__ == "__main__":
    sys.exit(main())
