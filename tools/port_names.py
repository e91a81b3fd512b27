#!/usr/bin/env python3
"""Respells this repository's own definitions and lemmas: words in snake case, a dash only where a lemma joins two functions.

usage: python3 tools/port_names.py ROOT      once, after /opt/rattle/port/port.py; it rewrites crates/ below ROOT

Functions of src/, types, modules, goals and what the libraries name keep their spelling. Edits in must-fail/ are
respelled too. Names that would fall together are printed, and then nothing is written.
"""
import collections
import os
import re
import sys

TOKEN = re.compile(r"(?<![A-Za-z0-9_'\-])[A-Za-z_][A-Za-z0-9_'\-]*")
SIGNATURE = re.compile(r"^\s*(?:unfoldable |abbrev |pub )*([A-Za-z_][A-Za-z0-9_'\-]*)\s*(?:\{[^}]*\}\s*)?:\s(.*)$")
CAMEL = re.compile(r"^[a-z][A-Za-z0-9']*$")
# what a dash may stand between: functions of this repository and of the library
WORDS = set(
    "length map take drop append push cons set get_or mod pow div mul add suc neg pos mag quot put_mid"
    " appended body cut cut_on entry_head flat framed item items low big packet packet_head put put_all samples sizes"
    " spliced tested checked values word copy before room".split()
)
# names that the rule would let fall together with another one, or that would hide one
OTHERS = {
    "same-type": "same_type-true",
    "canonical-by": "canonical_by_lem",
    "device-id": "device_id_is",
    "type-byte": "type_byte_is",
    "data-type": "data_type_is",
    "device-flags": "device_flags_is",
}


def snake(word):
    return re.sub(r"(?<=[a-z0-9])([A-Z])", lambda m: "_" + m.group(1).lower(), word)


def dashes(word):
    if word in OTHERS:
        return OTHERS[word]
    parts = [snake(p) for p in word.split("-")]
    out = parts[0]
    for a, b in zip(parts, parts[1:]):
        out += ("-" if a in WORDS and b in WORDS else "_") + b
    return out


def files(root):
    for folder, dirs, names in os.walk(os.path.join(root, "crates")):
        dirs[:] = sorted(d for d in dirs if d != "out")
        for name in sorted(names):
            if name.endswith((".rt", ".antt", ".edit")):
                yield os.path.join(folder, name)


def table(texts):
    """The old names of this repository with their new ones."""
    found = {}
    for path, text in texts.items():
        if not path.endswith(".antt"):
            for m in re.finditer(r"^ghost use .* as ([a-z]+[A-Z]\w*)", text, re.M):
                found[m.group(1)] = snake(m.group(1))
            continue
        for line in text.split("\n"):
            m = SIGNATURE.match(line)
            if m and "-" in m.group(1) and not re.search(r"\bgoal\.", m.group(2)):
                found[m.group(1)] = dashes(m.group(1))
            for m in TOKEN.finditer(line.split("-- ")[0]):
                w = m.group()
                if CAMEL.match(w) and re.search("[A-Z]", w):
                    found[w] = snake(w)
    return {old: new for old, new in found.items() if old != new}


def clashes(names, texts):
    by_new = collections.defaultdict(set)
    for old, new in names.items():
        by_new[new].add(old)
    for new, olds in sorted(by_new.items()):
        if len(olds) > 1:
            yield f"{new}: {', '.join(sorted(olds))}"
    for path, text in texts.items():
        words = {m.group() for m in TOKEN.finditer(text)}
        imported = set()
        for m in re.finditer(r"use (?:Rattle\.std|native|lib|borrow|denote|Prim)\.[\w.]*\.?\{([^}]*)\}", text):
            imported |= {w.split(" as ")[-1].strip() for w in m.group(1).split(",")}
        for w in sorted(words & set(names)):
            if names[w] in imported:
                yield f"{path}: {w} would be {names[w]}, which the file imports"


def main(root):
    texts = {}
    for path in files(root):
        with open(path, encoding="utf-8") as f:
            texts[path] = f.read()
    names = table(texts)
    bad = list(clashes(names, texts))
    if bad:
        print("\n".join(bad))
        return 1
    changed = 0
    for path, text in texts.items():
        new = TOKEN.sub(lambda m: names.get(m.group(), m.group()), text)
        if new != text:
            changed += 1
            with open(path, "w", encoding="utf-8") as f:
                f.write(new)
    print(f"{len(names)} names, {changed} files")
    return 0


if __name__ == "__main__":
    raise SystemExit(main(sys.argv[1] if len(sys.argv) > 1 else "."))
