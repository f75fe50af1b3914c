#!/usr/bin/env python3
"""Brings the names of this repository's own definitions and lemmas to today's spelling, once, after the kit's port.py:
words in snake case (`callType` is `call_type`), and `_` where a dash joined plain words (`frame-class` is `frame_class`);
a dash of a lemma stays where it joins two whole names. A lemma that would have its function's name ends in `_lem`.
Names of functions, types, constants, files and of what Rattle makes keep their spelling, and so do strings.
Usage: tools/respell.py [FOLDER]. It prints how many names it turned, and each file in which two of them meet ('together')."""
import collections
import os
import re
import sys

root = sys.argv[1] if len(sys.argv) > 1 else "."
TOKEN = re.compile(r"(?<![\w'?◌\-·#+])[a-z][\w'?\-◌]*")
DEFINED = re.compile(r"^\s*(?:(?:abbrev|unfoldable|opaque|pub|field)\s+)*([^\s(){}\[\],;:]+)\s+:\s")
TOGETHER = re.compile(r"^\s+([a-z][\w'?\-]*(?:\s+[a-z][\w'?\-]*)+)\s+:\s")
WORD = re.compile(r"^\s*(?:abbrev|unfoldable)\s+pub\s+([^\s(){}\[\],;:]+)\s+:\s")
STD_WORDS = set("length append drop take map get_or set sum reverse get_elem? filter zeros repeat concat".split())

# Lemmas that port.py has respelled to their function's name: file, lemma.
SAME_NAME = [
    ("canon/proofs/Digits.antt", "four_bytes"), ("maker/proofs/Bytes.antt", "four_bytes"), ("maker/proofs/Imports.antt", "no_room"),
    ("maker/proofs/Tries.antt", "no_room"), ("maker/proofs/Hosts.antt", "no_room"), ("evaluator/proofs/ApartLaws.antt", "slots_at"),
    ("tables/proofs/WriteLaws.antt", "text_in"), ("tables/proofs/ReadLaws.antt", "no_table"),
    ("tables/proofs/read/table_into/Proof.antt", "no_table"), ("cofj/proofs/Lookup.antt", "found_in"), ("cofj/proofs/Runs.antt", "found_in"),
    ("cofj/proofs/BatchFits.antt", "at_leaf"), ("engine/proofs/ShowLaws.antt", "no_line"),
    ("engine/proofs/show/without_line/Proof.antt", "no_line"), ("classes/proofs/OnTables.antt", "field_in"),
    ("batch/proofs/Judges.antt", "count_at"), ("maker/proofs/Wheres.antt", "first_block"),
    ("maker/proofs/make/make_object/Proof.antt", "first_block"),
]


def files_below(folder, *ends):
    found = []
    for path, folders, names in os.walk(folder):
        folders[:] = sorted(f for f in folders if f != "out")
        found += [os.path.join(path, name) for name in sorted(names) if name.endswith(ends)]
    return found


def short(path):
    return path.split("/crates/")[1]


def is_lemma_file(path):
    parts = short(path).split("/")
    return parts[1] == "specs" or (parts[1] == "proofs" and len(parts) == 3)


def snake(name):
    return re.sub(r"([a-z0-9'?])([A-Z])", lambda m: m.group(1) + "_" + m.group(2).lower(), name)


antt = files_below(os.path.join(root, "crates"), ".antt")
rt = files_below(os.path.join(root, "crates"), ".rt")
crates = set(os.listdir(os.path.join(root, "crates")))
defined, in_specs, words = set(), set(), set(STD_WORDS)
for path in antt:
    if is_lemma_file(path):
        for line in open(path):
            if line.strip().startswith("--"):
                continue
            found = DEFINED.match(line) or re.match(r"^\s*(?:pub )?ruleset\s+(\S+)", line)
            if found and re.match("[a-z]", found.group(1)):
                defined.add(found.group(1))
                if "/specs/" in path:
                    in_specs.add(found.group(1))
            found = TOGETHER.match(line)
            if "/specs/" in path and found and not re.match(r"pub |abbrev |unfoldable ", found.group(1)):
                defined |= set(found.group(1).split())
                in_specs |= set(found.group(1).split())
            found = WORD.match(line)
            if "/specs/" in path and found and re.match("[a-z]", found.group(1)):
                words.add(snake(found.group(1)))


def respelled(name):
    parts = [snake(part) for part in name.split("-")]
    if name in in_specs:
        return "_".join(parts)
    for i in range(len(parts) - 1, 0, -1):
        left, right = "_".join(parts[:i]), "_".join(parts[i:])
        if left in words and right in words:
            return left + "-" + right
    return "_".join(parts)


table = {name: respelled(name) for name in defined if respelled(name) != name}


def tokens(path):
    return set(TOKEN.findall(open(path).read()))


# A dashed lemma that falls together with another name of one file ends in `_lem`.
seen = {path: tokens(path) for path in antt}
olds = collections.defaultdict(set)
for old, new in table.items():
    olds[new].add(old)
clashing = set()
for new, which in olds.items():
    if len(which) > 1:
        clashing |= {old for old in which if "-" in old}
for path in antt:
    names = collections.defaultdict(set)
    for token in seen[path]:
        names[table.get(token, token)].add(token)
    for new, which in names.items():
        if len(which) > 1:
            clashing |= {old for old in which if "-" in old and old in table}
for old in clashing - in_specs:
    table[old] += "_lem"


def imported_from_kit(text):
    """Names that a file imports from a library that is not this repository's."""
    names = set()
    for found in re.finditer(r"use\s+([^\s{;]+?)\.?\{([^}]*)\}", text):
        path = found.group(1).split(".")
        if not (path[0] == "Rattle" and len(path) > 1 and path[1] in crates):
            names |= set(TOKEN.findall(found.group(2)))
    return names


def kit_aliases(text):
    names = set()
    for found in re.finditer(r"use\s+(\S+)\s+as\s+([^\s;]+)", text):
        path = found.group(1).split(".")
        made = path[0] == "Rattle" and len(path) > 2 and path[2] == "proofs" and re.match("[a-z+]", path[3] if len(path) > 3 else "P")
        if not (path[0] == "Rattle" and len(path) > 1 and path[1] in crates) or made:
            names.add(found.group(2))
    return names


def turned(path, text, lemma_names):
    kept, aliases = imported_from_kit(text), kit_aliases(text)
    comment = "//" if path.endswith(".rt") else "--"
    lines = []
    for line in text.split("\n"):
        at = line.find(comment)
        code, note = (line, "") if at < 0 else (line[:at], line[at:])

        def put(found, where):
            token = found.group(0)
            before = where[: found.start()]
            alias = re.search(r"([\w'·\-]+)\.$", before)
            if token in kept or (alias and alias.group(1) in aliases):
                return token
            if token in lemma_names and not (before.endswith(".") and "Rattle." in before.split("{")[0] and "{" not in before):
                return token + "_lem"
            return table.get(token, token)

        code = TOKEN.sub(lambda found: put(found, code), code)
        note = re.sub(r"`([^`]*)`", lambda m: "`" + TOKEN.sub(lambda f: table.get(f.group(0), f.group(0)), m.group(1)) + "`", note)
        note = TOKEN.sub(lambda f: table.get(f.group(0), f.group(0)) if "-" not in f.group(0) else f.group(0), note)
        lines.append(code + note)
    return "\n".join(lines)


same_name = collections.defaultdict(set)
for path, name in SAME_NAME:
    same_name[path].add(name)
out, bad = {}, []
for path in antt + rt:
    text = open(path).read()
    out[path] = turned(path, text, same_name[short(path)])
for path in antt:
    names = collections.defaultdict(set)
    for token in seen[path]:
        names[table.get(token, token + ("_lem" if token in same_name[short(path)] else ""))].add(token)
    bad += [(short(path), new, sorted(which)) for new, which in names.items() if len(which) > 1]
for one in bad:
    print("together:", *one)
for path, text in out.items():
    if text != open(path).read():
        open(path, "w").write(text)
# Pages: only words, since a dash is English there; between backticks lemmas too.
for path in [os.path.join(root, "README.md")] + files_below(os.path.join(root, "docs"), ".md"):
    if "/landings/" in path or not os.path.exists(path):
        continue
    text = open(path).read()
    new = re.sub(r"`([^`\n]*)`", lambda m: "`" + TOKEN.sub(lambda f: table.get(f.group(0), f.group(0)), m.group(1)) + "`", text)
    if new != text:
        open(path, "w").write(new)
print(len(table), "names;", sum(name.endswith("_lem") for name in table.values()), "lemmas get _lem")
