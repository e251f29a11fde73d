#!/usr/bin/env python3
"""Spells the repository's own definitions and lemmas as the library does: types and facts in upper camel case, all else in snake case.

usage: python3 tools/respell.py [--dry]      at the top of a checkout, once

It reads each .antt file of specs/ and proofs/ of every crate, collects the names defined there, and turns them where they stand: in .antt files, and in the clauses and ghost lines of .rt files. Names that the check makes (goals, steps of a function) and names of src/ keep their spelling.
"""

import collections
import os
import re
import sys

WORD = re.compile(r"[A-Za-z_\u0370-\u03ff\u2080-\u2089][A-Za-z0-9_'\u2032\u0370-\u03ff\u2080-\u2089-]*")
SIGN = re.compile(r"^(\s*)(?:(?:abbrev|unfoldable) )?(?:pub )?((?:data|record) )?([^\s(){}:.,;]+)((?: ?[({][^)}]*[)}])*) ?:( .*|)$")
KIND = re.compile(r"^(\s*)(?:pub )?(data|record) ([^\s(){}:]+)")
SKIP = {"use", "pub", "mod", "module", "where", "mutual", "unfolding", "let", "in", "syntax", "ruleset", "λ"}
# Names that would fall together with another, or with the name of a function that they follow.
OWN = {
    "Keys-inside": "KeysAreInside",
    "row-of": "row_from",
    "butLast": "all_but_last",
    "lastOne": "last_of",
    "some-text": "some_text_lem",
    "token-length": "token_length_lem",
    "key-text": "key_text_lem",
    "into-items": "step_into_items",
    "into-entries": "step_into_entries",
    "into-record": "step_into_record",
    "step-of": "tree_step_of",
    "symbol-of": "symbol_in",
    "loop-field": "loop_field",
    "loop-object": "loop_object",
}
# The same, in one file.
IN_FILE = {"crates/numerals/proofs/Readings.antt": {"at-most": "at_most_lem"}}
MADE = re.compile(r":\s*(?:goal|given)\.")


def files(ending):
    for top in sorted(os.listdir("crates")):
        for folder, dirs, names in os.walk(os.path.join("crates", top)):
            dirs[:] = sorted(d for d in dirs if d != "out")
            for name in sorted(names):
                if name.endswith(ending):
                    yield os.path.join(folder, name)


def read(path):
    with open(path, encoding="utf-8") as f:
        return f.read()


def camel(name):
    return "".join(part[:1].upper() + part[1:] for part in name.split("-"))


def snake(name):
    name = name.replace("-", "_").replace("\u2032", "'")
    return re.sub(r"(?<=[a-z0-9])([A-Z])", lambda m: "_" + m.group(1), name).lower() if re.search(r"[a-z0-9][A-Z]", name) or name[:1].isupper() else name


def collect():
    """Each name with the kinds that it is defined as, and the names that the check made."""
    found = collections.defaultdict(set)
    made = set()
    for path in files(".antt"):
        inside = None
        for line in read(path).split("\n"):
            if line.lstrip().startswith("--"):
                continue
            m = KIND.match(line)
            if m:
                found[m.group(3)].add("type")
                inside = (m.group(2), len(m.group(1)))
                continue
            if inside and line.strip() and len(line) - len(line.lstrip()) <= inside[1]:
                inside = None
            m = SIGN.match(line)
            if not m or m.group(3) in SKIP or line.lstrip().startswith(("let ", "use ", "(", "λ")):
                continue
            name = m.group(3)
            if MADE.search(line):
                made.add(name)
                continue
            if "\u25cc" in name:
                for part in WORD.findall(name):
                    found[part].add("value")
                continue
            if re.search(r"Type \d+\s*$", line):
                found[name].add("type")
            elif inside:
                found[name].add("field" if inside[0] == "record" else "value")
            else:
                found[name].add("value")
    return found, made


def spelling():
    found, made = collect()
    turned = {}
    for name, kinds in found.items():
        if not WORD.fullmatch(name) or name in made or name not in OWN and name.startswith(("loop-", "returns", "invariant-", "measure-", "Inv-", "\u03bc-")):
            continue
        if name in OWN:
            new = OWN[name]
        elif "type" in kinds:
            if len(kinds) > 1:
                print(f"two kinds: {name} {kinds}")
            new = camel(name)
        else:
            new = snake(name)
        if new != name:
            turned[name] = new
    back = collections.defaultdict(set)
    for name in found:
        back[turned.get(name, name)].add(name)
    for new, olds in sorted(back.items()):
        if len(olds) > 1:
            print(f"fall together: {new}: {sorted(olds)}")
    return found, made, turned


def turn_antt(text, turned, fields):
    out = []
    for line in text.split("\n"):
        comment = ""
        i = line.find("--")
        while i >= 0 and not (i == 0 or line[i - 1] == " ") or (i >= 0 and line[i + 2 : i + 3] not in (" ", "")):
            i = line.find("--", i + 1)
            if i < 0:
                break
        if i >= 0:
            line, comment = line[:i], line[i:]
        if line.lstrip().startswith("use ") and ".{" in line:
            head, tail = line.split(".{", 1)
            line = head + ".{" + WORD.sub(lambda m: turned.get(m.group(0), m.group(0)), tail)
        else:
            line = turn_code(line, turned, fields)
        out.append(line + turn_comment(comment, turned))
    return "\n".join(out)


def turn_code(line, turned, fields):
    def one(m):
        word = m.group(0)
        if word not in turned:
            return word
        before = line[: m.start()]
        if before.endswith("."):
            path = re.search(r"(?:[\w'\u2032-]+\.)+$", before)
            first = path.group(0).split(".")[0] if path else ""
            if first in ("c", "l", "w", "goal", "given") and word not in fields:
                return word
        return turned[word]

    return WORD.sub(one, line)


def turn_comment(comment, turned):
    return re.sub(r"`([^`]+)`", lambda m: "`" + WORD.sub(lambda w: turned.get(w.group(0), w.group(0)), m.group(1)) + "`", comment)


def turn_rt(text, turned, fields):
    """Only ghost lines and clauses, to the brace that ends each."""
    out, depth = [], 0
    for line in text.split("\n"):
        bare = line.lstrip()
        if bare.startswith(("//", "///")):
            out.append(turn_comment(line, turned))
            continue
        if depth == 0 and re.match(r"(pub )?(ghost|requires|ensures|invariant|also_\w+)\b", bare) or depth > 0:
            new = turn_code(line, turned, fields)
            if bare.startswith("ghost use"):
                new = WORD.sub(lambda m: turned.get(m.group(0), m.group(0)), line)
            depth += line.count("{") - line.count("}")
            depth = max(depth, 0)
            out.append(new)
        else:
            out.append(line)
    return "\n".join(out)


def aliases(text):
    """The names that a file gives to what it imports, such as `at as recordAt`."""
    out = {}
    for line in re.findall(r"^(?:ghost )?use .*$", text, re.M):
        for name in re.findall(r" as ([a-z][A-Za-z0-9-]*)", line):
            if snake(name) != name:
                out[name] = snake(name)
    return out


def main():
    dry = "--dry" in sys.argv
    found, made, turned = spelling()
    fields = {n for n, k in found.items() if "field" in k}
    count = 0
    for ending, turn in ((".antt", turn_antt), (".rt", turn_rt)):
        for path in files(ending):
            old = read(path)
            new = turn(old, turned | IN_FILE.get(path, {}) | aliases(old), fields)
            if new != old:
                count += 1
                if not dry:
                    with open(path, "w", encoding="utf-8") as f:
                        f.write(new)
    print(f"{len(turned)} names turned in {count} files")
    if dry:
        for name in sorted(turned):
            print(f"{name} -> {turned[name]}")


if __name__ == "__main__":
    main()
