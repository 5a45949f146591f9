#!/usr/bin/env python3
"""Brings the repository's own definitions and lemmas to the spelling of today's Rattle: words in snake case, a dash only
where it joins two names. Run once, at the top, right after port.py; it writes in place and prints what it renamed.

Constructors and types keep their capitals, and so do `LC` and `J`, which are named after the construction's own sets.
"""
import os
import re
import sys

CHAR = r"[^\s(){}\[\];,.«»\"λ`:]"
NAME = re.compile(CHAR + "+")
SIGNATURE = re.compile(r"^(?:  )?(?:(?:abbrev|unfoldable|pub|data|record|ruleset|mutual)\s+)*((?:" + CHAR + r"+\s+)+):\s")
ALONE = re.compile(r"^(?:(?:abbrev|unfoldable|pub)\s+)*(?:data|record|ruleset)\s+(?:pub\s+)?(" + CHAR + "+)")
# words of std that a lemma's name may hold
STD_WORDS = {"append", "zero", "one", "suc", "cons", "nil", "length", "take", "drop", "replicate", "set", "max", "min", "not", "cond", "map", "reverse", "get_or", "bits"}

# lemmas that port.py gave the name which their definition takes now
TAKEN = {"as_many", "block_size", "by_zero", "columns_of", "end_body", "end_token", "goes_back", "no_line", "to_write"}
# read one by one: the name is there as a field, or in a comment as a function's, and the two do not meet
APART = {"blocksTo", "labelsIn", "fillerOk", "ledTo", "lengthIn", "lengthOk", "pageIn", "readsFirst", "sizeOk"}
# lemmas whose definition has the name already
BESIDE = {"cond-tag": "cond_tag_lem", "op-tag": "op_tag_lem", "word-of": "word_of_lem"}


def files(root, ends):
    for folder, dirs, names in os.walk(root):
        dirs[:] = sorted(d for d in dirs if d != "out")
        for name in sorted(names):
            if name.endswith(ends):
                yield os.path.join(folder, name)


def shared(path):
    """A file of specs/, or a file that lies right in proofs/: others cite its names."""
    parts = path.split(os.sep)
    return parts[-2] in ("specs", "proofs")


def defined(text):
    for line in text.splitlines():
        m = SIGNATURE.match(line)
        if m:
            yield from m.group(1).split()
        m = ALONE.match(line)
        if m:
            yield m.group(1)


def imported(text):
    """The names that a file takes from elsewhere than the repository."""
    for m in re.finditer(r"^use ([^\s{;]+?)(?:\.\{([^}]*)\})?;?$", text, re.M):
        if not m.group(1).startswith("Rattle.") or m.group(1).startswith("Rattle.std."):
            for name in (m.group(2) or "").split(","):
                yield name.split(" as ")[0].strip()


def snake(word):
    if re.match("[A-Z]", word):
        return word
    return re.sub(r"(?<=[a-z0-9])([A-Z])", lambda m: "_" + m.group(1).lower(), word)


def respelled(name, words):
    if re.match(r"[+◌-]", name) or name.endswith("-"):
        return name
    parts = [snake(p) for p in name.split("-")]
    out = parts[0]
    for i in range(1, len(parts)):
        left, right = "_".join(parts[:i]), "_".join(parts[i:])
        joins = left in words and right in words
        out += ("-" if joins else "_") + parts[i]
    return out


def main(root):
    antt = {p: open(p, encoding="utf-8").read() for p in files(os.path.join(root, "crates"), ".antt")}
    own = set()
    for path, text in antt.items():
        if shared(path):
            own.update(defined(text))
    foreign = set()
    for text in antt.values():
        foreign.update(imported(text))
    tokens = {}
    for path, text in antt.items():
        for m in NAME.finditer(text):
            if m.start() == 0 or text[m.start() - 1] != ".":
                tokens.setdefault(m.group(0), os.path.relpath(path, root))
    words = {snake(n) for n in own if "-" not in n} | STD_WORDS
    names = {name: name + "_lem" for name in TAKEN} | BESIDE
    for name in sorted(own - foreign - set(names)):
        new = respelled(name, words)
        if new != name:
            names[name] = new
    back = {}
    for name, new in names.items():
        back.setdefault(new, []).append(name)
    for new, olds in sorted(back.items()):
        if len(olds) == 2 and new not in tokens and sum("-" in old for old in olds) == 1:
            lemma = next(old for old in olds if "-" in old)
            names[lemma] = new + "_lem"
        elif len(olds) > 1 or new in tokens and new not in TAKEN and olds[0] not in APART:
            print(f"look: {', '.join(olds)} would be {new}" + (", which is there already in " + tokens[new] if new in tokens else ""))
            for old in olds:
                names.pop(old)
    for path, text in antt.items():
        local = set() if shared(path) else set(defined(text))

        def turn(m):
            name = m.group(0)
            after_dot = m.start() > 0 and text[m.start() - 1] == "."
            if name not in names or name in local or (after_dot and (name in TAKEN or not shared(path) and "-" in name)):
                return name
            return names[name]
        new = NAME.sub(turn, text)
        if new != text:
            open(path, "w", encoding="utf-8").write(new)
    for path in files(os.path.join(root, "crates"), (".rt", ".edit")):
        text = open(path, encoding="utf-8").read()
        new = NAME.sub(lambda m: m.group(0) if m.group(0) in TAKEN else names.get(m.group(0), m.group(0)), text)
        if new != text:
            open(path, "w", encoding="utf-8").write(new)
    for name, new in sorted(names.items()):
        print(f"{name} {new}")


main(sys.argv[1] if len(sys.argv) > 1 else ".")
