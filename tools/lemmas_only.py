#!/usr/bin/env python3
"""Copies the crates of this repository without their functions: types, definitions and lemmas alone.

    tools/lemmas_only.py FOLDER [CRATE..]

In such a copy all crates up to a law check in a few minutes from nothing, and one law in seconds, since nothing has to be
proved of code: so definitions can be tried, and lemmas written, before the chain below them is proved. It proves nothing
of the repository itself. Without CRATE all crates that have definitions are copied, but for those of tests; what a copy
has of these crates is replaced, and its out/ stays.
"""
import os
import re
import shutil
import sys

KEPT_DERIVES = {"Clone", "Copy", "Drop"}
ITEM = r"(?:pub(?:\(.*?\))? )?"


def items(text):
    """The items of a formatted file, each with the comments and attributes above it."""
    lines = text.split("\n")
    at = 0
    while at < len(lines):
        if not lines[at].strip():
            at += 1
            continue
        start = at
        while at < len(lines) and lines[at].startswith(("//", "#", ")]")):
            if lines[at].startswith("#[") and not lines[at].rstrip().endswith("]"):
                while not lines[at].startswith(")]"):
                    at += 1
            at += 1
        if at >= len(lines) or not lines[at].strip():
            yield "", lines[start:at]
            continue
        head = lines[at]
        if head.startswith(("use ", "ghost use ", "pub use ", "pub(crate) use ")):
            while not lines[at].rstrip().endswith(";"):
                at += 1
        elif not head.rstrip().endswith((";", "{}")):
            at += 1
            while not (lines[at] and lines[at][0] in "{})];" and lines[at].rstrip().endswith(("}", ";"))):
                at += 1
        at += 1
        yield head, lines[start:at]


def type_lines(lines):
    """A type without derives that need proofs, and without attributes of macros."""
    for line in lines:
        derive = re.match(r"#\[derive\((.*)\)\]", line)
        if derive:
            kept = [word.strip() for word in derive.group(1).split(",") if word.strip() in KEPT_DERIVES]
            if kept:
                yield "#[derive(%s)]" % ", ".join(kept)
        elif not re.match(r"\s*#\[(error|default|from|source|tactic)|#\[", line):
            yield line


def kept_use(text, own, names):
    """An import without the functions and traits that are gone."""
    body = " ".join(text.strip().rstrip(";").split())
    front, path = body.split("use ", 1)
    group = re.match(r"(.*)::\{(.*)\}$", path)
    if path.split("::")[0] not in own:
        return text
    if group:
        kept = [n.strip() for n in group.group(2).split(",") if n.split(" as ")[0].split("::")[-1].strip() in names]
        return "%suse %s::{%s};" % (front, group.group(1), ", ".join(kept)) if kept else None
    return text if path.split(" as ")[0].split("::")[-1] in names else None


def stands_on(head, traits):
    """Whether a type is bound by one of these traits."""
    bounds = re.search(r"<(.*)>", head)
    return bool(bounds) and bool(traits & set(re.findall(r"[:+] (\w+)", bounds.group(1))))


def ghosts(head, lines):
    """A trait, or an impl of one, without its functions and comments."""
    return [head] + [line for line in lines if line.startswith("    ghost ")] + ["}"]


def ghost_trait(head, lines):
    """The name of a trait of functions and one ghost member of one line, on which types can stand in a copy too; else None."""
    members = [line for line in lines if line.startswith("    ghost ")]
    name = re.match(ITEM + r"trait (\w+) \{$", head)
    return name.group(1) if name and len(members) == 1 and members[0].endswith(";") else None


def stood_on(text):
    """The traits that bound a struct of a file, where it has one parameter."""
    return set(re.findall(r"^%sstruct \w+<\w+: (\w+)> \{" % ITEM, text, re.M))


def stripped(text, own, names, traits):
    out = []
    for head, lines in items(text):
        top = [line for line in lines if line.startswith(("//!", "#!["))]
        rest = [line for line in lines if line not in top]
        out += top
        if not head or stands_on(head, traits) or any("cfg(test)" in line or line.startswith("#[test]") for line in lines):
            continue
        if head.startswith("ghost use "):
            out += rest
        elif re.match(ITEM + r"use ", head):
            use = kept_use("\n".join(line for line in rest if not line.startswith(("//", "#"))), own, names)
            out += [use] if use else []
        elif ghost_trait(head, rest) in names or re.match(r"impl \w+ for \w+ \{$", head) and head.split()[1] in names:
            out += [""] + ghosts(head, rest)
        elif re.match(r"impl.*\bDrop for\b", head):
            out += [""] + rest
        elif re.match(r"impl.*\bModel for\b", head) or re.match(ITEM + r"(struct|enum|mod|type|static|const(?! fn))\b", head):
            out += [""] + list(type_lines(rest))
    return "\n".join(out) + "\n"


def is_whole(line, crates):
    """Whether a crate is copied with its functions: one that waits and stands on no other crate here. Its types stand on a trait."""
    head, _, below = line.partition(":")
    return " " in head and not set(below.split()) & set(crates)


def read(path):
    with open(path, encoding="utf-8") as file:
        return file.read()


def write(path, text):
    os.makedirs(os.path.dirname(path), exist_ok=True)
    with open(path, "w", encoding="utf-8") as file:
        file.write(text)


def files_below(folder):
    for root, _, names in os.walk(folder):
        for name in sorted(names):
            yield os.path.join(root, name)


def main():
    top = os.path.dirname(os.path.dirname(os.path.abspath(__file__)))
    goal, chosen = sys.argv[1], set(sys.argv[2:])
    crates = [c for c in sorted(os.listdir(os.path.join(top, "crates"))) if os.path.isdir(os.path.join(top, "crates", c, "specs"))]
    crates = [c for c in crates if not c.startswith("test")]
    sources = {c: [f for f in files_below(os.path.join(top, "crates", c, "src")) if f.endswith(".rt")] for c in crates}
    names, traits = set(), set()
    for files in sources.values():
        for file in files:
            traits |= set(re.findall(r"^%strait (\w+)" % ITEM, read(file), re.M))
            names |= set(re.findall(r"^%s(?:struct|enum|type|const|static) (\w+)" % ITEM, read(file), re.M))
    texts = [read(file) for files in sources.values() for file in files]
    kept = {ghost_trait(*item) for text in texts for item in items(text)} & set().union(*map(stood_on, texts))
    names |= kept
    traits -= kept
    lines = read(os.path.join(top, "crates.txt")).split("\n")
    write(os.path.join(goal, "crates.txt"), "\n".join(l for l in lines if re.split("[ :]", l)[0] in crates) + "\n")
    whole = {re.split("[ :]", l)[0] for l in lines if is_whole(l, crates)}
    shutil.copy(os.path.join(top, "HANDLES"), goal)
    for crate in crates:
        if chosen and crate not in chosen:
            continue
        here, there = os.path.join(top, "crates", crate), os.path.join(goal, "crates", crate)
        for part in ("src", "specs", "proofs"):
            shutil.rmtree(os.path.join(there, part), ignore_errors=True)
        if crate in whole:
            for part in os.listdir(here):
                if part in ("src", "specs", "proofs"):
                    shutil.copytree(os.path.join(here, part), os.path.join(there, part))
            continue
        modules = {os.path.splitext(os.path.relpath(f, os.path.join(here, "src")))[0].split(os.sep)[0] for f in sources[crate]}
        for file in sources[crate]:
            if "tests" not in os.path.basename(file):
                write(os.path.join(there, os.path.relpath(file, here)), stripped(read(file), set(crates) | modules | {"crate", "self", "super"}, names, traits))
        shutil.copytree(os.path.join(here, "specs"), os.path.join(there, "specs"))
        if os.path.isdir(os.path.join(here, "proofs")):
            for name in os.listdir(os.path.join(here, "proofs")):
                if name.endswith(".antt"):
                    write(os.path.join(there, "proofs", name), read(os.path.join(here, "proofs", name)))


if __name__ == "__main__":
    main()
