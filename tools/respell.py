#!/usr/bin/env python3
"""Spells the repository's own definitions and lemmas as today's Rattle spells names: words in snake case, a dash only
between two names that are definitions themselves, types and modules in camel case.

usage: tools/respell.py [--check] [REPOSITORY]

It rewrites crates/*/{specs,proofs,src,must-fail} and the pages of docs/ and README.md. With --check it only prints the
table of names and what falls together. Run it once, after port.py: it does not know the names of goals that proofs answer.
"""

import glob
import os
import re
import sys

WORD = r"[^\s(){}:;,.@\"λ«»\[\]\\`|]+"
TOKEN = re.compile(r"(?<![^\s(){}:;,.@\"λ«»\[\]\\`|])" + WORD)
DECLARED = re.compile(r"^[ ]*(?:abbrev |unfoldable )?(?:pub )?(?:abbrev |unfoldable )?(%s(?: %s)*) :(?= |$)" % (WORD, WORD), re.M)
# Words of the library that lemmas name besides the repository's own definitions.
LIBRARY = set(
    "append length take drop map get_or set cond le_z lt_z leb ltb eqb nat_abs pos replicate neg_ℤ bit_and bit_or".split()
)
KEEP = {"invariant-loop", "decreases-loop"}
OPERATOR = re.compile(r"[^\w]")


def humps(word):
    word = {"getD": "get_or", "leZ": "le_z", "ltZ": "lt_z"}.get(word, word)
    word = re.sub(r"(?<=[a-z0-9])(?=[A-Z])", "_", word)
    return word.lower() if not word[:1].isupper() else word


def is_camel(word):
    return word[:1].islower() and re.search(r"[a-z0-9][A-Z]", word)


def antt(root):
    return sorted(glob.glob(f"{root}/crates/*/specs/**/*.antt", recursive=True) + glob.glob(f"{root}/crates/*/proofs/**/*.antt", recursive=True))


def code_of(text):
    """Yields the parts of an antt text outside comments and inside, with a flag for code."""
    for line in text.splitlines(keepends=True):
        at = line.find("--")
        while at > 0 and line[at - 1] not in " (":
            at = line.find("--", at + 1)
        if at < 0:
            yield line, True
        else:
            yield line[:at], True
            yield line[at:], False


def read(path):
    with open(path, encoding="utf-8") as f:
        return f.read()


def imported(text):
    """The names that a file takes from libraries that are not the repository's own."""
    out = set()
    for m in re.finditer(r"^use (\S+?)\.\{([^}]*)\}", text, re.M):
        if not m.group(1).startswith("Rattle.") or m.group(1).startswith("Rattle.std."):
            out |= {it.strip() for it in m.group(2).split(",")}
    return out


def names_of(root):
    """The new spelling of each name that needs one."""
    declared, definitions, library = set(), set(), set()
    for path in antt(root):
        text = read(path)
        library |= imported(text)
        of_specs = "/specs/" in path
        for m in DECLARED.finditer("".join(part for part, is_code in code_of(text) if is_code)):
            for name in m.group(1).split():
                declared.add(name)
                if of_specs and "-" not in name:
                    definitions.add(humps(name))
    # Names that a file binds: they are respelled like the rest.
    for path in antt(root):
        text = read(path)
        for part, is_code in code_of(text):
            if is_code:
                for m in re.finditer(r"\blet ([^=:]+)[=:]|λ([^.]*)\.|\(([^():]+) : |[{(]([^():{}]+) : ", part):
                    declared |= set(TOKEN.findall(" ".join(it for it in m.groups() if it)))
                m = re.match(r"([^=:]+) =( |$)", part)
                if m:
                    declared |= set(TOKEN.findall(m.group(1)))
    known = definitions | LIBRARY
    out = {}
    for name in sorted(declared - library - KEEP):
        if name.startswith("◌") or name in ("-", "→", "≡"):
            continue
        new = spelled(name, known)
        if new != name:
            out[name] = new
    return out, definitions, library


def spelled(name, known):
    if "-" not in name:
        return humps(name) if is_camel(name) else name
    if name.endswith("-spec"):
        return name.replace("-", "_")
    parts = [humps(it) for it in re.split("[-_]", name)]
    if "" in parts:
        return name
    chunks, at = [], 0
    while at < len(parts):
        for end in range(len(parts), at, -1):
            word = "_".join(parts[at:end])
            if word in known or OPERATOR.search(word):
                break
        if not (word in known or OPERATOR.search(word)):
            end, word = at + 1, parts[at]
        chunks.append((word, word in known or bool(OPERATOR.search(word)) or word[:1].isupper()))
        at = end
    out = chunks[0][0]
    for (_, left), (word, right) in zip(chunks, chunks[1:]):
        out += ("-" if left and right else "_") + word
    return out


def main(argv):
    check = "--check" in argv
    argv = [it for it in argv if it != "--check"]
    root = argv[0] if argv else "."
    table, definitions, library = names_of(root)
    seen = {}
    for old, new in table.items():
        seen.setdefault(new, []).append(old)
    # A lemma that would have its definition's name; a step of a proof that has it is the function's name, and keeps it.
    together = {}
    for new, olds in seen.items():
        for old in olds:
            if "-" in old and (len(olds) > 1 or new in definitions):
                table[old], together[old] = new + "_lem", new
                print(f"look: {old} would fall together with a definition, and becomes {new}_lem")
    camel = {old: new for old, new in table.items() if is_camel(old)}

    def turned(text, names):
        def one(m):
            if m.group(0) in together and m.group(0) in names and text[: m.start()].endswith("."):
                return together[m.group(0)]
            return names.get(m.group(0), m.group(0))

        return TOKEN.sub(one, text)

    for path in antt(root):
        text = read(path)
        words = {m.group(0) for m in TOKEN.finditer(text)}
        mine = {old: new for old, new in table.items() if old in words and old not in imported(text)}
        for old, new in mine.items():
            if new in words and new not in table and "/proofs/" not in path:
                print(f"look: {path}: {old} becomes {new}, which stands there already")
        new = "".join(turned(part, mine) for part, _ in code_of(text))
        # What Rattle makes keeps its spelling: names below `tie`.
        new = new if new == text else restore(text, new)
        if new != text and not check:
            with open(path, "w", encoding="utf-8") as f:
                f.write(new)
    others = glob.glob(f"{root}/crates/*/src/**/*.rt", recursive=True) + glob.glob(f"{root}/crates/*/must-fail/*.edit")
    pages = [f"{root}/README.md"] + glob.glob(f"{root}/docs/*.md")
    for path in sorted(others + pages):
        text = read(path)
        names = camel
        if path in pages:
            new = re.sub(r"`[^`\n]*`", lambda m: turned(m.group(0), {k: v for k, v in table.items() if k in m.group(0)}), text)
        elif path.endswith(".edit"):
            new = turned(text, table if "/specs/" in text or "specs/" in text else camel)
        else:
            new = turned(text, camel)
        if new != text and not check:
            with open(path, "w", encoding="utf-8") as f:
                f.write(new)
    if check:
        for old, new in table.items():
            print(f"{old}\t{new}")
    return 0


def restore(text, new):
    """`tie.X`: X is Rattle's, and stays as it stood."""
    olds = re.findall(r"\btie\.%s" % WORD, text)
    it = iter(olds)
    return re.sub(r"\btie\.%s" % WORD, lambda m: next(it), new)


if __name__ == "__main__":
    raise SystemExit(main(sys.argv[1:]))
