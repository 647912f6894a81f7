#!/usr/bin/env python3
"""Gives the proofs of a crate the names that today's Rattle makes: of goals (`tie.Need-..`), of places (`tie.After-..`)
and of the steps that lead to them (fields of a context).

usage: tools/goal_names.py CRATE..      at the top of the repository; the crates below have to be proved

The old name and the new one of each are what `rt check --generated DIR --old-names` lists. Run it once for a crate.
"""

import glob
import json
import os
import re
import subprocess
import sys
import tempfile

WORD = r"[^\s(){}:;,.@\"λ«»\[\]\\`|]+"


FIELDS = {"args", "ranges", "new", "old", "now", "initial", "fn", "auto", "result"}


def plain(word):
    return word.replace("_", "-").replace("overflow-", "").replace("nonzero-", "")


def listed(crate):
    with tempfile.TemporaryDirectory() as to:
        said = subprocess.run(["rt", "check", "--generated", to, "--old-names"], cwd=f"crates/{crate}", capture_output=True, text=True)
        path = os.path.join(to, "names.json")
        if not os.path.exists(path):
            sys.exit(f"{crate}: no list of names: " + (said.stdout + said.stderr)[-1500:])
        with open(path, encoding="utf-8") as f:
            return json.load(f)


def turned(text, of, path):
    needs = {plain(old): new for old, new in of["needs"]}
    places = {plain(row[0]): new for row, new in zip(of["places"], of["places_by_name"])}
    steps = {}
    for row in of["places"]:
        old, new = row[2]
        if old:
            if steps.get(plain(old), new) != new:
                print(f"look: {path}: step {old} is {steps[plain(old)]} and {new}")
            steps.setdefault(plain(old), new)

    def named(m):
        word = m.group(1)
        if word.startswith("Need-"):
            new = needs.get(plain(word[5:]))
            return f"tie.Need-{new}" if new else m.group(0)
        new = places.get(plain(word))
        if new:
            return f"tie.{new}"
        for kind in ("invariant-", "decreases-", "Live-"):
            if plain(word).startswith(kind.lower()):
                new = steps.get(plain(word[len(kind):]))
                return f"tie.{kind}{new}" if new else m.group(0)
        return m.group(0)

    text = re.sub(r"\btie\.(%s)" % WORD, named, text)

    # A field of the arguments, or of what a call left in one, has the name of a local and is no step.
    locals_of = {it for _, them in of["loops"] for it in them} | {it for them in of["params"].values() for it in them}

    def stepped(m):
        if text[text.rfind("\n", 0, m.start()) + 1 :].startswith("use "):
            return m.group(0)
        under = re.search(r"\.(%s)$" % WORD, text[: m.start()])
        word = m.group(1)
        if under and (under.group(1) in FIELDS or under.group(1).startswith("loop")):
            return m.group(0)
        if word in locals_of and not re.match(r"\.(given|ok|is)\b", text[m.end() :]):
            return m.group(0)
        return "." + steps.get(plain(word), word)

    text = re.sub(r"(?<=[\w'\)])\.(%s)" % WORD, stepped, text)
    # What a call left in its `&mut` arguments goes by their names.
    for row in of["places"]:
        if row[3] and row[3] in MUTABLE:
            for k, name in enumerate(MUTABLE[row[3]]):
                text = re.sub(r"(\.%s\.(?:new|auto))\.%d(?!\d)" % (re.escape(row[2][1]), k), r"\1." + name, text)
    text = text.replace(".type-inv", ".type_inv").replace(".well-formed", ".well_formed").replace(".Runs-Fit", ".runs_fit")
    return re.sub(r"\.pre\b", ".requires", text)


# The `&mut` parameters of each function.
MUTABLE = {}


def read_sources():
    for path in glob.glob("crates/*/src/**/*.rt", recursive=True):
        crate, file = path.split("/")[1], os.path.basename(path)[:-3]
        with open(path, encoding="utf-8") as f:
            text = f.read()
        inside = None
        for m in re.finditer(r"^impl (\w+)|^ *(?:pub(?:\([a-z]+\))? )?fn (\w+)(?:<[^>]*>)?\(([^{]*?)\)(?: ->|\n| \{)", text, re.M):
            if m.group(1):
                inside = m.group(1)
                continue
            place = [crate] + ([file] if file not in ("lib", "main") else [])
            place += [inside] if m.group(0).startswith("    ") and inside else []
            names = re.findall(r"(\w+): &(?:'\w+ )?mut\b", m.group(3))
            MUTABLE["::".join(place + [m.group(2)])] = names


def main(crates):
    read_sources()
    for crate in crates:
        for module, of in listed(crate).items():
            if ".Lts" not in module:
                continue
            function = module.split(".", 1)[1].rsplit(".Lts", 1)[0]
            path = f"crates/{crate}/proofs/{function.replace('.', '/')}/Proof.antt"
            if not os.path.exists(path):
                continue
            with open(path, encoding="utf-8") as f:
                text = f.read()
            new = turned(text, of, path)
            if new != text:
                with open(path, "w", encoding="utf-8") as f:
                    f.write(new)
                print(path)


if __name__ == "__main__":
    main(sys.argv[1:])
