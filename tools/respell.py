#!/usr/bin/env python3
"""Spells the definitions and lemmas of crates/ as Rattle's own are: words and lemmas in snake case, types in camel case.

usage: tools/respell.py [--check] FOLDER

It was run once, when the repository was brought to the Rattle that it is proved with; docs/PORT.md says what it did.
FOLDER is the top of a checkout. It reads what the .antt files of its crates declare and writes those names anew in
the crates' .antt and .rt files and must-fail edits, in the edits of tools/, and in the pages of docs/ and README.md
(there between backticks alone). A lemma whose name would meet that of a definition ends in _lem. The names of XCP's
commands, as GET_STATUS, keep their capitals. --check writes nothing and prints the table. A second run changes nothing.
"""

import collections
import glob
import os
import re
import sys

NAME = re.compile(r"[^\s(){}\[\].;,@\"«»`:]+")
DECLARED = re.compile(
    r"^( *)((?:(?:pub|abbrev|unfoldable|opaque|data|record)\s+)*)([^\s(){}:.]+(?: [^\s(){}:.]+)*)"
    r"((?: \{[^{}]*\}| \([^()]*(?:\([^()]*\)[^()]*)*\))*) : (.*)$"
)
LET = re.compile(r"(?:^|\s)(?:let|λ|in|then|else|where|use)(?:\s|$)")
WALKS = ("/Proof.antt", "/Answers.antt", "/Invariants.antt")
ALIAS = re.compile(r"(?m)^use \S+ as ([a-z]\S*)$")


def snake(name):
    name = re.sub(r"(?<=[a-z0-9])[A-Z]+", lambda m: "_" + m[0].lower(), name)
    return name.replace("-", "_")


def antt(top):
    return sorted(p for part in ("specs", "proofs") for p in glob.glob(f"{top}/crates/*/{part}/**/*.antt", recursive=True))


def declared(top):
    """Each declared name, with the files that declare it and whether a specs/ file does, or an abbrev, data or record."""
    found = collections.defaultdict(lambda: [set(), False])
    for path in antt(top):
        with open(path, encoding="utf-8") as f:
            text = f.read()
        for line in text.splitlines():
            m = DECLARED.match(line)
            if not m or line.lstrip().startswith("--") or LET.search(m[3]):
                continue
            # A function's own proof has the names of its goals, which are the prover's.
            if path.endswith(WALKS) and re.search(r"\b(?:tie|goal)\.|statement", m[5]):
                continue
            for name in m[3].split():
                found[name][0].add(path)
                lemma = "/proofs/" in path and not re.search(r"abbrev|data|record|unfoldable", m[2])
                found[name][1] |= not lemma
    return found


def table(found):
    """The new name of each that gets one."""
    wanted = collections.defaultdict(list)
    for name, (_, is_word) in found.items():
        if name[:1].isupper():
            if "-" not in name:
                continue
            if name.replace("-", "").isupper():
                new = name.replace("-", "_")
            else:
                new = "".join(it[:1].upper() + it[1:] for it in name.split("-"))
        else:
            new = snake(name)
        wanted[new].append(name)
    new_of = {}
    for new, olds in wanted.items():
        # The definition has the plain name; among lemmas the one that has it already.
        olds.sort(key=lambda it: (not found[it][1], it != new, it))
        for k, old in enumerate(olds):
            spelled = new + "_lem" * k
            if spelled != old:
                new_of[old] = spelled
    return new_of


def imports(text):
    names = set()
    for path, items in re.findall(r"(?m)\buse (Rattle\.[^\s{;]+)\.\{([^{}]*)\}", text):
        for it in items.split(","):
            names.add(it.split(" as ")[0].strip())
    return names


def main(argv):
    check = "--check" in argv
    argv = [a for a in argv if a != "--check"]
    if len(argv) != 1 or not os.path.isdir(os.path.join(argv[0], "crates")):
        print(__doc__, file=sys.stderr)
        return 2
    top = argv[0]
    found = declared(top)
    new_of = table(found)
    # A name in plain snake case already may be one of the source too: it changes only where it is declared or imported.
    plain = {old for old in new_of if re.fullmatch(r"[a-z0-9_]+", old)}
    if check:
        for old, new in sorted(new_of.items()):
            print(old, new, "plain" if old in plain else "", sep="\t")
        return 0

    def spelled(text, scoped, walk=False):
        def of(m):
            old = m[0]
            behind_dot = text[m.start() - 1 : m.start()] == "."
            # In a walk a name with dashes behind a dot is a step of the code.
            if walk and behind_dot and "-" in old:
                return old
            if old in plain and (old not in scoped or behind_dot):
                return old
            return new_of.get(old, old)

        return NAME.sub(of, text)

    changed = 0
    edits = glob.glob(f"{top}/crates/*/must-fail/*") + [p for d in ("wrong",) for p in glob.glob(f"{top}/tools/{d}/**/*", recursive=True)]
    pages = glob.glob(f"{top}/README.md") + glob.glob(f"{top}/docs/**/*.md", recursive=True)
    code = glob.glob(f"{top}/crates/*/src/**/*.rt", recursive=True)
    for path in antt(top) + sorted(code) + sorted(p for p in edits if os.path.isfile(p)) + sorted(pages):
        with open(path, encoding="utf-8") as f:
            before = text = f.read()
        if path.endswith(".antt"):
            # What a module is called in one file; where a word there has that name, the module is what one reads there.
            words = set(NAME.findall(text))
            for alias in ALIAS.findall(text):
                plainly = snake(alias)
                if plainly != alias:
                    plainly += "_reads" * (plainly in words | {new_of.get(it, it) for it in words})
                    text = re.sub(rf"(?<![^\s(){{}},;.]){re.escape(alias)}(?![^\s(){{}},;.])", plainly, text)
            scoped = imports(text) | {n for n, (files, _) in found.items() if path in files}
            new = spelled(text, scoped, path.endswith(WALKS))
        elif path.endswith(".md"):
            new = re.sub(r"`[^`\n]+`", lambda m: spelled(m[0], set()), text)
        else:
            new = spelled(text, set())
        if new != before:
            changed += 1
            with open(path, "w", encoding="utf-8") as f:
                f.write(new)
    print(f"respell: {len(new_of)} names, {changed} files")
    return 0


if __name__ == "__main__":
    raise SystemExit(main(sys.argv[1:]))
