#!/usr/bin/env python3
"""Spells the repository's own definitions and lemmas as today's Rattle does: python3 tools/spell_names.py [--check]

Words are in snake case, types and modules in camel case. A dash joins two names of definitions, as in `density-swap`, and any
other word is added by an underscore, as in `density_bound`. It ran once, after the kit's script, and rewrites the texts of
specs/ and proofs/, the clauses of src/ and code spans of README.md and docs/ in place; the must-fail edits were brought over by themselves.
Names of src/, of exported calls and those that the files beside a function's proof declare stay. It prints the names that would fall
together in a file: those of a function of src/ and of its definition do, and are told apart by where they stand. With --check nothing is written.
"""

import collections
import os
import re
import sys

TOKEN = re.compile(r"[^\s(){}.;,@\"«»`\[\]]+")
COMMENT = re.compile(r"(?<![^\s(){}.;,@\"«»])(?:--|//)[^\n]*")
DECLARED = re.compile(r"(?m)^ *(?:(?:abbrev|unfoldable|pub|record|data) )*([^\s(){}.;,@\"«»`:]+)(?= (?:\{[^}\n]*\} ?)*(?:\([^\n]*?\) ?)*:(?: |$))")
CAMEL = re.compile(r"(?<=[a-z0-9])(?=[A-Z])")
# Words of the library that a lemma's name may join by a dash.
LIBRARY = set("length take drop get_or set replicate map sum max min append reverse eqb ltb".split())
# Names that stand for one of the library's, in the spelling that the library had.
OLDER = {"getD": "get_or"}
# Theorems that are called by a phrase.
PHRASES = {"column-by-column", "times-add-up"}
PAGES = ("README.md", "docs/DECISIONS.md", "docs/THREE-PIN.md")


def texts(root):
    for folder, dirs, files in os.walk(os.path.join(root, "crates")):
        dirs[:] = sorted(d for d in dirs if d != "out")
        for f in sorted(files):
            if f.endswith((".antt", ".rt")):
                yield os.path.join(folder, f)


def read(path):
    with open(path, encoding="utf-8", newline="") as f:
        return f.read()


def of_a_function(path):
    return os.path.basename(path) in ("Proof.antt", "Answers.antt", "Invariants.antt") and os.path.dirname(path).rsplit("/", 1)[-1] != "proofs"


def snake(part):
    if part in OLDER:
        return OLDER[part]
    if re.match(r"[A-Z]", part):
        return part
    return CAMEL.sub("_", part).lower() if CAMEL.search(part) else part


def spelled(name, names):
    parts = [snake(p) for p in name.split("-")]
    if "" in parts:
        return name
    if name in PHRASES:
        return "_".join(parts)
    for i in range(1, len(parts)):
        left, right = "_".join(parts[:i]), "_".join(parts[i:])
        if left in names and right in names:
            return left + "-" + right
    return "_".join(parts)


def is_turned(name):
    return re.match(r"[A-Za-zα-ω]", name) and not re.match(r"[A-Z][a-z]+-[a-z-]*[A-Z0-9]|Need-|After-|At-|In-|Then-|Else-", name)


def table(root):
    declared, names, within = set(), set(LIBRARY), set()
    for path in texts(root):
        if not path.endswith(".antt"):
            continue
        code = COMMENT.sub("", read(path))
        found = set(DECLARED.findall(code))
        if of_a_function(path):
            within |= found
            continue
        declared |= found
        names |= {snake(it) for it in found if CAMEL.search(it) and "-" not in it}
        if "/specs/" in path:
            names |= {it for it in found if re.search(rf"(?m)^ *{re.escape(it)} (?!:)", code)}
    turned = {}
    for name in declared:
        if not is_turned(name) or not ("-" in name or CAMEL.search(name)):
            continue
        new = spelled(name, names)
        if new != name and not re.match(r"[A-Z]\w*$", name):
            turned[name] = new
    # A lemma that would have its function's name gets `_lem`; a name with underscores already is one of the kit's script.
    groups, lemmas = collections.defaultdict(set), {}
    for old, new in turned.items():
        groups[new].add(old)
    for new, olds in groups.items():
        if new in declared:
            olds = olds | {new}
        if len(olds) > 1:
            functions = [it for it in sorted(olds) if CAMEL.search(it) and "-" not in it] or ([new] if new in olds else [])
            for it in sorted(olds - set(functions[:1])):
                (turned if it in turned else lemmas)[it] = new + "_lem"
    return turned, lemmas, declared


def turn(text, path, turned, lemmas):
    def word(m):
        it = m[0]
        if it in lemmas and path.endswith(".antt") and m.string[max(m.start() - 1, 0)] != ".":
            return lemmas[it]
        if it in turned:
            return turned[it]
        if re.match(r"[a-z][A-Za-z0-9']*$", it) and CAMEL.search(it):
            return snake(it)
        return it

    def code(part):
        return TOKEN.sub(word, part)

    def comment(part):
        part = re.sub(r"`[^`\n]*`", lambda m: code(m[0]), part)
        return re.sub(r"(?<![\w`-])[a-z]+[a-z0-9]*(?:[A-Z][A-Za-z0-9]*)+(?![\w-])", lambda m: turned.get(m[0], m[0]), part)

    if path.endswith(".rt"):
        # Strings and the code itself have no name in camel case or with a dash; a field of a struct is snake case.
        parts, at = [], 0
        for m in re.finditer(r"//[^\n]*|b?\"(?:[^\"\\\n]|\\.)*\"", text):
            parts += [code(text[at : m.start()]), comment(m[0]) if m[0].startswith("//") else m[0]]
            at = m.end()
        return "".join(parts) + code(text[at:])
    if path.endswith(".md"):
        return re.sub(r"(?<!`)`[^`\n]+`(?!`)", lambda m: code(m[0]), text)
    parts, at = [], 0
    for m in COMMENT.finditer(text):
        parts += [code(text[at : m.start()]), comment(m[0])]
        at = m.end()
    return "".join(parts) + code(text[at:])


def main(argv):
    root = os.path.dirname(os.path.dirname(os.path.abspath(__file__)))
    turned, lemmas, declared = table(root)
    together = collections.defaultdict(set)
    for old, new in turned.items():
        together[new].add(old)
    clashes = 0
    for path in texts(root):
        text = read(path)
        tokens = collections.defaultdict(set)
        for it in TOKEN.findall(COMMENT.sub("", text)):
            tokens[turn(it, path, turned, lemmas)].add(it)
        for new, olds in sorted(tokens.items()):
            if len(olds) > 1:
                clashes += 1
                print(f"together in {path}: {', '.join(sorted(olds))} -> {new}")
    for new, olds in sorted(together.items()):
        if len(olds) > 1 or new in declared and new not in lemmas:
            print(f"together: {', '.join(sorted(olds))} -> {new}{' (declared)' if new in declared else ''}")
    if "--check" in argv:
        print(len(turned), "names turned;", clashes, "clashes in files")
        return
    for path in [*texts(root), *(os.path.join(root, it) for it in PAGES)]:
        text = read(path)
        new = turn(text, path, turned, lemmas)
        if new != text:
            with open(path, "w", encoding="utf-8", newline="") as f:
                f.write(new)


if __name__ == "__main__":
    main(sys.argv[1:])
