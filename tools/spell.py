#!/usr/bin/env python3
"""Spells the repository's own definitions, lemmas, fields and labels in snake case: `eqAt` becomes `eq_at`, `moved-own` `moved_own`.

usage: tools/spell.py [--check] [FOLDER]     run once, after port.py, at the top of the repository, or with FOLDER at the top of another copy

Types, modules, Rust items and the names that Rattle makes for a function's proof stay. What a file imports from a library stays in it.
A lemma that would have a definition's name gets `_lem`. It says which other names would fall together, and turns none of those. --check
writes nothing.
"""

import collections
import os
import re
import sys

WORD = r'[^\s(){}\[\].;,@"«»|`]+'
DECLARED = re.compile(rf"(?m)^ *(?:(?:abbrev|unfoldable|pub|instance) +)*({WORD})(?: \{{[^{{}}\n]*\}})* :(?= |$)")
USE = re.compile(rf"\buse ({WORD}(?:\.{WORD})*)\.\{{([^}}]*)\}}", re.S)
GHOST_USE = re.compile(r"\bghost use [^;]*\{([^}]*)\}", re.S)
# A lemma that port.py spelled as a definition beside it would be.
IN_A_FILE = {"crates/weigh/proofs/Moved.antt": {"last_row": "last_row_lem"}}
COMMENT = re.compile(r"--[^\n]*")
QUIET = re.compile(r'//[^\n]*|"(?:\\.|[^"\\\n])*"')
PROOF = re.compile(r"/proofs/.*/(Proof|Answers|Invariants)\.antt$")


def texts(root):
    for folder, folders, files in os.walk(os.path.join(root, "crates")):
        folders[:] = sorted(f for f in folders if f != "out")
        for name in sorted(files):
            if name.endswith((".antt", ".rt")):
                yield os.path.join(folder, name)


def read(path):
    with open(path, encoding="utf-8") as f:
        return f.read()


def snake(name):
    if not re.match(r"[a-z0-9\u03b1-\u03c9]", name) or "◌" in name or "→" in name:
        return name
    name = re.sub(r"(?<=[a-z0-9\u2080-\u2089])[A-Z]", lambda m: "_" + m[0].lower(), name)
    return name.replace("-", "_")


def crates_of(root):
    return set(os.listdir(os.path.join(root, "crates")))


def imported(text, own):
    """The names that a file imports from a library."""
    names = set()
    for path, items in USE.findall(text):
        steps = path.split(".")
        if steps[0] == "Rattle" and len(steps) > 1 and steps[1] in own:
            continue
        for item in items.split(","):
            names.add(item.strip().split(" as ")[-1].strip())
    return names


def table(root):
    """old -> new, and the names that stay since two would fall together."""
    own, declared, words = crates_of(root), set(), {}
    for path in texts(root):
        text = read(path)
        code = COMMENT.sub("", text) if path.endswith(".antt") else QUIET.sub("", text)
        if path.endswith(".antt"):
            code = re.sub(r"\buse Rattle\.[^\s{]*", "", code)
            words[path] = set(re.findall(rf"(?<![.\w-]){WORD}", code))
        else:
            words[path] = {n.strip() for items in GHOST_USE.findall(code) for n in items.split(",")}
        if path.endswith(".antt") and not PROOF.search(path):
            declared |= set(DECLARED.findall(code))
    new = {n: snake(n) for n in declared if snake(n) != n}
    together = set()
    by_new = collections.defaultdict(set)
    for old, to in new.items():
        by_new[to].add(old)
    for path, found in words.items():
        for to, olds in by_new.items():
            here = (olds | {to}) & found
            lemmas = {n for n in here if "-" in n}
            if len(here) > 1 and len(here - lemmas) == 1 and len(lemmas) == 1:
                new[lemmas.pop()] = to + "_lem"
            elif len(here) > 1:
                together.add((to, os.path.relpath(path, root), tuple(sorted(here))))
    return new, together, own


def turned(text, new, stay, kind, own=()):
    word = re.compile(rf"(?<![^\s(){{}}\[\].;,@\"«»|`])({WORD})")

    def code(part):
        def name(m):
            old = m[1]
            if old not in new:
                return old
            before = part[: m.start()]
            after = part[m.end() :]
            field = before.endswith(".") or (re.match(r" = ", after) and re.search(r"(\{|;|,)\s*$", before))
            return old if old in stay and not field else new[old]

        return word.sub(name, part)

    def quiet(part):
        return re.sub(r"`[^`\n]+`", lambda m: code(m[0]), part)

    def still(words):
        """A text in quotes, or what is imported from a library."""
        path = USE.match(words)
        return words.startswith('"') or path and not (path[1].startswith("Rattle.") and path[1].split(".")[1] in own)

    out, at = [], 0
    for m in re.finditer(rf"{(COMMENT if kind == 'antt' else QUIET).pattern}|{USE.pattern}", text, re.S):
        out += [code(text[at : m.start()]), m[0] if still(m[0]) else code(m[0]) if m[0].startswith("use ") else quiet(m[0])]
        at = m.end()
    return "".join(out) + code(text[at:])


def main(words):
    check = "--check" in words
    words = [w for w in words if w != "--check"]
    root = os.path.abspath(words[0] if words else ".")
    for path, names in IN_A_FILE.items():
        path = os.path.join(root, path)
        text = turned(read(path), names, set(), "antt")
        if not check:
            with open(path, "w", encoding="utf-8") as f:
                f.write(text)
    new, together, own = table(root)
    kept = {old for _, _, olds in together for old in olds}
    for to, path, olds in sorted(together):
        print(f"together: {to} in {path}: {', '.join(olds)}")
    new = {old: to for old, to in new.items() if old not in kept}
    for path in texts(root):
        text = read(path)
        stay = imported(text, own)
        to = turned(text, new, stay, path.rsplit(".", 1)[1], own)
        for old in sorted(stay & set(new)):
            print(f"library: {old} stays in {os.path.relpath(path, root)}")
        if to != text and not check:
            with open(path, "w", encoding="utf-8") as f:
                f.write(to)
    print(f"{len(new)} names, {len(kept)} stay")


if __name__ == "__main__":
    main(sys.argv[1:])
