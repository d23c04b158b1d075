#!/usr/bin/env python3
"""Spells the repository's own definitions and lemmas as today's Rattle does: words in snake case. Types and modules stay in camel case.

usage: python3 tools/spell.py          at the top of the repository, once, on what port.py has written

It reads each .antt file and each .rt file below crates/ and rewrites the names that the .antt files declare and that have a dash or a capital
inside. Functions of src/, C names and strings keep their names. A lemma that would fall together with the definition that it is about gets `_lem`.
Proof.antt files, which walk one function, only follow the names that they import; what else they name is Rattle's.
"""
import collections
import os
import re
import sys

TOKEN = re.compile(r"[^\s(){}\[\],;.\"`◌]+")
OWN = re.compile(r"^[a-z][\w'₀-₉-]*$")

# names that would fall together, and names after a word of the library that has another name now
BY_HAND = {
    "stackOf-number": "stack_of_number_short",
    "no_way": "no_way_lem",
    "first_below": "first_below_lem",
    "get_d_tabulate": "get_or_tabulate",
}
BY_HAND_IN = {"coincide": {"after_run": "after_run_lem", "with_all": "with_all_lem"}}


def snake(name):
    name = re.sub(r"\bgetD(?=-)", "get_or", name)
    name = re.sub(r"(?<=[a-z0-9])([A-Z])", lambda m: "_" + m.group(1).lower(), name)
    return name.replace("-", "_")


def files(root):
    for folder, below, names in os.walk(os.path.join(root, "crates")):
        below[:] = sorted(d for d in below if d != "out")
        for name in sorted(names):
            if name.endswith((".antt", ".rt")):
                yield os.path.join(folder, name)


def read(path):
    with open(path, encoding="utf-8") as f:
        return f.read()


def bare(text):
    return re.sub(r"--[^\n]*", "", text)


def imported(text, modules):
    """The names that a file imports from modules that are not this repository's own."""
    found = set()
    for module, names in re.findall(r"use\s+(\S+?)\.\{([^}]*)\}", text):
        if module in modules or any(module.startswith(m + ".") for m in modules):
            continue
        found |= {n.strip() for n in names.split(",")}
    return found


def main():
    root = os.getcwd()
    every = list(files(root))
    shared = [p for p in every if p.endswith(".antt") and not p.endswith("/Proof.antt")]
    modules = {"Rattle." + os.path.relpath(p, root + "/crates")[:-5].replace("/", ".") for p in every if p.endswith(".antt")}
    foreign = set()
    for p in every:
        if p.endswith(".antt"):
            foreign |= imported(read(p), modules)
    seen = {p: set(TOKEN.findall(bare(read(p)))) for p in shared}
    turn = {}
    for tokens in seen.values():
        for t in tokens:
            if OWN.match(t) and t not in foreign and ("-" in t or re.search("[a-z0-9][A-Z]", t)):
                turn[t] = snake(t)
    turn.update(BY_HAND)
    local = {p: BY_HAND_IN.get(os.path.relpath(p, root + "/crates").split("/")[0], {}) for p in every}
    # a lemma that falls together with a definition or with another name of a file
    clash = True
    while clash:
        clash = False
        for p, tokens in seen.items():
            groups = collections.defaultdict(set)
            for t in tokens:
                groups[local[p].get(t, turn.get(t, t))].add(t)
            for target, group in groups.items():
                if len(group) > 1:
                    lemmas = sorted(t for t in group if "-" in t)
                    if len(lemmas) != len(group) - 1:
                        sys.exit(f"spell: {p}: {sorted(group)} fall together as {target}: put one into BY_HAND")
                    for t in lemmas:
                        turn[t] += "_lem"
                    clash = True
    camel = {t: n for t, n in turn.items() if "-" not in t}

    def code(text, names):
        path = re.match(r"\s*(?:pub )?(?:ghost )?use \S+\.(?=\{)", text)
        head = path.group(0) if path else ""
        return head + TOKEN.sub(lambda m: names.get(m.group(0), m.group(0)), text[len(head):])

    def comment(text):
        """In prose only a name with a capital inside, or one between backticks, is surely a name."""
        text = re.sub(r"`([^`\n]*)`", lambda m: "`" + code(m.group(1), turn) + "`", text)
        return code(text, {t: n for t, n in camel.items() if re.search("[a-z0-9][A-Z]", t)})

    def whole(text, names, mark):
        out = []
        for line in text.splitlines(keepends=True):
            at = line.find(mark)
            out.append(code(line, names) if at < 0 else code(line[:at], names) + comment(line[at:]))
        return "".join(out)

    changed = 0
    for p in every:
        old = read(p)
        here = turn | local[p]
        if p.endswith("/Proof.antt"):
            own = set()
            for module, names in re.findall(r"use\s+(\S+?)\.\{([^}]*)\}", old):
                if module in modules or any(module.startswith(m + ".") for m in modules):
                    own |= {n.strip() for n in names.split(",")}
            fields = set(re.findall(r"\.([a-z][\w'-]*)", old)) | set(re.findall(r"([a-z][\w'-]*) =", old))
            fields = {t for t in fields if not here.get(t, t).endswith("_lem")}
            names = {t: n for t, n in here.items() if t in own or t in fields or "-" not in t}
            new = whole(old, names, "--")
        elif p.endswith(".antt"):
            new = whole(old, here, "--")
        else:
            new = whole(old, {t: n for t, n in camel.items() if re.search("[a-z0-9][A-Z]", t)}, "//")
        if new != old:
            changed += 1
            with open(p, "w", encoding="utf-8") as f:
                f.write(new)
    print(f"spell: {len(turn)} names, {changed} files")
    for t in sorted(turn):
        if turn[t] != snake(t):
            print(f"spell: {t} is {turn[t]}")


main()
