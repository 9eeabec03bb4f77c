#!/usr/bin/env python3
"""Respells the repository's own definitions, lemmas, fields and constructors: words in snake case, facts in upper camel case.

usage: tools/respell.py            at the top: rewrites crates/, must-fail edits and the names in docs' backticks
       tools/respell.py --list     prints the pairs and what falls together, and writes nothing

A name that a library or a generated goal has too keeps its spelling. A lemma that would get a definition's name ends in _lem.
"""

import collections
import glob
import os
import re
import sys

# A lemma that fell together with a definition when words became snake case.
OF_CRATE = {"crates/ports/": {"none_left": "none_left_lem"}}
TOKEN = re.compile(r"[^\s(){}\[\],;.:|\"`λ⌜⌝⟦⟧«»=→&*!<>#/\\]+")
SIGNATURE = re.compile(r"^((?:(?:unfoldable|abbrev|opaque|private|pub)\s+)*)([^\s:(){}λ.]+)\s*:\s(.*)$")
MEMBER = re.compile(r"^\s+(?:pub\s+)?([^\s:(){}λ.]+)\s*:\s")
GENERATED = re.compile(
    r"^(returns|invariant|decreases|index|overflow|bounds|slice_bounds|enum-known|same-length|mul|add|sub|loop\d*|μ|slice-write|prove|cast)(-|$)"
)
PROJECTED = re.compile(r"\.([^\s(){}\[\],;.:|\"λ]+)")


def read(path):
    with open(path, encoding="utf-8") as it:
        return it.read()


def antt(part):
    return sorted(glob.glob(f"crates/*/{part}/**/*.antt", recursive=True))


def imported_elsewhere():
    """Names that some file takes from a library."""
    own = {os.path.basename(c) for c in glob.glob("crates/*")}
    names = set()
    for path in antt("specs") + antt("proofs") + sorted(glob.glob("crates/*/src/*.rt")):
        for line in read(path).splitlines():
            m = re.match(r"^(?:ghost )?use ([\w.·]+)\.\{([^}]*)\}", line)
            if not m:
                continue
            head = m.group(1).split(".")
            if head[0] == "Rattle" and len(head) > 1 and head[1] in own:
                continue
            for word in m.group(2).split(","):
                names.update(word.strip().split(" as "))
    return names


def snake(name):
    name = re.sub(r"([a-z0-9])([A-Z])", lambda m: m.group(1) + "_" + m.group(2).lower(), name)
    return name.replace("-", "_")


def camel(name):
    return "".join(part[:1].upper() + part[1:] for part in re.split(r"[-_]", name))


def declared():
    """Each own name with what it is: fact, word, lemma, field, constructor or proof."""
    found = collections.defaultdict(set)
    functions = set()
    for path in sorted(glob.glob("crates/*/src/*.rt")):
        functions.update(re.findall(r"\bfn (\w+)", read(path)))
    for path in antt("specs") + antt("proofs"):
        block = None
        of_function = not re.match(r"crates/\w+/(specs|proofs)/[^/]*$", path)
        for line in read(path).splitlines():
            if re.match(r"^(pub )?(record|data)\b", line):
                block = "field" if "record" in line.split()[:2] else "constructor"
                continue
            if line and not line.startswith(" "):
                block = None
            m = SIGNATURE.match(line)
            if m and not line.startswith((" ", "use ", "--")):
                name, kind = m.group(2), m.group(3)
                if of_function and name.endswith("-spec"):
                    base = name[: -len("-spec")].lstrip("+").replace("-", "_")
                    found[name].add("proof")
                    continue
                if of_function and GENERATED.match(name):
                    continue
                if of_function and name.endswith(("-requires", "-requires-2")):
                    continue
                result = kind.split("→")[-1].strip()
                found[name].add("fact" if re.match(r"^Type\b", result) else "word")
            elif block:
                m = MEMBER.match(line)
                if m and not line.strip().startswith("--"):
                    found[m.group(1)].add(block)
    return found, functions


def pairs():
    found, functions = declared()
    elsewhere = imported_elsewhere()
    turned = {}
    for name, kinds in sorted(found.items()):
        if name in elsewhere or not re.match(r"^[A-Za-zΑ-ωℕ+][\w'+-]*$", name):
            continue
        if name.startswith("+") and kinds == {"proof"}:
            new = "+" + snake(name[1:])
        elif "fact" in kinds and name[0].islower():
            new = camel(name)
        elif name[0].isupper() and "constructor" in kinds:
            new = snake(name[0].lower() + name[1:])
        elif name[0].isupper():
            new = name.replace("-", "") if "-" in name and "fact" in kinds else name
        else:
            new = snake(name)
        if new != name:
            turned[name] = new
    # A name that falls together with another own one, or with one of a library, gets an ending of its own.
    taken = set(found) | elsewhere
    by_new = collections.defaultdict(list)
    for name, new in turned.items():
        by_new[new].append(name)
    together = {}
    for new, names in sorted(by_new.items()):
        others = [n for n in ([new] if new in taken and new not in turned else []) if n not in names]
        if len(names) + len(others) < 2:
            continue
        together[new] = names + others
        # the definition keeps the plain name, the lemma is called _lem
        for name in names:
            if "-" in name and not found[name] & {"proof", "field"}:
                turned[name] = new + "_lem"
    return turned, together, found


def respell(text, turned, strings=False):
    def one(m):
        return turned.get(m.group(0), m.group(0))

    if not strings:
        return TOKEN.sub(one, text)
    out = []
    for part in re.split(r'(b?"(?:[^"\\\n]|\\.)*")', text):
        out.append(part if re.match(r'^b?"', part) else TOKEN.sub(one, part))
    return "".join(out)


def main(words):
    turned, together, found = pairs()
    if "--list" in words:
        for name, new in turned.items():
            print(name, new, ",".join(sorted(found[name])))
        for new, names in together.items():
            print("together:", new, names, [turned.get(n) for n in names])
        return 0
    sources = {n: new for n, new in turned.items() if re.search(r"[A-Z-]", n)}
    for path in antt("specs") + antt("proofs"):
        text = read(path)
        of_crate = next((names for folder, names in OF_CRATE.items() if path.startswith(folder)), {})
        new = respell(respell(text, of_crate), turned)
        if new != text:
            open(path, "w", encoding="utf-8").write(new)
    for path in sorted(glob.glob("crates/*/src/*.rt") + glob.glob("crates/*/must-fail/*.edit")):
        text = read(path)
        new = respell(text, sources, strings=True)
        if new != text:
            open(path, "w", encoding="utf-8").write(new)
    for path in ["README.md"] + sorted(glob.glob("docs/*.md")) + sorted(glob.glob("*/README.md")):
        text = read(path)
        new = re.sub(r"`[^`\n]+`", lambda m: respell(m.group(0), sources), text)
        if new != text:
            open(path, "w", encoding="utf-8").write(new)
    return 0


if __name__ == "__main__":
    raise SystemExit(main(sys.argv[1:]))
