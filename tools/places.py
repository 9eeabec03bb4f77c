#!/usr/bin/env python3
"""places.py: lists the places in crates/*/src where an older form may stand, one line each, and counts them by point."""
import glob, re, sys

POINTS = {
    1: "own enums of the shape of Option or Result, flags with a value beside them, numbers for kinds or refusals",
    3: "loops that count by hand",
    4: "equality, order, conversion and printing by hand",
    5: "functions of five parameters or more, and facts that three contracts or more require",
    6: "buffers with a length beside them, parallel arrays",
    7: "a step chosen by a number",
}
WORDS = "Refused|Failed|Other|Nothing|Never|End|Done|Stopped|Differs"
found = {point: [] for point in POINTS}

def line_of(text, at):
    return text.count("\n", 0, at) + 1

def note(point, file, line, what):
    found[point].append(f"{file}:{line}: {what}")

def arguments(text, at):
    depth, out, start = 0, [], at + 1
    for k in range(at, len(text)):
        c = text[k]
        if c in "([{<":
            depth += 1
        elif c in ")]}>" and text[k - 1] != "-":
            depth -= 1
        if (c == "," and depth == 1) or depth == 0:
            if text[start:k].strip():
                out.append(" ".join(text[start:k].split()))
            start = k + 1
        if depth == 0:
            return out
    return out

for file in sorted(glob.glob("crates/*/src/**/*.rt", recursive=True)):
    text = open(file, encoding="utf-8").read()
    facts = {}
    for m in re.finditer(r"\benum (\w+)[^{]*\{(.*?)\n\}", text, re.S):
        if re.search(rf"\b({WORDS})\b", m.group(2)):
            note(1, file, line_of(text, m.start()), f"enum {m.group(1)}")
    for m in re.finditer(r"\b\w+::Refused\((\d+),", text):
        note(1, file, line_of(text, m.start()), f"refusal number {m.group(1)}")
    for m in re.finditer(r"\bStep::At\((\d),", text):
        note(1, file, line_of(text, m.start()), f"kind number {m.group(1)}")
    for m in re.finditer(r"pub struct (\w+) \{[^}]*\bstep: Step", text):
        note(1, file, line_of(text, m.start()), f"answer beside values: struct {m.group(1)}")
    for m in re.finditer(r"^\s*(?:'\w+: )?(while|loop)\b[^\n]*", text, re.M):
        note(3, file, line_of(text, m.start()), m.group(0).strip())
    for m in re.finditer(r"\bfn ((?:same|wide|lesser|limit|less|from_\w+|to_(?!line|close)\w+|\w+_(?:byte|of)|print\w*|or_x|small|letter_of)\b)\(", text):
        note(4, file, line_of(text, m.start()), f"fn {m.group(1)}")
    for m in re.finditer(r"\bfn (\w+)(?:<[^>]*>)?\(", text):
        given = arguments(text, m.end() - 1)
        if len(given) > 4:
            note(5, file, line_of(text, m.start()), f"fn {m.group(1)}: {len(given)} parameters")
        both = [re.match(r"(?:mut )?(\w+):", it) for it in given]
        names = [it.group(1) for it in both if it]
        if "starts" in names and "ends" in names:
            note(6, file, line_of(text, m.start()), f"fn {m.group(1)}: starts and ends")
        if "out" in names and "n" in names:
            note(6, file, line_of(text, m.start()), f"fn {m.group(1)}: a buffer and its length")
    for m in re.finditer(r"requires[^{\n]*\{(.*)\}\n", text):
        for fact in re.split(r" × ", m.group(1)):
            facts.setdefault(fact.strip(" ()"), []).append(line_of(text, m.start()))
    for fact, lines in facts.items():
        if len(lines) > 2:
            note(5, file, lines[0], f"required {len(lines)} times: {fact}")
    for m in re.finditer(r"match (\w+) \{\n\s*\d+ =>", text):
        note(7, file, line_of(text, m.start()), f"match {m.group(1)} by numbers")
    for m in re.finditer(r"\bif (k) == \d \{\n\s*let s = decl", text):
        note(7, file, line_of(text, m.start()), m.group(0).split("\n")[0])

for point, what in POINTS.items():
    print(f"{point}. {what}: {len(found[point])}")
    if len(sys.argv) > 1:
        print("\n".join("   " + it for it in found[point]))
