#!/usr/bin/env python3
"""Counts the places in src/ where an older form may stand, for each point of docs/DESIGN-PASS.md.

    tools/places.py [ROOT] [--list]

ROOT is a checkout, here by default. A place is what a pattern finds, and not yet a fault: the page says of
each what became of it. --list prints the places, else only how many there are.
"""
import collections
import glob
import os
import re
import sys

ITEM = re.compile(r"^( *)(?:pub(?:\([a-z]+\))? )?(?:final )?(fn|struct|enum|trait|impl)\b(.*)$")
NUMBER = r"(?:Vec<)?&?\[?(?:u8|u16|u32|usize)\b"

# What is looked for line by line.
LINES = [
    (label, re.compile(pattern))
    for label, pattern in (
        ("1 a number for a side, a kind or a refusal", r"^(?!.*fn ).*\b(?:colour|owner|kind|refusals?|class)s?: " + NUMBER),
        ("3 a loop over an index or by hand", r"^\s*(?:while|loop)\b|^\s*for \w+ in .*\.\."),
        ("4 an impl that a derive writes", r"impl.* (?:PartialEq|Eq|PartialOrd|Ord|Clone|Copy|Default|Debug)\b.* for "),
        ("4 a conversion or an equality by hand", r"fn (?:from_|to_|number|same_|equals?)\w*\b"),
        ("4 a refusal printed by hand", r"let number = .*number\(\)"),
        ("4 a case passed on by hand", r"^\s*None => None,?$|^\s*Some\((\w+)\) => Some\(\1\),?$|Err\(_\) => Err\("),
        ("7 a function in a table, a dyn", r"\bfn\(|dyn "),
    )
]


def items(path):
    """The items of a file: kind, head, first line, text. Methods are items too."""
    lines = open(path).read().split("\n")
    for at, line in enumerate(lines):
        found = ITEM.match(line)
        if not found or line.rstrip().endswith(";"):
            continue
        end = at
        if not re.search(r"\{.*\}$|;$", line):
            while end < len(lines) and lines[end] != found[1] + "}" and not (end > at and lines[end] == found[1] + "};"):
                end += 1
        yield found[2], found[3], at + 1, "\n".join(lines[at : end + 1])


def body(text):
    """A function without its signature and clauses."""
    return re.split(r"^ *\{$|\) (?:-> [^{\n]*)?\{$", text, maxsplit=1, flags=re.M)[-1]


def shape(text):
    """A text with names, numbers and types made alike."""
    text = re.sub(r"//.*|^ *(?:requires|ensures|ghost)\b.*$", "", text, flags=re.M)
    text = re.sub(r'"[^"]*"', "S", text)
    words = re.findall(r"\b(?:match|if|else|for|while|return|let|in|mut|Some|None|Ok|Err|self|fn|struct)\b|\w+|[^\s\w]", text)
    keep = {"match", "if", "else", "for", "while", "return", "let", "in", "mut", "Some", "None", "Ok", "Err", "self", "fn", "struct"}
    return " ".join(w if w in keep or not re.match(r"\w", w) else "x" for w in words)


def places(root):
    found = collections.defaultdict(list)
    shapes, facts, pairs = (collections.defaultdict(list) for _ in range(3))
    for path in sorted(glob.glob(os.path.join(root, "crates/*/src/**/*.rt"), recursive=True)):
        name = os.path.relpath(path, root)
        for number, line in enumerate(open(path), 1):
            where = f"{name}:{number}: {line.strip()}"
            if line.strip().startswith(("//", "ghost use")):
                continue
            for label, pattern in LINES:
                if pattern.search(line):
                    found[label].append(where)
        for kind, head, at, text in items(path):
            where = f"{name}:{at}: {kind}{head}"
            if kind == "fn":
                arms = len(re.findall(r"^ *[^\n]*=> \d+,$", text, flags=re.M))
                reads = len(re.findall(r"^ *(?:b'.'|\d+) => ", text, flags=re.M))
                if arms >= 2 or reads >= 2:
                    found["1 numbers for cases, given or read"].append(where)
                inner = shape(body(text))
                if inner.count(" ") >= 8:
                    shapes["fn " + inner].append(where)
                for clause in set(re.findall(r"^ *(?:requires|ensures)(?: \w+)? \{ (.*) \}$", text, flags=re.M)):
                    clause = re.sub(r"\b(?:self\.)?(\w+)\.(?:now|old|new)\b", r"\1", clause)
                    facts[(name.split("/")[1], clause)].append(where)
                signature = re.sub(r"<[^()]*?>\(", "(", text.split("{")[0].split("->")[0])
                names = re.findall(r"(\w+): ([^,\n)]+)", signature)
                for left, right in zip(names, names[1:]):
                    pairs[(name.split("/")[1], left[0], right[0])].append(where)
                for match in re.findall(r"^( *)(?:let \w+ = )?match [^\n]*\{\n(.*?)^\1\}", text, flags=re.M | re.S):
                    arms = re.findall(r"=> (.*)$", match[1], flags=re.M)
                    calls = [a for a in arms if re.match(r"(?:\w+[.:]+)*[a-z_]\w*\(.*\)\??,?$", a)]
                    if len(arms) >= 3 and len(calls) == len(arms):
                        found["7 a match whose arms are calls"].append(where)
            if kind == "struct":
                fields = re.findall(r"^ *(?:pub(?:\([a-z]+\))? )?(\w+): (.*),$", re.sub(r"ghost.*", "", text), flags=re.M)
                lists = [f for f in fields if re.search(r"Vec<|\[", f[1])]
                if fields:
                    shapes["struct " + " ".join(sorted(f[1] for f in fields))].append(where)
                if any(f[1] == "bool" for f in fields):
                    found["1 a flag in a struct"].append(where)
                if len(lists) >= 2:
                    found["6 lists side by side"].append(where)
                if lists and any(f[1] in ("usize", "u16") for f in fields):
                    found["6 a list with an index or a length beside"].append(where)
            if kind == "struct" and re.search(r"first: u16|count: u16", text):
                found["6 an index into a list elsewhere"].append(where)
            if kind == "enum":
                cases = re.findall(r"^    (\w+(?:\(.*\))?),", text, flags=re.M)
                if len(cases) == 2 and any("(" in c for c in cases):
                    found["1 an enum of the shape of Option or Result"].append(where)
            if kind == "trait" and len(re.findall(r"^    fn ", text, flags=re.M)) == 1:
                found["7 a trait with one method"].append(where)
    for key, group in shapes.items():
        if len(group) >= 2:
            found["2 twins by their shape"].append("\n      ".join(group))
    for (crate, clause), group in facts.items():
        if len(set(group)) >= 3:
            found["5 a clause in three contracts or more"].append(f"{crate}: {{ {clause} }} in {len(set(group))}")
    for (crate, left, right), group in pairs.items():
        if len(group) >= 3 and left != "rt":
            found["5 parameters that travel together"].append(f"{crate}: {left}, {right} in {len(group)}")
    for path in sorted(glob.glob(os.path.join(root, "crates/*/proofs/**/*.antt"), recursive=True)):
        if os.path.basename(path) == "Answers.antt":
            found["8 files of answers"].append(os.path.relpath(path, root))
            for answer in re.findall(r"^(?:abbrev )?pub (\S+) :", open(path).read(), flags=re.M):
                found["8 answers"].append(f"{os.path.relpath(path, root)}: {answer}")
        elif "/proofs/Lib.antt" not in path and os.path.basename(path) not in ("Invariants.antt", "Proof.antt"):
            for lemma in re.findall(r"^(?:unfoldable |abbrev )?(?:pub )?(\S+) : ", open(path).read(), flags=re.M):
                found["8 lemmas"].append(f"{os.path.relpath(path, root)}: {lemma}")
    return found


def main():
    roots = [a for a in sys.argv[1:] if not a.startswith("--")]
    found = places(roots[0] if roots else ".")
    for name in sorted(found):
        print(f"{name}: {len(found[name])}")
        if "--list" in sys.argv and not name.startswith("8"):
            for place in found[name]:
                print(f"    {place}")


main()
