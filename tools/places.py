#!/usr/bin/env python3
"""Counts places in the source of a commit that an older form may stand in: tools/places.py COMMIT [-v].

Each number is that of a point of docs/DESIGN-PASS.md. With -v each place is printed.
A place found is one to look at; the page says what became of it."""
import collections
import re
import subprocess
import sys


def git(*words):
    return subprocess.run(["git", *words], capture_output=True, text=True, check=True).stdout


def sources(commit):
    names = git("ls-tree", "-r", "--name-only", commit, "--", "crates").split()
    return {n: git("show", f"{commit}:{n}") for n in names if "/src/" in n and n.endswith(".rt")}


def lines(files, pattern):
    found = []
    for name, text in files.items():
        for number, line in enumerate(text.splitlines(), 1):
            if re.search(pattern, line) and not line.lstrip().startswith("//"):
                found.append(f"{name}:{number}: {line.strip()}")
    return found


def functions(files):
    for name, text in files.items():
        for m in re.finditer(r"^( *)(?:pub(?:\([a-z]+\))? )?fn (\w+)(?:<[^>]*>)?\(([^)]*)\)", text, re.M):
            end = text.find(f"\n{m.group(1)}}}", m.end())
            yield name, m.group(2), m.group(3), text[m.end():end]


def body(rest):
    start = re.search(r"^ *\{$|\{$", rest, re.M)
    return rest[start.end():] if start else ""


KEPT = {"if", "else", "match", "let", "mut", "while", "for", "in", "return", "Ok", "Err", "Some", "None", "self", "true", "false", "as"}


def shape(text):
    tokens = re.findall(r'"[^"]*"|b?\'.\'|\w+|[^\w\s]', text)
    return " ".join(t if t in KEPT or not re.match(r"\w|\"|b'|'", t) else "_" for t in tokens)


def twins(files):
    groups = collections.defaultdict(list)
    for name, function, _, rest in functions(files):
        text = body(rest)
        if text.count("\n") >= 2:
            groups[shape(text)].append(f"{name}: {function}")
    return [" = ".join(g) for g in groups.values() if len(g) > 1]


def requirements(files):
    groups = collections.defaultdict(list)
    for name, function, _, rest in functions(files):
        for clause in re.findall(r"requires (?:\w+ )?\{ (.*) \}$", rest, re.M):
            groups[clause].append(f"{name}: {function}")
    return [f"{c} ({len(g)})" for c, g in groups.items() if len(g) >= 3]


def travelling(files):
    pairs = collections.Counter()
    for _, _, parameters, _ in functions(files):
        words = [p.split(":")[0].strip() + ":" + p.split(":")[1].strip() for p in parameters.split(",") if ":" in p]
        for i, a in enumerate(words):
            for b in words[i + 1:]:
                pairs[a, b] += 1
    return [f"{a}, {b} ({n})" for (a, b), n in pairs.items() if n >= 3]


def buffers(files):
    found = []
    for name, text in files.items():
        for m in re.finditer(r"struct (\w+)[^{;]*\{(.*?)\n\}", text, re.S):
            fields = m.group(2)
            if re.search(r": (&'a (mut )?)?\[", fields) and re.search(r": usize,", fields):
                found.append(f"{name}: {m.group(1)}")
    return found


def main():
    commit = sys.argv[1]
    files = sources(commit)
    proofs = [n for n in git("ls-tree", "-r", "--name-only", commit, "--", "crates").split() if "/proofs/" in n]
    points = [
        ("1 enums", lines(files, r"^\s*(pub(\([a-z]+\))? )?enum ")),
        ("1 numbers for kinds and refusals", lines(files, r"\bcode: u8|\.code\(\)|if code [<=]|-> \(u8, usize\)|\(u8, usize\)[,)>]|Result<.*, (u8|usize)>$|Refused\(\d")),
        ("1 flags", lines(files, r"fn \w+.*\w+: bool|^\s*(pub )?\w+: bool,")),
        ("2 functions of one shape", twins(files)),
        ("3 loops", lines(files, r"^\s*(while|for|loop)\b(?!.*\{ ?ghost)")),
        ("4 equality and conversion by hand", lines(files, r"\.is\(|fn (number|place|code|is|class|truth|is_true|is_same|is_letter|is_digit|lower|of|words|\w+_in_words|positive|negative|pair_of)\(")),
        ("5 clauses of three or more functions", requirements(files)),
        ("5 parameters together in three or more functions", travelling(files)),
        ("6 a buffer with a number beside it", buffers(files)),
        ("7 matches and flags that say which function runs", lines(files, r"match (operator|of|by|instruction) \{|fn \w+.*(blanks|present): bool")),
        ("8 answers and invariants", [n for n in proofs if re.search(r"/(Answers|Invariants|Proof)\.antt$", n)]),
        ("8 files of lemmas", [n for n in proofs if re.search(r"proofs/[A-Z]\w*\.antt$", n) and not n.endswith("/Lib.antt")]),
    ]
    for title, found in points:
        print(f"{len(found):4}  {title}")
        if "-v" in sys.argv[2:]:
            for place in found:
                print("        " + place)


main()
