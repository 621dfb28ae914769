#!/usr/bin/env python3
# Lists the places in crates/*/src that could be written in another form: places.py POINT [COMMIT]
"""usage: places.py POINT [COMMIT]

POINT is one of values, twins, loops, words, facts, buffers, steps, proofs. Without COMMIT the files are read as they stand.
The lists are candidates, found by text: whether a place is one of the kind is read by eye."""
import re
import subprocess
import sys
from collections import defaultdict
from itertools import combinations


def run(*words):
    return subprocess.run(words, check=True, capture_output=True, text=True).stdout


def files(commit, pattern):
    if commit:
        names = run("git", "ls-tree", "-r", "--name-only", commit, "crates").split()
    else:
        names = run("git", "ls-files", "--cached", "--others", "--exclude-standard", "crates").split()
    for name in sorted(set(names)):
        if re.search(pattern, name):
            try:
                yield name, run("git", "show", f"{commit}:{name}") if commit else open(name).read()
            except FileNotFoundError:
                pass


def sources(commit):
    for name, text in files(commit, r"^crates/[^/]+/src/.*\.rt$"):
        yield name, re.sub(r"//[^\n]*", "", text)


def functions(text):
    """Each function: its name, what is written before its body, and the body."""
    for found in re.finditer(r"(?m)^[ ]*(?:pub(?:\([a-z]+\))? )?(?:extern \"C\" )?fn (\w+)", text):
        at = found.end()
        depth = 0
        lines = text[at:].split("\n")
        head, body, inside = [], [], False
        for line in lines:
            if not inside and (line.rstrip() == found.group(0)[: len(found.group(0)) - len(found.group(0).lstrip())] + "{"
                               or re.search(r"[^{]\{$", line) and not re.match(r"\s*(requires|ensures)", line)):
                inside = True
                depth = 1
                head.append(line)
                continue
            if not inside:
                head.append(line)
                if line.rstrip().endswith(";") and not re.match(r"\s*(requires|ensures)", line):
                    break
                if re.match(r"\s*ensures.*;$", line):
                    break
                continue
            depth += line.count("{") - line.count("}")
            if depth <= 0:
                break
            body.append(line)
        yield found.group(1), "\n".join(head), "\n".join(body)


def grep(commit, pattern):
    count = 0
    for name, text in sources(commit):
        for number, line in enumerate(text.split("\n"), 1):
            if re.search(pattern, line):
                print(f"{name}:{number}: {line.strip()}")
                count += 1
    print(count)


def values(commit):
    grep(commit, r"\benum |\) -> \(|\) -> u8\b|: bool,|&mut usize")


def skeleton(body):
    words = re.sub(r"\b(0x[0-9A-Fa-f]+|\d+)\b", "0", body)
    words = re.sub(r"\b[A-Z]\w*\b", "T", words)
    return re.sub(r"\s+", " ", words).strip()


def twins(commit):
    """Functions whose bodies are one text but for types, constants and numbers."""
    same = defaultdict(list)
    for name, text in sources(commit):
        for function, _, body in functions(text):
            if body.strip():
                same[skeleton(body)].append(f"{name.removeprefix('crates/')} {function}")
    count = 0
    for body, places in sorted(same.items(), key=lambda pair: -len(pair[1])):
        if len(places) > 1:
            print(f"{', '.join(places)}: {body[:80]}")
            count += len(places)
    print(count)


def loops(commit):
    grep(commit, r"\bfor \w+ in [^\[&]*\.\.|\bwhile |\bloop \{")


def words(commit):
    grep(commit, r"\bmatch self\b|\bmatch self\.|fn (new|from_\w+|to_\w+|\w+_text|print_tally)\b|impl .*\b(From|TryFrom|FromStr|Display|PartialEq|Ord|Clone|Default)\b.* for |= if .*\{$|\* 256 \+")


def atoms(clause):
    clause = re.sub(r"\.(now|old|new)\b", "", clause)
    for part in re.split(r"×", clause):
        part = part.strip()
        while part.startswith("(") and part.count("(") > part.count(")"):
            part = part[1:].strip()
        while part.endswith(")") and part.count(")") > part.count("("):
            part = part[:-1].strip()
        if part.startswith("(") and part.endswith(")"):
            part = part[1:-1].strip()
        if part:
            yield re.sub(r"\s+", " ", part)


def facts(commit):
    """Facts required or ensured by three or more functions of a crate, and parameters that three or more have together."""
    clauses = defaultdict(set)
    together = defaultdict(set)
    for name, text in sources(commit):
        crate = name.split("/")[1]
        for function, head, _ in functions(text):
            place = f"{name.removeprefix('crates/')} {function}"
            for clause in re.findall(r"(?m)^\s*(?:requires|ensures)[^{\n]*\{(.*)\};?$", head):
                for atom in atoms(clause):
                    clauses[(crate, atom)].add(place)
            signature = re.split(r"\n\s*(?:requires|ensures)", head)[0]
            parameters = set(re.findall(r"\b(\w+): (&mut \[?\w+\]?|&\[?\w+\]?|\w+)", signature))
            parameters = {p for p in parameters if p[0] not in ("F", "R", "f")}
            for size in (2, 3, 4):
                for group in combinations(sorted(parameters), size):
                    together[(crate, group)].add(place)
    count = 0
    for (crate, atom), places in sorted(clauses.items(), key=lambda pair: -len(pair[1])):
        if len(places) > 2:
            print(f"{crate}, {len(places)} functions: {atom[:110]}")
            count += 1
    groups = {key: places for key, places in together.items() if len(places) > 2}
    for (crate, group), places in sorted(groups.items(), key=lambda pair: -len(pair[1])):
        wider = any(c == crate and set(group) < set(g) and places == p for (c, g), p in groups.items())
        if not wider:
            print(f"{crate}, {len(places)} functions: {', '.join(f'{n}: {t}' for n, t in group)}")
            count += 1
    print(count)


def buffers(commit):
    grep(commit, r"\[[^\]]*; [^\]]+\]|let mut (found|count|changed|filled|described|same|nonzero|places) = |sort|binary_search")


def steps(commit):
    grep(commit, r"\bfn\(|\bdyn\b|impl Fn|: F\b.*Fn|\[fn|match .*(step|kind|mode|state)")


def proofs(commit):
    """Answers, invariants and lines of proof, crate by crate."""
    count = defaultdict(lambda: [0, 0, 0])
    for name, text in files(commit, r"^crates/[^/]+/(proofs|specs)/.*\.antt$"):
        crate = name.split("/")[1]
        if name.endswith("Answers.antt"):
            count[crate][0] += len(re.findall(r"(?m)^pub \S+ : ", text))
        if name.endswith("Invariants.antt"):
            count[crate][1] += len(re.findall(r"(?m)^abbrev pub ", text))
        if "/proofs/" in name:
            count[crate][2] += len(text.split("\n"))
    for crate, (answers, invariants, lines) in sorted(count.items()):
        print(f"{crate}: {answers} answers, {invariants} invariants and measures, {lines} lines in proofs/")


POINTS = {f.__name__: f for f in (values, twins, loops, words, facts, buffers, steps, proofs)}

if __name__ == "__main__":
    if len(sys.argv) not in (2, 3) or sys.argv[1] not in POINTS:
        sys.exit(__doc__)
    POINTS[sys.argv[1]](sys.argv[2] if len(sys.argv) == 3 else None)
