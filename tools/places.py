#!/usr/bin/env python3
"""Lists the places of the design pass, point by point: tools/places.py [COMMIT], or the files as they stand.

docs/DESIGN-PASS.md says what became of each. Points 2 and 8 are read by hand: see there.
"""
import collections
import re
import subprocess
import sys

COMMIT = sys.argv[1] if len(sys.argv) > 1 else None

# point, what is looked for, the patterns of a line
LINES = [
    (1, "a refusal as a variant, an option of a refusal, a sentinel, a flag beside a changed value", [
        r"^    (Declined|Memory|Rooms)\(", r"-> Option<Refusal>", r"length where there is none", r"\(0 if none\)",
        r"are 0 until", r"^pub fn (hear|relayed|acknowledge)\b"]),
    (3, "a loop", [r"^ *(for|while|loop)\b"]),
    (4, "a test by a match to true and false", [r"=> (true|false),"]),
    (4, "a chain of words", [r"^ *if !?is_word\("]),
    (4, "a conversion", [r"fn (number\(self|field\(self|layer|answer_of|index\(|named|word\(self|[a-z]*_word\(word|read_kind)"]),
    (4, "printing", [r"fn (put_[a-z]*|print[a-z_]*|push_answer)\b"]),
    (6, "a place or a length beside a slice, a fixed buffer", [r"\b(at|used|head|room): usize", r"\[0u8; [0-9]+\]"]),
    (7, "a switch on which question to put", [r"question: Question", r"match question", r"Question::[A-Z]"]),
]


def git(*words):
    return subprocess.run(["git", *words], check=True, capture_output=True, text=True).stdout


def names(pattern):
    listed = git("ls-tree", "-r", "--name-only", COMMIT, "crates") if COMMIT else git("ls-files", "crates")
    return sorted(n for n in listed.split("\n") if re.fullmatch(pattern, n))


def text(name):
    return git("show", f"{COMMIT}:{name}") if COMMIT else open(name).read()


def show(point, what, rows):
    print(f"point {point}, {what}: {len(rows)}")
    for row in rows:
        print("    " + row)


def main():
    files = {n: text(n) for n in names(r"crates/[a-z_]+/src/.*\.rt")}
    for point, what, patterns in LINES:
        rows = [
            f"{name}:{number}: {line.strip()}"
            for name, body in files.items()
            for number, line in enumerate(body.split("\n"), 1)
            if any(re.search(p, line) for p in patterns)
        ]
        show(point, what, rows)

    many = []
    clauses = collections.Counter()
    for name, body in files.items():
        for found in re.finditer(r"\bfn ([a-z_]+)(?:<[^>(]*>)?\(([^{;]*?)\)\s*(?:->|\n|requires|ensures|\{)", body):
            parameters = [p for p in found.group(2).split(",") if ":" in p or "self" in p]
            if len(parameters) >= 6:
                many.append(f"{name}: {found.group(1)}, {len(parameters)}")
        clauses.update(
            re.sub(r"^(requires|ensures) [a-z_]* ?\{ ", r"\1 { ", line.strip())
            for line in body.split("\n")
            if re.match(r" +(requires|ensures) .*\}$", line)
        )
    show(5, "a function with six parameters or more", many)
    show(5, "a clause that stands in three contracts or more", [
        f"{n}  {clause}" for clause, n in clauses.most_common() if n >= 3])

    lines = collections.Counter()
    for name in names(r"crates/[a-z_]+/proofs/.*\.antt"):
        lines[name.split("/")[1]] += text(name).count("\n")
    show(8, "lines of proofs by crate", [f"{crate} {n}" for crate, n in sorted(lines.items())])


main()
