#!/usr/bin/env python3
"""Turns the repository's own words to today's spelling: words_in_snake_case, TypesInCamelCase.

usage: python3 tools/respell.py    at the top of a checkout that the kit's port.py has just turned

Names of functions, fields and labels that the compiler makes keep their spelling, and so do the library's lemmas,
strings and what stands in comments outside backquotes. Run once; what falls together in one file is listed.
"""

import os
import re

NAME = r"[A-Za-z_][\w'₀-₉²³]*(?:-[\w'₀-₉²³]+)*"
TOKEN = re.compile(NAME)
USE = re.compile(r"\buse\s+([\w.'-]+)\.\{([^}]*)\}")
GENERATED = ("Answers.antt", "Invariants.antt", "Choices.antt", "Proof.antt")
DECLARED = re.compile(r"^\s*(?:(?:abbrev|pub|unfoldable|opaque|private)\s+)*(?:record\s+|data\s+)?(" + NAME + r")\s*(?:[({].*)?:")


def files():
    for folder, dirs, names in os.walk("crates"):
        dirs[:] = sorted(d for d in dirs if d != "out")
        for name in sorted(names):
            if name.endswith((".antt", ".rt")):
                yield os.path.join(folder, name)


def answers(path):
    """Whether a file answers the goals of one function, under names that the compiler makes."""
    return "/proofs/" in path and os.path.basename(path) in GENERATED


def parts(path, text):
    """The text in pieces: (piece, whether names in it are turned)."""
    quote = r'"(?:[^"\\\n]|\\.)*"'
    comment = r"--[^\n]*" if path.endswith(".antt") else r"//[^\n]*|'(?:[^'\\\n]|\\.)'"
    last = 0
    for found in re.finditer(quote + "|" + comment, text):
        yield text[last:found.start()], True
        piece = found.group(0)
        if piece.startswith(("--", "//")):
            for i, inner in enumerate(piece.split("`")):
                yield ("`" if i else "") + inner, i % 2 == 1
        else:
            yield piece, False
        last = found.end()
    yield text[last:], True


def code(path, text):
    return "\n".join(piece for piece, turned in parts(path, text) if turned and not piece.startswith("`"))


def spelled(name):
    words = name.split("-")
    if name[0].isupper() and len(words) > 1:
        return "".join(w[0].upper() + w[1:] for w in words)
    return "_".join(words)


def snake(name):
    return re.sub(r"(?<=[a-z0-9])([A-Z])", lambda m: "_" + m.group(1).lower(), name)


def main():
    own = tuple("Rattle." + c + "." for c in sorted(os.listdir("crates")))
    texts = {}
    for path in files():
        with open(path, encoding="utf-8") as f:
            texts[path] = f.read()
    library, words, locals_of = set(), set(), {}
    for path, text in texts.items():
        for module, names in USE.findall(text):
            if not module.startswith(own):
                library |= {n.split(" as ")[0].strip() for n in names.split(",")}
    for path, text in texts.items():
        if path.endswith(".rt"):
            continue
        plain = code(path, text)
        if not answers(path):
            words |= {t for t in TOKEN.findall(plain) if "-" in t}
        else:
            goals = set(re.findall(r"\bgoal\.(" + NAME + ")", plain))
            locals_of[path] = {m.group(1) for m in map(DECLARED.match, plain.split("\n")) if m and "-" in m.group(1)} - goals
    words -= library
    for path, text in texts.items():
        turn = {w: spelled(w) for w in words | locals_of.get(path, set())}
        plain = code(path, text)
        keep = set(re.findall(r"\bgoal\.(" + NAME + ")", plain)) if answers(path) else set()
        aliases = {}
        for module, names in USE.findall(plain):
            for name in names.split(","):
                if " as " in name:
                    alias = name.split(" as ")[1].strip()
                    if alias[0].islower() and snake(alias) != alias:
                        aliases[alias] = snake(alias)

        def one(found):
            name, before = found.group(0), found.string[:found.start()]
            if name in aliases:
                return aliases[name]
            if name not in turn:
                return name
            if name in keep and (before.endswith("goal.") or re.search(r"(^|\n)(pub )?$", before)):
                return name
            if answers(path) and re.search(r"(?<![\w.'-])[cglw]\.$", before):
                return name
            return turn[name]

        new = "".join(TOKEN.sub(one, piece) if turned else piece for piece, turned in parts(path, text))
        new = re.sub(r"\b([\w']+) as \1(?![\w'-])", r"\1", new)
        images = {}
        for t in set(TOKEN.findall(plain)):
            images.setdefault(turn.get(t, aliases.get(t, t)), set()).add(t)
        for image, olds in sorted(images.items()):
            if len(olds) > 1:
                print(f"together in {path}: {' '.join(sorted(olds))} -> {image}")
        if new != text:
            with open(path, "w", encoding="utf-8") as f:
                f.write(new)


main()
