#!/usr/bin/env python3
"""Brings the repository's own names to Rattle's spelling: words in snake case, types and modules in camel case.

usage: python3 tools/respell.py FOLDER

FOLDER is a checkout that /opt/rattle/port/port.py has turned. Run it once. It takes the names that the files of specs/ and the lemma files
of proofs/ declare, and respells each that begins with a small letter: loadCredit -> load_credit, room-left -> room_left. It writes the
.antt files, the clauses, `ghost use` lines and comments of the .rt files, the edits of must-fail/ and wrong/, and the pages. Names of the
code, strings, inputs and outputs stay. Where two names would fall together, a lemma gets `_lem` after its name.
"""
import collections
import glob
import os
import re
import sys

WORD = re.compile(r"[^\s(){}.;,@\"«»\[\]\\`]+")


def snake(word):
    return re.sub(r"(?<=[a-z0-9'₀₁₂])([A-Z])", lambda m: "_" + m.group(1).lower(), word).replace("-", "_")


def read(path):
    with open(path, encoding="utf-8", newline="") as it:
        return it.read()


def declared(root):
    """The names that specs/ and the lemma files declare, and whether each is a lemma of proofs/ alone."""
    top, fields = collections.defaultdict(set), set()
    for part in ("specs", "proofs"):
        for path in glob.glob(f"{root}/crates/*/{part}/*.antt"):
            text = re.sub(r"--[^\n]*", "", read(path))
            for m in re.finditer(r"(?m)^(?:abbrev |unfoldable )?(?:pub )?([^\s(){}.;,\"]+) :", text):
                top[m.group(1)].add(part)
            for m in re.finditer(r"(?m)^ +(?:pub )?([^\s(){}.;,\"]+) :(?=\s)", text):
                fields.add(m.group(1))
    return top, fields


def table(root):
    top, fields = declared(root)
    small = [w for w in set(top) | fields if re.match(r"[a-z]", w)]
    by_new = collections.defaultdict(list)
    for w in small:
        by_new[snake(w)].append(w)
    names = {}
    for new, olds in by_new.items():
        if len(olds) == 1:
            names[olds[0]] = new
            continue
        # A definition keeps the plain name, and a lemma gives way.
        for w in olds:
            lemma = w in top and "specs" not in top[w] and any("specs" in top.get(v, ()) or v in fields for v in olds if v != w)
            names[w] = new + "_lem" if lemma else new
    return {w: n for w, n in names.items() if w != n}, fields


def of_the_kit(text, crates):
    """The names that a file imports from elsewhere than the repository's own crates: they stay as they are there."""
    found = set()
    for m in re.finditer(r"(?m)^(?:pub )?use ([^\n]*)", text):
        line = m.group(1)
        own = re.match(r"Rattle\.(\w+)\.", line)
        if own and own.group(1) in crates:
            continue
        found |= set(re.findall(r"[^\s(){}.;,]+", line))
    return found


def turn_antt(text, names, kit_camel, answers, crates=()):
    out = []
    kit = of_the_kit(text, crates)
    names = {w: n for w, n in names.items() if w not in kit}
    for piece in re.split(r"(--[^\n]*|\"(?:[^\"\\]|\\[\s\S])*\")", text):
        if piece.startswith('"'):
            out.append(piece)
            continue
        if piece.startswith("--"):
            out.append(prose(piece, names))
            continue

        def one(m):
            w = m.group(0)
            before = piece[m.start() - 1] if m.start() else ""
            if w in names:
                # A step of a function's proof and a function's folder are no lemma, even where they have a lemma's name.
                behind = re.search(r"([^\s(){}.;,]+)\.$", piece[: m.start()]) if before == "." else None
                item = behind and re.match(r"[A-Z]", behind.group(1)) and "Rattle." in piece[: m.start()].split("\n")[-1]
                if before == "." and w not in FIELDS and not item and (answers or snake(w) == w):
                    return w
                return names[w]
            if re.match(r"[a-z]", w) and re.search(r"[A-Z]", w) and w not in kit_camel and "·" not in w:
                return re.sub(r"(?<=[a-z0-9'₀₁₂])([A-Z])", lambda k: "_" + k.group(1).lower(), w)
            return w

        out.append(WORD.sub(one, piece))
    return "".join(out)


def prose(text, names):
    def one(m):
        w = m.group(0)
        return names[w] if w in names and snake(w) != w else w

    return re.sub(r"(?<![\w'/.-])[a-z][\w']*(?:-[\w']+)*(?![\w'-])", one, text)


def turn_rt(text, names):
    out = []
    for piece in re.split(r"(//[^\n]*|\"(?:[^\"\\]|\\[\s\S])*\")", text):
        if piece.startswith("//"):
            out.append(prose(piece, names))
        elif piece.startswith('"'):
            out.append(piece)
        else:
            # Rust has no small word with a capital in it, and no dash in a name.
            piece = re.sub(r"(?<![\w:'])[a-z][a-z0-9_]*[A-Z][\w']*", lambda m: names.get(m.group(0), snake(m.group(0))), piece)
            out.append(re.sub(r"(?<![\w'])[a-z][\w']*(?:-[\w']+)+", lambda m: names.get(m.group(0), m.group(0)), piece))
    return "".join(out)


def with_tactic(path):
    """Writes `#![tactic(auto)]` behind the comment at a root file's head."""
    text = read(path)
    if "#![tactic(auto)]" in text:
        return
    lines = text.split("\n")
    n = 0
    while n < len(lines) and lines[n].startswith("//"):
        n += 1
    while n < len(lines) and not lines[n].strip():
        n += 1
    lines[n:n] = ["#![tactic(auto)]", ""]
    with open(path, "w", encoding="utf-8", newline="") as it:
        it.write("\n".join(lines))


def main(root):
    global FIELDS
    names, FIELDS = table(root)
    crates = {os.path.basename(c) for c in glob.glob(f"{root}/crates/*")}
    kit = {"isR"}
    for path in glob.glob(f"{root}/crates/**/*.antt", recursive=True):
        if "/out/" in path:
            continue
        text = read(path)
        answers = bool(re.search(r"/proofs/.+/[^/]+\.antt$", path))
        new = turn_antt(text, names, kit, answers, crates)
        if new != text:
            open(path, "w", encoding="utf-8", newline="").write(new)
    for path in glob.glob(f"{root}/crates/*/src/**/*.rt", recursive=True):
        text = read(path)
        new = turn_rt(text, names)
        if new != text:
            open(path, "w", encoding="utf-8", newline="").write(new)
    for path in glob.glob(f"{root}/crates/*/src/lib.rt") + glob.glob(f"{root}/crates/*/src/main.rt"):
        with_tactic(path)
    with open("/tmp/respelled.tsv", "w", encoding="utf-8") as it:
        for w in sorted(names):
            it.write(f"{w}\t{names[w]}\n")
    print(f"respell: {len(names)} names; /tmp/respelled.tsv has them")


if __name__ == "__main__":
    main(sys.argv[1])
