#!/usr/bin/env python3
"""The functions of src/ that differ only in names, numbers and texts: each group of two or more, a line a group.

    python3 tools/twins.py [COMMIT]

Of the working tree, or of a commit. A function's shape is its parameters' and result's types, and its body with every name of its own,
number and text replaced; a contract is no part of it. Bodies of fewer than 10 words are passed over."""
import re
import subprocess
import sys

WORDS = set("as bool break else false fn for if in let loop match mod mut pub ref return self true u8 u16 u32 u64 usize while".split())


def sources(commit):
    where = ["git", "ls-files"] if commit is None else ["git", "ls-tree", "-r", "--name-only", commit]
    for name in subprocess.run(where, capture_output=True, text=True, check=True).stdout.split("\n"):
        if re.fullmatch(r"crates/\w+/src/\w+\.rt", name):
            if commit is None:
                yield name, open(name).read()
            else:
                yield name, subprocess.run(["git", "show", f"{commit}:{name}"], capture_output=True, text=True, check=True).stdout


def functions(text):
    for m in re.finditer(r"^( *)(?:pub )?(?:extern \"C\" )?fn (\w+)", text, re.M):
        end = text.find(f"\n{m.group(1)}}}\n", m.start())
        if end > 0:
            yield m.group(2), text[m.start():end]


def shape(function):
    head, body = [], []
    into = head
    for line in function.split("\n"):
        if re.match(r"\s*(requires|ensures)\b", line):
            continue
        if line.strip() == "{" and into is head:
            into = body
        into.append(re.sub(r"//.*", "", line))
    types = re.findall(r": ([^,)]+)|-> (.+)", "\n".join(head))
    words = re.findall(r"b?\"(?:\\.|[^\"\\])*\"|b'.[^']*'|\w+|[^\w\s]", "\n".join(body))
    seen = {}
    out = []
    for w in words:
        if re.match(r"b?[\"']|\d", w):
            out.append("0")
        elif w in WORDS or not re.match(r"\w", w):
            out.append(w)
        else:
            out.append("n%d" % seen.setdefault(w, len(seen)))
    return len(words), (str(types), " ".join(out))


def main():
    groups = {}
    for name, text in sources(sys.argv[1] if len(sys.argv) > 1 else None):
        for function, source in functions(text):
            size, key = shape(source)
            if size >= 10:
                groups.setdefault(key, []).append(f"{name.split('/')[1]}::{function}")
    found = sorted((g for g in groups.values() if len(g) > 1), key=lambda g: (-len(g), g))
    for g in found:
        print(len(g), " ".join(g))
    print(f"{len(found)} groups, {sum(map(len, found))} functions")


main()
