#!/usr/bin/env python3
"""Brings the edits of must-fail/ and wrong/ to the spelling that their files have now.

usage: python3 tools/turn_edits.py BEFORE TURNED TREE

BEFORE is a checkout whose edits all fit, TURNED the same as /opt/rattle/port/port.py leaves it, and TREE what tools/respell.py and the work
by hand have made of that: its edits are written, and nothing else. An `old:` text that stands once in its file stays. In place of another the
text of the line that answers to its line in BEFORE is written, and the `new:` text is respelled. A pair that edits a function's Proof.antt is
left out: the walk over the code that it kept in step is no longer written out, and a goal that nobody answers is tried by a tactic. What the
script cannot do it prints: those edits are turned by hand.
"""
import difflib
import glob
import os
import re
import sys
import textwrap

sys.path.insert(0, os.path.dirname(os.path.realpath(__file__)))
import respell

def read(path):
    with open(path, encoding="utf-8") as it:
        return it.read()


def norm(line):
    """A line with no trace of how its words are spelled."""
    line = re.sub(r"λ r\.|⌜|⌝|\bresult\b|\br\b|\(now \(b \.entry\)\)|\(now \(b \.exit\)\)", "", line)
    return re.sub(r"[\s\-_◌′'·().{}]", "", line).lower()


def lines_like(before, after):
    """For each line of the first text the number of the line of the second that answers to it, if there is one."""
    a, b = [norm(x) for x in before], [norm(x) for x in after]
    found = {}
    for tag, i1, i2, j1, j2 in difflib.SequenceMatcher(None, a, b, autojunk=False).get_opcodes():
        if tag == "equal":
            found.update(zip(range(i1, i2), range(j1, j2)))
        elif tag == "replace":
            for i in range(i1, i2):
                best = max(range(j1, j2), key=lambda j: difflib.SequenceMatcher(None, a[i], b[j]).ratio())
                if difflib.SequenceMatcher(None, a[i], b[best]).ratio() > 0.5:
                    found[i] = best
    return found


def tight(text):
    """`(x .f) i`, `x .f .g` and `(f x .g)` as they are written now."""
    name = r"\w[\w']*(?:\.\w+)*"
    word = rf"(?:{name}|\([^()]*\))"
    for _ in range(4):
        text = re.sub(rf"\(({name}) \.([a-z]\w*)\)", r"\1.\2", text)
        text = re.sub(rf"(?<=[-+*/=∷] )({name}) \.([a-z]\w*)", r"\1.\2", text)
        text = re.sub(rf"\((\w[\w']*(?: {word})+) \.([a-z]\w*)\)", r"(\1).\2", text)
        text = re.sub(rf"(?<== )(\w[\w']*(?: {word})+) \.([a-z]\w*)(?=;| \}}| in\b)", r"(\1).\2", text)
    return text


# What port.py writes in place of the kit's old words.
KIT = {"getD": "get_or", "needs": "rules"}


def told(lines):
    """The comment at an edit's head, without what it says of the pairs that are left out."""
    head = []
    while lines and lines[0].startswith("#"):
        head.append(lines.pop(0)[1:].strip())
    text = " ".join(head)
    new = re.sub(r"The proof goes along(?: as far as its shape)?: what it lacks is", "What the proof lacks is", text)
    new = re.sub(r" The proof goes along as far as the byte\.| The proof goes along as far as its shape: the call has a place of its own\.", "", new)
    if new == text:
        return ["# " + line for line in head] + lines
    return textwrap.wrap(new, 140, initial_indent="# ", subsequent_indent="# ", break_long_words=False, break_on_hyphens=False) + lines


class Edit:
    def __init__(self, path):
        self.lines = read(path).split("\n")

    def pairs(self):
        """(number of the line, file, old, new) for each `new:` line."""
        file = old = at = None
        for n, line in enumerate(self.lines):
            if line.startswith("file: "):
                file = line[6:].strip()
            elif line.startswith("old: "):
                old, at = line[5:], n
            elif line.startswith("new:"):
                yield at, n, file, old, re.sub(r"\A ", "", line[4:])


def main(before, turned, tree):
    names, respell.FIELDS = respell.table(turned)
    crates = {os.path.basename(c) for c in glob.glob(f"{tree}/crates/*")}
    left, tally = [], [0, 0, 0]
    for path in sorted(glob.glob(f"{before}/crates/*/must-fail/*.edit") + glob.glob(f"{before}/crates/*/wrong/*.edit")):
        name = os.path.relpath(path, before)
        crate = "/".join(name.split("/")[:2])
        edit = Edit(path)
        texts, now, gone, out, why = {}, {}, [], list(edit.lines), []

        def turn(text, rust):
            if rust:
                return respell.turn_rt(text, names)
            text = re.sub(r"(?<![\w'])_([^\w\s]+)_(?!\w)", r"◌\1◌", text)
            text = re.sub(r"[\w'·]+", lambda m: KIT.get(m.group(0), m.group(0)), text)
            return tight(respell.turn_antt(text, names, {"isR"}, False, crates))

        for n, line in enumerate(out):
            if not line.startswith(("file: ", "old: ", "new:")):
                out[n] = respell.prose(line, names)
        for at, n, file, old, new in edit.pairs():
            if file not in texts:
                texts[file] = read(f"{before}/{crate}/{file}")
                now[file] = read(f"{tree}/{crate}/{file}") if os.path.isfile(f"{tree}/{crate}/{file}") else None
            place = texts[file].index(old)
            after = texts[file].replace(old, new)
            if re.fullmatch(r"proofs/.+/Proof\.antt", file):
                gone += [at, n]
                tally[2] += 1
                texts[file] = after
                continue
            if now[file] is None:
                why.append(f"there is no {file}")
                texts[file] = after
                continue
            rust = file.endswith(".rt")
            to_new = turn(new, rust)
            if now[file].count(old) == 1:
                to_old = old
            elif now[file].count(turn(old, rust)) == 1:
                to_old = turn(old, rust)
            else:
                number = texts[file].count("\n", 0, place)
                was, is_now = texts[file].split("\n"), now[file].split("\n")
                like = lines_like(was, is_now).get(number)
                if like is None:
                    why.append(f"no line of {file} answers to: {old}")
                    texts[file] = after
                    continue
                # The whole of today's line, since it is not spelled as the script would.
                start = texts[file].rfind("\n", 0, place) + 1
                to_old = is_now[like]
                to_new = turn(texts[file][start:place] + new + was[number][place - start + len(old) :], rust)
                why.append(f"{file} has another line: {to_old.strip()}\n        old: {old}\n        new: {new}\n        now: {to_new}")
            out[at], out[n] = f"old: {to_old}", f"new: {to_new}" if to_new else "new:"
            if now[file].count(to_old) != 1:
                why.append(f"{file} has {now[file].count(to_old)} times: {to_old}")
            texts[file], now[file] = after, now[file].replace(to_old, to_new)
        kept = [line for n, line in enumerate(out) if n not in gone]
        # A `file:` line with no pair behind it goes too.
        kept = [line for n, line in enumerate(kept) if not line.startswith("file: ") or (kept[n + 1 :] and kept[n + 1].startswith("old: "))]
        if why:
            left.append((name, why))
        tally[0] += 1
        text = "\n".join(told(kept) if gone else kept)
        if text != read(f"{tree}/{name}"):
            tally[1] += 1
            with open(f"{tree}/{name}", "w", encoding="utf-8") as it:
                it.write(text)
    print(f"turn_edits: {tally[0]} edits, {tally[1]} written anew, {tally[2]} pairs left out; {len(left)} are left to be turned by hand")
    for name, why in left:
        print(name)
        for line in why:
            print("    " + line)


if __name__ == "__main__":
    main(*sys.argv[1:])
