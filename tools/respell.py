#!/usr/bin/env python3
"""Brings the repository's own definitions and lemmas to the spelling of today's Rattle: usage: tools/respell.py [--list], at the top.

It was run once, on what the kit's port.py had left, and is kept so that the port can be read again: port.py and then this, in a checkout of
the commit before them, give the same text. Words are in snake case, so `fourAt` is `four_at` and `line-given` is `line_given`; a dash stays
only behind a name of std, as in `length-each`; `getD` is std's `get_or`. A lemma that would have its function's name gets `_lem`. Types and modules keep their capitals. Names of Rust items, of std
and of what Rattle generates are left alone. It goes over specs/, proofs/, must-fail/ and what src/ says outside its strings."""

import glob
import os
import re
import sys

TOKEN = re.compile(r"[^\s(){}\[\].,;:\"@`&|!<>=+*/%?#^~$]+")
WORDS = re.compile(r"[a-z0-9'₀-₉]+|[A-Z][a-z0-9'₀-₉]*")
# Two names of the repository that would fall together, or meet a name of Rust in the same file.
OTHERWISE = {"Read-on": "ReadOn", "tagMK": "tag_mk", "tag4CHN": "tag_4chn", "tag6CHN": "tag_6chn", "tag8CHN": "tag_8chn", "is-zero": "is_zero_lem", "kept-at": "kept_at_lem", "sign-of": "sign_of_lem", "get_d_replicate": "get_or-replicate"}
HERE = {"crates/voice/specs/Moved.antt": {"moved_at": "moved_at_lem"}}


def files(pattern):
    return sorted(f for f in glob.glob(pattern, recursive=True) if "/out/" not in f)


def bare(line):
    return re.sub(r"(^|\s)--(\s.*|$)", "", line)


def snake(word):
    if word == "getD":
        return "get_or"
    if word[:1].isupper():
        return word
    return re.sub(r"(?<=[a-z0-9'])([A-Z])", lambda m: "_" + m[1].lower(), word)


def read():
    """What the repository defines, and what it takes from elsewhere."""
    defined, taken = set(), set()
    for path in files("crates/*/specs/**/*.antt") + files("crates/*/proofs/**/*.antt"):
        for line in open(path, encoding="utf-8"):
            line = bare(line.rstrip("\n"))
            use = re.match(r"\s*(?:pub )?use (\S+?)(?:\.\{(.*)\})?( as .*)?$", line)
            if use:
                if not re.match(r"Rattle\.(?!std\b)", use[1]):
                    taken.update(t.strip() for t in (use[2] or "").split(","))
                continue
            if re.match(r"\s*(module|where|let|in|λ|unfolding)\b", line):
                continue
            m = re.match(r"\s*(?:(?:pub|abbrev|unfoldable|opaque|instance|record|data|ruleset)\s+)*([^\s:(){}=λ]+(?:\s+[^\s:(){}=λ]+)*?)\s*(?::|\(|\{|=|$)", line)
            if m:
                defined.update(m[1].split())
    return defined, taken


def table():
    defined, taken = read()
    words = {n for n in taken if re.match(r"[a-z]\w*$", n)}
    new = {}
    for name in sorted(defined - taken):
        if not re.match(r"[A-Za-z]", name) or re.match(r"(invariant|decreases)-", name):
            continue
        head, *rest = [snake(p) for p in name.split("-")]
        dash = "-" if head in words and rest[-1:] != ["spec"] else "_"
        said = OTHERWISE.get(name) or head + "".join((dash if i == 0 else "_") + p for i, p in enumerate(rest))
        if said != name:
            new[name] = said
    # A parameter, which no line defines.
    new["voicesOf"] = "voices_of"
    functions = {said for name, said in new.items() if "-" not in name}
    for name, said in new.items():
        if "-" in name and said in functions:
            new[name] = said + "_lem"
    return defined, taken, new


def turned(text, new, keep=lambda m: False):
    return TOKEN.sub(lambda m: m[0] if m[0] not in new or keep(m) else new[m[0]], text)


def main():
    defined, taken, new = table()
    if "--list" in sys.argv:
        for a, b in sorted(new.items()):
            print(a, b)
        met = {}
        for a, b in new.items():
            met.setdefault(b, []).append(a)
        for b, a in sorted(met.items()):
            if len(a) > 1 or b in defined or b in taken:
                print("MEETS", b, a, b in defined, b in taken)
        return
    for path in files("crates/*/specs/**/*.antt") + files("crates/*/proofs/**/*.antt"):
        text = open(path, encoding="utf-8").read()
        out = []
        for line in text.split("\n"):
            use = re.match(r"\s*(?:pub )?use (\S+)", line)
            if use and not re.match(r"Rattle\.(?!std\b)", use[1]):
                out.append(line)
                continue
            out.append(turned(line, new | HERE.get(path, {}), lambda m: line[: m.start()].endswith("tie.")))
        write(path, text, "\n".join(out))
    for path in files("crates/*/src/**/*.rt"):
        text = open(path, encoding="utf-8").read()
        write(path, text, "".join(p if i % 2 else turned(p, new) for i, p in enumerate(re.split(r'("(?:[^"\\\n]|\\.)*")', text))))
    for path in files("crates/*/must-fail/*.edit"):
        text = open(path, encoding="utf-8").read()
        write(path, text, "\n".join(l if l.startswith("file:") else turned(l, new) for l in text.split("\n")))


def write(path, old, new):
    if new != old:
        with open(path, "w", encoding="utf-8") as f:
            f.write(new)


if __name__ == "__main__":
    main()
