#!/usr/bin/env python3
"""Respells the repository's own definitions and lemmas: words in snake case, types in camel case.

usage: python3 tools/respell_names.py [--anyway]        at the top, once, right after the kit's porting script

A dash stays only where it joins the names of two functions, as in `weigh-set`. Names that Rattle makes (goals,
invariants and measures in the folder of a function's proof) and names of src/ are left alone.
It prints each name that it would bring together with another of the same file, and then changes nothing; with
--anyway it goes on, as was done here for fields of two records that have one name.
"""
import os
import re
import sys

# Functions whose names a lemma's name joins: the outer call first.
JOINED = set("append cut drop entered exchanged get_or length map named noted occ over place raised set take total used weigh without".split())
MADE = re.compile(r"^(returns|invariant|loop|decreases|bounds|slice-bounds|overflow|unreachable|prove|nonzero|offset)(-|$)|-requires(-\w+)?$")
# Names that would fall together with another of the same file.
OWN = {"callsIn": "model_calls", "saved-below": "saved_below_lem"}
NAME = r"[^\s(){}\[\];,.:λ]+"
DEFINED = re.compile(r"^\s*(?:abbrev |unfoldable )?(?:pub )?(?:record |data )?(?:pub )?(" + NAME + r")(?: (?:\{|\().*)? : ")
TOKEN = re.compile(NAME)


def texts(endings):
    for folder, folders, files in os.walk("crates"):
        folders[:] = sorted(f for f in folders if f != "out")
        for name in sorted(files):
            if name.endswith(endings):
                path = os.path.join(folder, name)
                with open(path, encoding="utf-8") as f:
                    yield path, f.read()


def respelled(name):
    if MADE.search(name):
        return name
    if name[0].isupper():
        return "".join(part[0].upper() + part[1:] for part in name.split("-") if part)
    name = re.sub(r"(?<=[a-z0-9])[A-Z]", lambda m: "_" + m.group(0).lower(), name.replace("getD", "get_or"))
    parts = name.split("-")
    text = parts[0]
    for before, after in zip(parts, parts[1:]):
        text += ("-" if before in JOINED and after in JOINED else "_") + after
    return text


def main():
    words, defined = {}, set()
    for path, text in texts((".antt", ".rt")):
        words[path] = set(TOKEN.findall(text))
        if path.endswith(".antt"):
            made = os.path.basename(path) in ("Answers.antt", "Invariants.antt", "Proof.antt")
            for line in text.split("\n"):
                m = DEFINED.match(line)
                if m and not (made and MADE.search(m.group(1))):
                    defined.add(m.group(1))
    new = {n: OWN.get(n, respelled(n)) for n in defined if OWN.get(n, respelled(n)) != n}
    together = [f"{path}: {old} and {new[old]}" for path, these in words.items() if path.endswith(".antt") for old in sorted(these & new.keys()) if new[old] in these or any(new.get(o) == new[old] for o in these if o != old)]
    if together and "--anyway" not in sys.argv:
        print("\n".join(together))
        return 1
    for path, text in texts((".antt", ".rt")):
        turned = TOKEN.sub(lambda m: new.get(m.group(0), m.group(0)), text)
        if turned != text:
            with open(path, "w", encoding="utf-8") as f:
                f.write(turned)
    print(f"{len(new)} names respelled")
    return 0


if __name__ == "__main__":
    raise SystemExit(main())
