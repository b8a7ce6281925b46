#!/usr/bin/env python3
"""Says which edits (crates/*/must-fail) do not fit the file that they change: of these the prover says nothing, and the gate counts them as failed.

    tools/fits.py

An edit fits if its file is there, each old text stands there once where its turn comes, and each new text differs from it. A file of definitions or
lemmas imports each name that it uses: there a new text has no name that the file had not, but one that the edit imports. Exit status: 0 where all fit,
else 1. tools/test looks too.
"""
import pathlib
import re
import sys

CRATES = pathlib.Path(__file__).resolve().parent.parent / "crates"
NAME = re.compile(r"[^\W\d][\w-]*")


def unfit():
    """What is to be told of each edit that does not fit, and how many there are in all."""
    edits = sorted(CRATES.glob("*/must-fail/*.edit"))
    told = {it: why_unfit(it, it.read_text(encoding="utf-8")) for it in edits}
    return [f"{it.relative_to(CRATES.parent)}: {why}" for it, why in told.items() if why], len(edits)


def why_unfit(edit, text):
    files, pairs = {*re.findall(r"^file: (\S+)$", text, re.M)}, re.findall(r"^old: (.*)\nnew: ?(.*)$", text, re.M)
    file = edit.parent.parent / (files.pop() if len(files) == 1 else "-")
    if not file.is_file() or not pairs:
        return "it names no one file that is there, or changes nothing"
    was = now = file.read_text(encoding="utf-8")
    for old, new in pairs:
        if now.count(old) != 1 or old == new:
            return f"`{old}` stands {now.count(old)} times in {file.name}, or is what it was"
        now = now.replace(old, new)
    known = {*NAME.findall(was), *(it for line in now.split("\n") if line.startswith("use ") for it in NAME.findall(line))}
    strange = {it for _, new in pairs for it in NAME.findall(new)} - known if file.suffix == ".antt" else ()
    return f"{file.name} does not have {', '.join(sorted(strange))}" if strange else ""


if __name__ == "__main__":
    found, count = unfit()
    print("".join(f"{it}\n" for it in found) + f"{count - len(found)} of {count} edits fit")
    sys.exit(bool(found))
