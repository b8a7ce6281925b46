#!/usr/bin/env python3
"""Which program ./cml runs: the proved one where it is of these sources, else one that is compiled with nothing proved, once for each state of them.

    tools/ready.py LIST              compiles what is to be compiled, and prints the program's path, from the top of the repository
    tools/ready.py --version LIST    prints the commit, the toolchain, and what the program is; compiles nothing
    tools/ready.py --faster          compiles for speed what was compiled to be there soon; started by the first of these

What counts as a source: of the crate `cml` and each crate below it, all of src and its line of crates.txt; for `proved` also specs, proofs and HANDLES.
The records `out/proved` and `out/unproved` have the sum (SHA-256) of all these files as they were before the program was made and were still when it
was, the toolchain's line, and the sum of the program. A program is run only where its sum and that of its sources are as its record says.

So that a start is cheap, LIST is a command that lists all these files with their sizes, times and numbers. Where its output is what stands in `out/now`, no
file was written, moved or put in place of another since the sums were compared, and ./cml starts the program that is named there; else it asks here.
A time of change (ctime) is set by the system and cannot be set back by a program; files that changed within the last two seconds are not trusted to it.

What takes longest is to read the sources; and then clang takes some five times as long for a fast program as for a slow one. So the program is compiled
to be there soon first. What clang is given is kept in `out/parts`, and a process that nobody waits for compiles it for speed, and puts the faster program
in place of the other, where that one is still there. Until then `out/now` is not written: each start asks here, and where that process was stopped, it is
started anew. It holds the file `out/faster` locked, so there is one at a time, and takes `out/lock` only for the change of the two files.
"""
import fcntl
import hashlib
import os
import pathlib
import re
import shutil
import signal
import subprocess
import sys
import tempfile
import time

sys.dont_write_bytecode = True
sys.path.insert(0, str(pathlib.Path(__file__).resolve().parent))
import toolchain  # noqa: E402
import unproved  # noqa: E402

TOP = unproved.TOP
OUT = TOP / "out"
PROGRAMS = {"proved": "crates/cml/out/cml", "unproved": "out/cml"}  # in the order in which they are chosen
WORDS = {
    "proved": "proved",
    "unproved": "compiled with nothing proved: each access and each sum is tested while it runs, so it may be up to twice as slow; tools/prove proves it",
    "soon": "compiled with nothing proved, and not for speed yet: a faster program is being made; tools/prove proves it",
}
MADE = [*PROGRAMS.values(), "out/proved"]  # what only this and tools/prove write
PARTS = OUT / "parts"  # what is to be compiled for speed
FRESH = 2  # seconds


def crates():
    """The lines of crates.txt for the crate `cml` and those below it."""
    found = re.findall(r"^((\w+)[^:\n]*:(.*))$", (TOP / "crates.txt").read_text(encoding="utf-8"), re.M)
    needs = {name: [line, *rest.split()] for line, name, rest in found}
    below = ["cml"]
    for name in below:
        below += [it for it in needs[name][1:] if it in needs and it not in below]
    return {name: needs[name][0] for name in sorted(below)}


def sources(kind):
    """The sum of the sources of the program of this kind."""
    sum = hashlib.sha256(f"{kind}\n".encode())
    folders = ("src", "specs", "proofs") if kind == "proved" else ("src",)
    for name, line in crates().items():
        sum.update(f"{line}\n".encode())
        for path in sorted(it for folder in folders for it in (TOP / "crates" / name / folder).rglob("*") if it.is_file()):
            sum.update(f"{path.relative_to(TOP)} {hashlib.sha256(path.read_bytes()).hexdigest()}\n".encode())
    if kind == "proved":
        sum.update((TOP / "HANDLES").read_bytes())
    return sum.hexdigest()


def write(path, text):
    """Writes a file apart, and renames it once it is whole."""
    part = path.with_name(f".{path.name}-{os.getpid()}")
    part.write_text(text, encoding="utf-8")
    os.replace(part, path)


def sum_of(program):
    return hashlib.sha256(program.read_bytes()).hexdigest()


def record(kind, before):
    """Records that the program of this kind was made of the sources whose sum this is."""
    OUT.mkdir(exist_ok=True)
    write(OUT / kind, f"sources {before}\nprogram {sum_of(TOP / PROGRAMS[kind])}\ntoolchain {toolchain.line()}\n")


def recorded(kind):
    try:
        return dict(it.split(" ", 1) for it in (OUT / kind).read_text(encoding="utf-8").splitlines())
    except (OSError, ValueError):
        return {}


def stands(kind):
    """Whether there is a program of this kind, of the sources as they are now."""
    told, program = recorded(kind), TOP / PROGRAMS[kind]
    if not told or not os.access(program, os.X_OK):
        return False
    return told.get("program") == sum_of(program) and told.get("sources") == sources(kind)


def is_slow():
    """Whether the program with nothing proved is still to be compiled for speed."""
    return PARTS.exists()


def listed(command):
    return subprocess.run(["sh", "-c", command], cwd=TOP, capture_output=True, text=True, check=False).stdout


def chosen(command):
    """The kind of the program that there is, or nothing. It is written down for the next start."""
    text = listed(command)
    kind = next((it for it in PROGRAMS if stands(it)), None)
    changed = [float(it.split()[-2]) for it in text.splitlines() if not it.startswith(tuple(MADE))]
    if kind == "unproved" and is_slow():
        make_faster()
    elif kind and changed and max(changed) + FRESH < time.time():
        write(OUT / "now", f"{PROGRAMS[kind]}\n{text}")
    return kind


def make():
    """Compiles the program with nothing proved, so that it is there soon."""
    for it in OUT.glob(".making-*"):
        shutil.rmtree(it, ignore_errors=True)
    before = None
    while before != sources("unproved"):
        before = sources("unproved")
        unproved.build(TOP, "cml", TOP / PROGRAMS["unproved"], unproved.SOON, PARTS)
    record("unproved", before)
    print("cml: compiled with nothing proved, and not for speed: a faster program follows by itself; tools/prove proves it", file=sys.stderr, flush=True)


def make_faster():
    """Starts what compiles for speed, where it does not run yet. Nobody waits for it."""
    with open(OUT / "faster", "w", encoding="utf-8") as alone:
        try:
            fcntl.flock(alone, fcntl.LOCK_EX | fcntl.LOCK_NB)
        except BlockingIOError:
            return
    none = dict.fromkeys(("stdin", "stdout", "stderr"), subprocess.DEVNULL)
    subprocess.Popen([sys.executable, __file__, "--faster"], start_new_session=True, **none)  # pylint: disable=consider-using-with


def faster():
    """Compiles what lies in `out/parts` for speed, as long as something lies there."""
    os.nice(5)
    with open(OUT / "faster", "w", encoding="utf-8") as alone, open(OUT / "lock", "w", encoding="utf-8") as lock:
        fcntl.flock(alone, fcntl.LOCK_EX)
        for it in OUT.glob(".faster-*"):
            shutil.rmtree(it, ignore_errors=True)
        while is_slow():
            of = unproved.made_of(PARTS)
            with tempfile.TemporaryDirectory(prefix=".faster-", dir=OUT, ignore_cleanup_errors=True) as folder:
                try:
                    program = unproved.build_again(PARTS, pathlib.Path(folder))
                except (toolchain.Changed, OSError):
                    program = None
                fcntl.flock(lock, fcntl.LOCK_EX)
                put_in_place(program, of)
                fcntl.flock(lock, fcntl.LOCK_UN)


def put_in_place(program, of):
    """Puts the faster program in place of the one whose sum is `of`, if that is still there. What it was made of goes, unless that is newer."""
    told, now = recorded("unproved"), TOP / PROGRAMS["unproved"]
    if unproved.made_of(PARTS) != of:
        return
    if program and now.exists() and told.get("program") == of == sum_of(now):
        os.replace(program, now)
        record("unproved", told["sources"])
    shutil.rmtree(PARTS, ignore_errors=True)


def wait_for(lock):
    try:
        fcntl.flock(lock, fcntl.LOCK_EX | fcntl.LOCK_NB)
    except BlockingIOError:
        if sys.stderr.isatty():
            print("cml: another cml compiles it; waiting", file=sys.stderr, flush=True)
        fcntl.flock(lock, fcntl.LOCK_EX)


def ready(command):
    """The kind of the program, which is there now: of two at once one compiles, and the other waits."""
    OUT.mkdir(exist_ok=True)
    kind = chosen(command)
    if not kind:
        with open(OUT / "lock", "w", encoding="utf-8") as lock:
            wait_for(lock)
            if not chosen(command):
                make()
            kind = chosen(command)
    return kind


def version(command):
    commit = toolchain.said("git", "-C", str(TOP), "rev-parse", "--short", "HEAD")
    changes = toolchain.said("git", "-C", str(TOP), "status", "--porcelain", "--", "crates", "crates.txt", "HANDLES")
    print(f"cml {commit or 'of no commit'}{' and changes that are not committed' if commit and changes else ''}")
    kind = chosen(command)
    print(recorded(kind)["toolchain"] if kind else toolchain.line() or "no toolchain: there is no command rt")
    is_soon = kind == "unproved" and is_slow()
    print(WORDS["soon" if is_soon else kind] if kind else "not compiled yet: the next command compiles it with nothing proved, in one to four minutes")


def main():
    for it in (signal.SIGTERM, signal.SIGHUP, signal.SIGINT):
        signal.signal(it, lambda number, _: sys.exit(128 + number))
    if sys.argv[1:2] == ["--version"]:
        version(sys.argv[2])
    elif sys.argv[1:2] == ["--faster"]:
        faster()
    else:
        print(PROGRAMS[unproved.or_why(lambda: ready(sys.argv[1]))])


if __name__ == "__main__":
    main()
