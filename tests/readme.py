#!/usr/bin/env python3
"""Runs every example of the pages below and compares what it prints with what the page says.

    python3 tests/readme.py [--write] [PAGE..]

An example is an indented line `$ COMMAND` and the indented lines behind it; standard output comes first, then standard error. With
--write the pages are given what was printed. To be run in the repository's root, after `make command`.
"""
import os
import re
import subprocess
import sys
import tempfile

PAGES = ["README.md", "crates/blink/README.md", "samples/README.md"]
INDENT = "    "


def run(command, folder):
    """What a user sees who types the command in a folder that has the samples."""
    path = os.path.abspath("target") + os.pathsep + os.environ["PATH"]
    done = subprocess.run(["bash", "-c", command], cwd=folder, env={**os.environ, "PATH": path}, capture_output=True)
    return (done.stdout + done.stderr).decode("utf-8", "backslashreplace").splitlines()


def examples(lines):
    """(command, first line of its output, line behind the last) of each example."""
    for at, line in enumerate(lines):
        if not line.startswith(INDENT + "$ "):
            continue
        end = at + 1
        while end < len(lines) and lines[end].startswith(INDENT) and not lines[end].startswith(INDENT + "$ "):
            end += 1
        yield line[len(INDENT) + 2 :].split("   #")[0].rstrip(), at + 1, end


def tried(page, folder):
    """The page with what its examples printed."""
    lines = open(page, encoding="utf-8").read().splitlines()
    out, done = [], 0
    for command, start, end in examples(lines):
        out += lines[done:start]
        out += [(INDENT + row).rstrip() for row in run(command, folder)]
        done = end
    return lines, out + lines[done:]


def main():
    write = "--write" in sys.argv
    pages = [a for a in sys.argv[1:] if a != "--write"] or PAGES
    wrong = 0
    for page in pages:
        with tempfile.TemporaryDirectory() as folder:
            os.symlink(os.path.abspath("samples"), os.path.join(folder, "samples"))
            before, after = tried(page, folder)
        if write:
            open(page, "w", encoding="utf-8").write("\n".join(after) + "\n")
        elif before != after:
            wrong += 1
            print(f"{page} does not say what is printed; `python3 tests/readme.py --write` gives it what is.")
            for b, a in zip(before, after):
                if b != a:
                    print(f"  page:    {b}\n  printed: {a}")
                    break
    print(f"{len(pages)} pages, {wrong} wrong")
    sys.exit(1 if wrong else 0)


main()
