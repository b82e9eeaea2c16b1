#!/usr/bin/env python3
"""Takes up the unfinished work that docs/PORT.md tells of.

usage: python3 tools/take_up.py process    at the top of the repository, with everything committed
       python3 tools/take_up.py PATH..     each file or folder below unfinished/, as crates/lines

`process` applies unfinished/process.patch, which is laid out for the tree in which it stands.
A PATH goes to its own place, sources without the `.txt` after their names, and leaves unfinished/. These files are
older than the tree: what they say of crates that have changed since has to be brought up to date by hand.
"""
import os
import shutil
import subprocess
import sys

ASIDE = "unfinished"
PATCH = os.path.join(ASIDE, "process.patch")


def own_path(path):
    below = os.path.relpath(path, ASIDE)
    return below[: -len(".txt")] if below.endswith((".rt.txt", ".antt.txt")) else below


def files_below(path):
    if os.path.isfile(path):
        return [path]
    return [os.path.join(folder, name) for folder, _, names in os.walk(path) for name in names]


def take(path):
    found = files_below(os.path.join(ASIDE, path))
    if not found:
        sys.exit(f"take_up.py: nothing at {ASIDE}/{path}")
    for source in found:
        to = own_path(source)
        os.makedirs(os.path.dirname(to) or ".", exist_ok=True)
        shutil.move(source, to)


def main():
    if len(sys.argv) < 2:
        sys.exit(__doc__)
    if subprocess.run(["git", "status", "--porcelain"], capture_output=True, text=True, check=True).stdout:
        sys.exit("take_up.py: commit first")
    for path in sys.argv[1:]:
        if path == "process":
            subprocess.run(["git", "apply", PATCH], check=True)
            os.remove(PATCH)
        else:
            take(path)


if __name__ == "__main__":
    main()
