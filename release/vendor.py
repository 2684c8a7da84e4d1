"""Copies proved crates of this repository into another one, with those that they use, and names them in its crates.txt:

    python3 release/vendor.py REPOSITORY CRATE..

`rt` takes the crates of one repository, as files: links, and repositories in it, are refused. What was copied before is replaced. The
edits aren't copied: they try these crates' own contracts."""
import os
import re
import shutil
import sys

HERE = os.path.join(os.path.dirname(os.path.abspath(__file__)), "..")
PARTS = ["src", "specs", "proofs"]


def named(path):
    """The lines of crates.txt by the name of the crate: all of the line, and the names that it depends on."""
    lines = {}
    if os.path.exists(path):
        with open(path, encoding="utf-8") as file:
            for line in file:
                if line.strip() and not line.startswith("#"):
                    front, _, back = line.partition(":")
                    lines[front.split()[0]] = line.strip(), back.split()
    return lines


def needed(chosen, lines):
    """These crates and those that they depend on, each after what it depends on."""
    found = []
    for name in chosen:
        below = [it for it in lines[name][1] if it in lines]
        found += [it for it in [*needed(below, lines), name] if it not in found]
    return found


def main(repository, chosen):
    lines, theirs = named(f"{HERE}/crates.txt"), named(f"{repository}/crates.txt")
    unknown = [name for name in chosen if name not in lines]
    if unknown:
        sys.exit(f"no crate {unknown[0]}: there are {', '.join(sorted(lines))}")
    for name in needed(chosen, lines):
        for part in PARTS:
            to = f"{repository}/crates/{name}/{part}"
            shutil.rmtree(to, ignore_errors=True)
            if os.path.exists(f"{HERE}/crates/{name}/{part}"):
                shutil.copytree(f"{HERE}/crates/{name}/{part}", to)
        if name not in theirs:
            with open(f"{repository}/crates.txt", "a", encoding="utf-8") as file:
                file.write(f"{lines[name][0]}\n")
        print(f"crates/{name}")


if __name__ == "__main__":
    if len(sys.argv) < 3 or not re.fullmatch(r"[^-].*", sys.argv[1]):
        sys.exit(__doc__.strip())
    main(sys.argv[1], sys.argv[2:])
