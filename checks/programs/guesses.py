"""Checks of `faxconv --guess`: what it says of raw data of the corpus is right for 95 of 100 strips, and it says of files of other kinds that
they aren't fax data; on some of both, on strips whose bits are turned, and on damaged ones it says what the Python package does."""
import json
import os
import sys
from pathlib import Path

import corpus
from gate import built
from programs.fax import run
from releases import users

MODES = {"g4": "Group 4", "1d": "Group 3, one-dimensional", "2d": "Group 3, two-dimensional"}
# Narrower rows are read in many ways.
LEAST_COLUMNS = 33


def strips():
    """Each strip of some rows once, with what is to be guessed: the width, the number of rows, and the encoding."""
    found = {}
    for _, strip, mode, columns, rows, settings, *_ in corpus.lines_of("manifest.tsv"):
        if int(columns) >= LEAST_COLUMNS and int(rows) > 8 and "r" not in settings:
            found.setdefault(f"corpus/{strip}", f"{columns} x {rows}, {MODES[mode]}")
    return found


def other_files(count):
    """Files of other kinds: pictures, programs, texts and tables of the repository."""
    names = [name for folder in ("docs", "crates/fax_bits", "checks", "c", "web", "examples") for name in sorted(Path(folder).rglob("*.*"))]
    small = [name for name in names if name.is_file() and not {"out", "__pycache__"} & set(name.parts) and name.stat().st_size < 1 << 13]
    return small[:: len(small) // count][:count]


def guessed(data, *words):
    """What is said of each guess, by the fields of its line."""
    status, out, told = run("--guess", *words, data=data)
    lines = [line.removeprefix("standard input: ").split("; ") for line in out.decode().splitlines()]
    assert told == "" and status == (1 if lines == [["not fax data"]] else 3 if "damaged" in lines[0][0] else 0), (status, lines, told)
    return lines


def strips_are_guessed():
    """Of raw data 95 of 100 strips are right, and read so by the options that are told."""
    built.have("faxconv")
    wanted = strips()
    wrong = []
    for strip, words in wanted.items():
        data = Path(strip).read_bytes()
        lines = guessed(data)
        if not lines[0][0].startswith(words):
            wrong.append((strip, lines[0]))
            continue
        status, picture, told = run(*lines[0][-1].split(), data=data)
        assert status == 0 and picture.startswith(b"P4\n%s\n" % words.partition(",")[0].replace(" x", "").encode()), (strip, status, told)
    assert len(wanted) >= 60 and 20 * len(wrong) <= len(wanted), wrong
    print(f"  {len(wanted) - len(wrong)} of {len(wanted)} strips")


def other_files_are_refused():
    """Of files of other kinds 99 of 100 aren't fax data."""
    built.have("faxconv")
    files = other_files(100)
    taken = [str(name) for name in files if guessed(name.read_bytes()) != [["not fax data"]]]
    assert len(files) == 100 and len(taken) <= 1, taken
    assert guessed(b"") == [["not fax data"]]
    print(f"  {len(files)} files")


def lines_are_as_told():
    """A width that is given is the only one; JSON has the fields of a line; rules that are broken are told; and a status of several files
    is the worst."""
    built.have("faxconv")
    data = Path("corpus/strips/page/gs-g4").read_bytes()
    best = ["1240 x 1754, Group 4", "all data is read strictly, a usual width", "every decoder must read it so", "-m g4 -w 1240 -r 1754"]
    assert guessed(data)[0] == best and guessed(data, "-w", "1240")[0] == best
    assert guessed(data, "-w", "1241") == [["not fax data"]]
    status, out, told = run("--guess", "--json", data=data)
    it = json.loads(out.splitlines()[0])
    assert (status, told) == (0, "") and [it[key] for key in ("columns", "rows", "whole", "damaged", "usual", "negative", "options", "violation")] == [
        *(1240, 1754, True, 0, True, False, best[-1], None)
    ], it
    assert json.loads(run("--guess", "--json", data=b"no fax")[1]) == {"file": "standard input", "wrong": "not fax data"}
    broken = bytearray(data)
    broken[len(data) * 3 // 4] ^= 0xFF
    assert "damaged" in guessed(bytes(broken))[0][0] and "breaks a rule" in guessed(bytes(broken))[0][2]
    assert run("--guess", "corpus/strips/page/gs-g4", "README.md")[0] == 1
    print("  lines, JSON and statuses")


def as_python_guesses():
    """The guesses, their order and their words are those of the Python package."""
    users.make()
    os.environ.setdefault("HAYRO_CCITT_LIBRARY", os.path.abspath("build/libhayro_ccitt.so"))
    sys.path.insert(0, os.path.abspath("bindings/python"))
    import hayro_ccitt  # pylint: disable=import-outside-toplevel

    cases = {str(name): name.read_bytes() for name in other_files(12)}
    for number, strip in enumerate(list(strips())[::4]):
        data = bytearray(Path(strip).read_bytes())
        if number % 4 == 1:
            data = bytearray(int(f"{byte:08b}"[::-1], 2) for byte in data)
        elif number % 4 == 2:
            data[len(data) * 3 // 4] ^= 0xFF
        elif number % 4 == 3:
            del data[len(data) * 3 // 4 :]
        cases[f"{strip} {number % 4}"] = bytes(data)
    for name, data in cases.items():
        own = [str(it) for it in hayro_ccitt.guess(data)] or ["not fax data"]
        assert [line[0] for line in guessed(data)] == own, (name, own)
    print(f"  {len(cases)} files")


CHECKS = [strips_are_guessed, other_files_are_refused, lines_are_as_told, as_python_guesses]
