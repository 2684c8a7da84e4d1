"""Checks of the library for ARM64, as `make library TARGET=aarch64-unknown-linux-gnu` builds it: the calls on the cases that the library for
x86-64 is checked on, and an example on real strips, under qemu."""
import os
import shutil
import subprocess
import tempfile
from pathlib import Path

import corpus
from c import c_library, encoder, feed, hostile, row_by_row
from gate.built import made_by
from gate.skipped import leave_out

TARGET = "aarch64-unknown-linux-gnu"
CROSS = "aarch64-linux-gnu"
INSTALLED = os.path.abspath(f"build/checked/{TARGET}")
LIBRARY = f"{INSTALLED}/lib"
EMULATED = ["qemu-aarch64", "-L", f"/usr/{CROSS}", "-E", f"LD_LIBRARY_PATH={LIBRARY}"]


def lacking():
    """A tool that the checks need and that isn't installed, or None."""
    return next((tool for tool in (f"{CROSS}-gcc", "qemu-aarch64") if not shutil.which(tool)), None)


def build():
    """The library, installed. Returns whether the tools for it are there."""
    if lacking():
        leave_out("the library for ARM64", lacking())
        return False
    made_by("library", "install-library", f"TARGET={TARGET}", f"PREFIX={INSTALLED}")
    return True


def compiled(out, source, *linked):
    command = [f"{CROSS}-gcc", "-O2", "-Wall", "-Wextra", "-Werror", "-std=gnu11", f"-I{INSTALLED}/include", "-o", out, source, *linked]
    subprocess.run(command, check=True)
    return out


def printed_by(driver, text):
    """What a driver of this folder prints for its input, over the static library, with the caller's memory before a page that may not be
    touched, and over the shared one, with the memory after one."""
    with tempfile.TemporaryDirectory() as folder:
        for linked, front in ([f"{LIBRARY}/libhayro_ccitt.a"], []), ([f"-L{LIBRARY}", "-lhayro_ccitt"], ["-E", "FRONT=1"]):
            path = compiled(f"{folder}/driver", f"checks/c/{driver}.c", *linked)
            done = subprocess.run([*EMULATED, *front, path], input=text, capture_output=True, text=True, check=False, timeout=900)
            assert (done.returncode, done.stderr) == (0, ""), (driver, done.returncode, done.stdout[-500:] + done.stderr[-2000:])
            yield done.stdout


def calls_on_arm64():
    """Each call on the cases whose results are known, the calls of one row beside those of the whole, and hostile data in pieces."""
    if not build():
        return
    for driver, lines in (
        ("known_calls", [*c_library.known_cases(), *c_library.spread_cases(), *encoder.known_cases(), *encoder.spread_cases()]),
        ("row_by_row", row_by_row.lines_of(row_by_row.cases())),
        ("strip_by_rows", row_by_row.lines_of(row_by_row.pictures())[::FEW]),
        ("feed", row_by_row.lines_of(feed.hostile())),
    ):
        for printed in printed_by(driver, "".join(lines)):
            print(f"  {driver}: {printed}", end="")


# one in so many pictures is written row by row: under qemu each takes some eight times as long
FEW = 8


def hostile_data_on_arm64():
    """Each hostile case by each call has the result that is known."""
    if not build():
        return
    cases = hostile.small_cases()
    for printed in printed_by("each_call", hostile.lines_of(cases)):
        assert [hostile.answer_of(line) for line in printed.splitlines()] == [expected for _, _, expected in cases], "other answers"
    print(f"  {len(cases)} cases")


def strips_on_arm64():
    """The C program decodes each strip to its picture."""
    if not build():
        return
    strips = 0
    with tempfile.TemporaryDirectory() as folder:
        example = compiled(f"{folder}/strip_to_pbm", "examples/strip_to_pbm.c", f"{LIBRARY}/libhayro_ccitt.a")
        for name, strip, mode, columns, rows, settings, picture, first, *_ in corpus.lines_of("manifest.tsv"):
            width = (int(columns) + 7) // 8
            packed = Path(f"corpus/{picture}").read_bytes()[int(first) * width : (int(first) + int(rows)) * width]
            limit, flags = settings.split(",")[0].split(":")
            drawn = c_library.ran(Path(f"corpus/{strip}").read_bytes(), *EMULATED, example, mode, columns, limit, flags)
            assert drawn == f"P4\n{columns} {rows}\n".encode() + packed, name
            strips += 1
    assert strips > 0
    print(f"  {strips} strips")


CHECKS = [calls_on_arm64, hostile_data_on_arm64, strips_on_arm64]
