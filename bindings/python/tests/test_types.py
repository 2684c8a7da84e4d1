"""The types of the package."""
import os
import subprocess
import sys

import pytest
from conftest import ROOT

USE = '''
from typing import Any

import hayro_ccitt
from hayro_ccitt import DecodeError, RowFeed

picture: hayro_ccitt.Picture = hayro_ccitt.decode(b"", 8, 1, k=-1)
total: int = picture.rows + picture.damage.cut_rows
for row in hayro_ccitt.rows(memoryview(b""), **hayro_ccitt.from_tiff({256: 8, 257: 1, 259: 4})):
    kept: bytes = bytes(row)
with RowFeed(8, k=-1) as feed:
    feed.feed(b"")
    packed: bytes = feed.read_rows(1)
room = bytearray(1)
hayro_ccitt.decode(room, 8, 1, k=-1, out=memoryview(room))
with hayro_ccitt.open("scan.tif") as document:
    rows: int = sum(page.picture().rows for page in document)
    settings: dict[str, Any] = document[0].parts[0].arguments
try:
    data: bytes = hayro_ccitt.encode(packed, 8, k=-1)
except DecodeError as fault:
    rest: hayro_ccitt.Picture | None = fault.picture
found: hayro_ccitt.Violation | None = hayro_ccitt.check(room, 8, 1, k=-1, grade="procedure", k_limit=2)
if found:
    told: tuple[int, hayro_ccitt.Rule, str] = found.place, found.rule, found.section
'''


def test_types_are_those_that_mypy_finds(tmp_path):
    """With --strict, in the package and in a program that uses it."""
    pytest.importorskip("mypy")
    (tmp_path / "use.py").write_text(USE)
    words = [sys.executable, "-m", "mypy", "--strict", "--cache-dir", str(tmp_path), "-p", "hayro_ccitt"]
    for more in (words, [*words[:-2], str(tmp_path / "use.py")]):
        environment = {**os.environ, "MYPYPATH": str(ROOT / "bindings/python")}
        done = subprocess.run(more, cwd=ROOT / "bindings/python", env=environment, capture_output=True, text=True, check=False)
        assert done.returncode == 0, done.stdout + done.stderr
