"""The examples in the package's documentation, run in a folder with a scan."""
import doctest
import importlib
import pkgutil

import hayro_ccitt
import pytest
from made import NARROW
from test_files import tiff_of

# __main__ is the program.
MODULES = ["hayro_ccitt", *(f"hayro_ccitt.{it.name}" for it in pkgutil.iter_modules(hayro_ccitt.__path__) if it.name != "__main__")]


def test_examples_print_what_they_say(tmp_path, monkeypatch):
    for module in ("numpy", "PIL.Image"):
        pytest.importorskip(module)
    (tmp_path / "scan.tif").write_bytes(tiff_of({}, [NARROW.encoded(k=-1)]))
    monkeypatch.chdir(tmp_path)
    runs = {name: doctest.testmod(importlib.import_module(name)) for name in MODULES}
    assert not any(run.failed for run in runs.values()), runs
    assert {name for name, run in runs.items() if run.attempted} == {"hayro_ccitt", "hayro_ccitt.checking"}
    assert (tmp_path / "damage.png").read_bytes().startswith(b"\x89PNG"), "the damage is shown"
