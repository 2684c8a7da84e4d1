"""`python3 -m hayro_ccitt many` on folders and lists of files: what it prints, what it writes, and what it goes on after."""
import json
import os
import shutil
import signal
import subprocess
import sys
import time

import made
import pytest
from conftest import ROOT
from made import NARROW, PAGE
from test_files import DATA, GRAY, ran, tiff_of

HALF = tiff_of({}, [DATA[: len(DATA) // 2]])


@pytest.fixture
def folder(tmp_path):
    """A folder of files, with what is to be said of each, and the pictures of those that have any."""
    files = tmp_path / "in"
    (files / "b").mkdir(parents=True)
    (files / "a.tif").write_bytes(tiff_of({}, [DATA]))
    (files / "b" / "half.TIFF").write_bytes(HALF)
    (files / "b" / "jpeg.tif").write_bytes(tiff_of({259: [7]}, [DATA]))
    (files / "c.pdf").write_bytes(b"no PDF")
    (files / "d.txt").write_bytes(b"no fax")
    (files / "page.tif").write_bytes(tiff_of({256: [1240], 257: [1754]}, [PAGE.encoded(k=-1)]))
    return files


NAMES = ["a.tif", "c.pdf", "page.tif", "b/half.TIFF", "b/jpeg.tif"]
TOLD = ["1 ok", "neither TIFF nor PDF", "1 ok", "image 0: unexpected end of input, ", "image 0: not decoded: compression 7 isn't 2, 3 or 4"]


def many(*words, **more):
    return ran("many", *map(str, words), **more)


def test_files_are_told_in_order(folder):
    for jobs in (1, 3):
        done = many(folder, "-j", jobs)
        *lines, last = done.stdout.splitlines()
        assert len(lines) == len(NAMES)
        for line, name, told in zip(lines, NAMES, TOLD):
            assert line.startswith(f"{folder / name}: {told}")
        assert (last, done.returncode, done.stderr) == ("5 files: 2 ok, 2 not whole, 1 not read", 2, "")


def test_lines_are_json(folder):
    done = many(folder, "--json")
    found = [json.loads(line) for line in done.stdout.splitlines()]
    assert [it["file"] for it in found] == [str(folder / name) for name in NAMES]
    assert [it["status"] for it in found] == [0, 2, 0, 1, 1]
    whole = {"columns": 1240, "rows": 1754, "result": "ok", "damaged_rows": 0, "missed_eols": 0, "cut_rows": 0}
    assert found[2] == {"file": str(folder / "page.tif"), "status": 0, "images": [whole], "error": ""}
    assert (done.stderr, done.returncode) == ("5 files: 2 ok, 2 not whole, 1 not read\n", 2)


def test_a_list_names_files_and_folders(folder, tmp_path):
    (tmp_path / "list").write_text(f"{folder / 'page.tif'}\n{folder / 'b'}\n{folder / 'a.tif'}\n{folder / 'd.txt'}\n{folder / 'nowhere.tif'}\n")
    *lines, last = many(f"@{tmp_path / 'list'}").stdout.splitlines()
    names = ["page.tif", "b/half.TIFF", "b/jpeg.tif", "a.tif", "d.txt", "nowhere.tif"]
    assert [line.split(": ")[0] for line in lines] == [str(folder / name) for name in names]
    assert lines[4].endswith(": neither TIFF nor PDF") and "No such file" in lines[5]
    assert last == "6 files: 2 ok, 2 not whole, 2 not read"
    assert many(folder / "a.tif", folder / "page.tif").returncode == 0
    empty = many(tmp_path / "in" / "b" / "half.TIFF", "@nowhere")
    assert empty.returncode == 2 and "nowhere" in empty.stderr


def written(out):
    return {str(path.relative_to(out)): path.read_bytes() for path in out.rglob("*.pbm")}


def test_pictures_are_written_once(folder, tmp_path):
    out = tmp_path / "out"
    first = many(folder, "-o", out)
    rows = int(first.stdout.split(f" of {NARROW.rows} rows")[0].split()[-1])
    half = NARROW.pbm()[: -5 * (NARROW.rows - rows)] + bytes(5 * (NARROW.rows - rows))
    expected = {"a.tif/0.pbm": NARROW.pbm(), "page.tif/0.pbm": PAGE.pbm(), "b/half.TIFF/0.pbm": half}
    assert written(out) == expected and not [*out.rglob("*.part")]
    for path in out.rglob("*.pbm"):
        path.write_bytes(b"mine")
    shutil.rmtree(out / "page.tif")
    (out / "page.tif.part" / "0123").mkdir(parents=True)  # what a run that was ended has left
    second = many(folder, "-o", out)
    assert (second.stdout, second.returncode) == (first.stdout, 2)
    assert written(out) == {**dict.fromkeys(expected, b"mine"), "page.tif/0.pbm": PAGE.pbm()} and not [*out.rglob("*.part")]
    third = many(folder, "-o", out, "--overwrite")
    assert third.stdout == first.stdout and written(out) == expected


def test_other_files_are_not_overwritten(folder, tmp_path):
    out = tmp_path / "out"
    for other in ("a.tif", "page.tif"):
        (out / other).mkdir(parents=True)
    (out / "a.tif" / "0.pbm").write_bytes(b"mine")
    for words in ([], ["--overwrite"]):
        done = many(folder / "a.tif", folder / "page.tif", "-o", out, *words)
        assert done.stdout.splitlines()[-1] == "2 files: 0 ok, 0 not whole, 2 not read"
        assert f"{out / 'a.tif'} is there, and isn't of an earlier run" in done.stdout
    assert written(out) == {"a.tif/0.pbm": b"mine"}
    done = many(folder / "a.tif", folder / "page.tif", "-o", folder / "d.txt")
    assert done.stdout.count("Not a directory") == 2 and done.returncode == 2


def test_files_that_break_stop_nothing_else(folder, tmp_path):
    """A file for which the reader of PDF ends, one for which it doesn't, and one that ends the worker once."""
    modules = tmp_path / "modules"
    modules.mkdir()
    (modules / "pikepdf.py").write_text(
        "import os, signal\n"
        "def open(path):\n"
        f"    if 'worker' in path and not os.path.exists(done := {str(tmp_path / 'done')!r}):\n"
        "        os.mkdir(done)\n"
        "        os.kill(os.getppid(), signal.SIGKILL)\n"
        "    if 'crash' in path:\n"
        "        os.kill(os.getpid(), signal.SIGSEGV)\n"
        "    while 'endless' in path: pass\n"
        "    raise ValueError('no')\n"
    )
    for name in ("crash.pdf", "endless.pdf", "worker.pdf"):
        made.saved(folder, name[:-4], lambda to: to.stream(made.image_of(NARROW, GRAY), DATA))
    (folder / "z.tif").write_bytes(tiff_of({}, [DATA]))
    done = many(folder, "-j", 2, "--seconds", 1, "-o", tmp_path / "out", modules=modules)
    told = dict(line.split(": ", 1) for line in done.stdout.splitlines())
    assert told[str(folder / "crash.pdf")] == "not readable: ended by SIGSEGV"
    assert told[str(folder / "endless.pdf")] == "not readable: it takes more than 1 s"
    assert told[str(folder / "worker.pdf")] == "not readable: no"
    assert told[str(folder / "z.tif")] == "1 ok" and told["9 files"] == "3 ok, 2 not whole, 4 not read"
    assert (tmp_path / "done").exists()
    assert set(written(tmp_path / "out")) == {"a.tif/0.pbm", "page.tif/0.pbm", "b/half.TIFF/0.pbm", "z.tif/0.pbm"}


def test_a_run_that_is_ended_is_continued(tmp_path):
    files, out = tmp_path / "in", tmp_path / "out"
    files.mkdir()
    for number in range(120):
        (files / f"{number:03}.tif").write_bytes(tiff_of({}, [DATA]))
    environment = {**os.environ, "PYTHONPATH": str(ROOT / "bindings/python")}
    words = [sys.executable, "-m", "hayro_ccitt", "many", str(files), "-o", str(out), "-j", "2"]
    with subprocess.Popen(words, env=environment, stdout=subprocess.DEVNULL, stderr=subprocess.DEVNULL, start_new_session=True) as running:
        while len([*out.glob("*.tif")]) < 20:
            assert running.poll() is None
            time.sleep(0.01)
        os.killpg(running.pid, signal.SIGKILL)
    times = {path: path.stat().st_mtime_ns for path in out.glob("*.tif/0.pbm")}
    assert 20 <= len(times) < 120
    done = many(files, "-o", out)
    assert done.stdout.splitlines()[-1] == "120 files: 120 ok, 0 not whole, 0 not read" and done.returncode == 0
    assert written(out) == {f"{number:03}.tif/0.pbm": NARROW.pbm() for number in range(120)}
    assert all(path.stat().st_mtime_ns == at for path, at in times.items()), "a file was decoded twice"


@pytest.mark.parametrize("form", ["png", "tif"])
def test_pictures_are_what_pillow_reads(folder, tmp_path, form):
    images = pytest.importorskip("PIL.Image")
    (folder / "empty.tif").write_bytes(tiff_of({}, [b""]))
    done = many(folder, "-o", tmp_path / "out", "--to", form)
    assert done.stdout.splitlines()[-1] == "6 files: 2 ok, 3 not whole, 1 not read"
    for name, bitmap in {"a.tif": NARROW, "page.tif": PAGE}.items():
        with images.open(tmp_path / "out" / name / f"0.{form}") as found:
            assert (found.format, found.mode, found.size) == ({"png": "PNG", "tif": "TIFF"}[form], "1", (bitmap.columns, bitmap.rows))
            assert found.tobytes() == images.frombytes("1", found.size, bitmap.bits, "raw", "1;I").tobytes()
            assert form == "png" or found.info["compression"] == "group4"
    assert [it.name for it in (tmp_path / "out" / "empty.tif").iterdir()] == ["result.json"]
