"""examples/many_machines.py, on a cluster of processes of which one is killed in the middle."""
import csv
import os
import signal
import subprocess
import sys

import pytest
from conftest import ROOT
from made import NARROW, Bitmap
from test_files import tiff_of

distributed = pytest.importorskip("distributed")
images = pytest.importorskip("PIL.Image")
EXAMPLE = ROOT / "examples" / "many_machines.py"
COUNT = 2000


def bitmap_of(number):
    """The picture of a file: so many rows from one of the narrow picture's."""
    rows = 1 + number % 40
    return Bitmap(33, rows, NARROW.bits[5 * (number % 20) :][: 5 * rows])


@pytest.fixture(scope="module")
def files(tmp_path_factory):
    """A folder of small files; every hundredth is cut, and every other hundredth is no file of fax."""
    folder = tmp_path_factory.mktemp("machines") / "in"
    for number in range(COUNT):
        bitmap = bitmap_of(number)
        data = bitmap.encoded(k=-1)
        page = tiff_of({257: [bitmap.rows]}, [data[: len(data) // 2] if number % 100 == 99 else data])
        path = folder / str(number % 3) / f"{number:04}.tif"
        path.parent.mkdir(parents=True, exist_ok=True)
        path.write_bytes(b"no fax" if number % 100 == 49 else page)
    return folder


def test_nothing_is_lost_or_done_twice_where_a_worker_is_killed(files, tmp_path, monkeypatch):
    monkeypatch.syspath_prepend(EXAMPLE.parent)
    monkeypatch.setenv("PYTHONPATH", f"{ROOT / 'bindings/python'}:{EXAMPLE.parent}")
    import many_machines
    from hayro_ccitt import many

    tasks = many.tasks_of([str(files)], str(tmp_path), "tif")
    assert len(tasks) == COUNT
    found, before = [], {}
    cluster = distributed.LocalCluster(n_workers=3, threads_per_worker=1, dashboard_address=None, local_directory=str(tmp_path / "dask"))
    with cluster, distributed.Client(cluster) as client:
        workers = client.run(os.getpid)
        for result in many_machines.results(client, tasks):
            found.append(result)
            if len(found) == COUNT // 4:
                before = {path: path.stat().st_mtime_ns for path in tmp_path.glob("*/*.tif/0.tif")}
                os.kill(sorted(workers.values())[0], signal.SIGKILL)
    assert [it["file"] for it in found] == [task.path for task in tasks]
    assert {path.name for path in tmp_path.rglob("*.part")} == set()
    assert all(path.stat().st_mtime_ns == at for path, at in before.items()), "a file was decoded twice"
    statuses = {0: 0, 1: 0, 2: 0}
    for result in found:
        number = int(result["file"][-8:-4])
        statuses[result["status"]] += 1
        there = tmp_path / os.path.relpath(result["file"], files)
        if number % 100 == 49:
            assert (result["error"], there.exists()) == ("neither TIFF nor PDF", False)
            continue
        bitmap = bitmap_of(number)
        assert sorted(path.name for path in there.iterdir()) == ["0.tif", "result.json"], there
        with images.open(there / "0.tif") as picture:
            assert picture.size == (33, bitmap.rows)
            if number % 100 != 99:
                assert picture.tobytes() == images.frombytes("1", picture.size, bitmap.bits, "raw", "1;I").tobytes(), number
    assert statuses == {0: COUNT - 40, 1: 20, 2: 20} and len(before) >= COUNT // 4 - 10


def test_the_program_writes_a_table(tmp_path):
    files, out = tmp_path / "in", tmp_path / "out"
    files.mkdir()
    (files / "a.tif").write_bytes(tiff_of({}, [NARROW.encoded(k=-1)]))
    (files / "b.tif").write_bytes(tiff_of({259: [3]}, [NARROW.encoded(k=0, end_of_line=True, end_of_block=False)[:-3]]))
    (files / "c.tif").write_bytes(b"no fax")
    environment = {**os.environ, "PYTHONPATH": str(ROOT / "bindings/python")}
    words = [sys.executable, str(EXAMPLE), str(out), str(files)]
    done = subprocess.run(words, env=environment, capture_output=True, text=True, check=False)
    assert done.returncode == 2 and done.stdout.startswith("3 files, 3 rows: "), done
    rows = table_of(out)
    assert [row["file"] for row in rows] == [str(files / name) for name in ("a.tif", "b.tif", "c.tif")]
    assert [(row["image"], row["columns"], row["result"]) for row in rows] == [
        ("0", "33", "ok"), ("0", "33", "1 rows repaired, 0 cut, 0 EOLs missed"), ("", "", "neither TIFF nor PDF")]
    assert [row["damaged_rows"] for row in rows] == ["0", "1", ""], "the last row of b.tif is cut"
    with images.open(out / "a.tif" / "0.png") as picture:
        assert picture.tobytes() == images.frombytes("1", (33, NARROW.rows), NARROW.bits, "raw", "1;I").tobytes()


def test_the_table_is_parquet_where_pyarrow_is(tmp_path, monkeypatch):
    parquet = pytest.importorskip("pyarrow.parquet")
    monkeypatch.syspath_prepend(EXAMPLE.parent)
    import many_machines

    numbers = {name: number for number, name in enumerate(many_machines.COLUMNS)}
    rows = [{**numbers, "file": "a.tif", "result": "ok"}, {**dict.fromkeys(numbers), "file": "b.tif", "result": "neither TIFF nor PDF"}]
    name = many_machines.write_table(rows, str(tmp_path))
    assert name == f"{tmp_path}/damage.parquet" and parquet.read_table(name).to_pylist() == rows


def table_of(folder):
    """The rows of the table, as texts."""
    if (folder / "damage.parquet").exists():
        rows = pytest.importorskip("pyarrow.parquet").read_table(folder / "damage.parquet").to_pylist()
        return [{name: "" if value is None else str(value) for name, value in row.items()} for row in rows]
    with open(folder / "damage.csv", newline="", encoding="utf-8") as file:
        return list(csv.DictReader(file))
