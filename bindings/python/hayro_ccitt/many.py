"""`python3 -m hayro_ccitt many`: decodes the fax images of many files, several at a time.

`tasks_of` and `result_of` are for a scheduler of the caller, which calls `result_of` for each task wherever it likes: a file is
decoded once, also where its task is run again.
"""
from __future__ import annotations

import argparse
import contextlib
import importlib
import json
import os
import shutil
import signal
import sys
import tempfile
import uuid
from concurrent.futures import ProcessPoolExecutor
from concurrent.futures.process import BrokenProcessPool
from typing import Iterable, Iterator, NamedTuple, Sequence, TypedDict

from ._files import FORMS, UNREADABLE, Image, decoded, in_child, limit, say, text_of

ABOUT = """Decodes the fax images of many TIFF and PDF files, several files at a time, and prints a line for each file, in order: its
name, the number of its images and the result. NAME is a file, or a folder, whose files .tif, .tiff and .pdf are taken, also those in
folders of it; @LIST is a file with a NAME in each line. A file that breaks, or takes too long, is reported as that. The last line
counts the files. The exit status is 0 if all rows of all images were decoded, 1 if some weren't, a file has no image, or an image
isn't fax, and 2 if a file can't be read."""
ENDINGS = (".tif", ".tiff", ".pdf")
# In the folder of a file's pictures: its result, by which a later run knows that the file is done.
RESULT = "result.json"
COUNTED = ("ok", "not whole", "not read")


class Result(TypedDict):
    """What became of a file."""

    file: str
    status: int
    """As the exit status for this file alone."""
    images: list[Image]
    error: str
    """Why it can't be read, or nothing."""


class Task(NamedTuple):
    """A file that is to be decoded."""

    path: str
    folder: str | None
    """Of its pictures, if they are written."""
    form: str
    """The form of its pictures: `pbm`, `png` or `tif`."""
    seconds: int
    """Of processor time that an image may take, in a process of its own; 0: without a limit, in this process."""
    again: bool
    """Whether what an earlier run wrote is replaced."""


def files_of(names: Iterable[str]) -> Iterator[str]:
    """The files of these names, and those in the folders of these names."""
    for name in names:
        if not os.path.isdir(name):
            yield name
            continue
        for at, folders, files in os.walk(name):
            folders.sort()
            yield from (os.path.join(at, file) for file in sorted(files) if file.lower().endswith(ENDINGS))


def tasks_of(
    names: Sequence[str], output: str | None = None, form: str = "pbm", seconds: int = 0, again: bool = False
) -> list[Task]:
    """The tasks of the files of these names, and of those in the folders of these names, in order. `output` is the folder of all
    pictures: those of a/b.tif, of the folder a, belong in its folder b.tif."""
    paths = [os.path.abspath(name) for name in names]
    top = os.path.commonpath([path if os.path.isdir(path) else os.path.dirname(path) for path in paths])
    return [
        Task(path, output and os.path.join(output, os.path.relpath(path, top)), form, seconds, again)
        for path in dict.fromkeys(files_of(names))
    ]


def not_read(path: str, why: str) -> Result:
    return {"file": path, "status": 2, "images": [], "error": why}


def read(task: Task, pictures: str | None) -> Result:
    """Decodes a file in this process."""
    images: list[Image] = []
    try:
        for image in decoded(task.path, pictures, task.form, task.seconds):
            images.append(image)
    except UNREADABLE as error:
        return {"file": task.path, "status": 2, "images": images, "error": text_of(error)}
    is_ok = {image["result"] for image in images} == {"ok"}
    return {"file": task.path, "status": 0 if is_ok else 1, "images": images, "error": ""}


def read_apart(task: Task, pictures: str | None) -> Result:
    """Decodes a file in a process of its own, if it has a limit."""
    if not task.seconds:
        return read(task, pictures)
    with tempfile.TemporaryFile("w+") as told:

        def work() -> int:
            json.dump(read(task, pictures), told)
            told.flush()
            return 0

        status, why = in_child(work, task.seconds)
        told.seek(0)
        result: Result = not_read(task.path, why or "not readable") if status else json.load(told)
        return result


def result_of(task: Task) -> Result:
    """Decodes a file, and writes its pictures, if an earlier run hasn't."""
    try:
        return written(task, task.folder) if task.folder else read_apart(task, None)
    except OSError as error:
        return not_read(task.path, str(error))


def written(task: Task, folder: str) -> Result:
    """Decodes a file, and writes its pictures. They are in their folder once all are: the folder is renamed. There are none of a file
    that can't be read, and the next run tries it again."""
    kept = kept_result(task.path, folder)
    if kept and (kept["error"] or not task.again):
        return kept
    part = f"{folder}.part/{uuid.uuid4().hex}"
    os.makedirs(part)
    try:
        result = read_apart(task, f"{part}/")
        if not result["error"]:
            with open(f"{part}/{RESULT}", "w", encoding="utf-8") as file:
                json.dump(result, file)
            if kept:
                shutil.rmtree(folder)
            os.rename(part, folder)
        return result
    finally:  # also what a process that was killed has left
        shutil.rmtree(f"{folder}.part", ignore_errors=True)


def kept_result(path: str, folder: str) -> Result | None:
    """What an earlier run says of the file, or that something else is where its pictures belong."""
    try:
        with open(f"{folder}/{RESULT}", encoding="utf-8") as file:
            kept: Result = json.load(file)
        if set(kept) != set(Result.__annotations__):
            raise ValueError
    except (OSError, ValueError, TypeError):
        return not_read(path, f"{folder} is there, and isn't of an earlier run") if os.path.lexists(folder) else None
    kept["file"] = path
    return kept


def prepare(has_pdf: bool) -> None:
    """Prepares a worker: the reader of PDF is loaded once, and what ends the program is told to its first process."""
    signal.signal(signal.SIGINT, signal.SIG_IGN)
    for reader in ("pypdf", "pikepdf") if has_pdf else ():
        with contextlib.suppress(ImportError):
            importlib.import_module(reader)


def results(tasks: list[Task], jobs: int) -> Iterator[Result]:
    """The results of the files, in order. Where a worker is killed, others go on from the first file without a result."""
    done = broken = 0
    has_pdf = any(task.path.lower().endswith(".pdf") for task in tasks)
    while done < len(tasks):
        try:
            with ProcessPoolExecutor(jobs, initializer=prepare, initargs=(has_pdf,)) as pool:
                for result in pool.map(result_of, tasks[done:], chunksize=8):
                    yield result
                    done, broken = done + 1, 0
        except BrokenProcessPool:
            broken += 1
            if broken == 3:
                raise


def line_of(result: Result) -> str:
    """A line about a file."""
    images = result["images"]
    faults = [f"image {number}: {image['result']}" for number, image in enumerate(images) if image["result"] != "ok"]
    told = result["error"] or "; ".join(faults) or (f"{len(images)} ok" if images else "no images")
    return f"{result['file']}: {told}"


def main(words: list[str]) -> int:
    """Runs the program with these arguments. Returns the exit status."""
    parser = argparse.ArgumentParser("python3 -m hayro_ccitt many", description=ABOUT, fromfile_prefix_chars="@")
    parser.add_argument("names", metavar="NAME", nargs="+")
    parser.add_argument("-j", "--jobs", type=limit, default=len(os.sched_getaffinity(0)), help="files at a time (default: one for each processor)")
    parser.add_argument(
        "-o", "--output", metavar="FOLDER",
        help="where pictures are written: those of a/b.tif, of the folder a, to FOLDER/b.tif/0.pbm and so on; files that an earlier run "
        "has read aren't read again",
    )
    parser.add_argument("--to", choices=FORMS, default="pbm", help="the form of pictures; tif is a TIFF file of Group 4 (default: pbm)")
    parser.add_argument("--overwrite", action="store_true", help="reads all files again, and replaces the pictures of an earlier run")
    parser.add_argument("--json", action="store_true", help="prints the line of a file as JSON, and the counts to the standard error")
    parser.add_argument("--seconds", type=limit, default=60, help="of processor time that an image may take (default: 60)")
    chosen = parser.parse_args(words)
    tasks = tasks_of(chosen.names, chosen.output, chosen.to, chosen.seconds, chosen.overwrite)
    statuses = [0, 0, 0]
    for result in results(tasks, chosen.jobs):
        say(json.dumps(result) if chosen.json else line_of(result), sys.stdout)
        statuses[result["status"]] += 1
    counts = ", ".join(f"{count} {name}" for count, name in zip(statuses, COUNTED))
    say(f"{len(tasks)} files: {counts}", sys.stderr if chosen.json else sys.stdout)
    return max((status for status, count in enumerate(statuses) if count), default=1)
