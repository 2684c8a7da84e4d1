"""Decodes the fax images of many TIFF and PDF files on several machines, by Dask's distributed scheduler, to PNG or to TIFF files of
Group 4, and writes a table with a row for each image: its size, the result, and what was repaired.

    python3 many_machines.py [--scheduler ADDRESS] [--to png|tif] OUTPUT NAME..

NAME is a file, or a folder of files. Without ADDRESS the processors of this machine are used. Every machine has the package
hayro_ccitt, and the files and OUTPUT under the same names. The images of a/b.tif, of the folder a, are OUTPUT/b.tif/0.png and so on;
the table is OUTPUT/damage.parquet where pyarrow is installed, and else OUTPUT/damage.csv.

Where a worker dies, its files are decoded by others. Files that an earlier run has read aren't read again. The exit status is that of
`python3 -m hayro_ccitt many`.
"""
import argparse
import csv
import os
import sys

from distributed import Client

from hayro_ccitt import many

COLUMNS = ["file", "image", "columns", "rows", "result", "damaged_rows", "missed_eols", "cut_rows"]


def results(client, tasks):
    """The result of each task, in order. One that fails is tried twice more; one that ends its worker is tried as often as the
    scheduler allows."""
    for task, future in zip(tasks, client.map(many.result_of, tasks, retries=2, pure=False)):
        try:
            yield future.result()
        except Exception as error:  # whatever a worker or the scheduler raises for this file
            yield many.not_read(task.path, f"{type(error).__name__}: {error}")


def rows_of(result):
    """The rows of the table for a file: of its images, and one without an image if it can't be read."""
    for number, image in enumerate(result["images"]):
        yield {"file": result["file"], "image": number, **image}
    if result["error"]:
        yield {**dict.fromkeys(COLUMNS), "file": result["file"], "result": result["error"]}


def write_table(rows, output):
    """Writes the table, and returns its name."""
    os.makedirs(output, exist_ok=True)
    try:
        import pyarrow
        import pyarrow.parquet
    except ImportError:
        with open(f"{output}/damage.csv", "w", newline="", encoding="utf-8") as file:
            table = csv.DictWriter(file, COLUMNS)
            table.writeheader()
            table.writerows(rows)
        return file.name
    columns = {name: [row[name] for row in rows] for name in COLUMNS}
    pyarrow.parquet.write_table(pyarrow.table(columns), f"{output}/damage.parquet")
    return f"{output}/damage.parquet"


def main():
    parser = argparse.ArgumentParser(description=__doc__, formatter_class=argparse.RawDescriptionHelpFormatter)
    parser.add_argument("output", metavar="OUTPUT")
    parser.add_argument("names", metavar="NAME", nargs="+")
    parser.add_argument("--scheduler", metavar="ADDRESS", help="as tcp://HOST:8786")
    parser.add_argument("--to", choices=["png", "tif"], default="png")
    words = parser.parse_args()
    tasks = many.tasks_of(words.names, os.path.abspath(words.output), words.to)
    rows, statuses = [], [0]
    with Client(words.scheduler) as client:
        for result in results(client, tasks):
            rows.extend(rows_of(result))
            statuses.append(result["status"])
    print(f"{len(tasks)} files, {len(rows)} rows: {write_table(rows, words.output)}")
    return max(statuses)


if __name__ == "__main__":
    sys.exit(main())
